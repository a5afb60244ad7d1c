#!/usr/bin/env python3
"""Counts the places in crates/*/src that an older Rattle wrote by hand: python3 tools/places.py [POINT] [-v]

Points: 1 flags and numbers, 2 twins, 3 index loops, 4 conversions and printing by hand, 5 repeated facts and parameters,
6 buffers with a length beside, 7 switches on a step, 8 answers and lemmas in proofs. -v prints each place.
--near counts twins in another way: functions of a crate, or of two, whose bodies are nearly the same word for word."""
import glob
import re
import sys
from collections import Counter, defaultdict
from difflib import SequenceMatcher

SOURCES = sorted(glob.glob('crates/*/src/**/*.rt', recursive=True))


def lines(pattern, files=SOURCES):
    """Each line of the sources that fits the pattern, without comments and clauses."""
    for path in files:
        for number, line in enumerate(open(path), 1):
            code = re.sub(r'^\s*(//|ghost|ensures|requires).*', '', line)
            if re.search(pattern, code):
                yield f'{path}:{number}: {line.strip()}'


def functions():
    """Each function with a body: its path, name, signature, clauses and body."""
    for path in SOURCES:
        text = re.sub(r'//.*', '', open(path).read())
        for head in re.finditer(r'\bfn (\w+)', text):
            body = re.compile(r'\n *\{(?: *\n|.*\}\n)| \{\n').search(text, head.end())
            stop = re.compile(r';\n').search(text, head.end())
            if not body or (stop and stop.start() < body.start()):
                continue
            level, at = 0, text.index('{', body.start())
            end = at
            for end in range(at, len(text)):
                level += {'{': 1, '}': -1}.get(text[end], 0)
                if level == 0:
                    break
            sign = text[head.start():at]
            clauses = re.split(r'\b(?=requires|ensures)', sign)
            yield path, head.group(1), clauses[0], clauses[1:], text[at:end + 1]


WORDS = {'if', 'else', 'for', 'in', 'match', 'return', 'let', 'mut', 'while', 'as', 'Ok', 'Err', 'Some', 'None', 'true', 'false'}


def shape(body):
    """A body with its names, numbers and strings taken out."""
    words = re.findall(r'b?"[^"]*"|b?\'[^\']*\'|\w+|[^\s\w]', body)
    return ' '.join(w if w in WORDS or not re.match(r'\w|"|\'', w) else 'x' for w in words)


def twins():
    alike = defaultdict(list)
    for path, name, _, _, body in functions():
        form = shape(body)
        if form.count(' ') >= 16:
            alike[form].append(f'{path}: {name}')
    for group in alike.values():
        if len(group) > 1:
            yield '; '.join(group)


def near():
    """Pairs of functions whose bodies differ in less than one word of six."""
    found = [(path, name, re.findall(r'\w+|[^\s\w]', body)) for path, name, _, _, body in functions()]
    for i, (path, name, words) in enumerate(found):
        for other, twin, same in found[i + 1:]:
            if min(len(words), len(same)) >= 24 and len(words) < 1.3 * len(same) and len(same) < 1.3 * len(words):
                if SequenceMatcher(None, words, same, False).ratio() > 0.83:
                    yield f'{path}: {name}; {other}: {twin}'


def repeated():
    facts, together = defaultdict(set), defaultdict(set)
    for path, name, sign, clauses, _ in functions():
        crate = path.split('/')[1]
        for clause in clauses:
            if clause.startswith('requires'):
                for fact in re.split(' × ', clause[clause.index('{') + 1:clause.rindex('}')]):
                    facts[crate, fact.strip(' ()\n')].add(name)
        names = re.findall(r'(\w+): ', re.sub(r'<[^>]*>', '', sign))
        for i in range(len(names) - 2):
            together[crate, ', '.join(names[i:i + 3])].add(name)
    for (crate, what), where in sorted(list(facts.items()) + list(together.items())):
        if len(where) >= 3:
            yield f'{crate}: {what}: {", ".join(sorted(where))}'


def matches():
    for path, name, _, _, body in functions():
        for arms in re.findall(r'match [^{]*\{([^{}]*)\}', body):
            calls = re.findall(r'=> [\w:.<> ]+\(', arms)
            if len(calls) >= 3 and 'Some(' not in arms:
                yield f'{path}: {name}: {len(calls)} arms'


def answers():
    count = Counter()
    for path in glob.glob('crates/*/proofs/**/*.antt', recursive=True) + glob.glob('crates/*/specs/*.antt'):
        text = open(path).read()
        kind = 'answers' if path.endswith('Answers.antt') else 'invariants' if path.endswith('Invariants.antt') else 'lemmas and definitions'
        count[kind] += len(re.findall(r'(?m)^ *(?:abbrev |unfoldable )*(?:pub )?[^\s:(]+ :', text))
    for kind, n in sorted(count.items()):
        yield f'{kind}: {n}'


POINTS = {
    '1': lambda: list(lines(r'fn .*&mut .*-> bool')) + list(lines(r'^\s+(pub )?\w+: bool,'))
    + list(lines(r'-> (Option<)?u8>? *\{?$|-> io::Result<u32>')) + list(lines(r'^(pub )?enum '))
    + list(lines(r'\b(number|selector|mode|field|found|mark)\w*: u(8|32)\b')),
    '2': lambda: list(near() if '--near' in sys.argv else twins()),
    '3': lambda: list(lines(r'\bfor .* in .*\.\.|\bwhile ')),
    '4': lambda: list(lines(r'fn (same|of|numbers|wrong|refuse|refused|name_of|to_\w+|from_\w+|read_block|of_\w+|tell\w*|say\w*|print_\w+)\b'))
    + list(lines(r'Ok\((\w+)\) => Ok\(\1\)|Some\((\w+)\) => \w+\(\2\),|let \w+\(.*\) = .* else \{$')),
    '5': lambda: list(repeated()),
    '6': lambda: list(lines(r'^\s+(pub )?len: usize|, at: usize|^\s+(pub )?\w+: \[u8; \d+\]')),
    '7': lambda: list(matches()) + list(lines(r'\bdyn \w|: fn\(')),
    '8': lambda: list(answers()),
}

if __name__ == '__main__':
    wanted = [a for a in sys.argv[1:] if a in POINTS] or sorted(POINTS)
    for point in wanted:
        places = POINTS[point]()
        print(f'{point}: {len(places)}')
        if '-v' in sys.argv or point == '8':
            for place in places:
                print('   ', place)
