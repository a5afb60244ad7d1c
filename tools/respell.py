#!/usr/bin/env python3
"""Brings the names of this repository's own definitions and lemmas to today's spelling, once, at the top of the checkout.

A definition or a lemma that begins with a small letter is in snake case. A dash stays only between two names that are
themselves definitions, as in `length-hex`; a plain word is joined by `_`, as in `xor_twice`. It goes by whole words, in
proof files, specs and sources: each that some file of specs/ or proofs/ defines is respelled wherever it stands. So a name
that the checker makes, and that is spelled like one of ours, comes over too, and is mended by hand.

It stops, and writes nothing, where a new name stands in some file already or two names would fall together.
"""
import glob
import re
import sys

HEAD = re.compile(r'^\s*(?:abbrev |unfoldable |pub |instance )*([^\s:(){}]+) : ')
FUNCTION = re.compile(r'^(?:abbrev |unfoldable )(?:pub )?([^\s:(){}]+) : ')
ALIAS = re.compile(r'[^\s(){}\[\];,.]+ as ([a-z][A-Za-z]*)(?=[,}])')
WORD = re.compile(r"[^\s(){}\[\];,.\"`|⌜⌝]+")

# Words of the library that lemmas are named after.
LIBRARY = set('length take drop set map sum add mul xor replicate append push get slice_index digits_more'.split())


def files():
    return sorted(glob.glob('crates/*/specs/*.antt') + glob.glob('crates/*/proofs/**/*.antt', recursive=True))


# Where the plain spelling is the name of a function or a lemma beside it.
CHOSEN = {
    'decryptCells': 'decrypted_cells',
    'encryptCells': 'encrypted_cells',
    'invMixColumns': 'inv_mixed_columns',
    'mixColumns': 'mixed_columns',
    'invRound': 'inv_round_of',
    'nextKey': 'key_after',
    'roundKeys': 'keys_of_rounds',
    'shiftRows': 'shifted_rows',
    'sub-byte': 'sub_is_byte',
    'tailHash': 'hash_of_tail',
    'threeDown': 'down_by_three',
    'be-bytes': 'be_bytes_state',
    'decipher-message': 'deciphered_message',
    'encipher-message': 'enciphered_message',
    'by-test': 'by_the_test',
    'ofPage': 'page_answer',
    'ofStore': 'store_answer',
    'length-round_keys': 'length-round_keys',
    'under-getD': 'under_slice_index',
}


def defined(paths, head=HEAD):
    names = set()
    for path in paths:
        if '/proofs/' in path and path.endswith(('/Answers.antt', '/Invariants.antt', '/Proof.antt')):
            continue
        for line in open(path, encoding='utf-8'):
            found = head.match(line)
            if found:
                names.add(found.group(1))
    return names


def snake(part):
    return re.sub(r'(?<=[a-z0-9])([A-Z])', lambda m: '_' + m.group(1).lower(), part)


def respelled(name, words):
    parts = name.split('-')
    if len(parts) == 2 and all(p in words for p in parts):
        return '-'.join(snake(p) for p in parts)
    return snake('_'.join(parts))


def main():
    names = defined(files())
    words = {n for n in defined(files(), FUNCTION) if '-' not in n and n[:1].islower()} | LIBRARY
    renamed = {}
    for name in sorted(names):
        if not re.match(r'[a-zα-ωΣ]', name) or name.startswith('('):
            continue
        new = CHOSEN.get(name) or respelled(name, words)
        if new != name:
            renamed[name] = new
    used = set()
    for path in files() + glob.glob('crates/*/src/**/*.rt', recursive=True):
        used |= set(WORD.findall(open(path, encoding='utf-8').read()))
    together = [(o, n) for o, n in renamed.items() if n in used]
    values = list(renamed.values())
    together += [(o, n) for o, n in renamed.items() if values.count(n) > 1]
    for old, new in sorted(renamed.items()):
        print(old, new)
    if together:
        print('fall together:', together, file=sys.stderr)
        return 1
    if '--write' in sys.argv:
        for path in files() + glob.glob('crates/*/src/**/*.rt', recursive=True):
            text = open(path, encoding='utf-8').read()
            new = WORD.sub(lambda m: renamed.get(m.group(0), m.group(0)), text)
            aliases = {a: snake(a) for a in ALIAS.findall(new) if snake(a) != a}
            if not any(b in WORD.findall(new) for b in aliases.values()):
                new = WORD.sub(lambda m: aliases.get(m.group(0), m.group(0)), new)
            if new != text:
                open(path, 'w', encoding='utf-8').write(new)
    return 0


if __name__ == '__main__':
    sys.exit(main())
