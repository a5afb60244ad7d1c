//! Times the proved code beside the second implementation and plain C, in one run. It prints the tables, writes them into
//! docs/BENCHMARK.md and draws docs/benchmark.svg. Started by benches/run, with the versions of clang and rustc.
#[allow(dead_code)]
#[path = "../tests/peer/aes.rs"]
mod aes;
#[allow(dead_code)]
#[path = "../tests/peer/mode.rs"]
mod mode;
mod plot;
#[allow(dead_code)]
#[path = "../tests/peer/record.rs"]
mod record;
mod sides;
#[allow(dead_code)]
#[path = "../tests/peer/skinny.rs"]
mod skinny;
#[allow(dead_code)]
#[path = "../tests/peer/store.rs"]
mod store;

use plot::{Line, Mark};
use sides::{start, Call, Case, Name, Work, SIDES};
use std::time::Instant;

const REPETITIONS: usize = 7;
/// The nanoseconds that a repetition lasts at least.
const LEAST: f64 = 1e7;
/// Where a call takes more nanoseconds than this, three repetitions do.
const SLOW: f64 = 2e8;
const BOTH: [Name; 2] = [Name::Skinny, Name::Cascade];
const PAGE: &str = "docs/BENCHMARK.md";
const PICTURE: &str = "docs/benchmark.svg";
const MARKS: [&str; 2] = ["<!-- measured -->\n", "<!-- end -->"];

fn fail(why: &str) -> ! {
    eprintln!("bench: {why}");
    std::process::exit(1);
}

fn name(n: Name) -> &'static str {
    match n {
        Name::Skinny => "SKINNY",
        Name::Aes => "AES",
        Name::Cascade => "cascade",
    }
}

fn title(case: &Case) -> String {
    let call = match case.call {
        Call::Encrypt => "encrypt",
        Call::Decrypt => "decrypt",
        Call::Encipher => "encipher",
        Call::Decipher => "decipher",
        Call::Put => "put",
        Call::Get => "get",
        Call::Change => "change",
    };
    let pages = match case.call {
        Call::Change => format!(", {} pages of {}", case.slots, commas(case.bytes as f64)),
        _ => String::new(),
    };
    format!("{} {call}{pages}", name(case.name))
}

/// The bytes that a call works on: all pages at a change, and else one block, message or page.
fn worked(case: &Case) -> usize {
    if case.call == Call::Change { case.slots * case.bytes } else { case.bytes }
}

/// The three sides leave the same behind.
fn check(case: &Case) {
    let done = SIDES.map(|(side, run)| {
        let mut w = start(case);
        if !run(case, &mut w, 1) {
            fail(&format!("{}, {} bytes: {side} refuses", title(case), worked(case)));
        }
        (side, w)
    });
    for (side, w) in &done[1..] {
        if *w != done[0].1 {
            fail(&format!("{}, {} bytes: ours and {side} DIFFER", title(case), worked(case)));
        }
    }
}

/// One repetition, of n calls: the nanoseconds of each. There are twice as many calls until it lasts long enough.
fn repetition(case: &Case, side: usize, w: &mut Work, n: &mut usize) -> f64 {
    loop {
        let from = Instant::now();
        let accepted = SIDES[side].1(case, w, *n);
        let took = from.elapsed().as_nanos() as f64;
        if !accepted {
            fail(&format!("{}: {} refuses", title(case), SIDES[side].0));
        }
        if took >= LEAST {
            return took / *n as f64;
        }
        *n *= 2;
    }
}

/// The nanoseconds of a call on each side, the best of the repetitions; the sides take turns.
fn measure(case: &Case) -> [f64; 3] {
    let mut work = SIDES.map(|_| (start(case), 1));
    let mut best = [f64::MAX; 3];
    for turn in 0..REPETITIONS {
        for (side, (w, n)) in work.iter_mut().enumerate() {
            if turn < 3 || best[side] < SLOW {
                best[side] = best[side].min(repetition(case, side, w, n));
            }
        }
    }
    best
}

struct Row {
    case: Case,
    ns: [f64; 3],
}

/// A whole number with commas.
fn commas(x: f64) -> String {
    let digits = format!("{x:.0}");
    let mut out = String::new();
    for (i, d) in digits.chars().enumerate() {
        if i > 0 && (digits.len() - i) % 3 == 0 {
            out.push(',');
        }
        out.push(d);
    }
    out
}

/// About three figures.
fn figures(x: f64) -> String {
    match x {
        x if x < 0.01 => format!("{x:.4}"),
        x if x < 0.1 => format!("{x:.3}"),
        x if x < 10.0 => format!("{x:.2}"),
        x if x < 100.0 => format!("{x:.1}"),
        _ => commas(x),
    }
}

/// A table of cells, its first row the heading; the first column to the left and the others to the right.
fn table(rows: &[Vec<String>]) -> String {
    let width = |c: usize| rows.iter().map(|r| r[c].chars().count()).max().unwrap_or(0);
    let mut out = String::new();
    for (i, row) in rows.iter().enumerate() {
        for (c, cell) in row.iter().enumerate() {
            let width = width(c);
            out += &if c == 0 { format!("| {cell:<width$} ") } else { format!("| {cell:>width$} ") };
        }
        out += "|\n";
        if i == 0 {
            for c in 0..row.len() {
                let dashes = "-".repeat(width(c) + 1);
                out += &if c == 0 { format!("|-{dashes}") } else { format!("|{dashes}:") };
            }
            out += "|\n";
        }
    }
    out
}

fn costs(rows: &[Row]) -> String {
    let heading = [
        "", "bytes", "ours, ns", "peer, ns", "plain C, ns", "ours, ns/byte", "peer, ns/byte", "plain C, ns/byte",
        "ours / plain C", "ours / peer",
    ];
    let mut cells = vec![heading.map(str::to_string).to_vec()];
    for Row { case, ns: [ours, peer, plain] } in rows {
        let bytes = worked(case) as f64;
        let mut row = vec![title(case), commas(bytes)];
        row.extend([ours, peer, plain].map(|ns| commas(*ns)));
        row.extend([ours, peer, plain].map(|ns| figures(ns / bytes)));
        row.extend([figures(ours / plain), figures(ours / peer)]);
        cells.push(row);
    }
    table(&cells)
}

fn rows(cases: &[Case]) -> Vec<Row> {
    cases.iter().map(|case| Row { case: *case, ns: measure(case) }).collect()
}

fn each(names: &[Name], calls: &[Call], slots: usize, sizes: &[usize]) -> Vec<Case> {
    let mut out = Vec::new();
    for call in calls {
        for name in names {
            out.extend(sizes.iter().map(|bytes| Case { name: *name, call: *call, slots, bytes: *bytes }));
        }
    }
    out
}

/// Sides of one call as parts of the sides of another, so many times over.
fn parts(what: String, of: &[f64; 3], beside: &[f64; 3], times: f64) -> Vec<String> {
    let mut row = vec![what];
    row.extend((0..3).map(|side| {
        let part = of[side] / (times * beside[side]);
        if part < 10.0 { format!("{part:.3}") } else { commas(part) }
    }));
    row
}

/// How enciphering grows, and what it costs beside the cipher's calls.
fn relations(blocks: &[Row], enciphered: &[Row]) -> String {
    let mut cells = vec![["", "ours", "peer", "plain C"].map(str::to_string).to_vec()];
    for name in BOTH {
        let of = |rows: &[Row], call, bytes| -> [f64; 3] {
            let case = Case { name, call, slots: 1, bytes };
            rows.iter().find(|r| r.case == case).expect("a row that was measured").ns
        };
        let (short, page, long) = (
            of(enciphered, Call::Encipher, 64), of(enciphered, Call::Encipher, 4096), of(enciphered, Call::Encipher, 65536),
        );
        let what = self::name(name);
        cells.push(parts(format!("{what}: encipher 65,536 bytes / encipher 64 bytes"), &long, &short, 1.0));
        // 128 di-blocks: three calls for each of 127, one link, eight for the last.
        let encrypt = of(blocks, Call::Encrypt, 16);
        cells.push(parts(format!("{what}: encipher 4,096 bytes / 390 × encrypt"), &page, &encrypt, 390.0));
    }
    table(&cells)
}

fn picture(enciphered: &[Row]) -> String {
    let mut lines = Vec::new();
    for (which, colour) in BOTH.into_iter().zip(["#1f5fa8", "#c2511f"]) {
        for (side, (dash, mark)) in [("", Mark::Full), ("9 5", Mark::Hollow), ("2 4", Mark::Square)].into_iter().enumerate() {
            let points = enciphered.iter().filter(|r| r.case.name == which);
            lines.push(Line {
                name: format!("{}, {}", name(which), SIDES[side].0),
                colour,
                dash,
                mark,
                points: points.map(|r| (r.case.bytes as f64, r.ns[side] / r.case.bytes as f64)).collect(),
            });
        }
    }
    let number = |x: f64| if x < 1.0 { x.to_string() } else { commas(x) };
    plot::svg("Enciphering: the cost of a byte by the length of the message", &lines, number)
}

fn main() {
    let args: Vec<String> = std::env::args().skip(1).collect();
    let [kit, clang, rustc] = &args[..] else { fail("started by benches/run, with the kit and the versions of clang and rustc") };
    let page = std::fs::read_to_string(PAGE).unwrap_or_else(|e| fail(&format!("{PAGE}: {e}")));
    let Some((before, rest)) = page.split_once(MARKS[0]) else { fail(&format!("{PAGE} has no measured part")) };
    let Some((_, after)) = rest.split_once(MARKS[1]) else { fail(&format!("{PAGE} has no end of the measured part")) };

    let doubled: Vec<usize> = (6..=16).map(|e| 1 << e).collect();
    let timed = [
        each(&[Name::Skinny, Name::Aes, Name::Cascade], &[Call::Encrypt, Call::Decrypt], 1, &[16]),
        each(&BOTH, &[Call::Encipher], 1, &doubled),
        each(&BOTH, &[Call::Decipher], 1, &[64, 512, 4096, 65536]),
        each(&BOTH, &[Call::Put, Call::Get, Call::Change], 4, &[64, 512, 4096]),
    ];
    // Messages with a tail are checked, too, and not timed.
    let tails = each(&BOTH, &[Call::Encipher, Call::Decipher], 1, &[32, 33, 63, 95, 4128, 4159]);
    timed.iter().flatten().chain(&tails).for_each(check);
    let [blocks, enciphered, deciphered, stored] = timed.map(|cases| rows(&cases));

    let measured = format!(
        "With {kit}. Ours by clang {clang} at -O2, plain C by it at -O3, the peer by rustc {rustc} at -O; {}, words of {} \
         bits. The best of {REPETITIONS}.\n\nOne block:\n\n{}\nEnciphering a message:\n\n{}\n{}\nDeciphering a message:\n\n{}\nThe store:\n\n{}",
        std::env::consts::ARCH,
        usize::BITS,
        costs(&blocks),
        costs(&enciphered),
        relations(&blocks, &enciphered),
        costs(&deciphered),
        costs(&stored),
    );
    print!("{measured}");
    let new = format!("{before}{}\n{measured}\n{}{after}", MARKS[0], MARKS[1]);
    for (file, text) in [(PAGE, new), (PICTURE, picture(&enciphered))] {
        std::fs::write(file, text).unwrap_or_else(|e| fail(&format!("{file}: {e}")));
    }
    println!("\nwritten: {PAGE} and {PICTURE}");
}
