//! Scripts for the bench program: it is run as a process, the second implementation answers the same bytes, and a
//! script on which they differ is shrunk.

use crate::bench;
use crate::hex;
use crate::random::Random;
use crate::{until, Sort};
use std::io::Write;
use std::process::{Command, Stdio};
use std::thread;
use std::time::Instant;

const PROGRAM: &str = "target/bin/bench";

/// The answers of the program to a script.
fn by_program(script: &[u8]) -> Result<Vec<u8>, String> {
    let mut child = Command::new(PROGRAM)
        .stdin(Stdio::piped())
        .stdout(Stdio::piped())
        .stderr(Stdio::piped())
        .spawn()
        .unwrap_or_else(|e| panic!("{PROGRAM}: {e}"));
    let mut input = child.stdin.take().expect("its input");
    let script = script.to_vec();
    let writing = thread::spawn(move || input.write_all(&script));
    let ended = child.wait_with_output().expect("its output");
    let written = writing.join().expect("the writing");
    if written.is_err() || !ended.status.success() || !ended.stderr.is_empty() {
        return Err(format!("the program ends with {}, {} bytes on standard error", ended.status, ended.stderr.len()));
    }
    Ok(ended.stdout)
}

/// The answers of the second implementation to a script.
fn by_peer(script: &[u8]) -> Vec<u8> {
    let mut out = Vec::new();
    bench::run(script, &mut out).expect("a script in memory");
    out
}

/// The lines with their line feeds; the last one may have none.
fn script_of(lines: &[Vec<u8>], ended: bool) -> Vec<u8> {
    let mut out = lines.join(&b'\n');
    if ended {
        out.push(b'\n');
    }
    out
}

/// The first line that is answered otherwise, and what is answered; or all answers.
fn answers(script: &[u8]) -> Result<Vec<u8>, (usize, String)> {
    let ours = by_program(script).map_err(|told| (usize::MAX, told))?;
    let theirs = by_peer(script);
    if ours == theirs {
        return Ok(ours);
    }
    let lines = |bytes: &[u8]| -> Vec<Vec<u8>> { bytes.split(|b| *b == b'\n').map(<[u8]>::to_vec).collect() };
    let (ours, theirs) = (lines(&ours), lines(&theirs));
    let at = ours.iter().zip(&theirs).take_while(|(a, b)| a == b).count();
    let said = |lines: &[Vec<u8>]| lines.get(at).map_or(String::new(), |line| line.escape_ascii().to_string());
    Err((at, format!("answer {}:\n  program {}\n  peer    {}", at + 1, said(&ours), said(&theirs))))
}

/// Drops lines, in ever smaller pieces, while the script still differs.
fn shrunk(mut lines: Vec<Vec<u8>>, ended: bool, at: usize, end: Instant) -> String {
    let differs = |lines: &[Vec<u8>]| Instant::now() < end && answers(&script_of(lines, ended)).is_err();
    let cut = &lines[..lines.len().min(at.saturating_add(1))];
    if differs(cut) {
        lines = cut.to_vec();
    }
    let mut piece = lines.len() / 2;
    while piece > 0 {
        let mut from = 0;
        while from < lines.len() {
            let next = [&lines[..from], &lines[lines.len().min(from + piece)..]].concat();
            if differs(&next) {
                lines = next;
            } else {
                from += piece;
            }
        }
        piece /= 2;
    }
    let script = script_of(&lines, ended);
    let mut out = String::new();
    for line in &lines {
        out += &format!("  {}\n", line.escape_ascii());
    }
    let told = answers(&script).err().map_or("the difference did not come again".to_string(), |(_, told)| told);
    out + &format!("  the script in hexadecimal: {}\n  {told}", hex(&script))
}

fn joined(word: &str, numbers: &[i64]) -> String {
    numbers.iter().fold(word.to_string(), |text, n| format!("{text},{n}"))
}

/// The text of a command, its numbers in range or not; the slots are those of the last form.
fn command(random: &mut Random, slots: &mut usize) -> String {
    let slot = match random.below(12) {
        0 => random.pick(&[*slots as i64, *slots as i64 + 1, 63, 64, 65536, 99999]),
        _ => random.below(*slots) as i64,
    };
    match random.below(100) {
        0..=3 => {
            let cipher = random.pick(&['x', 'x', 'a', 'a', 's']);
            let (n, p) = match random.below(10) {
                0 => (random.pick(&[0, 1, 64, 65, 99999]), random.pick(&[63, 64, 4096, 4097, 99999])),
                1 if cipher == 'x' => random.pick(&[(7, 4096), (8, 4096), (9, 4096), (64, 512), (64, 513), (63, 521)]),
                _ => (1 + random.below(4), random.pick(&[64, 65, 95, 96, 97, 128])),
            };
            if (1..=64).contains(&n) {
                *slots = n;
            }
            format!("form,{cipher},{n},{p}")
        }
        4..=43 => {
            let mut numbers = vec![slot];
            for field in 0..7 {
                let high = if field < 2 { 9999 } else { 1000 };
                numbers.push(match random.below(40) {
                    0 => random.pick(&[0, 1, high, high + 1, 65535, 65536, 65537, 99999, 100000]),
                    1 if field == 1 => numbers[1],
                    _ => random.within(1, high),
                });
            }
            joined("put", &numbers)
        }
        44..=71 => joined("get", &[slot]),
        72..=81 => joined("clear", &[slot]),
        82..=94 => joined("page", &[slot]),
        _ => format!("change,{}", hex(&random.bytes(16))),
    }
}

/// A line that is seldom a command: junk bytes, or a command's text with bytes changed.
fn broken(random: &mut Random, mut slots: usize) -> Vec<u8> {
    if random.chance(15) {
        let n = match random.below(3) {
            0 => random.pick(&[0, 1, 255, 256, 257, 300]),
            _ => random.below(301),
        };
        let mut junk = random.bytes(n);
        if random.chance(50) {
            junk.iter_mut().for_each(|b| *b = b"0123456789,,,getpuform\r "[usize::from(*b) % 24]);
        }
        return junk;
    }
    let mut line = command(random, &mut slots).into_bytes();
    let (at, byte) = (random.below(line.len()), random.pick(b"0123456789,,,,  +-.aAfFsxX\r\t\0\x80\xff_"));
    match random.below(12) {
        0..=2 => line[at] = byte,
        3..=4 => line.insert(at, byte),
        5..=6 => drop(line.remove(at)),
        7 => line.push(byte),
        8 => line.truncate(at),
        9 => line = line.to_ascii_uppercase(),
        10 => line.extend(b",0".repeat(random.below(4))),
        _ => {
            let zeros = random.pick(&[1, 2, 60, 251, 252, 253, 290]);
            line.splice(at..at, vec![b'0'; zeros]);
        }
    }
    line.truncate(300);
    line
}

/// A script of so many lines, answer for answer.
pub fn script(random: &mut Random, sort: &mut Sort, count: usize) -> Result<(), String> {
    let mut slots = 4;
    let mut lines: Vec<Vec<u8>> = Vec::new();
    for _ in 0..count {
        let line = if random.chance(25) { broken(random, slots) } else { command(random, &mut slots).into_bytes() };
        lines.push(line.into_iter().filter(|b| *b != b'\n').collect());
    }
    let ended = random.chance(50);
    let script = script_of(&lines, ended);
    match answers(&script) {
        Err((at, _)) => Err(shrunk(lines, ended, at, until())),
        Ok(answers) => {
            for line in answers.split(|b| *b == b'\n').filter(|line| !line.is_empty()) {
                let refusal = line.strip_prefix(b"no,").map(|rest| rest[0] - b'0');
                sort.count(refusal.map_or(0, u32::from));
            }
            Ok(())
        }
    }
}
