//! The library, through its C interface and its bench program, compared with the second implementation, case for case:
//! every byte of message, memory and working buffer, and every field of the answer. A difference is shrunk and printed.
//!
//!     compare [SEED] [ROUNDS]
#[path = "../peer/aes.rs"]
mod aes;
#[path = "../peer/bench.rs"]
mod bench;
mod calls;
mod library;
mod lines;
mod lists;
#[path = "../peer/mode.rs"]
mod mode;
mod random;
#[path = "../peer/record.rs"]
mod record;
#[path = "../peer/skinny.rs"]
mod skinny;
#[path = "../peer/store.rs"]
mod store;

use calls::What;
use random::Random;
use std::collections::BTreeMap;
use std::process::exit;
use std::time::{Duration, Instant};

const REFUSALS: [u32; 11] = [1, 2, 3, 4, 5, 6, 7, 8, 9, 100, 101];

/// The rounds where none are asked for: enough for more than 100,000 cases.
const ROUNDS: u64 = 36;

/// Lengths around 129 and 257 full di-blocks and around the longest message.
const EDGES: [usize; 19] = [4127, 4128, 4129, 4159, 4160, 4161, 8223, 8224, 8225, 8255, 8256, 8257, 8287, 8288, 12352,
    20000, 65535, 65536, 65537];

/// One sort of cases, and how many of them were refused by which number.
pub struct Sort {
    name: &'static str,
    cases: usize,
    refused: BTreeMap<u32, usize>,
}

impl Sort {
    fn new(name: &'static str) -> Sort {
        Sort { name, cases: 0, refused: BTreeMap::new() }
    }

    pub fn count(&mut self, number: u32) {
        self.cases += 1;
        if number != 0 {
            *self.refused.entry(number).or_default() += 1;
        }
    }
}

pub fn hex(bytes: &[u8]) -> String {
    bytes.iter().map(|b| format!("{b:02x}")).collect()
}

/// The end of the time for the shrinking of a case.
pub fn until() -> Instant {
    Instant::now() + Duration::from_secs(4)
}

/// Messages of lengths at random, mostly short.
fn some_messages(random: &mut Random, sort: &mut Sort) -> Result<(), String> {
    for i in 0..50 {
        let first = random.pick(&[What::Encipher, What::Decipher]);
        let (cipher, n) = match i {
            0 => (2, random.pick(&EDGES)),
            1 => (random.pick(&[1, 2]), random.pick(&EDGES[..14])),
            2..=4 => (random.pick(&[1, 2]), random.below(8300)),
            5..=14 => (0, random.below(200)),
            _ => (random.pick(&[1, 2]), random.below(301)),
        };
        lists::message(random, sort, cipher, n, first)?;
    }
    Ok(())
}

/// All lengths up to 300, and then the edges, under each cipher and both ways.
fn all_lengths(random: &mut Random, sort: &mut Sort) -> Result<(), String> {
    for n in (0..=300).chain(EDGES) {
        for cipher in 0..3 {
            lists::message(random, sort, cipher, n, What::Encipher)?;
            // The slowest are gone one way, which is back as well.
            if cipher > 0 || n < 10000 {
                lists::message(random, sort, cipher, n, What::Decipher)?;
            }
        }
    }
    Ok(())
}

fn compare(random: &mut Random, rounds: usize, sorts: &mut [Sort; 5]) -> Result<(), (&'static str, String)> {
    let [messages, selectors, stores, memories, scripts] = sorts;
    for _ in 0..rounds {
        some_messages(random, messages).map_err(|told| (messages.name, told))?;
        lists::selectors(random, selectors).map_err(|told| (selectors.name, told))?;
        for _ in 0..35 {
            lists::store(random, stores).map_err(|told| (stores.name, told))?;
        }
        for _ in 0..20 {
            lists::damaged(random, memories).map_err(|told| (memories.name, told))?;
        }
        lines::script(random, scripts, 1000).map_err(|told| (scripts.name, told))?;
    }
    all_lengths(random, messages).map_err(|told| (messages.name, told))
}

fn main() {
    let numbers: Option<Vec<u64>> = std::env::args().skip(1).map(|a| a.parse().ok()).collect();
    let (seed, rounds) = match numbers.as_deref() {
        Some([]) => (1, ROUNDS),
        Some([seed]) => (*seed, ROUNDS),
        Some([seed, rounds]) if *rounds > 0 => (*seed, *rounds),
        _ => {
            eprintln!("usage: compare [SEED] [ROUNDS]");
            exit(2);
        }
    };
    println!("compare: seed {seed}, {rounds} rounds");
    let names = ["messages", "selectors and keys", "store calls", "damaged memories", "bench lines"];
    let mut sorts = names.map(Sort::new);
    let compared = compare(&mut Random(seed), rounds as usize, &mut sorts);
    for sort in &sorts {
        let refused: Vec<String> = sort.refused.iter().map(|(number, n)| format!("{number}: {n}")).collect();
        let sum: usize = sort.refused.values().sum();
        println!("{}: {} cases, {sum} refused ({})", sort.name, sort.cases, refused.join(", "));
    }
    if let Err((name, told)) = compared {
        println!("compare: a difference in {name}, seed {seed}, {rounds} rounds:\n{told}");
        exit(1);
    }
    let cases: usize = sorts.iter().map(|sort| sort.cases).sum();
    for number in REFUSALS {
        if !sorts.iter().any(|sort| sort.refused.contains_key(&number)) {
            println!("compare: no case was refused {number}");
            exit(1);
        }
    }
    println!("compare: {cases} cases, 0 differences");
}
