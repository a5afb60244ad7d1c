//! A second implementation, written from docs/ and not from the proved code, to compare with. Errors are planted in it
//! where it is built with a `fault`, for tests/compare/faults.
mod aes;
mod bench;
mod mode;
mod record;
mod skinny;
mod store;

use aes::{Aes, Cascade};
use mode::{decipher, encipher, Bench, Block, Cipher};
use record::{Kind, Parameters, Sheet};
use skinny::Skinny;
use store::{lay_out, open, Geometry, Refusal, Store};

fn hex(bytes: &[u8]) -> String {
    bytes.iter().map(|b| format!("{b:02x}")).collect()
}

fn unhex(text: &str) -> Vec<u8> {
    (0..text.len() / 2).map(|i| u8::from_str_radix(&text[2 * i..2 * i + 2], 16).expect("hexadecimal digits")).collect()
}

/// The lines of the program `cases` that tell of the mode.
fn cases() {
    for n in [31usize, 32, 33, 47, 48, 63, 64, 95, 4128, 4159, 4160, 65536, 65537] {
        let message: Vec<u8> = (0..n).map(|i| (1 + 7 * i + 13 * (i / 256)) as u8).collect();
        let sealed = encipher(&Bench, &message);
        let told = if sealed.is_some() { "accepted" } else { "refused 1" };
        let left = sealed.clone().unwrap_or_else(|| message.clone());
        let back = decipher(&Bench, &left).unwrap_or_else(|| left.clone());
        let digest = left.iter().fold(0xcbf29ce484222325u64, |h, b| (h ^ u64::from(*b)).wrapping_mul(0x100000001b3));
        let told_back = if back == message { "and back" } else { "NOT BACK" };
        println!("{n} bytes: {told} {} {digest:016x} {told_back}", hex(&left[..16]));
    }
}

/// The published vectors of a file, both ways; the status tells whether all are right.
fn vectors(file: &str) {
    let mut right = 0;
    for line in std::fs::read_to_string(file).expect("the file of vectors").lines() {
        let fields: Vec<String> = line.split('|').map(|f| f.replace(' ', "")).collect();
        if line.starts_with('#') || fields.len() != 4 {
            continue;
        }
        let block = |text: &str| -> Block { unhex(text).try_into().expect("16 bytes") };
        let (plain, sealed) = (block(&fields[2]), block(&fields[3]));
        let found = match fields[0].as_str() {
            "SKINNY-128-384" => {
                let (head, body) = (block(&fields[1][..32]), block(&fields[1][32..64]));
                let c = Skinny::new(block(&fields[1][64..]));
                (c.encrypt(&head, &body, &plain), c.decrypt(&head, &body, &sealed))
            }
            "AES-128" => {
                let c = Aes::new(block(&fields[1]));
                (c.encrypt(&plain), c.decrypt(&sealed))
            }
            other => panic!("no cipher {other}"),
        };
        assert_eq!(found, (sealed, plain), "{line}");
        right += 2;
    }
    println!("{right} right");
}

/// A message in hexadecimal enciphered under a cipher and a key.
fn seal(cipher: &str, key: &str, message: &str) {
    let key: Block = unhex(key).try_into().expect("a key of 16 bytes");
    let message = unhex(message);
    let sealed = match cipher {
        "s" => encipher(&Skinny::new(key), &message),
        "a" => encipher(&Cascade(Aes::new(key)), &message),
        _ => encipher(&Bench, &message),
    };
    match sealed {
        Some(bytes) => println!("{}", hex(&bytes)),
        None => println!("refused 1"),
    }
}

/// A record's bytes as they are written, and what the opening of its plain page of slot 1 says of them; or the refusal.
fn record<K: Kind>(given: &[i64], made: Result<K, Refusal>, numbers: impl Fn(&K) -> Vec<i64>) {
    let told = match made {
        Err(refusal) => format!("refused {refusal:?}"),
        Ok(record) => {
            let page = lay_out(Some(&record), 1, 64);
            let back = open::<K>(&page, 1).ok().flatten().is_some_and(|r| numbers(&r) == given);
            format!("{} {}", hex(&record.write()), if back { "and back" } else { "NOT BACK" })
        }
    };
    println!("{} {given:?}: {told}", String::from_utf8_lossy(&K::LABEL));
}

/// What the opening of a plain page of slot 1 says of a record's bytes that were never made.
fn bytes<K: Kind>(text: &str, numbers: impl Fn(&K) -> Vec<i64>) {
    let mut page = lay_out::<K>(None, 1, 64);
    page[4] = 1;
    page[16..16 + K::WIDTH].copy_from_slice(&unhex(text));
    let told = open::<K>(&page, 1).map(|said| said.map(|r| numbers(&r)));
    println!("{} {text}: {told:?}", String::from_utf8_lossy(&K::LABEL));
}

/// Both kinds at the ends of each range and one past them, made and read.
fn kinds() {
    let sheet = |numbers: [i64; 7]| record(&numbers, Sheet::make(numbers), |r| r.numbers().to_vec());
    let set = |numbers: [i64; 5]| record(&numbers, Parameters::make(numbers), |r| r.numbers().to_vec());
    let (a_sheet, a_set) = ([17, 18, 350, 300, 480, 210, 55], [140, -15, 550, 480, 2]);
    let (sensor, reading) = ((1, 9999), (0, 1000));
    for (field, ends) in [sensor, sensor, reading, reading, reading, reading, reading].iter().enumerate() {
        for n in [ends.0 - 1, ends.0, ends.1, ends.1 + 1] {
            let mut numbers = a_sheet;
            numbers[field] = n;
            sheet(numbers);
        }
    }
    sheet([17, 17, 350, 300, 480, 210, 1001]);
    sheet([0, 0, 1001, 300, 480, 210, 55]);
    for (field, ends) in [(10, 350), (-100, 100), (200, 650), (300, 550), (0, 3)].iter().enumerate() {
        for n in [ends.0 - 1, ends.0, ends.1, ends.1 + 1] {
            let mut numbers = a_set;
            numbers[field] = n;
            set(numbers);
        }
    }
    set([140, -15, 300, 300, 0]);
    set([140, -15, 651, 651, 0]);
    set([140, -15, 700, 650, 0]);
    set([140, -15, 299, 299, 0]);
    for text in ["00000012015e012c01e000d20037", "00110011015e012c01e000d2ffff", "00110012015e012c01e000d203e9"] {
        bytes::<Sheet>(text, |r| r.numbers().to_vec());
    }
    for shift in ["ff9c", "ff9b", "0064", "0065", "8000", "7fff"] {
        bytes::<Parameters>(&format!("008c{shift}022601e003"), |r| r.numbers().to_vec());
    }
    bytes::<Parameters>("008c0000022601e0ff", |r| r.numbers().to_vec());
}

/// A call's answer, and how it leaves the working buffer, which was all 5 before: its zeros in front are counted.
fn told<T: std::fmt::Debug>(name: &str, answer: Result<T, Refusal>, buffer: &[u8]) {
    let zeros = buffer.iter().take_while(|b| **b == 0).count();
    assert!(buffer[zeros..].iter().all(|b| *b == 5), "{name} has touched the rest of the buffer");
    println!("{name}: {answer:?}, {zeros} of {} bytes wiped", buffer.len());
}

/// The refusals of a store of two parameter sets that the bench program does not come to.
fn calls() {
    let mut store = Store::new(Bench, Geometry::make(2, 64).expect("a geometry"));
    let set = Parameters::make([140, -15, 550, 480, 2]).expect("a set");
    let mut formed = [9; 128];
    store.form::<Parameters>(&mut formed).expect("a memory of 128 bytes");
    store.put(&mut formed, 1, &set).expect("slot 1");
    for (bytes, slot, room) in [(127, 2, 63), (129, 0, 64), (128, 2, 63), (128, 1, 63), (128, 1, 64), (128, 0, 70)] {
        let mut memory = formed.to_vec();
        memory.resize(bytes, 0);
        let mut buffer = vec![5; room];
        let got = store.get::<Parameters>(&memory, slot, &mut buffer).map(|said| said.map(|r| r.numbers()));
        told(&format!("get of slot {slot} of {bytes} bytes"), got, &buffer);
        let mut buffer = vec![5; room];
        let changed = store.change::<Parameters>(&mut memory, Bench, &mut buffer);
        told(&format!("change of {bytes} bytes"), changed, &buffer);
        assert_eq!(memory[..127], formed[..127]);
    }
    // Faults in the plain pages: the place and the byte there.
    for faults in [&[(0, 0x51)][..], &[(68, 2)], &[(69, 0)], &[(79, 1)], &[(16, 1)], &[(68, 0)], &[(89, 1)], &[(88, 4)],
        &[(127, 1), (88, 4)], &[(4, 1), (64, 0)], &[(63, 1), (88, 4)]] {
        let mut plain = [lay_out::<Parameters>(None, 0, 64), lay_out(Some(&set), 1, 64)].concat();
        for (place, byte) in faults {
            plain[*place] = *byte;
        }
        let seal = |page: &[u8]| encipher(&Bench, page).expect("a page of 64 bytes");
        let sealed: Vec<u8> = plain.chunks(64).flat_map(seal).collect();
        let (mut memory, mut buffer) = (sealed.clone(), vec![5; 66]);
        let changed = store.change::<Parameters>(&mut memory, Bench, &mut buffer);
        told(&format!("change with faults {faults:?}"), changed, &buffer);
        assert_eq!(memory, sealed);
    }
    let (mut short, mut whole) = ([0; 127], formed);
    println!("form: {:?}", store.form::<Parameters>(&mut short));
    println!("put: {:?} {:?}", store.put(&mut short, 2, &set), store.put(&mut whole, 2, &set));
    println!("clear: {:?} {:?}", store.clear::<Parameters>(&mut short, 2), store.clear::<Parameters>(&mut whole, 2));
    let other = store.get::<Sheet>(&whole, 1, &mut [5; 64]).map(|said| said.map(|r| r.numbers()));
    println!("get under the other kind: {other:?}");
}

/// The bench program; a reader who closes the output ends it quietly.
fn bench() {
    match bench::run(std::io::stdin().lock(), std::io::stdout().lock()) {
        Err(e) if e.kind() != std::io::ErrorKind::BrokenPipe => panic!("{e}"),
        _ => {}
    }
}

fn main() {
    let args: Vec<String> = std::env::args().skip(1).collect();
    match args.iter().map(String::as_str).collect::<Vec<_>>()[..] {
        ["cases"] => cases(),
        ["vectors", file] => vectors(file),
        ["seal", cipher, key, message] => seal(cipher, key, message),
        ["kinds"] => {
            kinds();
            calls();
        }
        ["bench"] => bench(),
        _ => {
            eprintln!("usage: peer cases | vectors FILE | seal s|a|x KEY MESSAGE | kinds | bench");
            std::process::exit(2);
        }
    }
}
