//! The lists of calls that are compared: messages, wrong selectors and keys, stores, and damaged memories.

use crate::calls::{made, shrunk, take, Call, List, Numbered, Step, What};
use crate::library::Answer;
use crate::mode::encipher;
use crate::random::Random;
use crate::record::{Parameters, Sheet};
use crate::store::lay_out;
use crate::{until, Sort};

/// A list that grows step by step, each step compared as it comes.
struct Growing<'a> {
    random: &'a mut Random,
    sort: &'a mut Sort,
    list: List,
    memory: Vec<u8>,
}

impl Growing<'_> {
    fn new<'a>(random: &'a mut Random, sort: &'a mut Sort, memory: Vec<u8>) -> Growing<'a> {
        Growing { random, sort, list: List { memory: memory.clone(), steps: Vec::new(), back: false }, memory }
    }

    /// The answer of a call, or the whole list, shrunk, where it differs.
    fn call(&mut self, call: Call) -> Result<Answer, String> {
        let step = Step::Call(call);
        let taken = take(&mut self.memory, &step);
        self.list.steps.push(step);
        match taken {
            Ok(answer) => {
                let answer = answer.expect("the answer of a call");
                self.sort.count(answer.number);
                Ok(answer)
            }
            Err(_) => Err(shrunk(self.list.clone(), until())),
        }
    }

    fn write(&mut self, at: usize, bytes: &[u8]) {
        self.memory[at..at + bytes.len()].copy_from_slice(bytes);
        self.list.steps.push(Step::Write(at, bytes.to_vec()));
    }
}

/// What the calls of a list have in common where nothing is wrong.
#[derive(Clone)]
struct Place {
    sets: bool,
    cipher: u32,
    key: Vec<u8>,
    slots: usize,
    page: usize,
}

const ACCEPTED_KEY: usize = 16;
const OTHER_KEYS: [usize; 4] = [0, 15, 17, 32];
const OTHER_SELECTORS: [u32; 3] = [3, 4, u32::MAX];
const FAR: usize = 1 << 32;

/// Mostly the ciphers that cost less.
fn a_cipher(random: &mut Random) -> u32 {
    random.pick(&[2, 2, 2, 2, 2, 1, 1, 1, 1, 0])
}

impl Place {
    fn new(random: &mut Random) -> Place {
        let cipher = a_cipher(random);
        let (slots, page) = loop {
            if cipher == 2 && random.chance(1) {
                break (64, 4096);
            }
            let slots = match random.below(8) {
                0 => random.pick(&[63, 64]),
                1 | 2 => random.pick(&[1, 2]),
                _ => 1 + random.below(8),
            };
            let page = match random.below(8) {
                0 => 4096,
                1 => 64 + random.below(400),
                _ => random.pick(&[64, 65, 95, 96, 97, 128]),
            };
            // Larger memories come more seldom, and seldom under the slow ciphers.
            let most = if random.chance(3) { 65536 } else { [640, 1024, 8192][cipher as usize] };
            if slots * page <= most {
                break (slots, page);
            }
        };
        Place { sets: random.chance(50), cipher, key: random.bytes(ACCEPTED_KEY), slots, page }
    }

    fn memory_length(&self) -> usize {
        self.slots * self.page
    }

    /// A call with nothing wrong in it.
    fn call(&self, random: &mut Random, what: What) -> Call {
        let room = self.page + random.pick(&[0, 0, 0, 1, 2, 33]);
        Call {
            what,
            sets: self.sets,
            cipher: self.cipher,
            key: self.key.clone(),
            slots: self.slots,
            page: self.page,
            longer: 0,
            slot: random.below(self.slots),
            record: record(random, self.sets),
            new_key: random.bytes(ACCEPTED_KEY),
            working: random.bytes(room),
        }
    }

    /// Makes each argument of a call wrong, or only unusual, so many times out of a hundred.
    fn spoil(&self, random: &mut Random, percent: usize, call: &mut Call) {
        let (n, p) = (self.slots, self.page);
        if random.chance(percent) {
            call.sets = !call.sets;
            call.record = record(random, call.sets);
        }
        if random.chance(percent) {
            call.key = random.bytes(ACCEPTED_KEY);
        }
        if random.chance(percent) {
            call.key.resize(random.pick(&OTHER_KEYS), 1);
        }
        if random.chance(percent) {
            call.new_key.resize(random.pick(&OTHER_KEYS), 1);
        }
        if random.chance(percent) {
            call.cipher = random.pick(&OTHER_SELECTORS);
        }
        if random.chance(percent) {
            (call.slots, call.page) = random.pick(&[(0, p), (65, p), (usize::MAX, p), (n + FAR, p), (n, 0), (n, 63),
                (n, 4097), (n, p + FAR), (n, usize::MAX), (n + 1, p), (n, p + 1), (p, n), (0, 0)]);
        }
        if random.chance(percent) {
            call.longer = random.pick(&[-1, 1]);
        }
        if random.chance(percent) {
            call.slot = random.pick(&[n, n + 1, 64, 256 + call.slot, FAR + call.slot, usize::MAX]);
        }
        if random.chance(percent) {
            call.working.resize(random.pick(&[0, 1, p - 1, p - 1, p + 1, p + 4096]), 7);
        }
        if random.chance(2 * percent) {
            spoil_record(random, call.sets, &mut call.record);
        }
    }
}

/// A number of a range, often one of its ends.
fn ranged(random: &mut Random, low: i64, high: i64) -> i64 {
    match random.below(6) {
        0 => low,
        1 => high,
        _ => random.within(low, high),
    }
}

/// A record in range.
fn record(random: &mut Random, sets: bool) -> Vec<i64> {
    if sets {
        let flow = ranged(random, 300, 650);
        let (slope, shift) = (ranged(random, 10, 350), ranged(random, -100, 100));
        return vec![slope, shift, flow, ranged(random, 300, flow), ranged(random, 0, 3)];
    }
    let field = |i| if i < 2 { ranged(random, 1, 9999) } else { ranged(random, 0, 1000) };
    let mut out: Vec<i64> = (0..7).map(field).collect();
    if out[0] == out[1] {
        out[1] = 1 + out[0] % 9999;
    }
    out
}

/// Takes one field, or some, out of range: by one, or so that its low bits alone would be in range.
fn spoil_record(random: &mut Random, sets: bool, record: &mut [i64]) {
    let far = i64::from(u32::MAX);
    for _ in 0..random.pick(&[1, 1, 1, 2, 7]) {
        let field = random.below(record.len());
        let was = record[field];
        record[field] = match (sets, field) {
            (false, 0 | 1) => random.pick(&[0, 10000, was % 65536 + 65536, far, record[1 - field]]),
            (false, _) => random.pick(&[1001, 65535, 65536, 65536 + 500, far]),
            (true, 0) => random.pick(&[0, 9, 351, 65536 + 140, far]),
            (true, 1) => random.pick(&[-101, 101, 65436, -65536, i64::from(i32::MIN), i64::from(i32::MAX)]),
            (true, 2) => random.pick(&[0, 199, 200, 299, 651, 65536 + 500, far]),
            (true, 3) => random.pick(&[0, 299, 651, record[2] % 65536 + 1, 65536 + 300, far]),
            (true, _) => random.pick(&[4, 255, 256, 257, far]),
        };
    }
}

/// A message and back, enciphered or deciphered first.
pub fn message(random: &mut Random, sort: &mut Sort, cipher: u32, n: usize, first: What) -> Result<(), String> {
    let bytes = match random.below(8) {
        0 => vec![random.pick(&[0, 0x80, 0xff]); n],
        1 => {
            let (mut bytes, bit) = (vec![0; n], random.below(8 * n + 1));
            bytes.iter_mut().skip(bit / 8).take(1).for_each(|b| *b = 1 << (bit % 8));
            bytes
        }
        _ => random.bytes(n),
    };
    let key = if random.chance(10) { vec![0; ACCEPTED_KEY] } else { random.bytes(ACCEPTED_KEY) };
    let place = Place { sets: false, cipher, key, slots: 1, page: 64 };
    let second = if first == What::Encipher { What::Decipher } else { What::Encipher };
    let there = place.call(random, first);
    let mut growing = Growing::new(random, sort, bytes);
    growing.call(there.clone())?;
    growing.call(Call { what: second, ..there })?;
    if growing.memory == growing.list.memory {
        return Ok(());
    }
    growing.list.back = true;
    Err(shrunk(growing.list, until()))
}

/// Every function under every selector and length of the key but the right ones, with other things wrong as well.
pub fn selectors(random: &mut Random, sort: &mut Sort) -> Result<(), String> {
    for what in [What::Encipher, What::Decipher, What::Form, What::Put, What::Get, What::Clear, What::Change] {
        for sets in [false, true] {
            for cipher in [0, 1, 2, 3, 4, u32::MAX] {
                for key_length in [ACCEPTED_KEY, 0, 15, 17, 32] {
                    if cipher <= 2 && key_length == ACCEPTED_KEY {
                        continue;
                    }
                    let place = Place { sets, cipher, key: random.bytes(key_length), slots: 2, page: 64 };
                    let mut call = place.call(random, what);
                    place.spoil(random, 25, &mut call);
                    (call.cipher, call.sets) = (cipher, sets);
                    call.record = record(random, sets);
                    call.key = place.key;
                    let bytes = random.bytes(128);
                    Growing::new(random, sort, bytes).call(call)?;
                }
            }
        }
    }
    Ok(())
}

/// Gets every slot.
fn sweep(growing: &mut Growing, place: &Place) -> Result<(), String> {
    for slot in 0..place.slots {
        let call = place.call(growing.random, What::Get);
        growing.call(Call { slot, ..call })?;
    }
    Ok(())
}

/// A store that is formed and worked with; the key is that of the last accepted change.
pub fn store(random: &mut Random, sort: &mut Sort) -> Result<(), String> {
    let mut place = Place::new(random);
    let memory = random.bytes(place.memory_length());
    let mut growing = Growing::new(random, sort, memory);
    if growing.random.chance(90) {
        let form = place.call(growing.random, What::Form);
        growing.call(form)?;
    }
    for _ in 0..25 {
        let what = match growing.random.below(100) {
            0..=44 => What::Put,
            45..=76 => What::Get,
            77..=88 => What::Clear,
            89..=96 => What::Change,
            _ => What::Form,
        };
        let mut call = place.call(growing.random, what);
        let percent = growing.random.pick(&[0, 0, 3, 3, 3, 30]);
        place.spoil(growing.random, percent, &mut call);
        let (next, sets) = (call.new_key.clone(), call.sets);
        let accepted = growing.call(call)?.number == 0;
        if accepted && what == What::Change {
            place.key = next;
        }
        if accepted && (what == What::Form || what == What::Change) {
            place.sets = sets;
        }
        if growing.random.chance(2) {
            sweep(&mut growing, &place)?;
        }
    }
    sweep(&mut growing, &place)
}

/// The plain page of a record, with bytes of the record out of range, or of the head or the zeros wrong.
fn wrong_page<K: Numbered>(random: &mut Random, numbers: &[i64], slot: usize, size: usize) -> Vec<u8> {
    let record = K::of(numbers).expect("a record in range");
    let content = if random.chance(85) { Some(&record) } else { None };
    let mut page = lay_out(content, slot, size);
    if content.is_some() && random.chance(80) {
        let field = random.below(K::WIDTH.div_ceil(2));
        let value = match (K::WIDTH, field) {
            (14, 0 | 1) => random.pick(&[0, 10000, 65535, numbers[1 - field]]),
            (14, _) => random.pick(&[1001, 1002, 32768, 65535]),
            (_, 0) => random.pick(&[0, 9, 351, 65535]),
            (_, 1) => random.pick(&[0x65, 0xff9b, 0x8000, 0x7fff]),
            (_, 2) => random.pick(&[199, 299, 651, 65535]),
            (_, 3) => random.pick(&[299, numbers[2] + 1, 651, 65535]),
            _ => random.pick(&[0x400, 0x401, 0xff00]),
        };
        let bytes = (value as u16).to_be_bytes();
        let width = K::WIDTH.min(2 * field + 2) - 2 * field;
        page[16 + 2 * field..][..width].copy_from_slice(&bytes[..width]);
    }
    if random.chance(30) {
        let place = match random.below(4) {
            0 => random.below(16),
            1 => random.pick(&[4, 5, 6, 15]),
            2 => random.pick(&[16, 15 + K::WIDTH, 16 + K::WIDTH, size - 1]),
            _ => random.below(size),
        };
        page[place] ^= 1 << random.below(8);
    }
    page
}

/// A store whose memory is damaged in turn by a bit, by random bytes, by pages exchanged or wrong in plain, or asked
/// for under another key or for the other kind; and restored each time.
pub fn damaged(random: &mut Random, sort: &mut Sort) -> Result<(), String> {
    let (n, p) = (1 + random.below(4), random.pick(&[64, 65, 95, 96, 97, 128]));
    let place = Place { slots: n, page: p, ..Place::new(random) };
    let memory = vec![0; place.memory_length()];
    let mut growing = Growing::new(random, sort, memory);
    let form = place.call(growing.random, What::Form);
    growing.call(form)?;
    for slot in 0..n {
        if growing.random.chance(70) {
            let put = place.call(growing.random, What::Put);
            growing.call(Call { slot, ..put })?;
        }
    }
    let whole = growing.memory.clone();
    for _ in 0..6 {
        let mut asked = place.clone();
        match growing.random.below(8) {
            0 => asked.key = growing.random.bytes(ACCEPTED_KEY),
            1 => asked.sets = !asked.sets,
            2 => {
                let bytes = growing.random.bytes(n * p);
                growing.write(0, &bytes);
            }
            3 => {
                let (a, b) = (growing.random.below(n), growing.random.below(n));
                growing.write(a * p, &whole[b * p..][..p]);
                growing.write(b * p, &whole[a * p..][..p]);
            }
            4 | 5 => {
                let at = growing.random.below(n * p);
                let bit = growing.random.below(8);
                growing.write(at, &[whole[at] ^ 1 << bit]);
            }
            _ => {
                let cipher = made(place.cipher, &place.key).expect("a right key");
                for slot in 0..n {
                    if growing.random.chance(60) {
                        let numbers = record(growing.random, place.sets);
                        let page = if place.sets {
                            wrong_page::<Parameters>(growing.random, &numbers, slot, p)
                        } else {
                            wrong_page::<Sheet>(growing.random, &numbers, slot, p)
                        };
                        let sealed = encipher(&cipher, &page).expect("a page is long enough");
                        growing.write(slot * p, &sealed);
                    }
                }
            }
        }
        sweep(&mut growing, &asked)?;
        let mut change = asked.call(growing.random, What::Change);
        asked.spoil(growing.random, 2, &mut change);
        growing.call(change)?;
        growing.write(0, &whole);
    }
    Ok(())
}
