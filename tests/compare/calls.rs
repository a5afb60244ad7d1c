//! Lists of calls, made by the library and by the second implementation on the same bytes, compared after each call,
//! and shrunk where they differ. A message is a list as well: its memory is the message.

use crate::aes::{Aes, Cascade};
use crate::hex;
use crate::library::{self, parameters, sheet, Answer, Under};
use crate::mode::{decipher, encipher, Bench, Block, Cipher};
use crate::record::{Kind, Parameters, Sheet};
use crate::skinny::Skinny;
use crate::store::{Geometry, Refusal, Store};
use std::cell::RefCell;
use std::collections::HashMap;
use std::rc::Rc;
use std::time::Instant;

#[derive(Clone, Copy, Debug, PartialEq)]
pub enum What {
    Encipher,
    Decipher,
    Form,
    Put,
    Get,
    Clear,
    Change,
}

/// A call with all of its arguments but the memory; those that the function does not have are not looked at.
#[derive(Clone)]
pub struct Call {
    pub what: What,
    /// For parameter sets, and not for sheets.
    pub sets: bool,
    pub cipher: u32,
    pub key: Vec<u8>,
    pub slots: usize,
    pub page: usize,
    /// The bytes by which the memory handed over is longer than the list's memory.
    pub longer: isize,
    pub slot: usize,
    /// The record of a put, and what stands in the place for the record of a get.
    pub record: Vec<i64>,
    pub new_key: Vec<u8>,
    pub working: Vec<u8>,
}

impl Call {
    fn is_message(&self) -> bool {
        self.what == What::Encipher || self.what == What::Decipher
    }
}

#[derive(Clone)]
pub enum Step {
    Call(Call),
    /// Bytes written into the memory past the store.
    Write(usize, Vec<u8>),
}

#[derive(Clone)]
pub struct List {
    pub memory: Vec<u8>,
    pub steps: Vec<Step>,
    /// The steps lead back to the memory that they began with.
    pub back: bool,
}

/// A cipher of the second implementation.
#[derive(Clone)]
pub struct Made(Rc<dyn Cipher>);

impl Cipher for Made {
    fn encrypt(&self, head: &Block, body: &Block, block: &Block) -> Block {
        self.0.encrypt(head, body, block)
    }
    fn decrypt(&self, head: &Block, body: &Block, block: &Block) -> Block {
        self.0.decrypt(head, body, block)
    }
}

thread_local! {
    static CIPHERS: RefCell<HashMap<(u32, Block), Made>> = RefCell::new(HashMap::new());
}

/// The cipher of a selector and a key, kept for the next time; or the refusal.
pub fn made(selector: u32, key: &[u8]) -> Result<Made, Refusal> {
    if selector > 2 {
        return Err(vec![100]);
    }
    let key: Block = key.try_into().map_err(|_| vec![101])?;
    CIPHERS.with_borrow_mut(|kept| {
        if kept.len() > 1000 {
            kept.clear();
        }
        let new = || match selector {
            0 => Made(Rc::new(Skinny::new(key))),
            1 => Made(Rc::new(Cascade(Aes::new(key)))),
            _ => Made(Rc::new(Bench)),
        };
        Ok(kept.entry((selector, key)).or_insert_with(new).clone())
    })
}

/// A kind whose records are made of a list of numbers.
pub trait Numbered: Kind {
    fn of(numbers: &[i64]) -> Result<Self, Refusal>;
    fn list(&self) -> Vec<i64>;
}

impl Numbered for Sheet {
    fn of(numbers: &[i64]) -> Result<Sheet, Refusal> {
        Sheet::make(numbers.try_into().expect("seven numbers"))
    }
    fn list(&self) -> Vec<i64> {
        self.numbers().to_vec()
    }
}

impl Numbered for Parameters {
    fn of(numbers: &[i64]) -> Result<Parameters, Refusal> {
        Parameters::make(numbers.try_into().expect("five numbers"))
    }
    fn list(&self) -> Vec<i64> {
        self.numbers().to_vec()
    }
}

/// What a call is handed and may write to.
#[derive(Clone)]
struct Hands {
    memory: Vec<u8>,
    working: Vec<u8>,
    record: Vec<i64>,
}

/// The bytes before and behind each buffer handed to the library, which are not its own.
const RIM: usize = 16;

/// Has a slice of a copy of the bytes worked on, and takes it back; tells whether the rim is whole.
fn rimmed<T>(bytes: &mut Vec<u8>, work: impl FnOnce(&mut [u8]) -> T) -> (T, bool) {
    let mut room = vec![0xa5; RIM];
    room.extend_from_slice(bytes);
    room.resize(bytes.len() + 2 * RIM, 0xa5);
    let end = RIM + bytes.len();
    let told = work(&mut room[RIM..end]);
    bytes.copy_from_slice(&room[RIM..end]);
    (told, room[..RIM].iter().chain(&room[end..]).all(|b| *b == 0xa5))
}

/// The call made by the library, and whether it has kept to its buffers.
fn by_library(call: &Call, hands: &mut Hands) -> (Answer, bool) {
    let Hands { memory, working, record } = hands;
    let under = Under { cipher: call.cipher, key: &call.key, slots: call.slots, page: call.page };
    let mut numbers: Vec<u32> = record.iter().map(|n| *n as u32).collect();
    let ((answer, inside), within) = rimmed(memory, |m| {
        rimmed(working, |w| match (call.what, call.sets) {
            (What::Encipher, _) => library::encipher(call.cipher, &call.key, m),
            (What::Decipher, _) => library::decipher(call.cipher, &call.key, m),
            (What::Form, false) => sheet::form(&under, m),
            (What::Put, false) => sheet::put(&under, m, call.slot, &numbers),
            (What::Get, false) => sheet::get(&under, m, call.slot, w, &mut numbers),
            (What::Clear, false) => sheet::clear(&under, m, call.slot),
            (What::Change, false) => sheet::change(&under, m, &call.new_key, w),
            (What::Form, true) => parameters::form(&under, m),
            (What::Put, true) => parameters::put(&under, m, call.slot, &numbers),
            (What::Get, true) => parameters::get(&under, m, call.slot, w, &mut numbers),
            (What::Clear, true) => parameters::clear(&under, m, call.slot),
            (What::Change, true) => parameters::change(&under, m, &call.new_key, w),
        })
    });
    for (i, (n, given)) in record.iter_mut().zip(&numbers).enumerate() {
        *n = if call.sets && i == 1 { i64::from(*given as i32) } else { i64::from(*given) };
    }
    (answer, inside && within)
}

/// A call of the store by the second implementation: whether a record was found, or the refusal.
fn of_kind<K: Numbered>(call: &Call, cipher: Made, hands: &mut Hands) -> Result<u32, Refusal> {
    let Hands { memory, working, record } = hands;
    let next = if call.what == What::Change { made(call.cipher, &call.new_key)? } else { cipher.clone() };
    let mut store = Store::new(cipher, Geometry::make(call.slots, call.page)?);
    match call.what {
        What::Form => store.form::<K>(memory)?,
        What::Put => store.put(memory, call.slot, &K::of(record)?)?,
        What::Clear => store.clear::<K>(memory, call.slot)?,
        What::Change => store.change::<K>(memory, next, working)?,
        _ => {
            if let Some(found) = store.get::<K>(memory, call.slot, working)? {
                *record = found.list();
                return Ok(1);
            }
        }
    }
    Ok(0)
}

/// The call made by the second implementation, in the header's order of the checks.
fn by_peer(call: &Call, hands: &mut Hands) -> Answer {
    let work = |hands: &mut Hands| {
        let cipher = made(call.cipher, &call.key)?;
        let message = match call.what {
            What::Encipher => encipher(&cipher, &hands.memory),
            What::Decipher => decipher(&cipher, &hands.memory),
            _ if call.sets => return of_kind::<Parameters>(call, cipher, hands),
            _ => return of_kind::<Sheet>(call, cipher, hands),
        };
        hands.memory = message.ok_or(vec![1])?;
        Ok(0)
    };
    match work(hands).map_err(|refusal: Refusal| (refusal[0], refusal)) {
        Ok(found) => Answer { found, ..Answer::default() },
        Err((number, refusal)) => Answer {
            number,
            slot: if number == 6 || number == 7 { refusal[1] } else { 0 },
            field: if number == 7 || number == 8 { refusal[refusal.len() - 1] } else { 0 },
            found: 0,
        },
    }
}

/// Where two byte strings of one length differ first.
fn bytes_apart(name: &str, library: &[u8], peer: &[u8]) -> Option<String> {
    let at = library.iter().zip(peer).position(|(a, b)| a != b)?;
    Some(format!("{name}, byte {at} first: library {:02x}, peer {:02x}", library[at], peer[at]))
}

/// Takes a step on the memory; the answer of a call, or what differs.
pub fn take(memory: &mut Vec<u8>, step: &Step) -> Result<Option<Answer>, String> {
    let call = match step {
        Step::Write(at, bytes) => {
            memory[*at..*at + bytes.len()].copy_from_slice(bytes);
            return Ok(None);
        }
        Step::Call(call) => call,
    };
    let mut handed = memory.clone();
    handed.resize(memory.len().saturating_add_signed(call.longer), 0x5a);
    let mut ours = Hands { memory: handed, working: call.working.clone(), record: call.record.clone() };
    let mut theirs = ours.clone();
    let (answer, kept) = by_library(call, &mut ours);
    let wanted = by_peer(call, &mut theirs);
    if answer != wanted {
        return Err(format!("answer: library {answer:?}, peer {wanted:?}"));
    }
    let apart = bytes_apart("memory", &ours.memory, &theirs.memory);
    if let Some(told) = apart.or_else(|| bytes_apart("working buffer", &ours.working, &theirs.working)) {
        return Err(told);
    }
    if ours.record != theirs.record {
        return Err(format!("record: library {:?}, peer {:?}", ours.record, theirs.record));
    }
    if !kept {
        return Err("the library wrote outside of the buffers".to_string());
    }
    if call.longer == 0 {
        *memory = ours.memory;
    }
    Ok(Some(answer))
}

/// The first step at which the list differs, and what differs.
fn differs(list: &List) -> Option<(usize, String)> {
    let mut memory = list.memory.clone();
    for (at, step) in list.steps.iter().enumerate() {
        if let Err(told) = take(&mut memory, step) {
            return Some((at, told));
        }
    }
    let lost = list.back && memory != list.memory;
    lost.then(|| (list.steps.len() - 1, "both agree, but it does not lead back".to_string()))
}

/// The tries at a simpler list: each is kept where it still differs, until the time is over.
struct Shrinking {
    best: List,
    end: Instant,
}

impl Shrinking {
    fn keeps(&mut self, change: impl FnOnce(&mut List)) -> bool {
        let mut next = self.best.clone();
        change(&mut next);
        let better = Instant::now() < self.end && differs(&next).is_some();
        if better {
            self.best = next;
        }
        better
    }

    /// Drops each step that is not needed, from the last one on.
    fn drop_steps(&mut self) {
        let mut again = !self.best.back;
        while again {
            again = false;
            for at in (0..self.best.steps.len()).rev() {
                again |= self.keeps(|list| drop(list.steps.remove(at)));
            }
        }
    }

    /// Shortens a message.
    fn shorten(&mut self) {
        loop {
            let n = self.best.memory.len();
            let lengths = [0, 32, 33, 64, n / 2, n - n / 4, n - n / 8, n.saturating_sub(32), n.saturating_sub(1)];
            if !lengths.iter().any(|to| *to < n && self.keeps(|list| list.memory.truncate(*to))) {
                return;
            }
        }
    }

    /// Makes bytes of the memory zero, in ever smaller pieces.
    fn clean(&mut self) {
        let n = self.best.memory.len();
        let mut piece = n;
        while piece > 0 && Instant::now() < self.end {
            for at in (0..n).step_by(piece) {
                let end = n.min(at + piece);
                if self.best.memory[at..end].iter().any(|b| *b != 0) {
                    self.keeps(|list| list.memory[at..end].fill(0));
                }
            }
            piece /= 2;
        }
    }

    /// Makes the keys and the working buffers plain, where either can be.
    fn plain_calls(&mut self) {
        let plains: [fn(&mut Call); 3] = [|c| c.key.fill(0), |c| c.new_key.fill(0), |c| c.working.fill(5)];
        for plain in plains {
            self.keeps(|list| {
                for step in &mut list.steps {
                    if let Step::Call(call) = step {
                        plain(call);
                    }
                }
            });
        }
    }
}

/// Bytes in hexadecimal, or only the first where they are all the same.
fn bytes_text(bytes: &[u8]) -> String {
    let alike = bytes.iter().all(|b| *b == bytes[0]);
    format!("{} bytes {}", bytes.len(), hex(if alike { &bytes[..bytes.len().min(1)] } else { bytes }))
}

fn step_text(step: &Step) -> String {
    let call = match step {
        Step::Write(at, bytes) => return format!("bytes written from byte {at} on: {}", bytes_text(bytes)),
        Step::Call(call) => call,
    };
    let mut out = format!("{:?}, cipher {}, key {}", call.what, call.cipher, bytes_text(&call.key));
    if call.is_message() {
        return out;
    }
    out += if call.sets { ", parameters" } else { ", sheets" };
    out += &format!(", slots {}, page {}", call.slots, call.page);
    if call.longer != 0 {
        out += &format!(", memory {:+} bytes", call.longer);
    }
    if call.what != What::Form && call.what != What::Change {
        out += &format!(", slot {}", call.slot);
    }
    if call.what == What::Put || call.what == What::Get {
        out += &format!(", record {:?}", call.record);
    }
    if call.what == What::Change {
        out += &format!(", new key {}", bytes_text(&call.new_key));
    }
    if call.what == What::Change || call.what == What::Get {
        out += &format!(", working {}", bytes_text(&call.working));
    }
    out
}

/// A list that differs, as small as it could be made until the end of the time.
pub fn shrunk(list: List, end: Instant) -> String {
    let Some((at, told)) = differs(&list) else {
        return "the difference did not come again".to_string();
    };
    let messages = list.steps.iter().all(|step| matches!(step, Step::Call(call) if call.is_message()));
    let mut shrinking = Shrinking { best: list, end };
    if told.starts_with("both agree") {
        shrinking.shorten();
    } else {
        shrinking.best.steps.truncate(at + 1);
        shrinking.best.back = false;
        shrinking.drop_steps();
        if messages {
            shrinking.shorten();
        }
    }
    shrinking.plain_calls();
    shrinking.clean();
    let best = shrinking.best;
    let mut out = format!("  memory: {}\n", bytes_text(&best.memory));
    for step in &best.steps {
        out += &format!("  {}\n", step_text(step));
    }
    let (_, told) = differs(&best).expect("it differs");
    out + &format!("  {told}")
}
