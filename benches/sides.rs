//! The calls that are timed, on each of the three sides: ours (the proved code, through its C interface), the peer (the second
//! implementation) and plain C.

use crate::aes::{Aes, Cascade};
use crate::mode::{decipher, encipher, Block, Cipher};
use crate::record::Sheet;
use crate::skinny::Skinny;
use crate::store::{Geometry, Refusal, Store};
use std::hint::black_box;

#[derive(Clone, Copy, PartialEq)]
pub enum Name {
    Skinny,
    Aes,
    Cascade,
}

#[derive(Clone, Copy, PartialEq)]
pub enum Call {
    Encrypt,
    Decrypt,
    Encipher,
    Decipher,
    Put,
    Get,
    Change,
}

/// What is timed: `bytes` are those of a block, of a message, or of one page.
#[derive(Clone, Copy, PartialEq)]
pub struct Case {
    pub name: Name,
    pub call: Call,
    pub slots: usize,
    pub bytes: usize,
}

/// All that a call reads and writes.
#[derive(PartialEq)]
pub struct Work {
    key: Block,
    new_key: Block,
    head: Block,
    body: Block,
    block: Block,
    /// The message, or the memory of a store.
    bytes: Vec<u8>,
    working: Vec<u8>,
    sheet: [u32; 7],
}

/// Does a case so many times over, each on what the one before has left; false where something was refused.
pub type Side = fn(&Case, &mut Work, usize) -> bool;
pub const SIDES: [(&str, Side); 3] = [("ours", ours), ("peer", peer), ("plain C", plain)];

const SLOT: usize = 1;
const SHEET: [u32; 7] = [17, 18, 350, 300, 480, 210, 55];

/// Where a case starts. The stores are formed, and hold a sheet where it is read.
pub fn start(case: &Case) -> Work {
    let block = |add: usize| -> Block { std::array::from_fn(|i| (7 * i + add) as u8) };
    let mut w = Work {
        key: block(1),
        new_key: block(2),
        head: block(3),
        body: block(4),
        block: block(5),
        bytes: (0..case.slots * case.bytes).map(|i| (13 * i + i / 256) as u8).collect(),
        working: vec![5; case.bytes],
        sheet: SHEET,
    };
    if matches!(case.call, Call::Put | Call::Get | Call::Change) {
        let (cipher, bytes) = (selector(case), w.bytes.len());
        let formed =
            unsafe { dikhelwa_sheet_form(cipher, w.key.as_ptr(), 16, case.slots, case.bytes, w.bytes.as_mut_ptr(), bytes) };
        let filled = case.call == Call::Put || ours(&Case { call: Call::Put, ..*case }, &mut w, 1);
        assert!(formed.number == 0 && filled, "the store is made");
    }
    if case.call == Call::Get {
        w.sheet = [0; 7];
    }
    w
}

fn selector(case: &Case) -> u32 {
    u32::from(case.name == Name::Cascade)
}

#[repr(C)]
struct Answer {
    number: u32,
    slot: u32,
    field: u32,
    found: u32,
}

type Times = unsafe extern "C" fn(*mut u8, usize, usize) -> u8;
type Message = unsafe extern "C" fn(u32, *const u8, usize, *mut u8, usize) -> Answer;
type PlainBlock = unsafe extern "C" fn(*const u8, *const u8, *const u8, *mut u8);
type PlainMessage = unsafe extern "C" fn(u32, *const u8, *mut u8, usize);

// The crates `timing` and `c_api`; a slice is a pointer and a length.
extern "C" {
    fn dikhelwa_skinny_encrypt(work: *mut u8, length: usize, n: usize) -> u8;
    fn dikhelwa_skinny_decrypt(work: *mut u8, length: usize, n: usize) -> u8;
    fn dikhelwa_cascade_encrypt(work: *mut u8, length: usize, n: usize) -> u8;
    fn dikhelwa_cascade_decrypt(work: *mut u8, length: usize, n: usize) -> u8;
    fn dikhelwa_aes_encrypt(work: *mut u8, length: usize, n: usize) -> u8;
    fn dikhelwa_aes_decrypt(work: *mut u8, length: usize, n: usize) -> u8;

    fn dikhelwa_encipher(cipher: u32, key: *const u8, key_length: usize, message: *mut u8, length: usize) -> Answer;
    fn dikhelwa_decipher(cipher: u32, key: *const u8, key_length: usize, message: *mut u8, length: usize) -> Answer;
    fn dikhelwa_sheet_form(
        cipher: u32, key: *const u8, key_length: usize, slots: usize, page: usize, memory: *mut u8, length: usize,
    ) -> Answer;
    fn dikhelwa_sheet_put(
        cipher: u32, key: *const u8, key_length: usize, slots: usize, page: usize, memory: *mut u8, length: usize, slot: usize,
        sheet: *const [u32; 7],
    ) -> Answer;
    fn dikhelwa_sheet_get(
        cipher: u32, key: *const u8, key_length: usize, slots: usize, page: usize, memory: *const u8, length: usize, slot: usize,
        working: *mut u8, working_length: usize, sheet: *mut [u32; 7],
    ) -> Answer;
    fn dikhelwa_sheet_change(
        cipher: u32, key: *const u8, key_length: usize, slots: usize, page: usize, memory: *mut u8, length: usize,
        new_key: *const u8, new_key_length: usize, working: *mut u8, working_length: usize,
    ) -> Answer;
}

// benches/plain.h.
extern "C" {
    fn plain_skinny_encrypt(key: *const u8, head: *const u8, body: *const u8, block: *mut u8);
    fn plain_skinny_decrypt(key: *const u8, head: *const u8, body: *const u8, block: *mut u8);
    fn plain_aes_expand(key: *const u8, round_keys: *mut u8);
    fn plain_aes_encrypt(round_keys: *const u8, block: *mut u8);
    fn plain_aes_decrypt(round_keys: *const u8, block: *mut u8);
    fn plain_cascade_encrypt(round_keys: *const u8, head: *const u8, body: *const u8, block: *mut u8);
    fn plain_cascade_decrypt(round_keys: *const u8, head: *const u8, body: *const u8, block: *mut u8);
    fn plain_encipher_under(cascade: u32, key: *const u8, message: *mut u8, n: usize);
    fn plain_decipher_under(cascade: u32, key: *const u8, message: *mut u8, n: usize);
    fn plain_put(
        cascade: u32, key: *const u8, slots: usize, page: usize, memory: *mut u8, slot: usize, sheet: *const u32,
    ) -> i32;
    fn plain_get(
        cascade: u32, key: *const u8, slots: usize, page: usize, memory: *const u8, slot: usize, working: *mut u8,
        sheet: *mut u32, found: *mut i32,
    ) -> i32;
    fn plain_change(
        cascade: u32, key: *const u8, slots: usize, page: usize, memory: *mut u8, new_key: *const u8, working: *mut u8,
    ) -> i32;
}

/// A call so many times over, until one is refused.
fn repeat(w: &mut Work, n: usize, mut call: impl FnMut(&mut Work) -> bool) -> bool {
    (0..n).all(|_| call(black_box(&mut *w)))
}

fn ours(case: &Case, w: &mut Work, n: usize) -> bool {
    let (cipher, slots, page) = (selector(case), case.slots, case.bytes);
    let message = |w: &mut Work, f: Message| {
        repeat(w, n, |w| unsafe { f(cipher, w.key.as_ptr(), 16, w.bytes.as_mut_ptr(), w.bytes.len()) }.number == 0)
    };
    match case.call {
        Call::Encrypt => our_block(w, n, case.name, [dikhelwa_skinny_encrypt, dikhelwa_aes_encrypt, dikhelwa_cascade_encrypt]),
        Call::Decrypt => our_block(w, n, case.name, [dikhelwa_skinny_decrypt, dikhelwa_aes_decrypt, dikhelwa_cascade_decrypt]),
        Call::Encipher => message(w, dikhelwa_encipher),
        Call::Decipher => message(w, dikhelwa_decipher),
        Call::Put => repeat(w, n, |w| {
            let (memory, length) = (w.bytes.as_mut_ptr(), w.bytes.len());
            unsafe { dikhelwa_sheet_put(cipher, w.key.as_ptr(), 16, slots, page, memory, length, SLOT, &w.sheet) }.number == 0
        }),
        Call::Get => repeat(w, n, |w| {
            let (memory, length) = (w.bytes.as_ptr(), w.bytes.len());
            let (working, room) = (w.working.as_mut_ptr(), w.working.len());
            let key = w.key.as_ptr();
            let said =
                unsafe { dikhelwa_sheet_get(cipher, key, 16, slots, page, memory, length, SLOT, working, room, &mut w.sheet) };
            said.number == 0 && said.found == 1
        }),
        Call::Change => repeat(w, n, |w| {
            let (memory, length) = (w.bytes.as_mut_ptr(), w.bytes.len());
            let (working, room) = (w.working.as_mut_ptr(), w.working.len());
            let (key, new_key) = (w.key.as_ptr(), w.new_key.as_ptr());
            let said = unsafe {
                dikhelwa_sheet_change(cipher, key, 16, slots, page, memory, length, new_key, 16, working, room)
            };
            std::mem::swap(&mut w.key, &mut w.new_key);
            said.number == 0
        }),
    }
}

/// The key, for a tweakable cipher the head and the body, and the block stand behind each other.
fn our_block(w: &mut Work, n: usize, name: Name, [skinny, aes, cascade]: [Times; 3]) -> bool {
    let (f, mut all) = match name {
        Name::Skinny => (skinny, [w.key, w.head, w.body, w.block].concat()),
        Name::Aes => (aes, [w.key, w.block].concat()),
        Name::Cascade => (cascade, [w.key, w.head, w.body, w.block].concat()),
    };
    let said = unsafe { f(all.as_mut_ptr(), all.len(), n) };
    w.block.copy_from_slice(&all[all.len() - 16..]);
    said == 0
}

/// The peer's AES, which has no head and no body.
struct Single(Aes);

impl Cipher for Single {
    fn encrypt(&self, _: &Block, _: &Block, block: &Block) -> Block {
        self.0.encrypt(block)
    }
    fn decrypt(&self, _: &Block, _: &Block, block: &Block) -> Block {
        self.0.decrypt(block)
    }
}

fn peer(case: &Case, w: &mut Work, n: usize) -> bool {
    match case.name {
        Name::Skinny => peer_over(case, w, n, Skinny::new),
        Name::Aes => peer_over(case, w, n, |key| Single(Aes::new(key))),
        Name::Cascade => peer_over(case, w, n, |key| Cascade(Aes::new(key))),
    }
}

/// The key is expanded once for the blocks, and at each of the other calls, as on the other sides.
fn peer_over<C: Cipher>(case: &Case, w: &mut Work, n: usize, make: impl Fn(Block) -> C) -> bool {
    let store = |key: &Block| -> Result<Store<C>, Refusal> {
        Ok(Store::new(make(*key), Geometry::make(case.slots, case.bytes)?))
    };
    match case.call {
        Call::Encrypt => {
            let c = make(w.key);
            repeat(w, n, |w| {
                w.block = c.encrypt(&w.head, &w.body, &w.block);
                true
            })
        }
        Call::Decrypt => {
            let c = make(w.key);
            repeat(w, n, |w| {
                w.block = c.decrypt(&w.head, &w.body, &w.block);
                true
            })
        }
        Call::Encipher => repeat(w, n, |w| encipher(&make(w.key), &w.bytes).map(|m| w.bytes = m).is_some()),
        Call::Decipher => repeat(w, n, |w| decipher(&make(w.key), &w.bytes).map(|m| w.bytes = m).is_some()),
        Call::Put => repeat(w, n, |w| {
            let put = |w: &mut Work| store(&w.key)?.put(&mut w.bytes, SLOT, &Sheet::make(w.sheet.map(i64::from))?);
            put(w).is_ok()
        }),
        Call::Get => repeat(w, n, |w| {
            let got = store(&w.key).and_then(|s| s.get::<Sheet>(&w.bytes, SLOT, &mut w.working));
            got.ok().flatten().map(|sheet| w.sheet = sheet.numbers().map(|n| n as u32)).is_some()
        }),
        Call::Change => repeat(w, n, |w| {
            let changed = store(&w.key).and_then(|mut s| s.change::<Sheet>(&mut w.bytes, make(w.new_key), &mut w.working));
            std::mem::swap(&mut w.key, &mut w.new_key);
            changed.is_ok()
        }),
    }
}

fn plain(case: &Case, w: &mut Work, n: usize) -> bool {
    let (cascade, slots, page) = (selector(case), case.slots, case.bytes);
    let message = |w: &mut Work, f: PlainMessage| {
        repeat(w, n, |w| {
            unsafe { f(cascade, w.key.as_ptr(), w.bytes.as_mut_ptr(), w.bytes.len()) };
            true
        })
    };
    match case.call {
        Call::Encrypt => plain_block(w, n, case.name, [plain_skinny_encrypt, plain_cascade_encrypt], plain_aes_encrypt),
        Call::Decrypt => plain_block(w, n, case.name, [plain_skinny_decrypt, plain_cascade_decrypt], plain_aes_decrypt),
        Call::Encipher => message(w, plain_encipher_under),
        Call::Decipher => message(w, plain_decipher_under),
        Call::Put => repeat(w, n, |w| {
            let (key, memory) = (w.key.as_ptr(), w.bytes.as_mut_ptr());
            unsafe { plain_put(cascade, key, slots, page, memory, SLOT, w.sheet.as_ptr()) == 0 }
        }),
        Call::Get => repeat(w, n, |w| {
            let (key, memory, working) = (w.key.as_ptr(), w.bytes.as_ptr(), w.working.as_mut_ptr());
            let (sheet, mut found) = (w.sheet.as_mut_ptr(), 0);
            unsafe { plain_get(cascade, key, slots, page, memory, SLOT, working, sheet, &mut found) == 0 && found == 1 }
        }),
        Call::Change => repeat(w, n, |w| {
            let (key, new_key) = (w.key.as_ptr(), w.new_key.as_ptr());
            let (memory, working) = (w.bytes.as_mut_ptr(), w.working.as_mut_ptr());
            let said = unsafe { plain_change(cascade, key, slots, page, memory, new_key, working) };
            std::mem::swap(&mut w.key, &mut w.new_key);
            said == 0
        }),
    }
}

fn plain_block(
    w: &mut Work, n: usize, name: Name, [skinny, cascade]: [PlainBlock; 2], aes: unsafe extern "C" fn(*const u8, *mut u8),
) -> bool {
    let mut round_keys = [0; 176];
    unsafe { plain_aes_expand(w.key.as_ptr(), round_keys.as_mut_ptr()) };
    let round_keys = round_keys.as_ptr();
    repeat(w, n, |w| {
        let (head, body, block) = (w.head.as_ptr(), w.body.as_ptr(), w.block.as_mut_ptr());
        match name {
            Name::Skinny => unsafe { skinny(w.key.as_ptr(), head, body, block) },
            Name::Aes => unsafe { aes(round_keys, block) },
            Name::Cascade => unsafe { cascade(round_keys, head, body, block) },
        }
        true
    })
}
