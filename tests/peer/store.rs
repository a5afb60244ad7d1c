//! Pages and the store, from docs/FORMATS.md and docs/STORE.md: a page is made as a vector and copied to its place, and
//! a change reads all contents before it writes them anew.

use crate::mode::{decipher, encipher, Cipher};
use crate::record::Kind;

/// The number of a refusal and its values.
pub type Refusal = Vec<u32>;

/// The head of a plain page.
fn head<K: Kind>(mark: u8, slot: usize) -> Vec<u8> {
    let mut out = K::LABEL.to_vec();
    out.push(mark);
    out.push(if cfg!(fault = "slot") { slot as u8 + 1 } else { slot as u8 });
    out.resize(16, 0);
    out
}

/// The plain page of a slot's content.
pub fn lay_out<K: Kind>(content: Option<&K>, slot: usize, size: usize) -> Vec<u8> {
    let mut page = head::<K>(u8::from(content.is_some()), slot);
    if let Some(record) = content {
        page.extend(record.write());
    }
    page.resize(size, 0);
    page
}

/// What a plain page of a slot says.
pub fn open<K: Kind>(page: &[u8], slot: usize) -> Result<Option<K>, Refusal> {
    let (first, rest) = page.split_at(16);
    let (record, zeros) = if first == head::<K>(0, slot) {
        (None, rest)
    } else if first == head::<K>(1, slot) {
        (Some(&rest[..K::WIDTH]), &rest[K::WIDTH..])
    } else {
        return Err(vec![6, slot as u32]);
    };
    if zeros.iter().any(|b| *b != 0) {
        return Err(vec![6, slot as u32]);
    }
    match record.map(K::read) {
        None => Ok(None),
        Some(Ok(record)) => Ok(Some(record)),
        Some(Err(field)) => Err(vec![7, slot as u32, field]),
    }
}

/// The number of slots, and the bytes of a page.
#[derive(Clone, Copy)]
pub struct Geometry {
    slots: usize,
    size: usize,
}

impl Geometry {
    pub fn make(slots: usize, size: usize) -> Result<Geometry, Refusal> {
        if (1..=64).contains(&slots) && (64..=4096).contains(&size) {
            Ok(Geometry { slots, size })
        } else {
            Err(vec![2])
        }
    }

    /// The bytes of a memory.
    pub fn bytes(&self) -> usize {
        self.slots * self.size
    }
}

/// A cipher and a geometry; the memory is handed over at each call.
pub struct Store<C> {
    cipher: C,
    geometry: Geometry,
}

impl<C: Cipher> Store<C> {
    pub fn new(cipher: C, geometry: Geometry) -> Store<C> {
        Store { cipher, geometry }
    }

    pub fn cipher(&self) -> &C {
        &self.cipher
    }

    pub fn geometry(&self) -> Geometry {
        self.geometry
    }

    fn check_memory(&self, memory: &[u8]) -> Result<(), Refusal> {
        if memory.len() == self.geometry.bytes() { Ok(()) } else { Err(vec![3]) }
    }

    fn check_slot(&self, slot: usize) -> Result<(), Refusal> {
        if slot < self.geometry.slots { Ok(()) } else { Err(vec![4]) }
    }

    fn check_buffer(&self, buffer: &[u8]) -> Result<(), Refusal> {
        if buffer.len() >= self.geometry.size { Ok(()) } else { Err(vec![5]) }
    }

    /// The sealed page of a slot's content.
    fn seal<K: Kind>(&self, content: Option<&K>, slot: usize) -> Vec<u8> {
        encipher(&self.cipher, &lay_out(content, slot, self.geometry.size)).expect("a page is long enough")
    }

    fn write<K: Kind>(&self, memory: &mut [u8], slot: usize, content: Option<&K>) -> Result<(), Refusal> {
        self.check_memory(memory)?;
        self.check_slot(slot)?;
        let sealed = self.seal(content, slot);
        memory[slot * self.geometry.size..][..self.geometry.size].copy_from_slice(&sealed);
        Ok(())
    }

    /// What the page of a slot says, with the page opened in the working buffer.
    fn say<K: Kind>(&self, memory: &[u8], slot: usize, buffer: &mut [u8]) -> Result<Option<K>, Refusal> {
        let size = self.geometry.size;
        let plain = decipher(&self.cipher, &memory[slot * size..][..size]).expect("a page is long enough");
        let place = &mut buffer[..size];
        place.copy_from_slice(&plain);
        let said = open(place, slot);
        place.fill(0);
        said
    }

    pub fn form<K: Kind>(&self, memory: &mut [u8]) -> Result<(), Refusal> {
        self.check_memory(memory)?;
        let pages: Vec<Vec<u8>> = (0..self.geometry.slots).map(|slot| self.seal::<K>(None, slot)).collect();
        memory.copy_from_slice(&pages.concat());
        Ok(())
    }

    pub fn put<K: Kind>(&self, memory: &mut [u8], slot: usize, record: &K) -> Result<(), Refusal> {
        self.write(memory, slot, Some(record))
    }

    pub fn clear<K: Kind>(&self, memory: &mut [u8], slot: usize) -> Result<(), Refusal> {
        self.write::<K>(memory, slot, None)
    }

    pub fn get<K: Kind>(&self, memory: &[u8], slot: usize, buffer: &mut [u8]) -> Result<Option<K>, Refusal> {
        self.check_memory(memory)?;
        self.check_slot(slot)?;
        self.check_buffer(buffer)?;
        self.say(memory, slot, buffer)
    }

    pub fn change<K: Kind>(&mut self, memory: &mut [u8], cipher: C, buffer: &mut [u8]) -> Result<(), Refusal> {
        self.check_memory(memory)?;
        self.check_buffer(buffer)?;
        let contents: Vec<Option<K>> =
            (0..self.geometry.slots).map(|slot| self.say(memory, slot, buffer)).collect::<Result<_, _>>()?;
        self.cipher = cipher;
        for (slot, content) in contents.iter().enumerate() {
            self.write(memory, slot, content.as_ref())?;
        }
        Ok(())
    }

    /// The page of a slot as it is stored.
    pub fn page<'m>(&self, memory: &'m [u8], slot: usize) -> Result<&'m [u8], Refusal> {
        self.check_memory(memory)?;
        self.check_slot(slot)?;
        Ok(&memory[slot * self.geometry.size..][..self.geometry.size])
    }
}
