//! The library behind include/dikhelwa.h, each function wrapped over slices. A record of 32-bit numbers has the layout
//! of their array; a negative shift stands in it in two's complement.

/// What a call answers.
#[repr(C)]
#[derive(Clone, Copy, Debug, Default, PartialEq)]
pub struct Answer {
    pub number: u32,
    pub slot: u32,
    pub field: u32,
    pub found: u32,
}

type Sheet = [u32; 7];
type Parameters = [u32; 5];

extern "C" {
    fn dikhelwa_encipher(cipher: u32, key: *const u8, key_length: usize, message: *mut u8,
        message_length: usize) -> Answer;
    fn dikhelwa_decipher(cipher: u32, key: *const u8, key_length: usize, message: *mut u8,
        message_length: usize) -> Answer;
    fn dikhelwa_sheet_form(cipher: u32, key: *const u8, key_length: usize, slots: usize, page_length: usize,
        memory: *mut u8, memory_length: usize) -> Answer;
    fn dikhelwa_sheet_put(cipher: u32, key: *const u8, key_length: usize, slots: usize, page_length: usize,
        memory: *mut u8, memory_length: usize, slot: usize, sheet: *const Sheet) -> Answer;
    fn dikhelwa_sheet_get(cipher: u32, key: *const u8, key_length: usize, slots: usize, page_length: usize,
        memory: *const u8, memory_length: usize, slot: usize, working: *mut u8, working_length: usize,
        sheet: *mut Sheet) -> Answer;
    fn dikhelwa_sheet_clear(cipher: u32, key: *const u8, key_length: usize, slots: usize, page_length: usize,
        memory: *mut u8, memory_length: usize, slot: usize) -> Answer;
    fn dikhelwa_sheet_change(cipher: u32, key: *const u8, key_length: usize, slots: usize, page_length: usize,
        memory: *mut u8, memory_length: usize, new_key: *const u8, new_key_length: usize, working: *mut u8,
        working_length: usize) -> Answer;
    fn dikhelwa_parameters_form(cipher: u32, key: *const u8, key_length: usize, slots: usize, page_length: usize,
        memory: *mut u8, memory_length: usize) -> Answer;
    fn dikhelwa_parameters_put(cipher: u32, key: *const u8, key_length: usize, slots: usize, page_length: usize,
        memory: *mut u8, memory_length: usize, slot: usize, parameters: *const Parameters) -> Answer;
    fn dikhelwa_parameters_get(cipher: u32, key: *const u8, key_length: usize, slots: usize, page_length: usize,
        memory: *const u8, memory_length: usize, slot: usize, working: *mut u8, working_length: usize,
        parameters: *mut Parameters) -> Answer;
    fn dikhelwa_parameters_clear(cipher: u32, key: *const u8, key_length: usize, slots: usize, page_length: usize,
        memory: *mut u8, memory_length: usize, slot: usize) -> Answer;
    fn dikhelwa_parameters_change(cipher: u32, key: *const u8, key_length: usize, slots: usize, page_length: usize,
        memory: *mut u8, memory_length: usize, new_key: *const u8, new_key_length: usize, working: *mut u8,
        working_length: usize) -> Answer;
}

/// The cipher, the key and the geometry of a call.
pub struct Under<'a> {
    pub cipher: u32,
    pub key: &'a [u8],
    pub slots: usize,
    pub page: usize,
}

pub fn encipher(cipher: u32, key: &[u8], message: &mut [u8]) -> Answer {
    unsafe { dikhelwa_encipher(cipher, key.as_ptr(), key.len(), message.as_mut_ptr(), message.len()) }
}

pub fn decipher(cipher: u32, key: &[u8], message: &mut [u8]) -> Answer {
    unsafe { dikhelwa_decipher(cipher, key.as_ptr(), key.len(), message.as_mut_ptr(), message.len()) }
}

/// The five calls of a kind; a record has as many numbers as the kind asks for.
macro_rules! kind {
    ($name:ident, $record:ty, $form:ident, $put:ident, $get:ident, $clear:ident, $change:ident) => {
        pub mod $name {
            use super::*;

            pub fn form(u: &Under, memory: &mut [u8]) -> Answer {
                let (m, n) = (memory.as_mut_ptr(), memory.len());
                unsafe { $form(u.cipher, u.key.as_ptr(), u.key.len(), u.slots, u.page, m, n) }
            }

            pub fn put(u: &Under, memory: &mut [u8], slot: usize, record: &[u32]) -> Answer {
                let (m, n) = (memory.as_mut_ptr(), memory.len());
                let record: &$record = record.try_into().expect("the numbers of a record");
                unsafe { $put(u.cipher, u.key.as_ptr(), u.key.len(), u.slots, u.page, m, n, slot, record) }
            }

            pub fn get(u: &Under, memory: &[u8], slot: usize, working: &mut [u8], record: &mut [u32]) -> Answer {
                let (m, n) = (memory.as_ptr(), memory.len());
                let (w, room) = (working.as_mut_ptr(), working.len());
                let record: &mut $record = record.try_into().expect("the numbers of a record");
                unsafe { $get(u.cipher, u.key.as_ptr(), u.key.len(), u.slots, u.page, m, n, slot, w, room, record) }
            }

            pub fn clear(u: &Under, memory: &mut [u8], slot: usize) -> Answer {
                let (m, n) = (memory.as_mut_ptr(), memory.len());
                unsafe { $clear(u.cipher, u.key.as_ptr(), u.key.len(), u.slots, u.page, m, n, slot) }
            }

            pub fn change(u: &Under, memory: &mut [u8], new_key: &[u8], working: &mut [u8]) -> Answer {
                let (m, n) = (memory.as_mut_ptr(), memory.len());
                let (k, l) = (new_key.as_ptr(), new_key.len());
                let (w, room) = (working.as_mut_ptr(), working.len());
                unsafe { $change(u.cipher, u.key.as_ptr(), u.key.len(), u.slots, u.page, m, n, k, l, w, room) }
            }
        }
    };
}

kind!(sheet, Sheet,
    dikhelwa_sheet_form, dikhelwa_sheet_put, dikhelwa_sheet_get, dikhelwa_sheet_clear, dikhelwa_sheet_change);
kind!(parameters, Parameters,
    dikhelwa_parameters_form, dikhelwa_parameters_put, dikhelwa_parameters_get, dikhelwa_parameters_clear,
    dikhelwa_parameters_change);
