//! The functions of Jigshard's static library that are measured: those of the Rust package, over what is lent once.

use crate::sys;
pub use crate::sys::{Refusal, COLUMN_WORDS, TEXT_WORDS};

/// The most columns that a reply of 65,536 bytes can have, and more names than it can have.
const COLUMNS: usize = 4_096;
const NAMES: usize = 16_384;

/// The status record, as the package's `SqlCard` has it.
#[derive(Clone, Copy)]
#[repr(C)]
pub struct SqlCard {
    pub is_null: bool,
    pub sqlcode: i32,
    pub sqlstate: [u8; 5],
    pub sqlerrproc: [u8; 8],
    pub sqlerrproc_length: u8,
    pub sqlerrd: [i32; 6],
    pub rows_fetched: u64,
    pub rows_updated: u32,
    pub sqlwarn: [u8; 11],
    pub message_place: usize,
    pub message_length: usize,
}

/// A text's alphabet, as the package's own.
#[derive(Clone, Copy)]
pub struct Alphabet(pub u8);

/// A text's place, length and alphabet.
#[derive(Clone, Copy)]
pub struct Text {
    pub place: usize,
    pub length: usize,
    pub alphabet: Alphabet,
}

/// What is lent to the library, once for all calls.
pub struct Room {
    pub columns: Vec<u64>,
    pub names: Vec<u64>,
    pub text: Vec<u8>,
}

impl Room {
    pub fn new() -> Self {
        Room {
            columns: vec![0; COLUMNS * COLUMN_WORDS],
            names: vec![0; NAMES * TEXT_WORDS],
            text: vec![0; 65_536],
        }
    }
}

pub fn parse_sqldard_data(reply: &[u8], room: &mut Room) -> sys::SqldardResult {
    sys::parse_sqldard_data(reply, &mut room.columns)
}

pub fn parse_sqldard(code_point: u16, reply: &[u8], room: &mut Room) -> sys::SqldardResult {
    sys::parse_sqldard(code_point, reply, &mut room.columns)
}

pub fn parse_sqlcard_data(reply: &[u8]) -> sys::SqlcardResult {
    sys::parse_sqlcard_data(reply)
}

pub fn consume_sqlca_group(reply: &[u8]) -> sys::GroupResult {
    sys::consume_sqlca_group(reply)
}

pub fn scan_column_names(reply: &[u8], room: &mut Room) -> sys::CountResult {
    sys::scan_column_names(reply, &mut room.names)
}

pub fn name_part(reply: &[u8], name: Text) -> sys::PartResult {
    sys::name_part(reply, name)
}

pub fn name_text(reply: &[u8], number: u16, name: Text, room: &mut Room) -> sys::CountResult {
    sys::name_text(reply, number, name, &mut room.text)
}

pub fn message_text(
    reply: &[u8],
    place: usize,
    length: usize,
    room: &mut Room,
) -> sys::CountResult {
    sys::message_text(reply, place, length, &mut room.text)
}
