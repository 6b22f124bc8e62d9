//! The functions of the static library, as C sees them, each behind a safe one. All that is unsafe stands here.
//!
//! None of the functions asks anything of its arguments' values: a slice is a pointer that may be read, or written, for
//! the slice's length, which is what a reference to a slice is. What is lent for writing cannot overlap the reply, as it is
//! borrowed alone.

use crate::{SqlCard, Text};

/// How many words of 64 bits a column takes.
pub const COLUMN_WORDS: usize = 22;

/// How many words of 64 bits a text takes.
pub const TEXT_WORDS: usize = 3;

/// A refusal's number, 0 for none, and its values: `count` of them, the others 0.
#[repr(C)]
pub struct Refusal {
    pub number: u8,
    pub count: u8,
    pub first: usize,
    pub second: usize,
}

#[repr(C)]
pub struct SqldardResult {
    pub refusal: Refusal,
    pub card: SqlCard,
    pub count: usize,
}

#[repr(C)]
pub struct SqlcardResult {
    pub refusal: Refusal,
    pub card: SqlCard,
}

#[repr(C)]
pub struct GroupResult {
    pub refusal: Refusal,
    pub card: SqlCard,
    pub length: usize,
}

#[repr(C)]
pub struct CountResult {
    pub refusal: Refusal,
    pub count: usize,
}

#[repr(C)]
pub struct PartResult {
    pub refusal: Refusal,
    pub place: usize,
    pub length: usize,
}

#[repr(C)]
pub struct CutResult {
    pub refusal: Refusal,
    pub same: bool,
}

extern "C" {
    fn jigshard_parse_sqldard_data(
        reply: *const u8,
        reply_length: usize,
        columns: *mut u64,
        columns_length: usize,
    ) -> SqldardResult;

    fn jigshard_parse_sqldard(
        code_point: u16,
        reply: *const u8,
        reply_length: usize,
        columns: *mut u64,
        columns_length: usize,
    ) -> SqldardResult;

    fn jigshard_parse_sqlcard_data(reply: *const u8, reply_length: usize) -> SqlcardResult;

    fn jigshard_consume_sqlca_group(reply: *const u8, reply_length: usize) -> GroupResult;

    fn jigshard_scan_column_names(
        reply: *const u8,
        reply_length: usize,
        names: *mut u64,
        names_length: usize,
    ) -> CountResult;

    fn jigshard_name_part(
        reply: *const u8,
        reply_length: usize,
        place: usize,
        length: usize,
        alphabet: u8,
    ) -> PartResult;

    fn jigshard_name_text(
        reply: *const u8,
        reply_length: usize,
        number: u16,
        place: usize,
        length: usize,
        alphabet: u8,
        buffer: *mut u8,
        buffer_length: usize,
    ) -> CountResult;

    fn jigshard_message_text(
        reply: *const u8,
        reply_length: usize,
        place: usize,
        length: usize,
        buffer: *mut u8,
        buffer_length: usize,
    ) -> CountResult;

    fn jigshard_same_cut(
        first: *const u64,
        first_length: usize,
        second: *const u64,
        second_length: usize,
    ) -> CutResult;

    fn jigshard_widest_row(columns: *const u64, columns_length: usize) -> CountResult;
}

pub fn parse_sqldard_data(reply: &[u8], columns: &mut [u64]) -> SqldardResult {
    // SAFETY: both slices are valid for the call, `columns` for writing and alone.
    unsafe {
        jigshard_parse_sqldard_data(
            reply.as_ptr(),
            reply.len(),
            columns.as_mut_ptr(),
            columns.len(),
        )
    }
}

pub fn parse_sqldard(code_point: u16, reply: &[u8], columns: &mut [u64]) -> SqldardResult {
    // SAFETY: both slices are valid for the call, `columns` for writing and alone.
    unsafe {
        jigshard_parse_sqldard(
            code_point,
            reply.as_ptr(),
            reply.len(),
            columns.as_mut_ptr(),
            columns.len(),
        )
    }
}

pub fn parse_sqlcard_data(reply: &[u8]) -> SqlcardResult {
    // SAFETY: the slice is valid for the call.
    unsafe { jigshard_parse_sqlcard_data(reply.as_ptr(), reply.len()) }
}

pub fn consume_sqlca_group(reply: &[u8]) -> GroupResult {
    // SAFETY: the slice is valid for the call.
    unsafe { jigshard_consume_sqlca_group(reply.as_ptr(), reply.len()) }
}

pub fn scan_column_names(reply: &[u8], names: &mut [u64]) -> CountResult {
    // SAFETY: both slices are valid for the call, `names` for writing and alone.
    unsafe {
        jigshard_scan_column_names(reply.as_ptr(), reply.len(), names.as_mut_ptr(), names.len())
    }
}

pub fn name_part(reply: &[u8], name: Text) -> PartResult {
    // SAFETY: the slice is valid for the call; place and length are numbers, which the library holds against it.
    unsafe {
        jigshard_name_part(
            reply.as_ptr(),
            reply.len(),
            name.place,
            name.length,
            name.alphabet.0,
        )
    }
}

pub fn name_text(reply: &[u8], number: u16, name: Text, buffer: &mut [u8]) -> CountResult {
    // SAFETY: both slices are valid for the call, `buffer` for writing and alone; place and length are numbers, which
    // the library holds against the reply.
    unsafe {
        jigshard_name_text(
            reply.as_ptr(),
            reply.len(),
            number,
            name.place,
            name.length,
            name.alphabet.0,
            buffer.as_mut_ptr(),
            buffer.len(),
        )
    }
}

pub fn message_text(reply: &[u8], place: usize, length: usize, buffer: &mut [u8]) -> CountResult {
    // SAFETY: both slices are valid for the call, `buffer` for writing and alone; place and length are numbers, which
    // the library holds against the reply.
    unsafe {
        jigshard_message_text(
            reply.as_ptr(),
            reply.len(),
            place,
            length,
            buffer.as_mut_ptr(),
            buffer.len(),
        )
    }
}

pub fn same_cut(first: &[u64], second: &[u64]) -> CutResult {
    // SAFETY: both slices are valid for the call, and only read.
    unsafe { jigshard_same_cut(first.as_ptr(), first.len(), second.as_ptr(), second.len()) }
}

pub fn widest_row(columns: &[u64]) -> CountResult {
    // SAFETY: the slice is valid for the call.
    unsafe { jigshard_widest_row(columns.as_ptr(), columns.len()) }
}

/// The layout of what crosses the boundary, as `include/jigshard.h` asserts it too.
#[cfg(test)]
mod tests {
    use super::*;
    use std::mem::{align_of, offset_of, size_of};

    #[test]
    fn refusal_layout() {
        assert_eq!((size_of::<Refusal>(), align_of::<Refusal>()), (24, 8));
        assert_eq!(offset_of!(Refusal, number), 0);
        assert_eq!(offset_of!(Refusal, count), 1);
        assert_eq!(offset_of!(Refusal, first), 8);
        assert_eq!(offset_of!(Refusal, second), 16);
    }

    #[test]
    fn card_layout() {
        assert_eq!((size_of::<SqlCard>(), align_of::<SqlCard>()), (88, 8));
        assert_eq!(offset_of!(SqlCard, is_null), 0);
        assert_eq!(offset_of!(SqlCard, sqlcode), 4);
        assert_eq!(offset_of!(SqlCard, sqlstate), 8);
        assert_eq!(offset_of!(SqlCard, sqlerrproc), 13);
        assert_eq!(offset_of!(SqlCard, sqlerrproc_length), 21);
        assert_eq!(offset_of!(SqlCard, sqlerrd), 24);
        assert_eq!(offset_of!(SqlCard, rows_fetched), 48);
        assert_eq!(offset_of!(SqlCard, rows_updated), 56);
        assert_eq!(offset_of!(SqlCard, sqlwarn), 60);
        assert_eq!(offset_of!(SqlCard, message_place), 72);
        assert_eq!(offset_of!(SqlCard, message_length), 80);
    }

    #[test]
    fn result_layouts() {
        assert_eq!(size_of::<SqldardResult>(), 120);
        assert_eq!(offset_of!(SqldardResult, card), 24);
        assert_eq!(offset_of!(SqldardResult, count), 112);
        assert_eq!(size_of::<SqlcardResult>(), 112);
        assert_eq!(offset_of!(SqlcardResult, card), 24);
        assert_eq!(size_of::<GroupResult>(), 120);
        assert_eq!(offset_of!(GroupResult, card), 24);
        assert_eq!(offset_of!(GroupResult, length), 112);
        assert_eq!(size_of::<CountResult>(), 32);
        assert_eq!(offset_of!(CountResult, count), 24);
        assert_eq!(size_of::<PartResult>(), 40);
        assert_eq!(offset_of!(PartResult, place), 24);
        assert_eq!(offset_of!(PartResult, length), 32);
        assert_eq!(size_of::<CutResult>(), 32);
        assert_eq!(offset_of!(CutResult, same), 24);
    }
}
