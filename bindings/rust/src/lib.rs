//! Jigshard reads the reply in which a Db2 server describes the columns of a result set (DRDA's SQLDARD). A reply here is
//! that object's data, without its length and code point.
//!
//! The reading is done by a static library whose every function is proved to meet its contract; this crate hands it
//! slices and gives back Rust's own types. No entry panics, whatever the bytes; a refusal changes nothing that was lent,
//! and what was lent past the count stays as it was.
//!
//! Texts are not copied: a [`Text`] says where it lies in the reply, which the caller keeps.
//!
//! ```
//! use jigshard::{describe, widest_row, Db2Type, Refusal};
//!
//! // A null SQLCA, a null SQLDHGRP, one column: Char(4), CCSID 1208, named DOOR.
//! let reply = b"\xFF\xFF\x00\x01\
//!     \0\0\0\0\0\0\0\0\0\0\0\x04\x01\xC4\x04\xB8\
//!     \0\0\0\x00\x04DOOR\0\0\0\0\0\0\0\0\0\0\xFF\xFF";
//!
//! let (card, columns) = describe(reply)?;
//! assert!(card.is_null);
//! assert_eq!(columns.len(), 1);
//! assert_eq!(columns[0].name_in(reply)?, "DOOR");
//! assert_eq!(columns[0].db2_type, Db2Type::Char(4));
//! assert_eq!(widest_row(&columns)?, 4);
//!
//! let refusal = describe(&[]).unwrap_err();
//! assert_eq!(refusal, Refusal::EmptyReply);
//! assert_eq!(refusal.to_string(), "the reply is empty");
//! # Ok::<(), Refusal>(())
//! ```
#![deny(missing_docs, unsafe_code)]

mod card;
mod column;
mod refusal;
#[allow(unsafe_code)]
mod sys;
mod words;

pub use card::SqlCard;
pub use column::{Alphabet, ByteOrder, Column, Db2Type, Text};
pub use refusal::Refusal;

use sys::{COLUMN_WORDS, TEXT_WORDS};
use words::{filled, with_words};

/// The code point of a SQLDARD reply.
pub const SQLDARD: u16 = 0x2411;

/// The longest reply that is read, in bytes.
pub const MAX_REPLY: usize = 65_536;

/// The longest list that is compared or added up, in columns.
pub const MAX_COLUMNS: usize = 4_095;

/// A described reply: the columns stand at the front of the list that was lent.
#[derive(Clone, Copy, Debug, PartialEq, Eq, Hash)]
pub struct Description {
    /// The status record.
    pub card: SqlCard,
    /// How many columns were written.
    pub count: usize,
}

/// A SQLCA at the start of a reply.
#[derive(Clone, Copy, Debug, PartialEq, Eq, Hash)]
pub struct SqlcaGroup {
    /// The status record.
    pub card: SqlCard,
    /// How many bytes the group takes.
    pub length: usize,
}

/// Describes a reply: its status, and its columns, written to the front of `columns`.
///
/// No memory is allocated where a list of up to 64 columns is lent, or the reply has fewer than 1,024 bytes.
///
/// # Errors
/// [`Refusal::ReplyTooLong`]; [`Refusal::EmptyReply`] and [`Refusal::BufferTooShort`], only where no reading gives a column;
/// [`Refusal::RoomTooShort`] with the number of columns.
pub fn parse_sqldard_data(reply: &[u8], columns: &mut [Column]) -> Result<Description, Refusal> {
    fill_columns(reply, columns, |words| {
        sys::parse_sqldard_data(reply, words)
    })
}

/// Describes a reply that came with a code point, which must be [`SQLDARD`].
///
/// # Errors
/// [`Refusal::UnexpectedCodePoint`]; then as [`parse_sqldard_data`].
pub fn parse_sqldard(
    code_point: u16,
    reply: &[u8],
    columns: &mut [Column],
) -> Result<Description, Refusal> {
    fill_columns(reply, columns, |words| {
        sys::parse_sqldard(code_point, reply, words)
    })
}

/// Describes a reply: its status and a list of its columns, as long as it needs to be.
///
/// # Errors
/// As [`parse_sqldard_data`], but there is always room.
pub fn describe(reply: &[u8]) -> Result<(SqlCard, Vec<Column>), Refusal> {
    filled(
        COLUMN_WORDS,
        usize::MAX,
        reply,
        |words| described(sys::parse_sqldard_data(reply, words)),
        |words| {
            words
                .chunks_exact(COLUMN_WORDS)
                .map(Column::from_words)
                .collect()
        },
    )
}

/// Reads the status record alone. That of an empty reply is success.
///
/// # Errors
/// [`Refusal::ReplyTooLong`], [`Refusal::InvalidSqlcard`], [`Refusal::BufferTooShort`].
pub fn parse_sqlcard_data(reply: &[u8]) -> Result<SqlCard, Refusal> {
    let answer = sys::parse_sqlcard_data(reply);
    Refusal::check(&answer.refusal)?;
    Ok(answer.card)
}

/// Reads the SQLCA at the start of a reply: the status record, and how many bytes the group takes.
///
/// # Errors
/// [`Refusal::ReplyTooLong`], [`Refusal::BufferTooShort`].
pub fn consume_sqlca_group(reply: &[u8]) -> Result<SqlcaGroup, Refusal> {
    let answer = sys::consume_sqlca_group(reply);
    Refusal::check(&answer.refusal)?;
    Ok(SqlcaGroup {
        card: answer.card,
        length: answer.length,
    })
}

/// Finds the names of columns by strings alone, for a reply whose types are unknown. They are written to the front of
/// `names`; the answer is how many.
///
/// # Errors
/// [`Refusal::ReplyTooLong`], [`Refusal::RoomTooShort`] with the number of names.
pub fn scan_column_names(reply: &[u8], names: &mut [Text]) -> Result<usize, Refusal> {
    let scan = |words: &mut [u64]| {
        let answer = sys::scan_column_names(reply, words);
        Refusal::check(&answer.refusal)?;
        Ok((answer.count, ()))
    };
    let ((), count) = filled(TEXT_WORDS, names.len(), reply, scan, |words| {
        let texts = words.chunks_exact(TEXT_WORDS);
        for (name, text) in names.iter_mut().zip(texts) {
            *name = Text::from_words(text);
        }
        words.len() / TEXT_WORDS
    })?;
    Ok(count)
}

/// A name's own bytes, a part of the reply and no copy; empty for a generated name.
///
/// # Errors
/// [`Refusal::ReplyTooLong`], [`Refusal::OutsideReply`].
pub fn name_part(reply: &[u8], name: Text) -> Result<&[u8], Refusal> {
    let answer = sys::name_part(reply, name);
    Refusal::check(&answer.refusal)?;
    Ok(&reply[answer.place..][..answer.length])
}

/// Writes the characters of a column's name to the front of `buffer`, one byte each (ISO 8859-1); those of a generated
/// one are COL and the column's number, counted from 1. The answer is how many.
///
/// # Errors
/// [`Refusal::ReplyTooLong`], [`Refusal::OutsideReply`], [`Refusal::RoomTooShort`] with the number of characters.
pub fn name_text(reply: &[u8], column: &Column, buffer: &mut [u8]) -> Result<usize, Refusal> {
    counted(sys::name_text(reply, column.number, column.name, buffer))
}

/// Writes the text of the message whose raw string is the `length` bytes of the reply from `place` on, one byte a
/// character (ISO 8859-1). The answer is how many.
///
/// # Errors
/// [`Refusal::ReplyTooLong`], [`Refusal::OutsideReply`], [`Refusal::RoomTooShort`] with the number of characters.
pub fn message_text(
    reply: &[u8],
    place: usize,
    length: usize,
    buffer: &mut [u8],
) -> Result<usize, Refusal> {
    counted(sys::message_text(reply, place, length, buffer))
}

/// Whether two lists cut a row alike, and into values of equal CCSIDs: as many columns, and column by column equal codes,
/// lengths, precisions, scales, byte orders and CCSIDs.
///
/// # Errors
/// [`Refusal::ReplyTooLong`] where either list has more than [`MAX_COLUMNS`].
pub fn same_cut(first: &[Column], second: &[Column]) -> Result<bool, Refusal> {
    let answer = with_words(first, |first| {
        with_words(second, |second| sys::same_cut(first, second))
    });
    Refusal::check(&answer.refusal)?;
    Ok(answer.same)
}

/// The sum of the lengths, twice those of `Graphic` and `VarGraphic`, which count double-byte characters; 1 more for a
/// nullable column, 2 more for one of varying length. Of a column whose length is 65,535 a reply may have said more.
///
/// # Errors
/// [`Refusal::ReplyTooLong`] for more than [`MAX_COLUMNS`]; [`Refusal::LargeObject`].
pub fn widest_row(columns: &[Column]) -> Result<usize, Refusal> {
    counted(with_words(columns, sys::widest_row))
}

fn counted(answer: sys::CountResult) -> Result<usize, Refusal> {
    Refusal::check(&answer.refusal)?;
    Ok(answer.count)
}

fn described(answer: sys::SqldardResult) -> Result<(usize, SqlCard), Refusal> {
    Refusal::check(&answer.refusal)?;
    Ok((answer.count, answer.card))
}

/// Has `parse` write words, and puts the columns that they are to the front of `columns`.
fn fill_columns(
    reply: &[u8],
    columns: &mut [Column],
    parse: impl Fn(&mut [u64]) -> sys::SqldardResult,
) -> Result<Description, Refusal> {
    let (card, count) = filled(
        COLUMN_WORDS,
        columns.len(),
        reply,
        |words| described(parse(words)),
        |words| {
            let records = words.chunks_exact(COLUMN_WORDS);
            for (column, record) in columns.iter_mut().zip(records) {
                *column = Column::from_words(record);
            }
            words.len() / COLUMN_WORDS
        },
    )?;
    Ok(Description { card, count })
}
