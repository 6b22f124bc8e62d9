//! Why an entry refused.

use crate::sys;
use std::error::Error;
use std::fmt;

/// Why an entry refused. A refusal changes nothing that was lent.
#[derive(Clone, Copy, Debug, PartialEq, Eq, Hash)]
pub enum Refusal {
    /// 1: the reply has no bytes.
    EmptyReply,
    /// 2: the reply ends early.
    BufferTooShort {
        /// How many bytes were expected.
        expected: usize,
        /// How many there are.
        actual: usize,
    },
    /// 3: 1 to 18 bytes without a leading FF are no status record.
    InvalidSqlcard,
    /// 4: the code point is not [`SQLDARD`](crate::SQLDARD).
    UnexpectedCodePoint(u16),
    /// 5: the reply has more than [`MAX_REPLY`](crate::MAX_REPLY) bytes, or a list more than
    /// [`MAX_COLUMNS`](crate::MAX_COLUMNS) columns.
    ReplyTooLong,
    /// 6: the list or the buffer that was lent is too short.
    RoomTooShort {
        /// How many columns, texts or bytes are needed.
        needed: usize,
    },
    /// 7: place plus length lies beyond the reply, or there is no such alphabet.
    OutsideReply,
    /// 8: a row with a Blob, Clob, DbClob or Xml has no widest.
    LargeObject {
        /// The number of the first such column.
        number: u16,
    },
}

impl Refusal {
    /// The refusal's number in the specification.
    pub fn number(self) -> u8 {
        match self {
            Refusal::EmptyReply => 1,
            Refusal::BufferTooShort { .. } => 2,
            Refusal::InvalidSqlcard => 3,
            Refusal::UnexpectedCodePoint(_) => 4,
            Refusal::ReplyTooLong => 5,
            Refusal::RoomTooShort { .. } => 6,
            Refusal::OutsideReply => 7,
            Refusal::LargeObject { .. } => 8,
        }
    }

    /// What the library's numbers say: `None` where it accepted.
    ///
    /// The code point and the column's number were 16 bits wide before they were handed over.
    fn of(raw: &sys::Refusal) -> Option<Self> {
        match raw.number {
            0 => None,
            1 => Some(Refusal::EmptyReply),
            2 => Some(Refusal::BufferTooShort {
                expected: raw.first,
                actual: raw.second,
            }),
            3 => Some(Refusal::InvalidSqlcard),
            4 => Some(Refusal::UnexpectedCodePoint(raw.first as u16)),
            5 => Some(Refusal::ReplyTooLong),
            6 => Some(Refusal::RoomTooShort { needed: raw.first }),
            7 => Some(Refusal::OutsideReply),
            8 => Some(Refusal::LargeObject {
                number: raw.first as u16,
            }),
            // 255, words that are no columns, cannot be had: they are made of columns alone.
            other => unreachable!("the library has no refusal {other}"),
        }
    }

    /// `Ok` where the library accepted.
    pub(crate) fn check(raw: &sys::Refusal) -> Result<(), Self> {
        match Refusal::of(raw) {
            None => Ok(()),
            Some(refusal) => Err(refusal),
        }
    }
}

impl fmt::Display for Refusal {
    fn fmt(&self, f: &mut fmt::Formatter<'_>) -> fmt::Result {
        match self {
            Refusal::EmptyReply => write!(f, "the reply is empty"),
            Refusal::BufferTooShort { expected, actual } => write!(
                f,
                "the reply ends early: {expected} bytes expected, {actual} there"
            ),
            Refusal::InvalidSqlcard => write!(f, "the reply is too short for a status record"),
            Refusal::UnexpectedCodePoint(code_point) => {
                write!(
                    f,
                    "the code point is 0x{code_point:04X}, not SQLDARD's 0x2411"
                )
            }
            Refusal::ReplyTooLong => {
                write!(
                    f,
                    "the reply is over 65,536 bytes, or a list over 4,095 columns"
                )
            }
            Refusal::RoomTooShort { needed } => {
                write!(f, "what was lent is too short: {needed} needed")
            }
            Refusal::OutsideReply => write!(f, "the text does not lie in the reply"),
            Refusal::LargeObject { number } => write!(
                f,
                "column {number} is a large object, so a row has no widest"
            ),
        }
    }
}

impl Error for Refusal {}
