//! Cuts a row of bytes by the columns that a reply describes, and prints a line `NAME: value` for each.
//!
//!     cargo run --example cut_row [-- --help]
//!
//! The reply is tests/replies/luggage.bin; the row is made up here. In a row, a nullable column has a byte in front, FF for a missing
//! value and 00 otherwise; a value of varying length has its length in two bytes, big-endian; every other value takes the column's length.
//! Lengths of Graphic and VarGraphic, in the list and in the row, count double-byte characters: a value has two bytes for each.

use jigshard::{describe, Alphabet, ByteOrder, Column, Db2Type, Refusal, Text};
use std::error::Error;
use std::fmt;
use std::process::ExitCode;

const HELP: &str = "\
usage: cut_row

Cuts a made-up row by the columns that tests/replies/luggage.bin describes, and prints a line
'NAME: value' for each column. Takes no words.

Exit status: 0 cut, 1 the reply cannot be read or the row cannot be cut, 2 bad usage.
";

/// Why a row cannot be cut.
#[derive(Debug, PartialEq)]
pub enum RowError {
    /// The reply is refused.
    Refused(Refusal),
    /// The row ends before the named column does.
    EndsEarly {
        name: String,
        needed: usize,
        left: usize,
    },
    /// Bytes are left behind the last column.
    BytesLeft(usize),
    /// The named column's bytes are no value of its type.
    NoValue { name: String, bytes: Vec<u8> },
}

impl fmt::Display for RowError {
    fn fmt(&self, f: &mut fmt::Formatter<'_>) -> fmt::Result {
        match self {
            RowError::Refused(refusal) => write!(f, "the reply is refused: {refusal}"),
            RowError::EndsEarly { name, needed, left } => write!(
                f,
                "the row ends early: {name} needs {needed} bytes, {left} are left"
            ),
            RowError::BytesLeft(count) => {
                write!(
                    f,
                    "the row is too long: {count} bytes behind the last column"
                )
            }
            RowError::NoValue { name, bytes } => write!(f, "{name}: no value: {bytes:02X?}"),
        }
    }
}

impl Error for RowError {}

impl From<Refusal> for RowError {
    fn from(refusal: Refusal) -> Self {
        RowError::Refused(refusal)
    }
}

/// Takes the next bytes of the row for the named column.
fn take<'a>(row: &mut &'a [u8], count: usize, name: &str) -> Result<&'a [u8], RowError> {
    if row.len() < count {
        return Err(RowError::EndsEarly {
            name: name.into(),
            needed: count,
            left: row.len(),
        });
    }
    let (front, rest) = row.split_at(count);
    *row = rest;
    Ok(front)
}

/// The bytes of a column's value; `None` where it is missing.
fn cut<'a>(row: &mut &'a [u8], column: &Column, name: &str) -> Result<Option<&'a [u8]>, RowError> {
    let no_value = |bytes: &[u8]| RowError::NoValue {
        name: name.into(),
        bytes: bytes.into(),
    };
    if column.nullable {
        match take(row, 1, name)? {
            [0x00] => {}
            [0xFF] => return Ok(None),
            other => return Err(no_value(other)),
        }
    }
    let mut length = usize::from(column.length);
    let unit = if column.db2_type.is_graphic() { 2 } else { 1 };
    if column.db2_type.is_varying() {
        let prefix = take(row, 2, name)?;
        let there = usize::from(u16::from_be_bytes([prefix[0], prefix[1]]));
        if length < there {
            return Err(no_value(prefix));
        }
        length = there;
    }
    take(row, unit * length, name).map(Some)
}

/// Characters: page 037 for CCSID 37, else UTF-8, of which ASCII is a part. Blanks at the end are padding.
fn text(ccsid: u16, bytes: &[u8]) -> Result<String, Refusal> {
    let characters = match ccsid {
        37 => Text {
            place: 0,
            length: bytes.len(),
            alphabet: Alphabet::PAGE_037,
        }
        .decode(bytes)?,
        _ => String::from_utf8_lossy(bytes).into_owned(),
    };
    Ok(characters.trim_end().into())
}

/// Double-byte characters: UTF-16 for CCSID 1200 in big-endian order. `None` for others, which this example does not read.
fn graphic(column: &Column, bytes: &[u8]) -> Option<String> {
    if (column.ccsid, column.byte_order) != (1200, ByteOrder::BigEndian) {
        return None;
    }
    let units: Vec<u16> = bytes
        .chunks_exact(2)
        .map(|pair| u16::from_be_bytes([pair[0], pair[1]]))
        .collect();
    Some(String::from_utf16_lossy(&units).trim_end().into())
}

/// A signed number.
fn number(order: ByteOrder, bytes: &[u8]) -> i64 {
    let mut bytes = bytes.to_vec();
    if order == ByteOrder::LittleEndian {
        bytes.reverse();
    }
    let sign = match bytes.first() {
        Some(0x80..) => -1,
        _ => 0,
    };
    bytes
        .iter()
        .fold(sign, |value, byte| value << 8 | i64::from(*byte))
}

/// A packed decimal number: a digit in each half byte, the sign in the last. `None` where a half byte is neither.
fn decimal(scale: u8, bytes: &[u8]) -> Option<String> {
    let mut halves: Vec<u8> = bytes
        .iter()
        .flat_map(|byte| [byte >> 4, byte & 15])
        .collect();
    let sign = match halves.pop()? {
        0xB | 0xD => "-",
        0xA | 0xC | 0xE | 0xF => "",
        _ => return None,
    };
    if halves.iter().any(|half| *half > 9) {
        return None;
    }
    let digits: String = halves.iter().map(|half| char::from(b'0' + half)).collect();
    let (whole, fraction) = digits.split_at(digits.len().checked_sub(usize::from(scale))?);
    let whole = match whole.trim_start_matches('0') {
        "" => "0",
        whole => whole,
    };
    let point = if fraction.is_empty() { "" } else { "." };
    Some(format!("{sign}{whole}{point}{fraction}"))
}

/// A value in words, by the column's type; bytes in hex for the types that this example does not read.
fn value(column: &Column, bytes: &[u8], name: &str) -> Result<String, RowError> {
    match column.db2_type {
        Db2Type::Char(_) | Db2Type::VarChar(_) | Db2Type::Timestamp => {
            Ok(text(column.ccsid, bytes)?)
        }
        Db2Type::Graphic(_) | Db2Type::VarGraphic(_) => {
            Ok(graphic(column, bytes).unwrap_or_else(|| format!("{bytes:02X?}")))
        }
        Db2Type::SmallInt | Db2Type::Integer => Ok(number(column.byte_order, bytes).to_string()),
        Db2Type::Decimal { scale, .. } => decimal(scale, bytes).ok_or_else(|| RowError::NoValue {
            name: name.into(),
            bytes: bytes.into(),
        }),
        _ => Ok(format!("{bytes:02X?}")),
    }
}

/// The names and values of a row, by the columns that the reply describes.
pub fn cut_row(reply: &[u8], mut row: &[u8]) -> Result<Vec<(String, String)>, RowError> {
    let (_, columns) = describe(reply)?;
    let mut values = Vec::new();
    for column in &columns {
        let name = column.name_in(reply)?;
        let shown = match cut(&mut row, column, &name)? {
            Some(bytes) => value(column, bytes, &name)?,
            None => "missing".into(),
        };
        values.push((name, shown));
    }
    if !row.is_empty() {
        return Err(RowError::BytesLeft(row.len()));
    }
    Ok(values)
}

/// A row of tests/replies/luggage.bin.
pub fn luggage_row() -> Vec<u8> {
    let mut row = Vec::new();
    row.extend(b"BAG0004711");
    row.extend([0, 12]);
    row.extend(b"Ada Lovelace");
    row.extend(b"LH 400");
    row.extend(2i16.to_be_bytes());
    row.extend([0x00, 0x23, 0x5C]);
    row.extend([0x00, 0x00, 0x00, 0x04, 0x59, 0x9D]);
    row.extend(117i32.to_be_bytes());
    row.extend(b"2026-03-21-09.15.00.000000");
    row
}

fn print_row() -> Result<(), Box<dyn Error>> {
    let path = concat!(
        env!("CARGO_MANIFEST_DIR"),
        "/../../tests/replies/luggage.bin"
    );
    let reply = std::fs::read(path)?;
    for (name, value) in cut_row(&reply, &luggage_row())? {
        println!("{name}: {value}");
    }
    Ok(())
}

fn main() -> ExitCode {
    let words: Vec<String> = std::env::args().skip(1).collect();
    if words.iter().any(|word| word == "-h" || word == "--help") {
        print!("{HELP}");
        return ExitCode::SUCCESS;
    }
    if !words.is_empty() {
        let words = words.join(" ");
        eprintln!("cut_row: unknown word: {words}; 'cut_row --help' says what there is");
        return ExitCode::from(2);
    }
    if let Err(error) = print_row() {
        eprintln!("cut_row: {error}");
        return ExitCode::FAILURE;
    }
    ExitCode::SUCCESS
}
