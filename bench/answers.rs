//! Whether the Rust and the library answer the same.

use crate::library::{self, Refusal, Room, SqlCard, COLUMN_WORDS, TEXT_WORDS};
use crate::Entry;
use db2_proto::codepage::ebcdic037_to_utf8;
use db2_proto::fdoca::ByteOrder;
use db2_proto::replies::sqldard::ColumnMetadata;
use db2_proto::replies::{sqlcard, sqldard};
use db2_proto::ProtoError;

/// What both answer, in a word, or in what they differ.
pub fn compare(entry: Entry, reply: &[u8], room: &mut Room) -> Result<String, String> {
    match entry {
        Entry::Description => description(reply, room),
        Entry::Names => names(reply, room),
        Entry::Status | Entry::Message => status(reply, room),
        Entry::Group => group(reply, room),
    }
}

/// Equal, or both in words.
fn equal<T: PartialEq + std::fmt::Debug>(what: &str, rust: T, ours: T) -> Result<(), String> {
    if rust == ours {
        return Ok(());
    }
    Err(format!("{what}: the Rust {rust:?}, Jigshard {ours:?}"))
}

/// The number and values of document 01 for what the Rust refuses with.
fn refused(error: &ProtoError, refusal: Refusal) -> Result<String, String> {
    let ours = [refusal.number.into(), refusal.first, refusal.second];
    let rust = match error {
        ProtoError::BufferTooShort { expected, actual } => [2, *expected, *actual],
        ProtoError::InvalidSqlcard(_) => [3, 0, 0],
        _ => [1, 0, 0],
    };
    equal("refusal", rust, ours)?;
    Ok(format!("refusal {}", refusal.number))
}

/// Characters below 256, a byte each.
fn chars(bytes: &[u8]) -> String {
    bytes.iter().map(|byte| *byte as char).collect()
}

/// The characters of a text: place, length, alphabet; `number` is that of a generated name.
fn text_of(reply: &[u8], words: &[u64], number: u64) -> String {
    let (place, length) = (words[0] as usize, words[1] as usize);
    let bytes = &reply[place..place + length];
    match words[2] {
        0 => format!("COL{}", number + 1),
        1 => chars(bytes),
        _ => ebcdic037_to_utf8(bytes),
    }
}

/// A column's first ten words. The third, the type's value, is taken as it is: it follows from the others.
fn numbers(column: &ColumnMetadata, value: u64) -> [u64; 10] {
    [
        column.index as u64,
        u64::from(column.drda_type & !1),
        value,
        column.drda_type.into(),
        column.length.into(),
        column.nullable.into(),
        column.precision.into(),
        column.scale.into(),
        column.ccsid.into(),
        u64::from(column.byte_order == ByteOrder::LittleEndian),
    ]
}

fn description(reply: &[u8], room: &mut Room) -> Result<String, String> {
    let ours = library::parse_sqldard_data(reply, room);
    let rust = match sqldard::parse_sqldard_data(reply) {
        Ok(rust) => rust,
        Err(error) => return refused(&error, ours.refusal),
    };
    equal("refusal", 0, ours.refusal.number)?;
    equal("columns", rust.columns.len(), ours.count)?;
    card(reply, &rust.sqlcard, &ours.card, room)?;
    for (place, rust) in rust.columns.iter().enumerate() {
        let words = &room.columns[place * COLUMN_WORDS..(place + 1) * COLUMN_WORDS];
        let texts = [
            &rust.name,
            &rust.label,
            &rust.base_table_name,
            &rust.schema_name,
        ];
        for (text, words) in texts.into_iter().zip(words[10..].chunks(TEXT_WORDS)) {
            equal("text", text, &text_of(reply, words, place as u64))?;
        }
        equal(
            "numbers of a column",
            &numbers(rust, words[2])[..],
            &words[..10],
        )?;
    }
    Ok(counted(ours.count, "column"))
}

fn names(reply: &[u8], room: &mut Room) -> Result<String, String> {
    let ours = library::scan_column_names(reply, room);
    let rust = sqldard::scan_column_names(reply);
    equal("refusal", 0, ours.refusal.number)?;
    equal("names", rust.len(), ours.count)?;
    for (rust, words) in rust.iter().zip(room.names.chunks(TEXT_WORDS)) {
        equal("name", rust, &text_of(reply, words, 0))?;
    }
    Ok(counted(ours.count, "name"))
}

fn card(
    reply: &[u8],
    rust: &sqlcard::SqlCard,
    ours: &SqlCard,
    room: &mut Room,
) -> Result<(), String> {
    equal("null", rust.is_null, ours.is_null)?;
    equal("SQLCODE", rust.sqlcode, ours.sqlcode)?;
    let proc = usize::from(ours.sqlerrproc_length);
    equal("SQLSTATE", &rust.sqlstate, &chars(&ours.sqlstate))?;
    equal(
        "SQLERRPROC",
        &rust.sqlerrproc,
        &chars(&ours.sqlerrproc[..proc]),
    )?;
    equal("SQLERRD", rust.sqlerrd, ours.sqlerrd)?;
    equal("rows updated", rust.rows_updated, ours.rows_updated)?;
    equal("warnings", rust.sqlwarn, ours.sqlwarn)?;
    let length = library::message_text(reply, ours.message_place, ours.message_length, room).count;
    equal("message", &rust.sqlerrmc, &chars(&room.text[..length]))
}

fn status(reply: &[u8], room: &mut Room) -> Result<String, String> {
    let ours = library::parse_sqlcard_data(reply);
    match sqlcard::parse_sqlcard_data(reply) {
        Ok(rust) => {
            equal("refusal", 0, ours.refusal.number)?;
            card(reply, &rust, &ours.card, room)?;
            Ok(format!("SQLCODE {}", rust.sqlcode))
        }
        Err(error) => refused(&error, ours.refusal),
    }
}

fn group(reply: &[u8], room: &mut Room) -> Result<String, String> {
    let ours = library::consume_sqlca_group(reply);
    match sqldard::consume_sqlca_group(reply) {
        Ok((rust, length)) => {
            equal("refusal", 0, ours.refusal.number)?;
            equal("length", length, ours.length)?;
            card(reply, &rust, &ours.card, room)?;
            Ok(format!("{length} bytes"))
        }
        Err(error) => refused(&error, ours.refusal),
    }
}

fn counted(count: usize, what: &str) -> String {
    format!("{count} {what}{}", if count == 1 { "" } else { "s" })
}
