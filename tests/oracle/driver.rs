//! The oracle's driver: reads cases from standard input, asks the unchanged Rust, and writes
//! one line of docs/ANSWERS.md for each, for the entries D, L, P, S, s, G, N, n, M, T, U, C, W,
//! Q and R.
//!
//! Built with the Rust's private functions made public (`--cfg open`), it also speaks B, which is
//! no entry: the standard big-endian reading alone, with its refusals, printed as D.
//!
//! What is not the Rust's but this project's own:
//! - refusal 5 (over 65,536 bytes), a limit that the Rust does not have;
//! - refusal 6, the size of the lists and of the message's room that a caller lends;
//! - refusal 7, a message beyond the reply: the Rust has no entry for a message alone;
//! - T, U, Q and R whole, and of C and W all but the lists: a model of the paper (model.rs).
//!
//! What the Rust keeps to itself, and how it is asked:
//! - M: the Rust's message decoder is private, so the bytes are put into a SQLCARD as its
//!   SQLERRMSG_m, and the answer is the message that the Rust reads there. A string's length
//!   has 16 bits; for 65,536 bytes, the only length above them that a reply allows,
//!   `longest_text` asks more than once and joins the answers.
//! - s: the Rust does not say where a message stands. The driver walks to the strings itself
//!   (`message_strings`), asks as for M which text is not empty, and stops if that text is not
//!   the message that the Rust read from the whole reply.
//! - n: the Rust does not say where names stand. The driver finds them itself (places.rs), and
//!   stops if their texts are not the names that the Rust lists.
//!
//! A panic of the Rust gives the line `TRAP`; the one known is the overflow of the scan's score.

#[allow(dead_code)] // reads cases, writes none
mod frame;
mod model;
mod places;
mod usage;

use db2_proto::ddm::DdmObject;
use db2_proto::fdoca::ByteOrder;
use db2_proto::replies::sqlcard::{parse_sqlcard_data, SqlCard};
#[cfg(open)]
use db2_proto::replies::sqldard::parse_standard_sqldard_data;
use db2_proto::replies::sqldard::{
    consume_sqlca_group, parse_sqldard, parse_sqldard_data, scan_column_names, SqlDard,
};
use db2_proto::ProtoError;
use frame::Next;
use model::Name;
use places::Text;
use std::io::{self, BufReader, BufWriter, Write};
use std::panic::{self, AssertUnwindSafe};
use std::process::{self, ExitCode};

const LONGEST_REPLY: usize = 65_536;
const RECORDS_LENT: usize = 4_096;
const TEXTS_LENT: usize = 8_192;
const SQLDARD: u16 = 0x2411;

const HELP: &str = "\
usage: oracle

Reads cases from standard input, asks the Rust, and writes a line for each; docs/ANSWERS.md has the
form of both. target/oracle/generate makes cases. Where the Rust panics, the line is TRAP. The first
case that is none gives the line BAD, and is the last.

Needs nothing but standard input, and takes no words.

Exit status: 0 all answered, 1 a line BAD, 2 bad usage, or something could not be read or written or
was not as this program takes the Rust to be.
";

fn main() -> ExitCode {
    if let Some(end) = usage::end_at_words("oracle", HELP) {
        return end;
    }
    // A panic is an answer here (TRAP); its message would only fill the terminal.
    panic::set_hook(Box::new(|_| {}));
    match run() {
        Ok(true) => ExitCode::SUCCESS,
        Ok(false) => ExitCode::FAILURE,
        Err(error) => stop(&format!("cannot read or write: {error}")),
    }
}

/// Answers all cases; false if one was bad.
fn run() -> io::Result<bool> {
    let mut input = BufReader::with_capacity(1 << 20, io::stdin().lock());
    let mut output = BufWriter::with_capacity(1 << 20, io::stdout().lock());
    let mut payload = Vec::new();
    let mut line = Vec::new();
    loop {
        line.clear();
        let known = match frame::read(&mut input, &mut payload)? {
            Next::End => break,
            Next::Bad => false,
            Next::Case(entry) => answer(entry, &payload, &mut line),
        };
        if !known {
            output.write_all(b"BAD\n")?;
            output.flush()?;
            return Ok(false);
        }
        line.push(b'\n');
        output.write_all(&line)?;
    }
    output.flush()?;
    Ok(true)
}

/// Writes the answer to one case; false if there is no such entry, or the payload is not what it
/// takes: too little in front of the reply, or no records.
fn answer(entry: u8, payload: &[u8], line: &mut Vec<u8>) -> bool {
    match entry {
        b'D' => description(line, payload, RECORDS_LENT, || parse_sqldard_data(payload)),
        b'L' => {
            let Some((lent, reply)) = payload.split_first_chunk::<2>() else {
                return false;
            };
            let lent = usize::from(u16::from_be_bytes(*lent));
            if lent > RECORDS_LENT {
                return false;
            }
            description(line, reply, lent, || parse_sqldard_data(reply));
        }
        #[cfg(open)]
        b'B' => description(line, payload, RECORDS_LENT, || {
            parse_standard_sqldard_data(payload, ByteOrder::BigEndian)
        }),
        b'P' => {
            let Some((code_point, reply)) = payload.split_first_chunk::<2>() else {
                return false;
            };
            let code_point = u16::from_be_bytes(*code_point);
            let object = DdmObject {
                code_point,
                data: reply.to_vec(),
            };
            if code_point == SQLDARD {
                description(line, reply, RECORDS_LENT, || parse_sqldard(&object));
            } else {
                // 4 comes before 5: the length is not looked at.
                ask(
                    line,
                    || parse_sqldard(&object),
                    |line, dard| put_description(line, dard, RECORDS_LENT),
                );
            }
        }
        b'S' => limited(line, payload, |line| {
            ask(
                line,
                || parse_sqlcard_data(payload),
                |line, card| {
                    put(line, "OK");
                    put_status(line, &card);
                },
            )
        }),
        b's' => limited(line, payload, |line| {
            ask(
                line,
                || Ok(message_place(payload, &parse_sqlcard_data(payload)?)),
                |line, (place, length)| put(line, &format!("OK {place}/{length}")),
            )
        }),
        b'M' => {
            let Some((head, reply)) = payload.split_first_chunk::<10>() else {
                return false;
            };
            let [a, b, c, d, e, f, g, h, i, j] = *head;
            let place = u32::from_be_bytes([a, b, c, d]);
            let length = u32::from_be_bytes([e, f, g, h]);
            let room = u16::from_be_bytes([i, j]);
            limited(line, reply, |line| {
                message(line, reply, place, length, room)
            });
        }
        b'G' => limited(line, payload, |line| {
            ask(
                line,
                || consume_sqlca_group(payload),
                |line, (card, length)| {
                    put(line, &format!("OK g={length}"));
                    put_status(line, &card);
                },
            )
        }),
        b'N' => limited(line, payload, |line| {
            ask(line, || Ok(scan_column_names(payload)), put_names)
        }),
        b'n' => limited(line, payload, |line| {
            ask(line, || Ok(name_places(payload)), put_name_places)
        }),
        b'C' => {
            let Some((length, rest)) = payload.split_first_chunk::<4>() else {
                return false;
            };
            let length = u32::from_be_bytes(*length) as usize;
            let Some((first, second)) = rest.split_at_checked(length) else {
                return false;
            };
            ask(
                line,
                || Ok((list(first), list(second))),
                |line, (a, b)| put(line, &model::same_cut(&a, &b)),
            );
        }
        b'W' => ask(
            line,
            || Ok(list(payload)),
            |line, list| put(line, &model::widest_row(&list)),
        ),
        _ => return model_answer(entry, payload, line).is_some(),
    }
    true
}

/// The same for the entries that the Rust is not asked.
fn model_answer(entry: u8, payload: &[u8], line: &mut Vec<u8>) -> Option<()> {
    match entry {
        b'T' => {
            let (name, rest) = Name::read(payload)?;
            let (room, reply) = rest.split_first_chunk::<2>()?;
            match name.text(reply, u16::from_be_bytes(*room)) {
                Err(refusal) => put(line, &refusal),
                Ok(text) => {
                    put(line, "OK ");
                    put_text(line, &text);
                }
            }
        }
        b'U' => {
            let (name, reply) = Name::read(payload)?;
            put(line, &name.part(reply));
        }
        b'Q' => {
            let (a, b) = model::two_lists(payload)?;
            put(line, &model::same_cut(&a, &b));
        }
        b'R' => put(line, &model::widest_row(&model::records(payload)?)),
        _ => return None,
    }
    Some(())
}

/// The list that D gives for a reply, none where it refuses.
fn list(reply: &[u8]) -> Vec<model::Column> {
    if reply.len() > LONGEST_REPLY {
        return Vec::new();
    }
    match parse_sqldard_data(reply) {
        Ok(dard) => dard.columns.iter().map(model::Column::of_rust).collect(),
        Err(_) => Vec::new(),
    }
}

/// The list that `read` gives, or refusal 6 if it is longer than the `lent` records.
fn description(
    line: &mut Vec<u8>,
    reply: &[u8],
    lent: usize,
    read: impl FnOnce() -> Result<SqlDard, ProtoError>,
) {
    limited(line, reply, |line| {
        ask(line, read, |line, dard| put_description(line, dard, lent))
    });
}

/// The project's own limit, which the Rust does not have.
fn limited(line: &mut Vec<u8>, reply: &[u8], read: impl FnOnce(&mut Vec<u8>)) {
    if reply.len() > LONGEST_REPLY {
        put(line, "E5");
    } else {
        read(line);
    }
}

/// M: the text of `length` bytes from `place` on, if there is room for its characters.
fn message(line: &mut Vec<u8>, reply: &[u8], place: u32, length: u32, room: u16) {
    let end = u64::from(place) + u64::from(length);
    if end > reply.len() as u64 {
        return put(line, "E7");
    }
    let bytes = &reply[place as usize..end as usize];
    ask(
        line,
        || Ok(message_text(bytes)),
        |line, text| {
            let needed = text.chars().count();
            if needed > usize::from(room) {
                return put(line, &format!("E6 {needed}"));
            }
            put(line, "OK ");
            put_text(line, &text);
        },
    );
}

/// The text that the Rust makes of a message: it stands as SQLERRMSG_m in a SQLCARD of zeros
/// with its extension whole and the other two strings empty.
fn message_text(bytes: &[u8]) -> String {
    let Ok(length) = u16::try_from(bytes.len()) else {
        return longest_text(bytes);
    };
    let mut card = vec![0; 56]; // to the end of SQLRDBNAME, which is empty
    card.extend_from_slice(&length.to_be_bytes());
    card.extend_from_slice(bytes);
    card.extend_from_slice(&[0, 0]); // SQLERRMSG_s, empty
    match parse_sqlcard_data(&card) {
        Ok(card) => card.sqlerrmc,
        Err(error) => stop(&format!("the Rust refused the card for a message: {error}")),
    }
}

/// The text of 65,536 bytes, one more than a string's length can say. The alphabet is the one
/// that the Rust takes for other bytes of the same share of printables. Then the Rust is asked
/// for one piece after the other, each between marks that make it take that alphabet: four
/// marks to a byte are 80 percent by themselves if printable, and at most 20 are left if not.
/// Counting, and joining the parts, is done here.
fn longest_text(bytes: &[u8]) -> String {
    const PIECE: usize = 8_192;
    let counted = bytes.iter().filter(|byte| !matches!(**byte, 0x00 | 0xFF));
    let printable = bytes.iter().filter(|byte| (0x20..=0x7E).contains(*byte));
    let mark = if takes_ascii(printable.count(), counted.count()) {
        b'x'
    } else {
        0xA7 // x in page 037
    };
    let marks = vec![mark; 2 * PIECE];
    let read_marks = "x".repeat(2 * PIECE);
    let mut text = String::new();
    for piece in bytes.chunks(PIECE) {
        let marked = message_text(&[&marks, piece, &marks].concat());
        let part = marked.strip_prefix(&read_marks);
        let Some(part) = part.and_then(|part| part.strip_suffix(&read_marks)) else {
            stop("the marks around a piece of a message were not read as such");
        };
        // A blank that ends one part and one that starts the next are a single one.
        let seam = if text.ends_with(' ') { " " } else { "" };
        text.push_str(part.strip_prefix(seam).unwrap_or(part));
    }
    text.trim_matches(' ').to_string()
}

/// Whether the Rust takes ASCII where `printable` of the `counted` bytes (all but 00 and FF) are
/// printable, up to 65,536. It is asked for bytes of that share; where it cannot be, because
/// 65,536 cannot be halved along with an odd number, for one share below and one above it.
fn takes_ascii(printable: usize, counted: usize) -> bool {
    let takes = |printable: usize, counted: usize| {
        let mut bytes = vec![b'x'; printable]; // another character in page 037
        bytes.resize(counted, 0x01);
        message_text(&bytes).starts_with('x')
    };
    if counted <= usize::from(u16::MAX) {
        return takes(printable, counted);
    }
    if printable % 2 == 0 {
        return takes(printable / 2, counted / 2);
    }
    let below = takes(printable - 1, counted - 1);
    let above = takes(printable, counted - 1);
    if below != above {
        stop(&format!("no alphabet for {printable} of {counted} bytes"));
    }
    below
}

/// Place and length of the first raw string, m then s, whose text is not empty; else 0, 0.
fn message_place(reply: &[u8], card: &SqlCard) -> (usize, usize) {
    for (place, length) in message_strings(reply) {
        let text = message_text(&reply[place..place + length]);
        if !text.is_empty() {
            if text != card.sqlerrmc {
                stop("the message found is not the one that the Rust read");
            }
            return (place, length);
        }
    }
    if !card.sqlerrmc.is_empty() {
        stop("no message was found, but the Rust read one");
    }
    (0, 0)
}

/// Place and length of SQLERRMSG_m and SQLERRMSG_s in a reply that the Rust accepted; none where
/// the card is null or its extension absent.
fn message_strings(reply: &[u8]) -> Vec<(usize, usize)> {
    const EXTENSION_FLAG: usize = 18;
    const NUMBERS_END: usize = 19 + 24;
    const WARNINGS_END: usize = NUMBERS_END + 11;
    if reply.first().is_none_or(|flag| *flag == 0xFF)
        || reply.get(EXTENSION_FLAG).is_none_or(|flag| *flag == 0xFF)
        || reply.len() < NUMBERS_END
    {
        return Vec::new();
    }
    let mut at = if reply.len() >= WARNINGS_END {
        WARNINGS_END
    } else {
        NUMBERS_END
    };
    let mut strings = Vec::new();
    for _ in 0..3 {
        let string = reply.get(at..).and_then(|rest| {
            let (length, rest) = rest.split_first_chunk::<2>()?;
            let length = usize::from(u16::from_be_bytes(*length));
            (length <= rest.len()).then_some((at + 2, length))
        });
        let Some((place, length)) = string else {
            stop("a string ends early in a reply that the Rust accepted");
        };
        strings.push((place, length));
        at = place + length;
    }
    strings.split_off(1) // the first is SQLRDBNAME
}

/// Where the names that the Rust lists stand.
fn name_places(reply: &[u8]) -> Vec<Text> {
    let places = places::names(reply);
    let found: Vec<String> = places.iter().map(|text| text.characters(reply)).collect();
    if found != scan_column_names(reply) {
        stop("the names found are not those that the Rust lists");
    }
    places
}

/// Asks the Rust and writes what it gives, its refusal, or TRAP.
fn ask<T>(
    line: &mut Vec<u8>,
    read: impl FnOnce() -> Result<T, ProtoError>,
    show: impl FnOnce(&mut Vec<u8>, T),
) {
    match panic::catch_unwind(AssertUnwindSafe(read)) {
        Ok(Ok(value)) => show(line, value),
        Ok(Err(error)) => put_refusal(line, &error),
        Err(_) => put(line, "TRAP"),
    }
}

fn put_refusal(line: &mut Vec<u8>, error: &ProtoError) {
    let text = match error {
        ProtoError::Other(reason) if reason == "empty SQLDARD data" => "E1".into(),
        ProtoError::BufferTooShort { expected, actual } => format!("E2 {expected} {actual}"),
        ProtoError::InvalidSqlcard(_) => "E3".into(),
        ProtoError::UnexpectedReply { actual, .. } => format!("E4 {actual}"),
        error => stop(&format!("a refusal that the paper does not name: {error}")),
    };
    put(line, &text);
}

fn put_description(line: &mut Vec<u8>, dard: SqlDard, lent: usize) {
    if dard.columns.len() > lent {
        return put(line, &format!("E6 {}", dard.columns.len()));
    }
    put(line, &format!("OK n={}", dard.num_columns));
    put_status(line, &dard.sqlcard);
    for column in &dard.columns {
        put(line, &format!(" C {} ", column.index));
        put_text(line, &column.name);
        line.push(b' ');
        let kind = format!("{:?}", column.db2_type);
        line.extend(kind.bytes().filter(|byte| *byte != b' '));
        let order = match column.byte_order {
            ByteOrder::BigEndian => "BE",
            ByteOrder::LittleEndian => "LE",
        };
        let numbers = format!(
            " {} {} {} {} {} {} {order}",
            column.drda_type,
            column.length,
            u8::from(column.nullable),
            column.precision,
            column.scale,
            column.ccsid,
        );
        put(line, &numbers);
        for text in [&column.base_table_name, &column.schema_name, &column.label] {
            line.push(b' ');
            put_text(line, text);
        }
    }
}

fn put_names(line: &mut Vec<u8>, names: Vec<String>) {
    if names.len() > TEXTS_LENT {
        return put(line, &format!("E6 {}", names.len()));
    }
    put(line, &format!("OK n={}", names.len()));
    for name in &names {
        line.push(b' ');
        put_text(line, name);
    }
}

fn put_name_places(line: &mut Vec<u8>, names: Vec<Text>) {
    if names.len() > TEXTS_LENT {
        return put(line, &format!("E6 {}", names.len()));
    }
    put(line, &format!("OK n={}", names.len()));
    for name in &names {
        let place = format!(" {}/{}/{}", name.place, name.length, name.alphabet);
        put(line, &place);
    }
}

fn put_status(line: &mut Vec<u8>, card: &SqlCard) {
    put(
        line,
        &format!(" st={},{},", u8::from(card.is_null), card.sqlcode),
    );
    put_text(line, &card.sqlstate);
    line.push(b',');
    put_text(line, &card.sqlerrproc);
    let [a, b, c, d, e, f] = card.sqlerrd;
    put(
        line,
        &format!(
            ",{a}/{b}/{c}/{d}/{e}/{f},{},{},",
            card.rows_fetched, card.rows_updated
        ),
    );
    for byte in card.sqlwarn {
        put_hex(line, byte);
    }
    line.push(b',');
    put_text(line, &card.sqlerrmc);
}

/// The characters in hex, two digits each: all of them are below 256.
fn put_text(line: &mut Vec<u8>, text: &str) {
    if text.is_empty() {
        line.push(b'-');
    }
    for character in text.chars() {
        match u8::try_from(character) {
            Ok(byte) => put_hex(line, byte),
            Err(_) => stop(&format!("a character above 255: {character:?}")),
        }
    }
}

fn put_hex(line: &mut Vec<u8>, byte: u8) {
    const DIGITS: &[u8; 16] = b"0123456789abcdef";
    line.push(DIGITS[usize::from(byte >> 4)]);
    line.push(DIGITS[usize::from(byte & 15)]);
}

fn put(line: &mut Vec<u8>, text: &str) {
    line.extend_from_slice(text.as_bytes());
}

/// Ends the program, as no answer would be true.
fn stop(reason: &str) -> ! {
    eprintln!("oracle: {reason}");
    process::exit(2)
}
