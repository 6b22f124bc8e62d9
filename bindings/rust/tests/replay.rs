//! Replays the stored cases of the program `answers`, crates/answers/stdin, through this crate, and compares each line with the
//! stored one, which the Rust answered. docs/ANSWERS.md says how both files are laid out.

use jigshard::{
    consume_sqlca_group, message_text, name_part, name_text, parse_sqlcard_data, parse_sqldard,
    parse_sqldard_data, same_cut, scan_column_names, widest_row, Alphabet, ByteOrder, Column,
    Db2Type, Description, Refusal, SqlCard, Text,
};
use std::fmt::Write;
use std::fs;
use std::path::Path;

/// What `answers` lends: columns to a description, texts to a name scan.
const COLUMNS: usize = 4096;
const TEXTS: usize = 8192;

/// Bytes of a record in a payload.
const RECORD: usize = 50;

/// What is lent is marked, so that a change past what is answered shows.
const MARKED_BYTE: u8 = 0xAA;
const MARKED_TEXT: Text = Text {
    place: 1 << 40,
    length: 1 << 40,
    alphabet: Alphabet(77),
};

/// A payload, read from the front.
struct Payload<'a>(&'a [u8]);

impl<'a> Payload<'a> {
    fn bytes(&mut self, count: usize) -> &'a [u8] {
        let (front, rest) = self.0.split_at(count);
        self.0 = rest;
        front
    }

    /// A big-endian number.
    fn number(&mut self, bytes: usize) -> usize {
        self.bytes(bytes)
            .iter()
            .fold(0, |value, byte| value << 8 | usize::from(*byte))
    }

    fn byte(&mut self) -> u8 {
        self.bytes(1)[0]
    }

    fn short(&mut self) -> u16 {
        self.number(2) as u16
    }

    fn text(&mut self) -> Text {
        Text {
            place: self.number(4),
            length: self.number(4),
            alphabet: Alphabet(self.byte()),
        }
    }

    fn record(&mut self) -> Column {
        let number = self.short();
        let code = self.byte();
        let value = self.short();
        Column {
            number,
            db2_type: Db2Type::from_code(code, value).expect("a type"),
            drda_type: self.byte(),
            length: self.short(),
            nullable: self.byte() == 1,
            precision: self.byte(),
            scale: self.byte(),
            ccsid: self.short(),
            byte_order: match self.byte() {
                0 => ByteOrder::BigEndian,
                _ => ByteOrder::LittleEndian,
            },
            name: self.text(),
            label: self.text(),
            base_table_name: self.text(),
            schema_name: self.text(),
        }
    }

    fn records(&mut self, count: usize) -> Vec<Column> {
        (0..count).map(|_| self.record()).collect()
    }
}

/// Characters in hex, `-` where there are none.
fn hex(characters: impl IntoIterator<Item = u8>) -> String {
    let mut out = String::new();
    for character in characters {
        write!(out, "{character:02x}").unwrap();
    }
    if out.is_empty() {
        out.push('-');
    }
    out
}

fn hex_of(text: &str) -> String {
    hex(text
        .chars()
        .map(|c| u8::try_from(u32::from(c)).expect("a character below 256")))
}

fn places(text: Text) -> String {
    format!("{}/{}/{}", text.place, text.length, text.alphabet.0)
}

fn refusal(refusal: Refusal) -> String {
    let number = refusal.number();
    match refusal {
        Refusal::BufferTooShort { expected, actual } => format!("E{number} {expected} {actual}"),
        Refusal::UnexpectedCodePoint(code_point) => format!("E{number} {code_point}"),
        Refusal::RoomTooShort { needed } => format!("E{number} {needed}"),
        Refusal::LargeObject { number: column } => format!("E{number} {column}"),
        _ => format!("E{number}"),
    }
}

fn status(reply: &[u8], card: &SqlCard) -> Result<String, Refusal> {
    let numbers: Vec<String> = card.sqlerrd.iter().map(i32::to_string).collect();
    Ok(format!(
        " st={},{},{},{},{},{},{},{},{}",
        u8::from(card.is_null),
        card.sqlcode,
        hex(card.sqlstate),
        hex_of(&card.procedure()),
        numbers.join("/"),
        card.rows_fetched,
        card.rows_updated,
        hex(card.sqlwarn),
        hex_of(&card.message_in(reply)?),
    ))
}

fn column(reply: &[u8], column: &Column) -> Result<String, Refusal> {
    let order = match column.byte_order {
        ByteOrder::BigEndian => "BE",
        ByteOrder::LittleEndian => "LE",
    };
    Ok(format!(
        " C {} {} {} {} {} {} {} {} {} {order} {} {} {}",
        column.number,
        hex_of(&column.name_in(reply)?),
        format!("{:?}", column.db2_type).replace(' ', ""),
        column.drda_type,
        column.length,
        u8::from(column.nullable),
        column.precision,
        column.scale,
        column.ccsid,
        hex_of(&column.base_table_name.decode(reply)?),
        hex_of(&column.schema_name.decode(reply)?),
        hex_of(&column.label.decode(reply)?),
    ))
}

/// A column that no reply has.
fn marked_column() -> Column {
    Column {
        number: 54321,
        name: MARKED_TEXT,
        ..Column::default()
    }
}

/// Answers by a list of `room` columns, which must be as it was past the count.
fn described<T>(
    room: usize,
    parse: impl FnOnce(&mut [Column]) -> Result<Description, Refusal>,
    answer: impl FnOnce(&SqlCard, &[Column]) -> Result<T, Refusal>,
) -> Result<T, Refusal> {
    let mut columns = vec![marked_column(); room];
    let result = parse(&mut columns);
    let count = result.map_or(0, |description| description.count);
    let (written, rest) = columns.split_at(count);
    assert!(
        rest.iter().all(|column| *column == marked_column()),
        "TOUCHED"
    );
    answer(&result?.card, written)
}

fn description_line(
    reply: &[u8],
    room: usize,
    parse: impl FnOnce(&mut [Column]) -> Result<Description, Refusal>,
) -> Result<String, Refusal> {
    described(room, parse, |card, columns| {
        let mut line = format!("OK n={}{}", columns.len(), status(reply, card)?);
        for each in columns {
            line += &column(reply, each)?;
        }
        Ok(line)
    })
}

fn text_places(reply: &[u8]) -> Result<String, Refusal> {
    let parse = |columns: &mut [Column]| parse_sqldard_data(reply, columns);
    described(COLUMNS, parse, |_, columns| {
        let mut line = format!("OK n={}", columns.len());
        for each in columns {
            for text in [
                each.name,
                each.label,
                each.base_table_name,
                each.schema_name,
            ] {
                line += &format!(" {}", places(text));
            }
        }
        Ok(line)
    })
}

/// The list that a reply describes; an empty one where it is refused.
fn list(reply: &[u8]) -> Vec<Column> {
    let parse = |columns: &mut [Column]| parse_sqldard_data(reply, columns);
    described(COLUMNS, parse, |_, columns| Ok(columns.to_vec())).unwrap_or_default()
}

fn names(reply: &[u8], show: impl Fn(Text) -> Result<String, Refusal>) -> Result<String, Refusal> {
    let mut names = vec![MARKED_TEXT; TEXTS];
    let result = scan_column_names(reply, &mut names);
    let (written, rest) = names.split_at(result.unwrap_or(0));
    assert!(rest.iter().all(|name| *name == MARKED_TEXT), "TOUCHED");
    let mut line = format!("OK n={}", result?);
    for name in written {
        line += &format!(" {}", show(*name)?);
    }
    Ok(line)
}

/// The line of a text that `write` puts into a buffer of `room` bytes.
fn written(
    room: usize,
    write: impl FnOnce(&mut [u8]) -> Result<usize, Refusal>,
) -> Result<String, Refusal> {
    let mut buffer = vec![MARKED_BYTE; room];
    let result = write(&mut buffer);
    let (text, rest) = buffer.split_at(result.unwrap_or(0));
    assert!(rest.iter().all(|byte| *byte == MARKED_BYTE), "TOUCHED");
    result?;
    Ok(format!("OK {}", hex(text.iter().copied())))
}

/// The part's place is told by where its bytes are.
fn part(reply: &[u8], name: Text) -> Result<String, Refusal> {
    let part = name_part(reply, name)?;
    if part.is_empty() {
        return Ok("OK 0/0".into());
    }
    let place = part.as_ptr() as usize - reply.as_ptr() as usize;
    assert_eq!(&reply[place..place + part.len()], part);
    Ok(format!("OK {place}/{}", part.len()))
}

fn named(payload: &mut Payload) -> Column {
    let number = payload.short();
    Column {
        number,
        name: payload.text(),
        ..Column::default()
    }
}

fn cut(first: &[Column], second: &[Column]) -> Result<String, Refusal> {
    Ok(format!("OK {}", u8::from(same_cut(first, second)?)))
}

fn width(columns: &[Column]) -> Result<String, Refusal> {
    Ok(format!("OK {}", widest_row(columns)?))
}

/// The line of an entry that describes a reply.
fn description_answer(entry: u8, mut payload: Payload) -> Result<String, Refusal> {
    match entry {
        b'L' => {
            let room = payload.number(2);
            let reply = payload.0;
            description_line(reply, room, |columns| parse_sqldard_data(reply, columns))
        }
        b'P' => {
            let code_point = payload.short();
            let reply = payload.0;
            description_line(reply, COLUMNS, |columns| {
                parse_sqldard(code_point, reply, columns)
            })
        }
        _ => {
            let reply = payload.0;
            description_line(reply, COLUMNS, |columns| parse_sqldard_data(reply, columns))
        }
    }
}

/// The line of an entry that gives a text or a part.
fn text_answer(entry: u8, mut payload: Payload) -> Result<String, Refusal> {
    if entry == b'M' {
        let (place, length) = (payload.number(4), payload.number(4));
        let room = payload.number(2);
        return written(room, |buffer| {
            message_text(payload.0, place, length, buffer)
        });
    }
    let column = named(&mut payload);
    if entry == b'U' {
        return part(payload.0, column.name);
    }
    let room = payload.number(2);
    written(room, |buffer| name_text(payload.0, &column, buffer))
}

/// The line of an entry that asks of lists.
fn list_answer(entry: u8, mut payload: Payload) -> Result<String, Refusal> {
    match entry {
        b'C' => {
            let length = payload.number(4);
            let first = payload.bytes(length);
            cut(&list(first), &list(payload.0))
        }
        b'W' => width(&list(payload.0)),
        b'Q' => {
            let count = payload.number(2);
            let first = payload.records(count);
            let count = payload.number(2);
            cut(&first, &payload.records(count))
        }
        _ => {
            let count = payload.0.len() / RECORD;
            width(&payload.records(count))
        }
    }
}

/// The line of a case.
fn answer(entry: u8, payload: &[u8]) -> Result<String, Refusal> {
    match entry {
        b'D' | b'L' | b'P' => description_answer(entry, Payload(payload)),
        b'd' => text_places(payload),
        b'S' => {
            let card = parse_sqlcard_data(payload)?;
            Ok(format!("OK{}", status(payload, &card)?))
        }
        b's' => {
            let card = parse_sqlcard_data(payload)?;
            Ok(format!("OK {}/{}", card.message_place, card.message_length))
        }
        b'G' => {
            let group = consume_sqlca_group(payload)?;
            let status = status(payload, &group.card)?;
            Ok(format!("OK g={}{status}", group.length))
        }
        b'N' => names(payload, |name| Ok(hex_of(&name.decode(payload)?))),
        b'n' => names(payload, |name| Ok(places(name))),
        b'T' | b'U' | b'M' => text_answer(entry, Payload(payload)),
        b'C' | b'W' | b'Q' | b'R' => list_answer(entry, Payload(payload)),
        other => panic!("no entry {:?}", char::from(other)),
    }
}

fn stored(name: &str) -> Vec<u8> {
    let path = Path::new(env!("CARGO_MANIFEST_DIR"))
        .join("../../crates/answers")
        .join(name);
    fs::read(&path).unwrap_or_else(|error| panic!("{}: {error}", path.display()))
}

#[test]
fn stored_answers() {
    let input = stored("stdin");
    let lines = String::from_utf8(stored("stdout")).expect("lines of text");
    let mut lines = lines.lines();
    let mut cases = Payload(&input);
    let mut count = 0;
    while !cases.0.is_empty() {
        let entry = cases.byte();
        let length = cases.number(4);
        let payload = cases.bytes(length);
        let expected = lines.next().expect("a line for each case");
        let line = answer(entry, payload).unwrap_or_else(refusal);
        assert!(
            line == expected,
            "case {count} (counted from 0) differs\nentry    {}\npayload  {}\nstored   {expected}\nanswered {line}",
            char::from(entry),
            hex(payload.iter().copied()),
        );
        count += 1;
    }
    assert_eq!(lines.next(), None, "a case for each line");
    assert!(
        count > 10_000,
        "only {count} cases: the stored sample is not whole"
    );
}
