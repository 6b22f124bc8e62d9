//! Answers that the Rust has no function for: name part, name text, same cut and widest row, by
//! documents 01 (Answers, Numbers of refusal) and 02 (T-02, T-05). Written for the tests, from the papers
//! alone. The lists of C and W are the Rust's, and so is the character of a byte in page 037; T and
//! U take what the case says of a name, Q and R what it says of columns.

use db2_proto::codepage::ebcdic037_to_utf8;
use db2_proto::fdoca::ByteOrder;
use db2_proto::replies::sqldard::ColumnMetadata;
use db2_proto::types::Db2Type;

const LONGEST_REPLY: usize = 65_536;
const LONGEST_LIST: usize = 4_095;

/// What a case of T or U says of a column.
pub struct Name {
    number: u16,
    place: u32,
    length: u32,
    alphabet: u8,
}

impl Name {
    /// The head of the payload, and what is behind it; none if it is too short.
    pub fn read(payload: &[u8]) -> Option<(Name, &[u8])> {
        let (head, rest) = payload.split_first_chunk::<11>()?;
        let name = Name {
            number: u16::from_be_bytes([head[0], head[1]]),
            place: u32::from_be_bytes([head[2], head[3], head[4], head[5]]),
            length: u32::from_be_bytes([head[6], head[7], head[8], head[9]]),
            alphabet: head[10],
        };
        Some((name, rest))
    }

    /// The name's bytes and where they stand, or why there are none to speak of.
    fn bytes<'a>(&self, reply: &'a [u8]) -> Result<(usize, &'a [u8]), String> {
        if reply.len() > LONGEST_REPLY {
            return Err("E5".into());
        }
        let end = u64::from(self.place) + u64::from(self.length);
        if self.alphabet > 2 || end > reply.len() as u64 {
            return Err("E7".into());
        }
        match self.alphabet {
            0 => Ok((0, &[])),
            _ => Ok((
                self.place as usize,
                &reply[self.place as usize..end as usize],
            )),
        }
    }

    /// U's line.
    pub fn part(&self, reply: &[u8]) -> String {
        match self.bytes(reply) {
            Err(refusal) => refusal,
            Ok((_, [])) => "OK 0/0".into(),
            Ok((place, bytes)) => format!("OK {place}/{}", bytes.len()),
        }
    }

    /// T's line but for the text, which is given back: its characters are all below 256.
    pub fn text(&self, reply: &[u8], room: u16) -> Result<String, String> {
        let (_, bytes) = self.bytes(reply)?;
        let text = match self.alphabet {
            0 => format!("COL{}", u32::from(self.number) + 1),
            1 => bytes.iter().map(|byte| char::from(*byte)).collect(),
            _ => ebcdic037_to_utf8(bytes),
        };
        match text.chars().count() {
            needed if needed > usize::from(room) => Err(format!("E6 {needed}")),
            _ => Ok(text),
        }
    }
}

/// What same cut and widest row ask of a column.
#[derive(Clone, Copy)]
pub struct Column {
    number: u16,
    /// What a value is beside its length: large, with a length before it, or neither.
    kind: Kind,
    /// Whether the length counts characters of two bytes: 02, T-02.
    double_byte: bool,
    nullable: bool,
    length: u16,
    /// Code, precision, scale, byte order and, by 02, T-05, CCSID.
    cut: (u8, u8, u8, bool, u16),
}

#[derive(Clone, Copy, PartialEq)]
enum Kind {
    Large,
    Varying,
    Fixed,
}

impl Column {
    pub fn of_rust(column: &ColumnMetadata) -> Self {
        let kind = match column.db2_type {
            Db2Type::Blob | Db2Type::Clob | Db2Type::DbClob | Db2Type::Xml => Kind::Large,
            Db2Type::VarChar(_)
            | Db2Type::VarBinary(_)
            | Db2Type::VarGraphic(_)
            | Db2Type::RowId(_) => Kind::Varying,
            _ => Kind::Fixed,
        };
        Column {
            number: column.index as u16,
            kind,
            double_byte: matches!(
                column.db2_type,
                Db2Type::Graphic(_) | Db2Type::VarGraphic(_)
            ),
            nullable: column.nullable,
            length: column.length,
            cut: (
                column.drda_type,
                column.precision,
                column.scale,
                column.byte_order == ByteOrder::BigEndian,
                column.ccsid,
            ),
        }
    }

    /// One record of Q and R; none where it is no record: a type, a flag or a byte order that
    /// there is not.
    fn read(record: &[u8; RECORD]) -> Option<Self> {
        let kind = match record[2] {
            0xC8 | 0xCA | 0xCC | 0xDC => Kind::Large,
            0x32 | 0x62 | 0x3E | 0x1E => Kind::Varying,
            0x02 | 0x04 | 0x16 | 0x0A | 0x0E | 0x0C | 0x30 | 0x60 | 0x20 | 0x22 | 0x24 | 0x3C
            | 0xBE | 0xBA => Kind::Fixed,
            _ => return None,
        };
        if record[8] > 1 || record[13] > 1 {
            return None;
        }
        Some(Column {
            number: u16::from_be_bytes([record[0], record[1]]),
            kind,
            double_byte: matches!(record[2], 0x3C | 0x3E),
            nullable: record[8] == 1,
            length: u16::from_be_bytes([record[6], record[7]]),
            cut: (
                record[5],
                record[9],
                record[10],
                record[13] == 0,
                u16::from_be_bytes([record[11], record[12]]),
            ),
        })
    }
}

const RECORD: usize = 50;

/// Records to the end of `bytes`; none if they are not that.
pub fn records(bytes: &[u8]) -> Option<Vec<Column>> {
    let (records, rest) = bytes.as_chunks::<RECORD>();
    if !rest.is_empty() {
        return None;
    }
    records.iter().map(Column::read).collect()
}

/// The two lists of Q, each behind its count; none if the payload is not that.
pub fn two_lists(payload: &[u8]) -> Option<(Vec<Column>, Vec<Column>)> {
    let (first, rest) = counted(payload)?;
    let (second, rest) = counted(rest)?;
    if !rest.is_empty() {
        return None;
    }
    Some((records(first)?, records(second)?))
}

fn counted(bytes: &[u8]) -> Option<(&[u8], &[u8])> {
    let (count, rest) = bytes.split_first_chunk::<2>()?;
    rest.split_at_checked(RECORD * usize::from(u16::from_be_bytes(*count)))
}

/// The line of C and Q.
pub fn same_cut(a: &[Column], b: &[Column]) -> String {
    if a.len() > LONGEST_LIST || b.len() > LONGEST_LIST {
        return "E5".into();
    }
    let cut = |column: &Column| (column.cut, column.length);
    let same = a.iter().map(cut).eq(b.iter().map(cut));
    format!("OK {}", u8::from(same))
}

/// The line of W and R.
pub fn widest_row(columns: &[Column]) -> String {
    if columns.len() > LONGEST_LIST {
        return "E5".into();
    }
    if let Some(large) = columns.iter().find(|column| column.kind == Kind::Large) {
        return format!("E8 {}", large.number);
    }
    let width = |column: &Column| {
        u64::from(column.length) * if column.double_byte { 2 } else { 1 }
            + u64::from(column.nullable)
            + if column.kind == Kind::Varying { 2 } else { 0 }
    };
    format!("OK {}", columns.iter().map(width).sum::<u64>())
}
