//! Columns: types, texts and records, and the words in which they cross the library's boundary.

use crate::sys::{self, COLUMN_WORDS, TEXT_WORDS};
use crate::{name_part, name_text, Refusal};

/// A column's type, by the name that IBM's SQLDA gives its SQLTYPE.
#[derive(Clone, Copy, Debug, PartialEq, Eq, Hash)]
pub enum Db2Type {
    /// A number of 2 bytes.
    SmallInt,
    /// A number of 4 bytes.
    Integer,
    /// A number of 8 bytes.
    BigInt,
    /// A floating-point number of 4 bytes.
    Real,
    /// A floating-point number of 8 bytes.
    Double,
    /// A packed decimal number.
    Decimal {
        /// How many digits it has.
        precision: u8,
        /// How many of them stand behind the point.
        scale: u8,
    },
    /// A decimal floating-point number, and its digits: 16 or 34.
    DecFloat(u8),
    /// Characters, and how many bytes they take.
    Char(u16),
    /// Characters of varying length, and how many bytes they can take.
    VarChar(u16),
    /// A large object of characters.
    Clob,
    /// Bytes, and how many.
    Binary(u16),
    /// Bytes of varying length, and how many they can be.
    VarBinary(u16),
    /// A large object of bytes.
    Blob,
    /// A date, 10 characters.
    Date,
    /// A time, 8 characters.
    Time,
    /// A date and a time.
    Timestamp,
    /// Characters of two bytes, and how many they are.
    Graphic(u16),
    /// Characters of two bytes, of varying length, and how many there can be.
    VarGraphic(u16),
    /// A large object of characters of two bytes.
    DbClob,
    /// A row's identifier, and how many bytes it can take.
    RowId(u16),
    /// True or false, 2 bytes.
    Boolean,
    /// An XML document.
    Xml,
}

impl Db2Type {
    /// The type code of a column of this type that is not nullable: the Rust program's that Jigshard replaces, and not the
    /// LID of DRDA's SQLDTAGRP.
    pub fn drda_type(self) -> u8 {
        match self {
            Db2Type::Integer => 0x02,
            Db2Type::SmallInt => 0x04,
            Db2Type::Real => 0x0A,
            Db2Type::Decimal { .. } => 0x0C,
            Db2Type::Double => 0x0E,
            Db2Type::BigInt => 0x16,
            Db2Type::RowId(_) => 0x1E,
            Db2Type::Date => 0x20,
            Db2Type::Time => 0x22,
            Db2Type::Timestamp => 0x24,
            Db2Type::Char(_) => 0x30,
            Db2Type::VarChar(_) => 0x32,
            Db2Type::Graphic(_) => 0x3C,
            Db2Type::VarGraphic(_) => 0x3E,
            Db2Type::Binary(_) => 0x60,
            Db2Type::VarBinary(_) => 0x62,
            Db2Type::DecFloat(_) => 0xBA,
            Db2Type::Boolean => 0xBE,
            Db2Type::Blob => 0xC8,
            Db2Type::Clob => 0xCA,
            Db2Type::DbClob => 0xCC,
            Db2Type::Xml => 0xDC,
        }
    }

    /// The type of a code without the nullable bit; `value` is its length, its digits, or precision × 256 + scale, and
    /// nothing to the types that have none. `None` where no type has the code. Of DecFloat's digits the low 8 bits count.
    pub fn from_code(code: u8, value: u16) -> Option<Self> {
        let [high, low] = value.to_be_bytes();
        let found = match code {
            0x02 => Db2Type::Integer,
            0x04 => Db2Type::SmallInt,
            0x0A => Db2Type::Real,
            0x0C => Db2Type::Decimal {
                precision: high,
                scale: low,
            },
            0x0E => Db2Type::Double,
            0x16 => Db2Type::BigInt,
            0x1E => Db2Type::RowId(value),
            0x20 => Db2Type::Date,
            0x22 => Db2Type::Time,
            0x24 => Db2Type::Timestamp,
            0x30 => Db2Type::Char(value),
            0x32 => Db2Type::VarChar(value),
            0x3C => Db2Type::Graphic(value),
            0x3E => Db2Type::VarGraphic(value),
            0x60 => Db2Type::Binary(value),
            0x62 => Db2Type::VarBinary(value),
            0xBA => Db2Type::DecFloat(low),
            0xBE => Db2Type::Boolean,
            0xC8 => Db2Type::Blob,
            0xCA => Db2Type::Clob,
            0xCC => Db2Type::DbClob,
            0xDC => Db2Type::Xml,
            _ => return None,
        };
        Some(found)
    }

    /// Whether two bytes of length stand before a value of this type in a row.
    pub fn is_varying(self) -> bool {
        matches!(
            self,
            Db2Type::VarChar(_)
                | Db2Type::VarBinary(_)
                | Db2Type::VarGraphic(_)
                | Db2Type::RowId(_)
        )
    }

    /// Whether lengths of this type count double-byte characters: a value has two bytes for each.
    pub fn is_graphic(self) -> bool {
        matches!(self, Db2Type::Graphic(_) | Db2Type::VarGraphic(_))
    }

    /// The type's own number, as [`Db2Type::from_code`] takes it; 0 where it has none.
    fn value(self) -> u16 {
        match self {
            Db2Type::Decimal { precision, scale } => u16::from_be_bytes([precision, scale]),
            Db2Type::DecFloat(digits) => u16::from(digits),
            Db2Type::Char(length)
            | Db2Type::VarChar(length)
            | Db2Type::Binary(length)
            | Db2Type::VarBinary(length)
            | Db2Type::Graphic(length)
            | Db2Type::VarGraphic(length)
            | Db2Type::RowId(length) => length,
            _ => 0,
        }
    }
}

/// The order of a number's bytes.
#[derive(Clone, Copy, Debug, Default, PartialEq, Eq, Hash)]
pub enum ByteOrder {
    /// The highest byte first.
    #[default]
    BigEndian,
    /// The lowest byte first.
    LittleEndian,
}

/// How a text's bytes become characters: a guess by the bytes, whatever the server's CCSIDs. UTF-8 with a byte from
/// 0x80 on is taken for page 037. Any number may be asked about; those without a name here are refused.
#[derive(Clone, Copy, Debug, PartialEq, Eq, Hash)]
pub struct Alphabet(pub u8);

impl Alphabet {
    /// The reply has no name for the column: it is COL and the column's number, counted from 1.
    pub const GENERATED: Alphabet = Alphabet(0);
    /// Each byte is its character: all are below 0x80.
    pub const ASCII: Alphabet = Alphabet(1);
    /// EBCDIC code page 037: a byte is 0x80 or above. Blanks at both ends are left out.
    pub const PAGE_037: Alphabet = Alphabet(2);
}

/// Where a text lies in the reply, and in which alphabet.
#[derive(Clone, Copy, Debug, PartialEq, Eq, Hash)]
pub struct Text {
    /// The position of its first byte in the reply; 0 for an empty text.
    pub place: usize,
    /// How many bytes it has; each is one character.
    pub length: usize,
    /// How its bytes become characters.
    pub alphabet: Alphabet,
}

impl Text {
    /// The text without characters.
    pub const EMPTY: Text = Text {
        place: 0,
        length: 0,
        alphabet: Alphabet::ASCII,
    };

    /// The text's characters. Those of a generated name are none: [`Column::name_in`] gives it.
    ///
    /// # Errors
    /// [`Refusal::ReplyTooLong`], [`Refusal::OutsideReply`].
    pub fn decode(self, reply: &[u8]) -> Result<String, Refusal> {
        let part = name_part(reply, self)?;
        if part.is_empty() {
            return Ok(String::new());
        }
        let mut characters = vec![0; part.len()];
        let length = sys::name_text(reply, 0, self, &mut characters);
        Refusal::check(&length.refusal)?;
        Ok(to_string(&characters))
    }

    pub(crate) fn from_words(words: &[u64]) -> Self {
        Text {
            place: words[0] as usize,
            length: words[1] as usize,
            alphabet: Alphabet(words[2] as u8),
        }
    }

    fn to_words(self) -> [u64; TEXT_WORDS] {
        [
            self.place as u64,
            self.length as u64,
            u64::from(self.alphabet.0),
        ]
    }
}

impl Default for Text {
    fn default() -> Self {
        Text::EMPTY
    }
}

/// A column of a reply.
#[derive(Clone, Copy, Debug, PartialEq, Eq, Hash)]
pub struct Column {
    /// Its number, counted from 0.
    pub number: u16,
    /// Its type.
    pub db2_type: Db2Type,
    /// Its type's code ([`Db2Type::drda_type`]), 1 more where it is nullable.
    pub drda_type: u8,
    /// How many bytes a value has, or can have where it varies; of `Graphic` and `VarGraphic` it counts double-byte
    /// characters. At most 65,535, also where the reply says more.
    pub length: u16,
    /// Whether a value may be missing: a byte in front of it says so.
    pub nullable: bool,
    /// The descriptor's precision.
    pub precision: u8,
    /// The descriptor's scale.
    pub scale: u8,
    /// The coded character set of its values.
    pub ccsid: u16,
    /// The order of bytes in which its descriptor was read.
    pub byte_order: ByteOrder,
    /// Its name.
    pub name: Text,
    /// Its label.
    pub label: Text,
    /// The name of the table that it comes from.
    pub base_table_name: Text,
    /// The name of that table's schema.
    pub schema_name: Text,
}

impl Column {
    /// The name's characters; COL and the number, counted from 1, for a generated one.
    ///
    /// # Errors
    /// [`Refusal::ReplyTooLong`], [`Refusal::OutsideReply`].
    pub fn name_in(&self, reply: &[u8]) -> Result<String, Refusal> {
        let mut short = [0; 128];
        let needed = match name_text(reply, self, &mut short) {
            Ok(length) => return Ok(to_string(&short[..length])),
            Err(Refusal::RoomTooShort { needed }) => needed,
            Err(refusal) => return Err(refusal),
        };
        let mut characters = vec![0; needed];
        let length = name_text(reply, self, &mut characters)?;
        Ok(to_string(&characters[..length]))
    }

    /// The column of words that the library wrote: each is in its field's range.
    pub(crate) fn from_words(words: &[u64]) -> Self {
        let db2_type = Db2Type::from_code(words[1] as u8, words[2] as u16)
            .unwrap_or_else(|| unreachable!("the library has no type {:#04x}", words[1]));
        Column {
            number: words[0] as u16,
            db2_type,
            drda_type: words[3] as u8,
            length: words[4] as u16,
            nullable: words[5] != 0,
            precision: words[6] as u8,
            scale: words[7] as u8,
            ccsid: words[8] as u16,
            byte_order: match words[9] {
                0 => ByteOrder::BigEndian,
                _ => ByteOrder::LittleEndian,
            },
            name: Text::from_words(&words[10..13]),
            label: Text::from_words(&words[13..16]),
            base_table_name: Text::from_words(&words[16..19]),
            schema_name: Text::from_words(&words[19..22]),
        }
    }

    pub(crate) fn put_words(&self, words: &mut [u64]) {
        let numbers: [u64; COLUMN_WORDS - 4 * TEXT_WORDS] = [
            u64::from(self.number),
            u64::from(self.db2_type.drda_type()),
            u64::from(self.db2_type.value()),
            u64::from(self.drda_type),
            u64::from(self.length),
            u64::from(self.nullable),
            u64::from(self.precision),
            u64::from(self.scale),
            u64::from(self.ccsid),
            match self.byte_order {
                ByteOrder::BigEndian => 0,
                ByteOrder::LittleEndian => 1,
            },
        ];
        words[..10].copy_from_slice(&numbers);
        words[10..13].copy_from_slice(&self.name.to_words());
        words[13..16].copy_from_slice(&self.label.to_words());
        words[16..19].copy_from_slice(&self.base_table_name.to_words());
        words[19..22].copy_from_slice(&self.schema_name.to_words());
    }
}

impl Default for Column {
    /// A column to lend: a SmallInt of no length, its texts empty.
    fn default() -> Self {
        Column {
            number: 0,
            db2_type: Db2Type::SmallInt,
            drda_type: 0,
            length: 0,
            nullable: false,
            precision: 0,
            scale: 0,
            ccsid: 0,
            byte_order: ByteOrder::BigEndian,
            name: Text::EMPTY,
            label: Text::EMPTY,
            base_table_name: Text::EMPTY,
            schema_name: Text::EMPTY,
        }
    }
}

/// Characters below 256, one to a byte.
pub(crate) fn to_string(characters: &[u8]) -> String {
    characters.iter().copied().map(char::from).collect()
}

#[cfg(test)]
mod tests {
    use super::*;

    #[test]
    fn every_type_is_its_code() {
        let types: Vec<Db2Type> = (0..=255)
            .filter_map(|code| Db2Type::from_code(code, 0x0502))
            .collect();
        assert_eq!(types.len(), 22);
        for db2_type in types {
            let back = Db2Type::from_code(db2_type.drda_type(), db2_type.value());
            assert_eq!(back, Some(db2_type));
        }
    }

    #[test]
    fn words_give_the_column_back() {
        let column = Column {
            number: 65535,
            db2_type: Db2Type::Decimal {
                precision: 31,
                scale: 255,
            },
            drda_type: 0x0D,
            length: 16,
            nullable: true,
            precision: 31,
            scale: 2,
            ccsid: 1208,
            byte_order: ByteOrder::LittleEndian,
            name: Text {
                place: usize::MAX,
                length: 7,
                alphabet: Alphabet(255),
            },
            label: Text {
                place: 1,
                length: 2,
                alphabet: Alphabet::PAGE_037,
            },
            base_table_name: Text {
                place: 3,
                length: 4,
                alphabet: Alphabet::GENERATED,
            },
            schema_name: Text::EMPTY,
        };
        let mut words = [0; COLUMN_WORDS];
        column.put_words(&mut words);
        assert_eq!(words[1..4], [0x0C, 31 * 256 + 255, 0x0D]);
        assert_eq!(words[19..], [0, 0, 1]);
        assert_eq!(Column::from_words(&words), column);
    }
}
