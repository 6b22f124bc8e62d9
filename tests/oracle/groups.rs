//! The groups of a reply, under the names of DRDA Volume 1, and the numbers and strings in them.

use crate::random::Random;
use crate::texts;

#[derive(Clone, Copy, PartialEq)]
pub enum Order {
    Big,
    Little,
}

/// How a column is to count: by a name, by none, by a real COL and digits, or by chance.
#[derive(Clone, Copy, PartialEq)]
pub enum Naming {
    Named,
    Nameless,
    Generated,
    Any,
}

/// Which numbers a descriptor gets.
#[derive(Clone, Copy, PartialEq)]
pub enum Range {
    /// A known type; all else up to the edges.
    Known,
    /// Within what the compact reading takes.
    Compact,
    /// A type that is not known, or numbers that the compact reading refuses.
    Outside,
}

const BASE_TYPES: [u16; 24] = [
    384, 388, 392, 404, 408, 412, 448, 452, 456, 464, 468, 472, 480, 484, 488, 492, 496, 500, 904,
    908, 912, 988, 996, 2436,
];
const LARGE_OBJECTS: [u16; 4] = [404, 408, 412, 988];
const UNKNOWN_TYPES: [u16; 14] = [
    0, 2, 382, 386, 396, 416, 460, 502, 504, 906, 960, 2438, 2448, 65534,
];
const LENGTHS: [u64; 18] = [
    0,
    1,
    7,
    8,
    9,
    26,
    255,
    65_534,
    65_535,
    65_536,
    65_537,
    0x7FFF_FFFF,
    0x8000_0000,
    1 << 32,
    1 << 56,
    i64::MAX as u64,
    1 << 63,
    u64::MAX,
];
const DIGITS: [u16; 12] = [0, 1, 5, 31, 62, 63, 64, 254, 255, 256, 261, 65_535];
const CCSIDS: [u16; 11] = [
    0, 37, 500, 1200, 1208, 9472, 9999, 10_000, 10_001, 25_600, 65_535,
];

pub fn order(r: &mut Random) -> Order {
    r.pick(&[Order::Big, Order::Little])
}

pub fn number(out: &mut Vec<u8>, value: u64, width: usize, order: Order) {
    match order {
        Order::Big => out.extend_from_slice(&value.to_be_bytes()[8 - width..]),
        Order::Little => out.extend_from_slice(&value.to_le_bytes()[..width]),
    }
}

/// A string's length is big-endian in every reading.
pub fn string(out: &mut Vec<u8>, text: &[u8]) {
    number(out, text.len() as u64, 2, Order::Big);
    out.extend_from_slice(text);
}

pub fn random_bytes(r: &mut Random, out: &mut Vec<u8>, count: usize) {
    out.extend((0..count).map(|_| r.byte()));
}

/// Bytes that are no descriptor by themselves but may be taken for parts of one.
pub fn filler(r: &mut Random, out: &mut Vec<u8>, count: usize) {
    const PALETTE: [u8; 10] = [0x00, 0x00, 0x00, 0x01, 0x02, 0x04, 0x41, 0xC1, 0xFF, 0xFF];
    for _ in 0..count {
        let byte = if r.chance(80) {
            r.pick(&PALETTE)
        } else {
            r.byte()
        };
        out.push(byte);
    }
}

/// The byte in front of a group that is there: anything but FF.
pub fn present(r: &mut Random) -> u8 {
    if r.chance(85) {
        0
    } else {
        r.pick(&[0x01, 0x7F, 0x80, 0xFE])
    }
}

/// SQLDAGRP up to SQLCCSID: 16 bytes.
pub struct Numbers {
    pub precision: u16,
    pub scale: u16,
    pub length: u64,
    pub sql_type: u16,
    pub ccsid: u16,
}

impl Numbers {
    pub fn new(r: &mut Random, range: Range) -> Self {
        let mut numbers = Numbers {
            precision: digits(r),
            scale: digits(r),
            length: if r.chance(60) {
                r.between(1, 60) as u64
            } else {
                r.pick(&LENGTHS)
            },
            sql_type: r.pick(&BASE_TYPES),
            ccsid: ccsid(r),
        };
        match range {
            Range::Known => {}
            Range::Compact => {
                // At most 63 by the low eight bits, which alone count.
                numbers.precision &= 0xFF3F;
                numbers.scale &= 0xFF3F;
                let large = LARGE_OBJECTS.contains(&numbers.sql_type);
                let most = if large { 0x7FFF_FFFF } else { 0x1_0000 };
                numbers.length = numbers.length.min(most);
            }
            Range::Outside => match r.weighted(&[50, 15, 15, 20]) {
                0 => numbers.sql_type = r.pick(&UNKNOWN_TYPES),
                1 => numbers.precision = r.pick(&[64, 255, 0x0140, 65_535]),
                2 => numbers.scale = r.pick(&[64, 255, 0x0140, 65_535]),
                _ if LARGE_OBJECTS.contains(&numbers.sql_type) => numbers.length = 0x8000_0000,
                _ => numbers.length = r.pick(&[65_537, 0x7FFF_FFFF, 1 << 32]),
            },
        }
        numbers.sql_type |= u16::from(r.chance(50));
        numbers
    }

    pub fn put(&self, out: &mut Vec<u8>, order: Order) {
        number(out, self.precision.into(), 2, order);
        number(out, self.scale.into(), 2, order);
        number(out, self.length, 8, order);
        number(out, self.sql_type.into(), 2, order);
        number(out, self.ccsid.into(), 2, order);
    }
}

fn digits(r: &mut Random) -> u16 {
    if r.chance(60) {
        r.below(32) as u16
    } else {
        r.pick(&DIGITS)
    }
}

fn ccsid(r: &mut Random) -> u16 {
    let value = if r.chance(90) {
        r.pick(&CCSIDS)
    } else {
        r.next() as u16
    };
    if r.chance(30) {
        value.swap_bytes()
    } else {
        value
    }
}

/// SQLDAGRP whole. Texts are the m and s strings of the groups, in their order.
pub struct Column {
    pub numbers: Numbers,
    pub options: Option<Options>,
}

/// SQLDOPTGRP: names, labels and comments, SQLUDTGRP, SQLDXGRP.
pub struct Options {
    pub texts: [Vec<u8>; 6],
    pub distinct_type: Option<[Vec<u8>; 5]>,
    pub extension: Option<[Vec<u8>; 9]>,
}

impl Column {
    pub fn new(r: &mut Random, range: Range, naming: Naming) -> Self {
        let naming = match naming {
            Naming::Any => r.pick(&[
                Naming::Named,
                Naming::Named,
                Naming::Nameless,
                Naming::Generated,
            ]),
            other => other,
        };
        let numbers = Numbers::new(r, range);
        let bare = naming == Naming::Nameless && r.chance(60);
        let options = (!bare).then(|| Options::new(r, naming));
        Column { numbers, options }
    }

    /// Most columns have short texts or none: replies of this kind stay small.
    pub fn plain(r: &mut Random, range: Range, name: Option<Vec<u8>>) -> Self {
        let options = name.map(|name| {
            let mut options = Options::empty();
            options.texts[0] = name;
            options
        });
        let numbers = Numbers::new(r, range);
        Column { numbers, options }
    }

    pub fn put(&self, r: &mut Random, out: &mut Vec<u8>, order: Order) {
        self.numbers.put(out, order);
        let Some(options) = &self.options else {
            out.push(0xFF);
            return;
        };
        out.push(present(r));
        number(out, r.below(2) as u64, 2, order);
        for text in &options.texts {
            string(out, text);
        }
        put_group(r, out, &options.distinct_type, 4);
        put_group(r, out, &options.extension, 8);
    }
}

impl Options {
    fn empty() -> Self {
        Options {
            texts: Default::default(),
            distinct_type: None,
            extension: None,
        }
    }

    /// The name may stand in any of four strings; others stand beside it and must lose.
    pub fn new(r: &mut Random, naming: Naming) -> Self {
        let mut options = Options::empty();
        for text in &mut options.texts[2..] {
            *text = texts::maybe(r, 75);
        }
        if r.chance(20) {
            options.distinct_type = Some([(); 5].map(|_| texts::maybe(r, 50)));
        }
        let place = r.weighted(&[50, 16, 17, 17]);
        if place > 1 || r.chance(30) {
            options.extension = Some([(); 9].map(|_| texts::maybe(r, 50)));
        }
        let names = match naming {
            Naming::Named => [texts::name(r), texts::maybe(r, 70)],
            Naming::Generated => [texts::generated(r), texts::maybe(r, 70)],
            Naming::Nameless | Naming::Any => [Vec::new(), Vec::new()],
        };
        let nameless = names[0].is_empty();
        let [name, beside] = names;
        if let (Some(extension), true) = (&mut options.extension, place > 1 || nameless) {
            extension[7] = Vec::new();
            extension[8] = Vec::new();
        }
        match (place, &mut options.extension) {
            (0, _) => {
                options.texts[0] = name;
                options.texts[1] = beside;
            }
            (2, Some(extension)) => {
                extension[7] = name;
                extension[8] = beside;
            }
            (3, Some(extension)) => extension[8] = name,
            _ => options.texts[1] = name,
        }
        options
    }
}

/// A nullable group: its flag, `fixed` bytes and its strings.
fn put_group<const N: usize>(
    r: &mut Random,
    out: &mut Vec<u8>,
    texts: &Option<[Vec<u8>; N]>,
    fixed: usize,
) {
    let Some(texts) = texts else {
        out.push(0xFF);
        return;
    };
    out.push(present(r));
    for _ in 0..fixed {
        out.push(r.pick(&[0, 0, 0, 1, 0xFF]));
    }
    for text in texts {
        string(out, text);
    }
}

/// The group at a reply's start: null, without its extension, or with it.
pub fn status(r: &mut Random, out: &mut Vec<u8>) {
    match r.weighted(&[64, 14, 22]) {
        0 => out.push(0xFF),
        1 => {
            status_fields(r, out);
            out.push(0xFF);
        }
        _ => {
            status_fields(r, out);
            out.push(present(r));
            extension(r, out);
        }
    }
}

/// SQLCODE in both orders within ±100,000, in one, in none; palindromes and the edges.
fn code(r: &mut Random, out: &mut Vec<u8>) {
    let edges = [
        0i32, 1, -1, 100, -100, -204, 100_000, 100_001, -100_000, -100_001,
    ];
    let bytes: [u8; 4] = match r.weighted(&[45, 20, 15, 20]) {
        0 => r.pick(&edges).to_le_bytes(),
        1 => r.pick(&edges).to_be_bytes(),
        2 => r.pick(&[
            [0x01, 0x00, 0x00, 0x01],
            [0x9C, 0xFF, 0xFF, 0x9C],
            [0xFF, 0xFF, 0xFF, 0xFF],
            [0x00, 0x01, 0x01, 0x00],
            [0x00, 0x00, 0x00, 0x00],
        ]),
        _ => r.pick(&[
            [0x00, 0x01, 0x00, 0x00],
            [0x00, 0x00, 0x01, 0x00],
            [0x12, 0x34, 0x56, 0x78],
            [0x80, 0x00, 0x00, 0x00],
            [0x00, 0x00, 0x00, 0x80],
            [0x00, 0xFF, 0xFF, 0x00],
        ]),
    };
    out.extend_from_slice(&bytes);
}

/// `count` characters in ASCII, in page 037, or some of each.
fn characters(r: &mut Random, out: &mut Vec<u8>, count: usize) {
    let kind = r.weighted(&[45, 30, 10, 15]);
    for _ in 0..count {
        out.push(match kind {
            0 => r.pick(b"0123456789SQLDX ~"),
            1 => r.pick(&[0xF0, 0xF1, 0xF2, 0xF4, 0xE2, 0xD8, 0xD3, 0x40]),
            2 => r.pick(&[0x1F, 0x20, 0x7E, 0x7F, 0x30]),
            _ => r.byte(),
        });
    }
}

/// SQLCA up to its extension's flag: 18 bytes, the first not FF.
pub fn status_fields(r: &mut Random, out: &mut Vec<u8>) {
    out.push(present(r));
    code(r, out);
    characters(r, out, 5);
    characters(r, out, 8);
}

pub fn six_numbers(r: &mut Random, out: &mut Vec<u8>) {
    for _ in 0..6 {
        let value = r.pick(&[0u64, 1, 3, 256, 0x7FFF_FFFF, 0x8000_0000, 0xFFFF_FFFF]);
        let order = order(r);
        number(out, value, 4, order);
    }
}

/// SQLCAXGRP whole.
pub fn extension(r: &mut Random, out: &mut Vec<u8>) {
    six_numbers(r, out);
    for _ in 0..11 {
        out.push(r.pick(&[0x20, 0x20, 0x40, 0x57, 0x00, 0xFF]));
    }
    let rdb = texts::maybe(r, 50);
    string(out, &rdb);
    for _ in 0..2 {
        let text = texts::message(r);
        string(out, &text);
    }
}

/// SQLDHGRP, absent or present.
pub fn header_group(r: &mut Random, out: &mut Vec<u8>) {
    if r.chance(75) {
        out.push(0xFF);
        return;
    }
    out.push(present(r));
    filler(r, out, 12);
    for _ in 0..3 {
        let text = texts::maybe(r, 50);
        string(out, &text);
    }
}
