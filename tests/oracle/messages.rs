//! Messages on the edges of what the Rust makes of one, and the cases of M around them.

use crate::frame;
use crate::groups::{filler, number, random_bytes, Order};
use crate::random::Random;
use crate::texts::{self, BLANKS_037};

/// The same eight blanks as bytes of ASCII, where all but printables become blanks.
const BLANKS_ASCII: [u8; 8] = [0x09, 0x0A, 0x0B, 0x0C, 0x0D, 0x20, 0x85, 0xA0];

const LONGEST_REPLY: usize = 65_536;
const LONGEST_STRING: usize = 65_535;

/// Place, length and room in front of M's reply.
const HEAD: usize = 10;

/// A message of 0 to about 300 bytes.
pub fn message(r: &mut Random) -> Vec<u8> {
    match r.weighted(&[20, 25, 20, 8, 6, 8, 5, 8]) {
        0 => texts::message(r),
        1 => share(r),
        2 => words(r),
        3 => blank(r),
        4 => run(r),
        5 => lone(r),
        6 => page(r),
        _ => {
            let mut text = Vec::new();
            let length = r.between(0, 300);
            random_bytes(r, &mut text, length);
            text
        }
    }
}

fn separator(r: &mut Random) -> u8 {
    r.pick(&[0x00, 0xFF])
}

fn printable(r: &mut Random) -> u8 {
    if r.chance(60) {
        r.between(0x20, 0x7E) as u8
    } else {
        r.pick(b" ~Az09@A")
    }
}

/// A byte that is neither printable nor a separator.
fn unprintable(r: &mut Random) -> u8 {
    match r.below(3) {
        0 => r.between(0x01, 0x1F) as u8,
        1 => r.between(0x7F, 0xFE) as u8,
        _ => r.pick(&[0x1F, 0x7F, 0x80, 0xFE, 0x85, 0xA0, 0x15, 0x25, 0xC1]),
    }
}

/// As many printables as make 80 percent, or one more, one or two less; separators, which do
/// not count, at any place.
fn share(r: &mut Random) -> Vec<u8> {
    let counted = match r.weighted(&[35, 45, 20]) {
        0 => r.between(1, 30),
        1 => 5 * r.between(1, 60), // 80 percent exactly
        _ => r.between(1, 300),
    };
    let least = (4 * counted).div_ceil(5);
    let printables = match r.weighted(&[40, 40, 10, 10]) {
        0 => least,
        1 => least - 1,
        2 => counted.min(least + 1),
        _ => least.saturating_sub(2),
    };
    let mut text: Vec<u8> = (0..printables).map(|_| printable(r)).collect();
    text.extend((printables..counted).map(|_| unprintable(r)));
    let separators = r.pick(&[0, 0, 1, 2, 5, counted]);
    text.extend((0..separators).map(|_| separator(r)));
    if r.chance(80) {
        for place in (1..text.len()).rev() {
            text.swap(place, r.below(place + 1));
        }
    }
    text
}

/// A blank of the alphabet. In ASCII more often 20, 00 or FF: any other lowers the share.
fn one_blank(r: &mut Random, ascii: bool) -> u8 {
    match (r.weighted(&[40, 20, 40]), ascii) {
        (0, true) => 0x20,
        (1, _) => separator(r),
        (_, true) => r.pick(&BLANKS_ASCII),
        (_, false) => r.pick(&BLANKS_037),
    }
}

fn blanks(r: &mut Random, text: &mut Vec<u8>, ascii: bool, most: usize) {
    for _ in 0..r.between(0, most) {
        text.push(one_blank(r, ascii));
    }
}

/// Words with blanks of all kinds in front, between and behind.
fn words(r: &mut Random) -> Vec<u8> {
    let ascii = r.chance(50);
    let mut text = Vec::new();
    blanks(r, &mut text, ascii, 2);
    for _ in 0..r.between(0, 6) {
        let length = r.pick(&[1, 2, 5, 9, 14, 30]);
        let word = texts::identifier(r, length);
        text.extend(if ascii { word } else { texts::page_037(&word) });
        let most = r.pick(&[1, 2, 2, 3, 12]);
        blanks(r, &mut text, ascii, most);
    }
    text
}

/// Blanks and nothing else. In page 037 some come close: 40 and 41 are printables of ASCII.
pub fn blank(r: &mut Random) -> Vec<u8> {
    let length = r.pick(&[1, 1, 2, 3, 5, 10, 60]);
    let ascii = r.chance(50);
    let odd = if ascii { length / 5 } else { length };
    (0..length)
        .map(|place| {
            if r.chance(25) {
                separator(r)
            } else if place >= odd {
                0x20
            } else if ascii {
                unprintable(r)
            } else {
                r.pick(&BLANKS_037)
            }
        })
        .collect()
}

/// One byte, or two in turn, again and again.
fn run(r: &mut Random) -> Vec<u8> {
    let length = r.between(0, 300);
    let pair = if r.chance(60) {
        [r.byte(); 2]
    } else {
        [r.byte(), one_blank(r, false)]
    };
    (0..length).map(|place| pair[place % 2]).collect()
}

/// One or two characters somewhere in a long run of blanks.
fn lone(r: &mut Random) -> Vec<u8> {
    let length = r.between(1, 300);
    let (blank, character) = r.pick(&[
        (0x20, b'A'),
        (0x00, b'A'),
        (0xFF, b'~'),
        (0x15, 0xC1),
        (0x25, 0x40),
        (0x00, 0xC1),
    ]);
    let mut text = vec![blank; length];
    for _ in 0..r.between(1, 2) {
        let any = r.below(length);
        text[r.pick(&[0, any, length - 1])] = character;
    }
    text
}

/// Bytes in their order: all of page 037, or the printables and some next to them.
fn page(r: &mut Random) -> Vec<u8> {
    let (first, length) = if r.chance(50) {
        (r.below(256), r.between(1, 256))
    } else {
        (r.between(0x10, 0x30), r.between(60, 110))
    };
    (first..first + length).map(|byte| byte as u8).collect()
}

/// `length` bytes: a short message again and again, with some bytes changed.
pub fn long(r: &mut Random, length: usize) -> Vec<u8> {
    let unit = match r.below(3) {
        0 => vec![r.pick(&[0x41, 0xC1, 0x00, 0xFF, 0x20, 0x40, 0x15])],
        _ => message(r),
    };
    let mut text: Vec<u8> = unit.iter().copied().cycle().take(length).collect();
    text.resize(length, 0x00); // an empty unit
    for _ in 0..r.between(0, 4).min(length) {
        let place = r.below(length);
        text[place] = r.byte();
    }
    text
}

fn long_length(r: &mut Random) -> usize {
    if r.chance(50) {
        return r.between(301, 4_200);
    }
    let any = r.between(4_200, LONGEST_STRING);
    r.pick(&[4_096, 32_767, 32_768, 65_279, 65_280, 65_534, 65_535, any])
}

/// The payload of a case of M: place, length, room, and a reply with a message in it.
pub fn case(r: &mut Random) -> Vec<u8> {
    let (mut reply, text) = match r.weighted(&[9_930, 40, 10, 20]) {
        0 => (short_filler(r), message(r)),
        1 => {
            let length = long_length(r);
            (short_filler(r), long(r, length))
        }
        // Up to the limit: all of it a message, or one at the end.
        2 => {
            let size = r.between(LONGEST_REPLY - 2, LONGEST_REPLY);
            let any = r.below(300);
            let length = r.pick(&[size, size, size - 1, size - 2, any]);
            (vec![0x41; size - length], long(r, length))
        }
        _ => {
            let size = r.pick(&[65_537, 65_537, 65_538, 65_600, frame::LONGEST - HEAD]);
            let text = message(r);
            (vec![0x00; size - text.len()], text)
        }
    };
    let mut place = reply.len() as u32;
    let mut length = text.len() as u32;
    reply.extend(text);
    if reply.len() < LONGEST_REPLY && r.chance(50) {
        reply.append(&mut short_filler(r));
        reply.truncate(LONGEST_REPLY);
    }
    if r.chance(25) {
        (place, length) = part(r, reply.len() as u32, place, length);
    }
    let room = room(r, &reply, place, length);
    let mut payload = Vec::with_capacity(HEAD + reply.len());
    number(&mut payload, place.into(), 4, Order::Big);
    number(&mut payload, length.into(), 4, Order::Big);
    number(&mut payload, room as u64, 2, Order::Big);
    payload.append(&mut reply);
    payload
}

/// Some bytes or none, in front of a text or behind it.
pub fn short_filler(r: &mut Random) -> Vec<u8> {
    let mut out = Vec::new();
    let count = r.pick(&[0, 0, 1, 5, 40]);
    filler(r, &mut out, count);
    out
}

/// Another part of the reply than the message, one at its end or just beyond, or one far
/// beyond, where sums and places cut to 32 or 16 bits would lie in the reply again.
pub fn part(r: &mut Random, size: u32, place: u32, length: u32) -> (u32, u32) {
    let any = r.below(size as usize + 1) as u32;
    let inside = r.below((size - any) as usize + 1) as u32;
    match r.weighted(&[30, 25, 25, 20]) {
        0 => (any, inside),
        1 => r.pick(&[
            (size, 0),
            (0, size),
            (any, size - any),
            (place, size - place),
        ]),
        2 => r.pick(&[
            (size, 1),
            (size + 1, 0),
            (0, size + 1),
            (any, size - any + 1),
            (place, size - place + 1),
        ]),
        _ => r.pick(&[
            (u32::MAX, 0),
            (0, u32::MAX),
            (u32::MAX, u32::MAX),
            (u32::MAX, 1),
            (1, u32::MAX),
            (1 << 31, 1 << 31),
            (any.wrapping_neg(), any.saturating_add(inside)),
            (place + (1 << 16), length),
            (place, length + (1 << 16)),
        ]),
    }
}

/// Room for the text, or one less, one more, none, or as much as can be said.
fn room(r: &mut Random, reply: &[u8], place: u32, length: u32) -> usize {
    let end = place as usize + length as usize;
    let needed = reply.get(place as usize..end).map_or(0, text_length);
    let any = r.below(300);
    let room = r.pick(&[
        needed,
        needed,
        needed,
        needed.saturating_sub(1),
        needed.saturating_sub(1),
        needed + 1,
        needed & 0xFF,
        length as usize,
        0,
        any,
        LONGEST_STRING,
        LONGEST_STRING,
    ]);
    room.min(LONGEST_STRING)
}

/// How many characters a message's text has. For choosing a room only; no answer comes from it.
fn text_length(bytes: &[u8]) -> usize {
    let counted = bytes.iter().filter(|byte| !matches!(**byte, 0x00 | 0xFF));
    let printables = bytes.iter().filter(|byte| (0x20..=0x7E).contains(*byte));
    let ascii = 5 * printables.count() >= 4 * counted.count();
    let words = bytes.split(|byte| match ascii {
        true => !(0x21..=0x7E).contains(byte),
        false => matches!(byte, 0x00 | 0xFF) || BLANKS_037.contains(byte),
    });
    let lengths: Vec<usize> = words
        .map(<[u8]>::len)
        .filter(|length| *length > 0)
        .collect();
    lengths.iter().sum::<usize>() + lengths.len().saturating_sub(1)
}
