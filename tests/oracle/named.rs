//! Cases of T and U: a column's number and where its name is said to stand, and a reply.

use crate::frame;
use crate::groups::{number, random_bytes, Order};
use crate::messages::{self, short_filler};
use crate::random::Random;
use crate::texts;

const LONGEST_REPLY: usize = 65_536;
const LONGEST_ROOM: usize = 65_535;

/// Number, place, length, alphabet and T's room in front of the reply.
const HEAD: usize = 13;

/// Where the digits of number + 1 become one more, and the ends of 16 bits.
const NUMBERS: [u16; 14] = [
    0, 1, 8, 9, 10, 98, 99, 998, 999, 9_998, 9_999, 65_533, 65_534, 65_535,
];

/// The payload of a case of T, or of U without room.
pub fn case(r: &mut Random, with_room: bool) -> Vec<u8> {
    let (mut reply, name) = match r.weighted(&[9_940, 20, 15, 25]) {
        0 => (short_filler(r), name(r)),
        // As long as a name can be, or as long as a room can be.
        1 => {
            let length = r.pick(&[65_534, 65_535, 65_536]);
            (vec![0x00; LONGEST_REPLY - length], bytes(r, length))
        }
        2 => {
            let name = name(r);
            (vec![0x41; LONGEST_REPLY - name.len()], name)
        }
        _ => {
            let size = r.pick(&[65_537, 65_537, 65_538, frame::LONGEST - HEAD]);
            let name = name(r);
            (vec![0x00; size - name.len()], name)
        }
    };
    let mut place = reply.len() as u32;
    let mut length = name.len() as u32;
    let ascii = name.is_ascii();
    reply.extend(name);
    if reply.len() < LONGEST_REPLY && r.chance(50) {
        reply.append(&mut short_filler(r));
        reply.truncate(LONGEST_REPLY);
    }
    if r.chance(30) {
        (place, length) = messages::part(r, reply.len() as u32, place, length);
    }
    let alphabet = match r.weighted(&[50, 22, 9, 9, 10]) {
        0 if ascii => 1,
        0 => 2,
        1 => 0,
        2 => 1,
        3 => 2,
        _ => {
            let any = r.between(3, 255) as u8;
            r.pick(&[3, 3, 4, 254, 255, any])
        }
    };
    let number_of_column = if r.chance(70) {
        r.pick(&NUMBERS)
    } else {
        r.next() as u16
    };
    let mut payload = Vec::with_capacity(HEAD + reply.len());
    number(&mut payload, number_of_column.into(), 2, Order::Big);
    number(&mut payload, place.into(), 4, Order::Big);
    number(&mut payload, length.into(), 4, Order::Big);
    payload.push(alphabet);
    if with_room {
        let needed = match alphabet {
            0 => format!("COL{}", u32::from(number_of_column) + 1).len(),
            _ => length as usize,
        };
        let room = room(r, needed);
        number(&mut payload, room as u64, 2, Order::Big);
    }
    payload.append(&mut reply);
    payload
}

/// A name, blanks around it or not, other bytes, all of page 037, none.
fn name(r: &mut Random) -> Vec<u8> {
    match r.weighted(&[40, 15, 10, 15, 10, 10]) {
        0 => texts::name(r),
        1 => texts::generated(r),
        2 => Vec::new(),
        3 => {
            let length = r.between(1, 300);
            bytes(r, length)
        }
        4 => {
            let (first, length) = (r.below(256), r.between(1, 256));
            (first..first + length).map(|byte| byte as u8).collect()
        }
        _ => {
            let ascii = texts::identifier(r, 4);
            texts::in_blanks(r, &texts::page_037(&ascii))
        }
    }
}

/// `length` bytes: random ones, or one again and again.
fn bytes(r: &mut Random, length: usize) -> Vec<u8> {
    let mut out = Vec::new();
    if r.chance(40) {
        let byte = r.byte();
        out.resize(length, byte);
    } else {
        random_bytes(r, &mut out, length);
    }
    out
}

/// Room for the text, or one less, one more, none, or as much as can be said.
fn room(r: &mut Random, needed: usize) -> usize {
    let any = r.below(300);
    let room = r.pick(&[
        needed,
        needed,
        needed,
        needed.saturating_sub(1),
        needed.saturating_sub(1),
        needed.saturating_add(1),
        needed & 0xFF,
        0,
        any,
        LONGEST_ROOM,
        LONGEST_ROOM,
    ]);
    room.min(LONGEST_ROOM)
}
