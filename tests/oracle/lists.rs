//! Cases of C, W, Q and R: lists of columns, as replies and as records.

use crate::frame;
use crate::groups::{filler, number, order, Column, Naming, Numbers, Options, Order, Range};
use crate::random::Random;
use crate::replies;
use crate::texts;

/// The type codes of document 01, in the order of the base types.
const TYPES: [u8; 22] = [
    0x20, 0x22, 0x24, 0xC8, 0xCA, 0xCC, 0x32, 0x30, 0x62, 0x60, 0x3E, 0x3C, 0x0E, 0x0A, 0x0C, 0x16,
    0x02, 0x04, 0x1E, 0xDC, 0xBA, 0xBE,
];
const LARGE: [u8; 4] = [0xC8, 0xCA, 0xCC, 0xDC];
const LARGE_BASES: [u16; 4] = [404, 408, 412, 988];

/// Where the fields of a record start, and its end.
const FIELDS: [usize; 23] = [
    0, 2, 3, 5, 6, 8, 9, 10, 11, 13, 14, 18, 22, 23, 27, 31, 32, 36, 40, 41, 45, 49, 50,
];
const RECORD: usize = 50;
const NULLABLE: usize = 8;
const BYTE_ORDER: usize = 13;
const TYPE: usize = 2;

type Record = [u8; RECORD];

/// A record of any fields: its type and its code need not be the same.
fn record(r: &mut Random, large: bool) -> Record {
    let mut out = [0u8; RECORD];
    for pair in FIELDS.windows(2) {
        let field = &mut out[pair[0]..pair[1]];
        match r.below(4) {
            0 => {}
            1 => field.fill(0xFF),
            2 => {
                if let Some(last) = field.last_mut() {
                    *last = r.below(40) as u8;
                }
            }
            _ => field.fill_with(|| r.byte()),
        }
    }
    out[TYPE] = loop {
        let code = r.pick(&TYPES);
        if large || !LARGE.contains(&code) {
            break code;
        }
    };
    if r.chance(70) {
        out[5] = out[TYPE] + r.below(2) as u8;
    }
    out[NULLABLE] = r.below(2) as u8;
    out[BYTE_ORDER] = r.below(2) as u8;
    out
}

/// Another value in one field, which stays a record's.
fn change(r: &mut Random, record: &mut Record) {
    let at = r.below(FIELDS.len() - 1);
    let (start, end) = (FIELDS[at], FIELDS[at + 1]);
    match start {
        NULLABLE | BYTE_ORDER => record[start] ^= 1,
        TYPE => {
            let before = record[TYPE];
            while record[TYPE] == before {
                record[TYPE] = r.pick(&TYPES);
            }
        }
        _ => {
            let byte = r.between(start, end - 1);
            record[byte] ^= r.pick(&[1, 1, 0x80, 0xFF]);
        }
    }
}

/// The payload of a case of Q.
pub fn two_lists(r: &mut Random) -> Vec<u8> {
    if r.below(250) == 0 {
        return long_lists(r);
    }
    let count = r.pick(&[0, 1, 1, 2, 2, 3, 5, 9]);
    let first: Vec<Record> = (0..count).map(|_| record(r, true)).collect();
    let mut second = first.clone();
    match r.weighted(&[15, 60, 10, 10, 5]) {
        0 => {}
        1 => {
            for _ in 0..r.pick(&[1, 1, 1, 2]) {
                if !second.is_empty() {
                    let last = second.len() - 1;
                    let any = r.below(second.len());
                    let at = r.pick(&[0, last, any]);
                    change(r, &mut second[at]);
                }
            }
        }
        2 => {
            second.pop();
        }
        3 => second.push(record(r, true)),
        _ => second = (0..r.below(4)).map(|_| record(r, true)).collect(),
    }
    if r.chance(30) {
        return put_lists(&second, &first);
    }
    put_lists(&first, &second)
}

fn put_lists(first: &[Record], second: &[Record]) -> Vec<u8> {
    let mut out = Vec::new();
    for list in [first, second] {
        number(&mut out, list.len() as u64, 2, Order::Big);
        out.extend(list.iter().flatten());
    }
    out
}

/// Lists about the limit of 4,095 records: equal ones, and unequal ones of which one is over.
fn long_lists(r: &mut Random) -> Vec<u8> {
    let first = vec![record(r, true); r.pick(&[4_094, 4_095, 4_095, 4_096])];
    let mut second = first.clone();
    match r.below(5) {
        0 => {}
        1 => change(r, &mut second[first.len() - 1]),
        2 => second.push(first[0]),
        3 => {
            second.pop();
        }
        _ => second.truncate(r.below(3)),
    }
    if r.chance(10) {
        // As many records as a payload can hold.
        let most = (frame::LONGEST_RECORDS - 4) / RECORD;
        return match r.below(2) {
            0 => put_lists(&vec![first[0]; most], &[]),
            _ => put_lists(&[], &vec![first[0]; most]),
        };
    }
    if r.chance(50) {
        return put_lists(&second, &first);
    }
    put_lists(&first, &second)
}

/// The payload of a case of R.
pub fn records(r: &mut Random) -> Vec<u8> {
    let large = r.chance(35);
    let count = match r.below(250) {
        0 => r.pick(&[4_094, 4_095, 4_095, 4_096, 4_096, 8_400]),
        _ => r.pick(&[0, 1, 1, 1, 2, 2, 3, 4, 6, 9, 20]),
    };
    if count < 100 {
        return (0..count).flat_map(|_| record(r, large)).collect();
    }
    // A few kinds of records in turn; a large object, if any, is the last column or any.
    let kinds: Vec<Record> = (0..r.between(1, 4)).map(|_| record(r, false)).collect();
    let mut list: Vec<Record> = kinds.iter().copied().cycle().take(count).collect();
    if large {
        let any = r.below(count);
        let mut column = record(r, false);
        column[TYPE] = r.pick(&LARGE);
        list[r.pick(&[count - 1, any])] = column;
    }
    list.concat()
}

/// A column of a reply, most often not a large object.
fn column(r: &mut Random, large: bool) -> Column {
    let naming = r.pick(&[Naming::Named, Naming::Named, Naming::Nameless]);
    let mut column = match r.below(3) {
        0 => Column::new(r, Range::Known, naming),
        _ => {
            let length = r.between(1, 4);
            let name = texts::identifier(r, length);
            Column::plain(r, Range::Known, Some(name))
        }
    };
    while !large && LARGE_BASES.contains(&(column.numbers.sql_type & !1)) {
        column.numbers = Numbers::new(r, Range::Known);
    }
    column
}

/// A standard reply of these columns with the shortest head.
fn reply(r: &mut Random, columns: &[Column], order: Order) -> Vec<u8> {
    let mut out = vec![0xFF, 0xFF];
    number(&mut out, columns.len() as u64, 2, order);
    for column in columns {
        column.put(r, &mut out, order);
    }
    out
}

/// A reply for W: a list without large objects, or with some.
pub fn row(r: &mut Random) -> Vec<u8> {
    let large = r.chance(25);
    let columns: Vec<Column> = (0..r.pick(&[1, 1, 2, 3, 4, 6, 12]))
        .map(|_| column(r, large))
        .collect();
    let in_order = order(r);
    reply(r, &columns, in_order)
}

/// The payload of a case of C: two replies whose lists are alike but for one thing or none.
/// `other` makes a reply of any family.
pub fn two_replies(r: &mut Random, other: impl Fn(&mut Random) -> Vec<u8>) -> Vec<u8> {
    let (first, second) = match r.weighted(&[70, 8, 14, 8]) {
        0 => alike(r),
        1 => {
            let reply = other(r);
            (reply.clone(), reply)
        }
        2 => {
            let reply = other(r);
            let mut damaged = reply.clone();
            replies::damage(r, &mut damaged);
            (reply, damaged)
        }
        _ => (other(r), other(r)),
    };
    let (mut first, mut second) = match r.below(2) {
        0 => (first, second),
        _ => (second, first),
    };
    first.truncate(frame::LONGEST - 4);
    second.truncate(frame::LONGEST - 4 - first.len());
    let mut out = Vec::with_capacity(4 + first.len() + second.len());
    number(&mut out, first.len() as u64, 4, Order::Big);
    out.append(&mut first);
    out.append(&mut second);
    out
}

/// Two standard replies: equal columns, or one of them other in one number, in its texts, or all
/// of it in its byte order; or one column more.
fn alike(r: &mut Random) -> (Vec<u8>, Vec<u8>) {
    let mut columns: Vec<Column> = (0..r.pick(&[1, 1, 2, 3, 4, 8]))
        .map(|_| column(r, true))
        .collect();
    let mut in_order = order(r);
    let first = reply(r, &columns, in_order);
    let at = r.below(columns.len());
    let numbers = &mut columns[at].numbers;
    match r.weighted(&[10, 12, 12, 16, 12, 8, 10, 10, 10]) {
        0 => {}
        1 => numbers.precision ^= r.pick(&[1, 2, 0x80, 0x0100]),
        2 => numbers.scale ^= r.pick(&[1, 2, 0x80, 0x0100]),
        3 => {
            numbers.length = numbers
                .length
                .wrapping_add(r.pick(&[1, u64::MAX, 256, 65_536]))
        }
        4 => numbers.sql_type ^= 1,
        5 => {
            let other = Numbers::new(r, Range::Known);
            numbers.sql_type = other.sql_type;
        }
        6 => {
            let other = Numbers::new(r, Range::Known);
            numbers.ccsid = other.ccsid;
        }
        7 => columns[at].options = Some(Options::new(r, Naming::Named)),
        _ => {
            if r.chance(50) {
                in_order = match in_order {
                    Order::Big => Order::Little,
                    Order::Little => Order::Big,
                };
            } else if r.chance(50) {
                columns.push(column(r, true));
            } else {
                columns.pop();
            }
        }
    }
    let mut second = reply(r, &columns, in_order);
    if r.chance(10) {
        let count = r.between(1, 9);
        filler(r, &mut second, count);
    }
    (first, second)
}
