//! Replies by family: whole, close to whole, and damaged.

use crate::groups::{
    extension, filler, header_group, number, order, present, random_bytes, six_numbers, status,
    status_fields, string, Column, Naming, Numbers, Options, Order, Range,
};
use crate::random::Random;
use crate::texts;

/// A SQLCA alone, with its extension whole, absent, or with any number of bytes left.
pub fn sqlca(r: &mut Random) -> Vec<u8> {
    let mut out = Vec::new();
    if r.chance(4) {
        out.push(0xFF);
        let count = r.between(0, 20);
        filler(r, &mut out, count);
        return out;
    }
    status_fields(r, &mut out);
    match r.weighted(&[15, 45, 20, 20]) {
        0 => out.push(0xFF),
        1 => {
            out.push(present(r));
            extension(r, &mut out);
        }
        2 => {
            // 24 to 34 bytes left: no warnings, and the strings follow the numbers.
            out.push(present(r));
            six_numbers(r, &mut out);
            let lengths = r.pick(&[[0usize, 0, 0], [1, 0, 0], [0, 2, 0], [0, 0, 2], [0, 4, 0]]);
            for length in lengths {
                let text = texts::identifier(r, length);
                string(&mut out, &text);
            }
            if r.chance(30) {
                out.truncate(out.len() - r.between(1, 6));
            }
        }
        _ => {
            out.push(present(r));
            let mut rest = Vec::new();
            extension(r, &mut rest);
            rest.resize(rest.len().max(40), 0);
            rest.truncate(r.between(0, 40));
            out.append(&mut rest);
        }
    }
    if r.chance(25) {
        let count = r.between(1, 12);
        filler(r, &mut out, count);
    }
    if r.chance(8) {
        out.truncate(r.between(0, out.len()));
    }
    out
}

fn column_count(r: &mut Random) -> usize {
    match r.weighted(&[4, 26, 22, 40, 8]) {
        0 => 0,
        1 => 1,
        2 => 2,
        3 => r.between(3, 6),
        _ => r.between(7, 16),
    }
}

/// A standard reply in either order, whole; now and then with a column that cannot be read, a
/// count that is off by one, flags missing at the end, or bytes over.
pub fn standard(r: &mut Random) -> Vec<u8> {
    let order = r.pick(&[Order::Big, Order::Big, Order::Little]);
    let mut out = Vec::new();
    status(r, &mut out);
    header_group(r, &mut out);
    let count = column_count(r);
    let naming = r.pick(&[
        Naming::Named,
        Naming::Named,
        Naming::Nameless,
        Naming::Generated,
        Naming::Any,
        Naming::Any,
    ]);
    let declared = match r.weighted(&[92, 4, 4]) {
        0 => count,
        1 => count + 1,
        _ => count.saturating_sub(1),
    };
    number(&mut out, declared as u64, 2, order);
    // Most often the last of several columns, so that all before it can be read.
    let failing = r.chance(6).then(|| count.saturating_sub(r.between(1, 2)));
    for place in 0..count {
        let range = match failing {
            Some(failing) if failing == place => Range::Outside,
            _ => Range::Known,
        };
        Column::new(r, range, naming).put(r, &mut out, order);
    }
    match r.weighted(&[78, 12, 10]) {
        0 => {}
        1 => drop_flags(r, &mut out),
        _ => {
            let extra = r.between(1, 20);
            filler(r, &mut out, extra);
        }
    }
    out
}

/// Takes flags off the end: one may be missing there, or the last two of a descriptor.
pub fn drop_flags(r: &mut Random, out: &mut Vec<u8>) {
    let flags = out.iter().rev().take_while(|byte| **byte == 0xFF).count();
    out.truncate(out.len() - r.between(0, flags.min(2)));
}

/// What may stand before a table or a run: the right groups, the shortest, anything, nothing.
fn front(r: &mut Random, out: &mut Vec<u8>) {
    match r.weighted(&[44, 18, 17, 9, 12]) {
        0 => out.extend_from_slice(&[0xFF, 0xFF]),
        1 => {
            status(r, out);
            header_group(r, out);
        }
        2 => {
            let count = r.between(0, 40);
            filler(r, out, count);
        }
        3 => {
            let count = r.between(0, 40);
            random_bytes(r, out, count);
        }
        _ => {}
    }
}

/// A length byte and a name of 1 to 64 characters, at times 65 or none.
fn short_name(r: &mut Random, out: &mut Vec<u8>) {
    let text = match r.weighted(&[60, 10, 10, 10, 10]) {
        0 => {
            let length = r.between(1, 10);
            texts::identifier(r, length)
        }
        1 => {
            let length = r.pick(&[63, 64, 65]);
            texts::identifier(r, length)
        }
        2 => r.pick(&[&b"COL7"[..], b"COL1", b"COL"]).to_vec(),
        3 => texts::maybe(r, 30),
        _ => return,
    };
    out.push(text.len() as u8);
    out.extend_from_slice(&text);
}

/// A count as it is, or off: larger or smaller than what is there.
fn nearly(r: &mut Random, count: usize) -> usize {
    match r.weighted(&[75, 15, 10]) {
        0 => count,
        1 => count + r.pick(&[1, 2, 100, 506]),
        _ => count.saturating_sub(1),
    }
}

/// A compact table: little-endian, one-byte name lengths, FF in front of the next descriptor.
pub fn compact(r: &mut Random) -> Vec<u8> {
    let mut out = Vec::new();
    front(r, &mut out);
    let count = match r.weighted(&[30, 30, 32, 8]) {
        0 => 1,
        1 => 2,
        2 => r.between(3, 6),
        _ => r.between(7, 16),
    };
    let declared = nearly(r, count);
    number(&mut out, declared as u64, 2, Order::Little);
    let nameless = r.chance(15);
    for _ in 0..count {
        let range = if r.chance(4) {
            Range::Outside
        } else {
            Range::Compact
        };
        let mut numbers = Numbers::new(r, range);
        if r.chance(70) {
            numbers.ccsid = numbers.ccsid.swap_bytes();
        }
        numbers.put(&mut out, Order::Little);
        let before = r.weighted(&[55, 20, 15, 10]);
        filler(r, &mut out, before);
        if !nameless {
            short_name(r, &mut out);
        }
        let after = r.weighted(&[65, 15, 10, 10]);
        filler(r, &mut out, after);
        let ends = r.weighted(&[10, 75, 5, 10]);
        out.resize(out.len() + ends, 0xFF);
    }
    if r.chance(10) {
        out.pop();
    }
    out
}

/// A reply for the last reader: descriptors that no other reading takes, ended by FF FF FF.
pub fn last(r: &mut Random) -> Vec<u8> {
    let mut out = Vec::new();
    status(r, &mut out);
    header_group(r, &mut out);
    let count = r.between(1, 6);
    let declared = nearly(r, count);
    if r.chance(30) {
        // With a count of 1 to 255 behind it this byte makes a count above 256 that starts
        // with FF; the true one is read one byte on.
        out.push(0xFF);
    }
    number(&mut out, declared as u64, 2, Order::Little);
    for place in 0..count {
        let mut numbers = Numbers::new(r, Range::Outside);
        if r.chance(90) {
            // Longer lengths have three FFs of their own.
            numbers.length = numbers.length.min(65_537);
        }
        numbers.put(&mut out, Order::Little);
        let before = r.weighted(&[70, 15, 15]);
        filler(r, &mut out, before);
        short_name(r, &mut out);
        if place + 1 < count || r.chance(60) {
            let ends = if r.chance(92) { 3 } else { r.between(1, 5) };
            out.resize(out.len() + ends, 0xFF);
        }
    }
    if r.chance(25) {
        let count = r.between(1, 17);
        filler(r, &mut out, count);
    }
    out
}

/// Standard descriptors in one order, by how they count.
fn run(r: &mut Random, out: &mut Vec<u8>, order: Order, shape: &[Naming]) {
    for naming in shape {
        let column = match naming {
            Naming::Named if r.chance(70) => {
                let length = r.between(1, 8);
                let name = texts::identifier(r, length);
                Column::plain(r, Range::Known, Some(name))
            }
            Naming::Nameless => Column::plain(r, Range::Known, None),
            naming => Column::new(r, Range::Known, *naming),
        };
        column.put(r, out, order);
    }
}

/// Descriptors behind bytes that the other readings cannot get past: runs of equal score,
/// in one order or both, of named and generated columns in all proportions.
pub fn scan(r: &mut Random) -> Vec<u8> {
    use Naming::{Generated, Named, Nameless};
    let mut out = Vec::new();
    match r.weighted(&[35, 25, 40]) {
        0 => {
            out.extend_from_slice(&[0xFF, 0xFF]);
            let count = r.pick(&[0u64, 513, 0x0301, 0xFFFE]);
            number(&mut out, count, 2, Order::Big);
        }
        1 => {
            let count = r.between(1, 40);
            filler(r, &mut out, count);
        }
        _ => front(r, &mut out),
    }
    let shape: Vec<Naming> = match r.weighted(&[26, 10, 12, 5, 6, 5, 10, 26]) {
        0 => vec![Named; r.between(2, 4)],
        1 => vec![Named],
        2 => vec![Named, Nameless, Nameless],
        3 => vec![Named, Nameless, Nameless, Nameless],
        4 => vec![Named, Generated],
        5 => vec![Nameless; r.between(2, 4)],
        6 => r.pick(&[[Named, Nameless], [Nameless, Named]]).to_vec(),
        _ => (0..r.between(2, 6))
            .map(|_| r.pick(&[Named, Named, Named, Nameless, Generated]))
            .collect(),
    };
    let first = order(r);
    run(r, &mut out, first, &shape);
    for _ in 0..r.weighted(&[50, 40, 10]) {
        let gap = r.weighted(&[25, 15, 15, 15, 15, 15]) * 3;
        out.resize(out.len() + gap, 0);
        let next = order(r);
        let shape: Vec<Naming> = if r.chance(60) {
            shape.clone() // an equal score
        } else {
            (0..r.between(1, 4))
                .map(|_| r.pick(&[Named, Named, Nameless]))
                .collect()
        };
        run(r, &mut out, next, &shape);
    }
    if r.chance(40) {
        let extra = r.between(0, 24);
        filler(r, &mut out, extra);
    } else if r.chance(40) {
        drop_flags(r, &mut out);
    }
    out
}

/// Two replies in one: a list without names, or one that fails, and a better one behind it.
pub fn two(r: &mut Random) -> Vec<u8> {
    let in_order = order(r);
    let mut out = Vec::new();
    status(r, &mut out);
    header_group(r, &mut out);
    let count = r.between(1, 3);
    number(&mut out, count as u64, 2, in_order);
    let range = r.pick(&[Range::Known, Range::Known, Range::Compact, Range::Outside]);
    for _ in 0..count {
        let naming = r.pick(&[Naming::Nameless, Naming::Nameless, Naming::Generated]);
        Column::new(r, range, naming).put(r, &mut out, in_order);
    }
    let mut behind = match r.below(4) {
        0 => standard(r),
        1 => compact(r),
        2 => scan(r),
        _ => last(r),
    };
    out.append(&mut behind);
    out
}

/// The edges of what the readings take for a count, and of the byte order.
const COUNTS: [u16; 12] = [0, 1, 2, 255, 256, 257, 511, 512, 513, 767, 65_280, 65_535];

/// Counts on the edges in either order, most often with few descriptors behind them.
pub fn counts(r: &mut Random) -> Vec<u8> {
    let mut out = vec![0xFF, 0xFF];
    let count = r.pick(&COUNTS);
    let in_order = order(r);
    number(&mut out, count.into(), 2, in_order);
    let there = r.between(0, 4);
    match r.below(3) {
        0 => {
            let shape = vec![Naming::Any; there];
            run(r, &mut out, in_order, &shape);
        }
        1 => {
            for _ in 0..there {
                Numbers::new(r, Range::Compact).put(&mut out, Order::Little);
                short_name(r, &mut out);
                out.push(0xFF);
            }
        }
        _ => {
            for _ in 0..there {
                Numbers::new(r, Range::Outside).put(&mut out, Order::Little);
                short_name(r, &mut out);
                out.extend_from_slice(&[0xFF; 3]);
            }
        }
    }
    out
}

/// As many descriptors as the limits allow, and one or two more.
pub fn many(r: &mut Random) -> Vec<u8> {
    let count = r.pick(&[256, 257, 511, 512, 513, 514]);
    let in_order = order(r);
    let mut out = vec![0xFF, 0xFF];
    let declared = if r.chance(70) { count } else { 0 };
    number(&mut out, declared as u64, 2, in_order);
    let named = match r.below(4) {
        0 => 0..count,
        1 => 0..1,
        2 => count - 1..count,
        _ => 0..0,
    };
    let kind = r.below(4);
    for place in 0..count {
        let name = named.contains(&place).then(|| {
            let length = r.between(1, 3);
            texts::identifier(r, length)
        });
        match kind {
            0 | 1 => Column::plain(r, Range::Known, name).put(r, &mut out, in_order),
            2 => {
                Numbers::new(r, Range::Compact).put(&mut out, Order::Little);
                let name = name.unwrap_or_default();
                out.push(name.len() as u8);
                out.extend_from_slice(&name);
                out.push(0xFF);
            }
            // Names alone: layouts of any type.
            _ => {
                let name = name.or(Some(b"N".to_vec()));
                Column::plain(r, Range::Outside, name).put(r, &mut out, in_order);
            }
        }
    }
    out
}

/// Strings in front of which the name scan finds candidates, with repeats at all distances.
pub fn candidates(r: &mut Random) -> Vec<u8> {
    let mut out = Vec::new();
    let count = r.between(0, 20);
    filler(r, &mut out, count);
    let pool: Vec<Vec<u8>> = (0..r.between(2, 6))
        .map(|_| {
            let length = r.pick(&[2, 2, 3, 4, 5, 6, 7, 8]);
            texts::identifier(r, length)
        })
        .collect();
    let fresh = |r: &mut Random| {
        let length = r.between(2, 6);
        texts::identifier(r, length)
    };
    let any = |r: &mut Random| pool[r.below(pool.len())].clone();
    let mut list: Vec<Vec<u8>> = Vec::new();
    let kind = r.weighted(&[35, 30, 35]);
    match kind {
        0 => {
            // Column, three others, the column again.
            for _ in 0..r.between(1, 5) {
                let column = if r.chance(85) { fresh(r) } else { any(r) };
                list.push(column.clone());
                let between = if r.chance(88) { 3 } else { r.between(1, 5) };
                for _ in 0..between {
                    let other = if r.chance(92) { any(r) } else { column.clone() };
                    list.push(other);
                }
                list.push(column);
            }
        }
        1 => {
            // The first one again and again, a column just before each.
            list.push(pool[0].clone());
            for _ in 0..r.between(1, 6) {
                for _ in 0..r.weighted(&[10, 70, 20]) {
                    let column = if r.chance(60) { fresh(r) } else { any(r) };
                    list.push(column);
                }
                list.push(pool[0].clone());
            }
        }
        _ => list.extend((0..r.between(2, 20)).map(|_| any(r))),
    }
    let gaps = r.chance(60);
    for text in &list {
        if r.chance(5) {
            let text = texts::maybe(r, 20);
            string(&mut out, &text);
        }
        string(&mut out, text);
        if gaps {
            let gap = r.weighted(&[50, 10, 10, 10, 5, 5, 5, 5]);
            out.resize(out.len() + gap, 0);
        }
    }
    out
}

/// Layouts of any type: what the name scan reads where candidates give no list.
pub fn layouts(r: &mut Random) -> Vec<u8> {
    let mut out = Vec::new();
    if r.chance(60) {
        let count = r.between(0, 24);
        filler(r, &mut out, count);
    }
    for _ in 0..r.between(1, 5) {
        let range = r.pick(&[Range::Known, Range::Outside, Range::Outside]);
        let mut column = Column::new(r, range, Naming::Any);
        if r.chance(50) {
            // Where m fails the test and s passes it, and the same in the extension.
            let mut options = Options::new(r, Naming::Nameless);
            let (m, s) = (texts::maybe(r, 40), texts::name(r));
            if let Some(extension) = &mut options.extension {
                extension[7] = m;
                extension[8] = s;
                options.texts[0] = texts::maybe(r, 60);
            } else {
                options.texts[0] = m;
                options.texts[1] = s;
            }
            column.options = Some(options);
        }
        let order = order(r);
        column.put(r, &mut out, order);
        if r.chance(10) {
            let gap = r.between(1, 8);
            filler(r, &mut out, gap);
        }
    }
    if r.chance(20) {
        drop_flags(r, &mut out);
    }
    out
}

/// Two bytes again and again: types, lengths and flags wherever one looks.
const PAIRS: [[u8; 2]; 10] = [
    [0x01, 0x9D],
    [0x9D, 0x01],
    [0x01, 0xC4],
    [0xC4, 0x01],
    [0x00, 0x01],
    [0x01, 0x00],
    [0x00, 0xFF],
    [0x00, 0x02],
    [0x01, 0xF0],
    [0xFF, 0x01],
];

fn pattern(size: usize, pair: [u8; 2]) -> Vec<u8> {
    (0..size).map(|place| pair[place % 2]).collect()
}

/// Every size from 0 to 64.
pub fn small(r: &mut Random) -> Vec<u8> {
    let size = r.between(0, 64);
    let mut out = Vec::new();
    match r.below(7) {
        0 => out.resize(size, 0x00),
        1 => out.resize(size, 0xFF),
        2 => {
            let pair = r.pick(&PAIRS);
            out = pattern(size, pair);
        }
        3 => random_bytes(r, &mut out, size),
        4 => {
            out = standard(r);
            out.truncate(size);
        }
        5 => {
            // Right up to the count, then anything.
            out.extend_from_slice(&[0xFF, 0xFF]);
            filler(r, &mut out, size);
            out.truncate(size);
        }
        _ => filler(r, &mut out, size),
    }
    out
}

/// As long as replies may be. These are slow in the Rust.
pub fn longest(r: &mut Random) -> Vec<u8> {
    let size = r.between(65_534, 65_536);
    let mut out = Vec::with_capacity(size);
    match r.weighted(&[15, 10, 10, 15, 15, 10, 10, 10, 5]) {
        0 => {}
        1 => out.resize(size, 0xFF),
        // Not all of it: each start then reads strings of half the reply.
        2 => random_bytes(r, &mut out, 4_000),
        3 => {
            // A name, or a comment, as long as the reply allows.
            out.extend_from_slice(&[0xFF, 0xFF, 0x00, 0x01]);
            let mut column = Column::plain(r, Range::Known, Some(Vec::new()));
            let place = r.pick(&[0, 1, 5]);
            if let Some(options) = &mut column.options {
                let character = r.pick(&[b'A', 0xC1, 0x40]);
                options.texts[place] = vec![character; size - 60];
            }
            column.put(r, &mut out, Order::Big);
        }
        4 => {
            // The longest list that the last reader can give: 4,095 columns of 16 bytes.
            let lead = r.pick(&[[0x00, 0x10], [0xFE, 0xFF], [0xFF, 0x0F]]);
            out.extend_from_slice(&[0xFF, 0xFF]);
            out.extend_from_slice(&lead);
            while out.len() < size {
                out.extend_from_slice(&[0; 13]);
                out.extend_from_slice(&[0xFF; 3]);
            }
        }
        5 => {
            // The longest list that the name scan can give: a column before each repeat.
            while out.len() < size {
                string(&mut out, b"RR");
                let column = [b'A' + r.below(26) as u8, b'0' + r.below(10) as u8];
                string(&mut out, &column);
            }
        }
        6 => {
            status_fields(r, &mut out);
            out.push(0);
            six_numbers(r, &mut out);
            out.resize(out.len() + 13, 0);
            let text = vec![r.pick(&[0x41, 0xC1, 0xFF]); size - 70];
            string(&mut out, &text);
            string(&mut out, &[]);
        }
        7 => {
            out = standard(r);
        }
        _ => {
            let pair = r.pick(&PAIRS);
            out = pattern(size, pair);
        }
    }
    out.resize(size, 0x00);
    out
}

/// A list with one name, which is almost COL and digits, and another reply behind it, which must
/// lose: a reader that takes the name for a generated one goes on to it.
pub fn nearly_generated(r: &mut Random) -> Vec<u8> {
    let in_order = order(r);
    let mut out = vec![0xFF, 0xFF];
    let count = r.between(1, 3);
    number(&mut out, count as u64, 2, in_order);
    let named = r.below(count);
    for place in 0..count {
        let naming = r.pick(&[Naming::Nameless, Naming::Generated]);
        let mut column = Column::new(r, Range::Known, naming);
        if place == named {
            let mut options = Options::new(r, Naming::Nameless);
            let name = texts::near_generated(r);
            match (&mut options.extension, r.below(2)) {
                (Some(extension), at) => extension[7 + at] = name,
                (None, at) => options.texts[at] = name,
            }
            column.options = Some(options);
        }
        column.put(r, &mut out, in_order);
    }
    let mut behind = match r.below(3) {
        0 => standard(r),
        1 => compact(r),
        _ => scan(r),
    };
    out.append(&mut behind);
    out
}

/// Lists as long as each reading can give, and one less or more; the last reader has no limit.
pub fn full(r: &mut Random) -> Vec<u8> {
    let count = r.pick(&[511, 512, 512, 513]);
    match r.weighted(&[34, 22, 26, 18]) {
        0 => {
            let named = r.pick(&[0, count / 2, count - 1, count]); // the last: none
            full_standard(r, count, count, |_, place| place == named)
        }
        1 => full_compact(r, count),
        // No column by its count, so left to the scan, which wants names.
        2 if r.chance(50) => full_standard(r, 0, count, |r, _| r.chance(45)),
        2 => full_standard(r, 0, count, |_, place| place + 1 < count),
        _ => full_last(r),
    }
}

fn full_standard(
    r: &mut Random,
    declared: usize,
    count: usize,
    has_name: impl Fn(&mut Random, usize) -> bool,
) -> Vec<u8> {
    let order = order(r);
    let mut out = vec![0xFF, 0xFF];
    number(&mut out, declared as u64, 2, order);
    for place in 0..count {
        let name = has_name(r, place).then(|| texts::identifier(r, 2));
        Column::plain(r, Range::Known, name).put(r, &mut out, order);
    }
    out
}

fn full_compact(r: &mut Random, count: usize) -> Vec<u8> {
    let mut out = vec![0xFF, 0xFF];
    number(&mut out, count as u64, 2, Order::Little);
    let named = r.pick(&[0, 1, 40]);
    for _ in 0..count {
        Numbers::new(r, Range::Compact).put(&mut out, Order::Little);
        if r.chance(named) {
            out.push(2);
            out.append(&mut texts::identifier(r, 2));
        } else {
            out.push(0);
        }
        out.push(0xFF);
    }
    out
}

/// Nothing in it can be taken for a compact descriptor, wherever one looks.
fn full_last(r: &mut Random) -> Vec<u8> {
    let count = r.pick(&[512, 513, 514, 799, 800]);
    let mut out = vec![0xFF, 0xFF];
    number(&mut out, count as u64, 2, Order::Little);
    for _ in 0..r.pick(&[count, count, count - 1, count + 1]) {
        let numbers = Numbers {
            precision: 0,
            scale: 0,
            length: r.below(60) as u64,
            sql_type: r.pick(&[0, 1, 2, 396]),
            ccsid: r.pick(&[37, 1208]),
        };
        numbers.put(&mut out, Order::Little);
        if r.chance(3) {
            short_name(r, &mut out);
        }
        out.extend_from_slice(&[0xFF; 3]);
    }
    out
}

/// Replies of other families, filled up to the limit, one byte less or one more.
pub fn filled(r: &mut Random) -> Vec<u8> {
    let mut out = match r.weighted(&[50, 15, 15, 20]) {
        0 => standard(r),
        1 => compact(r),
        2 => scan(r),
        _ => last(r),
    };
    let size = r.pick(&[65_535, 65_536, 65_536, 65_537]);
    let byte = r.pick(&[0x00, 0x00, 0xFF, 0x41]);
    out.resize(size, byte);
    out
}

/// Over the limit by little, or as far as a case can be.
pub fn too_long(r: &mut Random, most: usize) -> Vec<u8> {
    let size = if r.chance(95) {
        r.between(65_537, 65_540)
    } else {
        most
    };
    let mut out = match r.below(3) {
        0 => Vec::new(),
        1 => standard(r),
        _ => sqlca(r),
    };
    out.resize(size, 0x00);
    out
}

/// Edits of the kinds that a wire, a cut buffer or a wrong length leaves behind.
pub fn damage(r: &mut Random, out: &mut Vec<u8>) {
    const EDGES: [u8; 12] = [
        0x00, 0x01, 0x02, 0x04, 0x10, 0x40, 0x7F, 0x80, 0xC1, 0xFE, 0xFF, 0xFF,
    ];
    for _ in 0..r.between(1, 3) {
        let size = out.len();
        if size == 0 {
            return;
        }
        let place = r.below(size);
        match r.weighted(&[18, 16, 18, 14, 14, 12, 4, 4]) {
            0 => out[place] ^= 1 << r.below(8),
            1 => out[place] = r.pick(&EDGES),
            2 => out.truncate(place),
            3 => {
                let count = r.between(1, 4);
                let byte = r.pick(&EDGES);
                out.splice(place..place, vec![byte; count]);
            }
            4 => {
                let end = (place + r.between(1, 4)).min(size);
                out.drain(place..end);
            }
            5 if place + 2 <= size => {
                // A length, if one stands there, off by little or by all.
                let value = u16::from_be_bytes([out[place], out[place + 1]]);
                let value = match r.below(6) {
                    0 => 0xFFFF,
                    1 => 0,
                    2 => value.wrapping_sub(1),
                    3 => value.wrapping_add(2),
                    4 => value.swap_bytes(),
                    _ => value.wrapping_add(1),
                };
                out[place..place + 2].copy_from_slice(&value.to_be_bytes());
            }
            6 => {
                // A part of it once more.
                let end = (place + r.between(1, 60)).min(size);
                let part = out[place..end].to_vec();
                out.extend(part);
            }
            _ => {
                let count = r.between(1, 20);
                filler(r, out, count);
            }
        }
    }
}
