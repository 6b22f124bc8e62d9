//! Replies on the edges of the name scan: strings and their repeats for its two lists of
//! candidates, and runs of layouts in which neither list has names.

use crate::groups::{
    filler, number, order, present, string, Column, Naming, Options, Order, Range,
};
use crate::random::Random;
use crate::replies;
use crate::texts;

/// Strings whose repeats stand as the two lists ask, or almost; then the edges of a candidate.
pub fn repeats(r: &mut Random) -> Vec<u8> {
    let mut out = Vec::new();
    if r.chance(50) {
        let count = r.between(0, 9);
        filler(r, &mut out, count);
    }
    let texts = match r.weighted(&[20, 25, 20, 20, 15]) {
        0 => near(r, &mut out),
        1 => returning(r),
        2 => before_first(r),
        3 => both(r),
        _ => edges(r),
    };
    // No byte between, or one number of them everywhere: repeats then keep their distance.
    let gap = r.pick(&[0, 0, 1, 2, 4, 6]);
    for text in &texts {
        string(&mut out, text);
        out.resize(out.len() + gap, 0);
    }
    if r.chance(25) {
        let cut = r.pick(&[gap, gap + 1, 1]);
        out.truncate(out.len().saturating_sub(cut));
    }
    if r.chance(10) {
        replies::damage(r, &mut out);
    }
    out
}

/// `count` texts, each other than all before it.
fn distinct(r: &mut Random, count: usize) -> Vec<Vec<u8>> {
    let mut all: Vec<Vec<u8>> = Vec::new();
    while all.len() < count {
        let length = r.pick(&[2, 2, 3, 4, 5, 6, 9]);
        let text = texts::identifier(r, length);
        if !all.contains(&text) {
            all.push(text);
        }
    }
    all
}

/// A text again at 4 to 11 bytes: up to 7 it is the same candidate, from 8 on another.
fn near(r: &mut Random, out: &mut Vec<u8>) -> Vec<Vec<u8>> {
    let length = r.between(2, 6);
    let text = texts::identifier(r, length);
    for _ in 0..r.between(2, 6) {
        string(out, &text);
        let distance = r.pick(&[7, 8, 7, 8, 9, 4, 5, 6]).max(length + 2);
        out.resize(out.len() + distance - length - 2, 0);
    }
    let mut list = distinct(r, 4);
    list.insert(r.below(5), text.clone());
    list.push(text);
    list
}

/// Columns whose text returns four later; at times three or five later, or between as well.
fn returning(r: &mut Random) -> Vec<Vec<u8>> {
    let mut list = Vec::new();
    for _ in 0..r.pick(&[1, 1, 2, 2, 3, 5]) {
        let mut group = distinct(r, 4);
        let column = group[0].clone();
        match r.weighted(&[60, 10, 10, 20]) {
            0 => {}
            1 => group.truncate(3),
            2 => group.append(&mut distinct(r, 1)),
            _ => {
                let between = r.between(1, 3);
                group[between] = column.clone();
            }
        }
        group.push(column);
        if r.chance(25) {
            // One within the five returns four later too: the search is past it.
            let within = r.between(1, 3);
            let again = group[within.min(group.len() - 1)].clone();
            let fill = distinct(r, within.saturating_sub(1));
            group.extend(fill);
            group.push(again);
        }
        list.append(&mut group);
        if r.chance(20) {
            list.append(&mut distinct(r, 2));
        }
    }
    list
}

/// The first text again and again, columns before it: equal neighbours, and the first itself.
fn before_first(r: &mut Random) -> Vec<Vec<u8>> {
    let mut group = distinct(r, 4);
    let Some(first) = group.pop() else {
        unreachable!("four texts");
    };
    let mut list = vec![first.clone()];
    for _ in 0..r.pick(&[1, 1, 2, 2, 3, 6]) {
        match r.weighted(&[70, 15, 15]) {
            0 => list.push(group[r.pick(&[0, 0, 1, 2])].clone()),
            1 => list.push(first.clone()),
            _ => list.append(&mut distinct(r, 2)),
        }
        list.push(first.clone());
    }
    list
}

/// Both lists have names: one is longer, or they are equally long.
fn both(r: &mut Random) -> Vec<Vec<u8>> {
    let mut list = Vec::new();
    let mut first = distinct(r, 1);
    let returning = r.between(1, 3);
    let before = r.between(1, 4);
    for _ in 0..returning {
        let mut group = distinct(r, 4);
        let column = group[0].clone();
        group.push(column);
        list.append(&mut group);
    }
    if let (Some(text), true) = (list.first(), r.chance(70)) {
        first = vec![text.clone()];
    } else {
        list.insert(0, first[0].clone());
    }
    for _ in 0..before {
        list.append(&mut distinct(r, 1));
        list.push(first[0].clone());
    }
    list
}

/// Texts that are candidates, or almost: 1, 2, 128 and 129 characters, COL and digits, others.
fn edges(r: &mut Random) -> Vec<Vec<u8>> {
    let mut pool: Vec<Vec<u8>> = (0..3)
        .map(|_| match r.weighted(&[40, 25, 25, 10]) {
            0 => {
                let length = r.pick(&[1, 2, 127, 128, 129, 255, 256]);
                texts::identifier(r, length)
            }
            1 => {
                let digits = r.pick(&[1, 2, 5, 125, 126]);
                let mut text = b"COL".to_vec();
                text.resize(3 + digits, b'7');
                text
            }
            2 => texts::near_generated(r),
            _ => texts::maybe(r, 10),
        })
        .collect();
    pool.append(&mut distinct(r, 2));
    match r.below(3) {
        0 => {
            // Between repeats of a first one.
            let first = distinct(r, 1).concat();
            let mut list = vec![first.clone()];
            for text in pool {
                list.push(text);
                list.push(first.clone());
            }
            list
        }
        1 => {
            let mut list = Vec::new();
            for text in pool {
                list.push(text.clone());
                list.append(&mut distinct(r, 3));
                list.push(text);
            }
            list
        }
        _ => (0..r.between(2, 12))
            .map(|_| pool[r.below(pool.len())].clone())
            .collect(),
    }
}

/// Runs of layouts. Names differ, so that neither list of candidates has two.
pub fn runs(r: &mut Random) -> Vec<u8> {
    if r.below(150) == 0 {
        return full(r);
    }
    let mut out = Vec::new();
    if r.chance(60) {
        let count = r.between(0, 24);
        filler(r, &mut out, count);
    }
    let lengths: &[usize] = match r.weighted(&[25, 20, 35, 20]) {
        0 => &[1],
        1 => &[2],
        2 => r.pick(&[&[2, 2][..], &[1, 1], &[3, 3], &[2, 2, 2]]),
        _ => r.pick(&[&[1, 2][..], &[2, 1], &[3, 1, 4], &[4]]),
    };
    for (place, length) in lengths.iter().enumerate() {
        if place > 0 {
            gap(r, &mut out);
        }
        for _ in 0..*length {
            layout(r, &mut out);
        }
    }
    match r.weighted(&[45, 25, 15, 15]) {
        0 => {}
        1 => replies::drop_flags(r, &mut out),
        2 => {
            let count = r.between(1, 24);
            filler(r, &mut out, count);
        }
        _ => replies::damage(r, &mut out),
    }
    out
}

/// What ends a run: a layout without option group or name, or bytes that are no layout.
fn gap(r: &mut Random, out: &mut Vec<u8>) {
    match r.below(4) {
        0 => Column::plain(r, Range::Outside, None).put(r, out, Order::Big),
        1 => Column::plain(r, Range::Outside, Some(Vec::new())).put(r, out, Order::Big),
        2 => {
            let name = texts::generated(r);
            Column::plain(r, Range::Outside, Some(name)).put(r, out, Order::Big);
        }
        _ => {
            let count = r.between(17, 30);
            out.resize(out.len() + count, 0xFF);
        }
    }
}

/// A layout of any type with a name, and others beside it that are none.
fn layout(r: &mut Random, out: &mut Vec<u8>) {
    let range = r.pick(&[Range::Known, Range::Outside]);
    let mut column = Column::plain(r, range, Some(Vec::new()));
    let Some(options) = &mut column.options else {
        unreachable!("a name, so options");
    };
    let name = name(r);
    match r.weighted(&[35, 20, 15, 15, 15]) {
        0 => {
            options.texts[0] = name;
            options.texts[1] = texts::maybe(r, 60);
        }
        1 => {
            options.texts[0] = no_name(r);
            options.texts[1] = name;
        }
        place => {
            options.texts[0] = no_name(r);
            options.texts[1] = no_name(r);
            let mut extension: [Vec<u8>; 9] = Default::default();
            match place {
                2 => extension[7] = name,
                3 => extension[8] = name,
                // m is not empty, so s does not count.
                _ => (extension[7], extension[8]) = (no_name(r), name),
            }
            options.extension = Some(extension);
        }
    }
    if r.chance(15) {
        options.distinct_type = Some(Default::default());
    }
    if r.chance(5) {
        column.options = Some(Options::new(r, Naming::Any));
    }
    let in_order = order(r);
    column.put(r, out, in_order);
}

/// A name that the scan takes from a layout, or one too long by a character.
fn name(r: &mut Random) -> Vec<u8> {
    let length = r.pick(&[1, 1, 2, 3, 5, 8, 127, 128, 129]);
    let ascii = texts::identifier(r, length);
    match r.weighted(&[35, 20, 15, 30]) {
        0 => ascii,
        1 => {
            // ASCII is not trimmed, but tested as if it were.
            let (front, behind) = (
                r.pick(&[&b" "[..], b"\t ", b""]),
                r.pick(&[&b" "[..], b"\r\n", b""]),
            );
            [front, &ascii, behind].concat()
        }
        2 => texts::page_037(&ascii),
        _ => texts::in_blanks(r, &texts::page_037(&ascii)),
    }
}

/// No bytes, blanks, COL and digits, or characters that names have not.
fn no_name(r: &mut Random) -> Vec<u8> {
    match r.weighted(&[45, 15, 20, 20]) {
        0 => Vec::new(),
        1 => r
            .pick(&[&b" "[..], b" \t\r\n", &[0x40, 0x41], &[0x15], &[0x15, 0x41]])
            .to_vec(),
        2 => texts::generated(r),
        _ => r
            .pick(&[
                &b"A B"[..],
                b"A-B",
                b"A\0",
                &[0xC1, 0x40, 0xC2],
                &[0xFF],
                &[0xC1, 0x60],
            ])
            .to_vec(),
    }
}

/// As many layouts as a run can have, one less, one more; names of one character.
fn full(r: &mut Random) -> Vec<u8> {
    let mut out = Vec::new();
    let count = r.between(0, 5);
    filler(r, &mut out, count);
    for _ in 0..r.pick(&[511, 512, 513, 513, 514]) {
        number(&mut out, 0, 8, Order::Big);
        number(&mut out, 0, 8, Order::Big);
        out.extend_from_slice(&[present(r), 0, 0]);
        let name = texts::identifier(r, 1);
        string(&mut out, &name);
        out.extend_from_slice(&[0; 10]);
        out.extend_from_slice(&[0xFF, 0xFF]);
    }
    out
}
