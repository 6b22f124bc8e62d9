//! SQLCAs on the edges of each field, for S, s and G.

use crate::groups::{filler, number, order, present, random_bytes, string};
use crate::messages;
use crate::random::Random;
use crate::texts;

/// A SQLCA, whole, cut or with bytes behind it.
pub fn edges(r: &mut Random) -> Vec<u8> {
    let mut out = vec![present(r)];
    code(r, &mut out);
    characters(r, &mut out, 5);
    characters(r, &mut out, 8);
    let mut ends = vec![1, 5, 10, out.len()];
    out.push(match r.weighted(&[80, 12, 8]) {
        0 => present(r),
        1 => r.byte(),
        _ => 0xFF,
    });
    ends.push(out.len());
    numbers(r, &mut out);
    ends.push(out.len());
    if r.chance(18) {
        // 24 to 34 bytes left: the strings follow the numbers and have 4 bytes at most.
        let mut free = r.pick(&[1, 2, 3, 4, 4, 5]);
        for _ in 0..3 {
            let length = r.below(free + 1);
            free -= length;
            let text = few_bytes(r, length);
            string(&mut out, &text);
            ends.push(out.len());
        }
        let behind = r.weighted(&[70, 10, 5, 5, 10]);
        filler(r, &mut out, behind);
        if r.chance(80) {
            return out;
        }
    } else {
        warnings(r, &mut out);
        let long = if r.below(300) == 0 { r.below(3) } else { 3 };
        for place in 0..3 {
            ends.push(out.len());
            let text = if place == long {
                // With the strings behind it, which are empty, up to the limit or over it.
                let end = r.between(65_534, 65_537);
                messages::long(r, end - out.len() - 2 * (3 - place))
            } else if place > long {
                Vec::new()
            } else if place == 0 {
                rdb(r)
            } else {
                message(r)
            };
            string(&mut out, &text);
        }
        ends.push(out.len());
    }
    cut(r, &mut out, &ends);
    out
}

/// Whole, with bytes behind, or cut: to 18 to 70 bytes, anywhere, or where a field ends.
fn cut(r: &mut Random, out: &mut Vec<u8>, ends: &[usize]) {
    match r.weighted(&[50, 12, 14, 10, 14]) {
        0 => {}
        1 => {
            let count = r.between(1, 12);
            filler(r, out, count);
        }
        2 => out.truncate(r.between(18, 70)),
        3 => out.truncate(r.between(0, out.len())),
        _ => {
            // At the end of a field, in the length behind it, or a byte before.
            let end = r.pick(ends);
            out.truncate(r.pick(&[end - 1, end, end + 1, end + 2]));
        }
    }
}

/// SQLCODE at the edges of plausibility and anywhere near them, in either order; bytes that
/// both orders find plausible; palindromes.
fn code(r: &mut Random, out: &mut Vec<u8>) {
    let code = match r.weighted(&[30, 25, 15, 12, 8, 10]) {
        0 => {
            let edge = r.pick(&[
                99_999,
                100_000,
                100_001,
                0,
                1,
                255,
                256,
                65_535,
                65_536,
                0x00FF_FFFF,
            ]);
            r.pick(&[edge, -edge])
        }
        1 => r.between(0, 200_200) as i32 - 100_100,
        2 => {
            // 00 and at most 01, or FF and at least FE, at both ends.
            let ends = [[0x00, 0x00], [0x00, 0x01], [0xFF, 0xFF], [0xFF, 0xFE]];
            let (front, back) = (r.pick(&ends), r.pick(&ends));
            i32::from_be_bytes([front[0], front[1], back[1], back[0]])
        }
        3 => {
            let (outer, inner) = (
                r.pick(&[0x00, 0xFF, 0x9C]),
                r.pick(&[0x00, 0x01, 0xFE, 0xFF]),
            );
            i32::from_be_bytes([outer, inner, inner, outer])
        }
        4 => r.pick(&[i32::MIN, i32::MAX, i32::MIN + 1, -1]),
        _ => r.next() as i32,
    };
    let order = order(r);
    number(out, u64::from(code as u32), 4, order);
}

/// `count` bytes of state or proc: printable, but for one byte, or below 80, but for one.
fn characters(r: &mut Random, out: &mut Vec<u8>, count: usize) {
    let start = out.len();
    let place = start + r.below(count);
    match r.weighted(&[30, 30, 10, 15, 10, 5]) {
        kind @ (0 | 1) => {
            out.extend((0..count).map(|_| r.between(0x20, 0x7E) as u8));
            if kind == 1 {
                out[place] = r.pick(&[0x1F, 0x1F, 0x7F, 0x7F, 0x80, 0x00, 0xFF]);
            } else {
                out[place] = r.pick(&[0x20, 0x7E, 0x30]);
            }
        }
        kind @ (2 | 3) => {
            out.extend((0..count).map(|_| r.below(0x80) as u8));
            out[place] = if kind == 2 {
                0x7F
            } else {
                r.pick(&[0x80, 0xFF])
            };
        }
        4 => {
            let text = texts::identifier(r, count);
            out.extend(texts::page_037(&text));
        }
        _ => random_bytes(r, out, count),
    }
}

fn numbers(r: &mut Random, out: &mut Vec<u8>) {
    let in_order = order(r);
    for _ in 0..6 {
        let any = r.next() as i32;
        let value = r.pick(&[0, 1, -1, 100, -100, i32::MAX, i32::MIN, any, any]);
        number(out, u64::from(value as u32), 4, in_order);
    }
}

fn warnings(r: &mut Random, out: &mut Vec<u8>) {
    if r.chance(50) {
        random_bytes(r, out, 11);
    } else {
        let byte = r.pick(&[0x20, 0x40, 0x00, 0xFF]);
        out.resize(out.len() + 11, byte);
    }
}

fn few_bytes(r: &mut Random, count: usize) -> Vec<u8> {
    const PALETTE: [u8; 10] = [0x00, 0xFF, 0x20, 0x20, 0x15, 0x40, 0x41, 0xC1, 0x80, 0x7E];
    (0..count).map(|_| r.pick(&PALETTE)).collect()
}

fn rdb(r: &mut Random) -> Vec<u8> {
    if r.chance(70) {
        texts::maybe(r, 50)
    } else {
        messages::message(r)
    }
}

/// m or s: none, blanks or a text.
fn message(r: &mut Random) -> Vec<u8> {
    match r.weighted(&[22, 22, 28, 28]) {
        0 => Vec::new(),
        1 => messages::blank(r),
        2 => texts::message(r),
        _ => messages::message(r),
    }
}
