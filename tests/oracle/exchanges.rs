//! Exchanges of a column's description: a reply whose standard big-endian reading gives columns,
//! one of its columns, and a complete description for that column's place. Where a description
//! stands is known here because the reply is put together here; nothing is read back.
//!
//! An exchange on the stream: number of the column 16, place of its description 32, the
//! description's length 32, whether the new description has no name 8 (0 or 1), the new
//! description's length 32 (all BE), the new description, the reply.

use crate::groups::{filler, header_group, number, status, Column, Naming, Options, Order, Range};
use crate::random::Random;
use crate::texts;

const LONGEST_REPLY: usize = 65_536;

pub fn exchange(r: &mut Random) -> Vec<u8> {
    loop {
        let (reply, extents) = reply(r);
        // The first and the last as often as all others.
        let last = extents.len() - 1;
        let picked = match r.below(3) {
            0 => 0,
            1 => last,
            _ => r.below(extents.len()),
        };
        let (place, length) = extents[picked];
        let column = description(r);
        let nameless = nameless(&column);
        let mut new = Vec::new();
        column.put(r, &mut new, Order::Big);
        // Both replies keep within the limit: beyond it there are no lists to compare.
        if reply.len() > LONGEST_REPLY || reply.len() - length + new.len() > LONGEST_REPLY {
            continue;
        }
        let mut out = Vec::new();
        number(&mut out, picked as u64, 2, Order::Big);
        number(&mut out, place as u64, 4, Order::Big);
        number(&mut out, length as u64, 4, Order::Big);
        number(&mut out, nameless.into(), 1, Order::Big);
        number(&mut out, new.len() as u64, 4, Order::Big);
        out.extend_from_slice(&new);
        out.extend_from_slice(&reply);
        return out;
    }
}

/// A reply and, for each of its columns, place and length of the description.
fn reply(r: &mut Random) -> (Vec<u8>, Vec<(usize, usize)>) {
    let mut out = Vec::new();
    status(r, &mut out);
    header_group(r, &mut out);
    let count = match r.weighted(&[200, 200, 450, 140, 10]) {
        0 => 1,
        1 => 2,
        2 => r.between(3, 6),
        3 => r.between(7, 20),
        _ => r.pick(&[255, 256, 257, 511, 512]),
    };
    number(&mut out, count as u64, 2, Order::Big);
    let naming = r.pick(&[
        Naming::Named,
        Naming::Named,
        Naming::Any,
        Naming::Any,
        Naming::Any,
        Naming::Nameless,
        Naming::Generated,
    ]);
    let long = r.chance(2).then(|| r.below(count));
    let mut extents = Vec::new();
    let mut dropped = 0;
    for place in 0..count {
        let mut column = Column::new(r, Range::Known, naming);
        if long == Some(place) {
            lengthen(r, &mut column);
        }
        let start = out.len();
        column.put(r, &mut out, Order::Big);
        if place + 1 == count && r.chance(25) {
            // Flags that say no more may be missing at the end.
            dropped = r.between(0, flags(&column));
            out.truncate(out.len() - dropped);
        }
        extents.push((start, out.len() - start));
    }
    if dropped == 0 && r.chance(20) {
        let extra = r.between(1, 40);
        filler(r, &mut out, extra);
    }
    (out, extents)
}

/// How many flags at a descriptor's end can be left out.
fn flags(column: &Column) -> usize {
    match &column.options {
        None => 1,
        Some(options) if options.extension.is_some() => 0,
        Some(options) if options.distinct_type.is_some() => 1,
        Some(_) => 2,
    }
}

/// Any complete description: bare, with names in all places or none, with every group.
fn description(r: &mut Random) -> Column {
    let naming = r.pick(&[
        Naming::Named,
        Naming::Named,
        Naming::Named,
        Naming::Any,
        Naming::Any,
        Naming::Nameless,
        Naming::Generated,
    ]);
    let mut column = Column::new(r, Range::Known, naming);
    if r.chance(2) {
        lengthen(r, &mut column);
    }
    column
}

/// A long text, so that other texts move far.
fn lengthen(r: &mut Random, column: &mut Column) {
    let options = column
        .options
        .get_or_insert_with(|| Options::new(r, Naming::Nameless));
    let place = r.below(options.texts.len());
    let length = r.pick(&[255, 256, 4_000, 32_767, 32_768, 60_000]);
    let mut text = texts::identifier(r, length);
    if r.chance(50) {
        text = texts::page_037(&text);
    }
    options.texts[place] = text;
}

/// Whether the four strings that a name can stand in are all empty.
fn nameless(column: &Column) -> bool {
    let Some(options) = &column.options else {
        return true;
    };
    let extension = options.extension.as_ref();
    let beyond = extension.map_or(&[][..], |texts| &texts[7..]);
    options.texts[..2].iter().chain(beyond).all(Vec::is_empty)
}
