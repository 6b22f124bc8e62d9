//! Where the names of the name scan stand: the Rust lists their texts alone. This walks by document
//! 01 (Name scan; Layouts; Answers); the driver stops where a text found so is not the Rust's.

use db2_proto::codepage::ebcdic037_to_utf8;

/// Place, length of what trimming leaves, and alphabet.
#[derive(Clone, Copy, PartialEq, Debug)]
pub struct Text {
    pub place: usize,
    pub length: usize,
    pub alphabet: u8,
}

impl Text {
    /// ASCII is kept as it is; page 037 is trimmed.
    fn of(reply: &[u8], place: usize, length: usize) -> Text {
        let bytes = &reply[place..place + length];
        if bytes.is_ascii() {
            return Text {
                place,
                length,
                alphabet: 1,
            };
        }
        let blank = |byte: &u8| is_blank(&ebcdic037_to_utf8(&[*byte]));
        let front = bytes.iter().take_while(|byte| blank(byte)).count();
        let behind = bytes.iter().rev().take_while(|byte| blank(byte)).count();
        Text {
            place: place + front,
            length: length.saturating_sub(front + behind),
            alphabet: 2,
        }
    }

    pub fn characters(&self, reply: &[u8]) -> String {
        let bytes = &reply[self.place..self.place + self.length];
        match self.alphabet {
            1 => bytes.iter().map(|byte| char::from(*byte)).collect(),
            _ => ebcdic037_to_utf8(bytes),
        }
    }

    fn bytes<'a>(&self, reply: &'a [u8]) -> &'a [u8] {
        &reply[self.place..self.place + self.length]
    }

    /// 1 to 128 name characters when trimmed, and not COL and digits.
    fn is_name(&self, reply: &[u8]) -> bool {
        let characters = self.characters(reply);
        let name = characters.trim_matches(|c: char| is_blank(c.encode_utf8(&mut [0; 2])));
        let digits = name.strip_prefix("COL");
        (1..=128).contains(&name.len())
            && name
                .bytes()
                .all(|c| c.is_ascii_alphanumeric() || b"_$#@".contains(&c))
            && !digits.is_some_and(|digits| {
                !digits.is_empty() && digits.bytes().all(|c| c.is_ascii_digit())
            })
    }
}

/// The characters that trimming drops.
fn is_blank(character: &str) -> bool {
    let code = character.chars().next().map_or(0, u32::from);
    matches!(code, 0x09..=0x0D | 0x20 | 0x85 | 0xA0)
}

/// A string behind its length, and what is past it; none where the reply ends before.
fn string(reply: &[u8], at: usize) -> Option<((usize, usize), usize)> {
    let (high, low) = (reply.get(at)?, reply.get(at + 1)?);
    let length = usize::from(u16::from_be_bytes([*high, *low]));
    let end = at + 2 + length;
    (end <= reply.len()).then_some(((at + 2, length), end))
}

/// Strings of 2 bytes or more that may be names; a repeat of the last one kept, less than 8 bytes
/// on, is skipped. Other alphabets have no name characters, so these are in ASCII.
fn candidates(reply: &[u8]) -> Vec<Text> {
    let mut kept: Vec<Text> = Vec::new();
    for at in 0..reply.len() {
        let Some(((place, length), _)) = string(reply, at) else {
            continue;
        };
        if !(2..=128).contains(&length) {
            continue;
        }
        let text = Text {
            place,
            length,
            alphabet: 1,
        };
        let plain = text.bytes(reply).iter().all(u8::is_ascii_graphic);
        if !plain || !text.is_name(reply) {
            continue;
        }
        match kept.last() {
            Some(last) if last.bytes(reply) == text.bytes(reply) && place - last.place < 8 => {}
            _ => kept.push(text),
        }
    }
    kept
}

/// Those whose text returns four later and not between; the search goes on five later.
fn returning(reply: &[u8], all: &[Text]) -> Vec<Text> {
    let mut names = Vec::new();
    let mut rest = all;
    while let [x, a, b, c, again, behind @ ..] = rest {
        let same = |other: &Text| other.bytes(reply) == x.bytes(reply);
        if same(again) && !same(a) && !same(b) && !same(c) {
            names.push(*x);
            rest = behind;
        } else {
            rest = &rest[1..];
        }
    }
    names
}

/// Those unlike the first and just before a repeat of it, equal neighbours once.
fn before_first(reply: &[u8], all: &[Text]) -> Vec<Text> {
    let mut names: Vec<Text> = Vec::new();
    for at in 1..all.len() {
        let (x, next, first) = (all[at - 1], all[at], all[0]);
        let new = names.last().map(|last| last.bytes(reply)) != Some(x.bytes(reply));
        if next.bytes(reply) == first.bytes(reply) && x.bytes(reply) != first.bytes(reply) && new {
            names.push(x);
        }
    }
    names
}

/// A flag: what is past it, and whether its group is there; it may be missing at the end.
fn flag(reply: &[u8], at: usize) -> (usize, bool) {
    match reply.get(at) {
        None => (at, false),
        Some(0xFF) => (at + 1, false),
        Some(_) => (at + 1, true),
    }
}

/// The name of a layout of any type, and what is past it.
fn layout(reply: &[u8], start: usize) -> Option<(Text, usize)> {
    if *reply.get(start + 16)? == 0xFF {
        return None;
    }
    let mut at = start + 19; // past the flag and SQLUNNAMED
    let mut strings = Vec::new();
    for _ in 0..6 {
        let (text, end) = string(reply, at)?;
        strings.push(text);
        at = end;
    }
    let (mut at, distinct) = flag(reply, at);
    if distinct {
        at += 4;
        for _ in 0..5 {
            at = string(reply, at)?.1;
        }
    }
    let (mut at, extended) = flag(reply, at);
    strings.truncate(2); // SQLNAME_m and SQLNAME_s
    if extended {
        at += 8;
        let mut last = Vec::new();
        for _ in 0..9 {
            let (text, end) = string(reply, at)?;
            last.push(text);
            at = end;
        }
        // SQLXNAME: s only where m has no bytes.
        strings.push(if last[7].1 > 0 { last[7] } else { last[8] });
    }
    let texts = strings
        .iter()
        .map(|(place, length)| Text::of(reply, *place, *length));
    let name = texts.into_iter().find(|text| text.is_name(reply))?;
    Some((name, at))
}

/// The first longest run of layouts, up to 512.
fn longest_run(reply: &[u8]) -> Vec<Text> {
    let mut best = Vec::new();
    for start in 0..reply.len().saturating_sub(20) {
        let (mut names, mut at) = (Vec::new(), start);
        while names.len() < 512 {
            let Some((name, next)) = layout(reply, at) else {
                break;
            };
            names.push(name);
            at = next;
        }
        if names.len() > best.len() {
            best = names;
        }
    }
    best
}

pub fn names(reply: &[u8]) -> Vec<Text> {
    let all = candidates(reply);
    let from_two = |list: Vec<Text>| if list.len() < 2 { Vec::new() } else { list };
    let first = from_two(returning(reply, &all));
    let second = from_two(before_first(reply, &all));
    if second.len() > first.len() {
        second
    } else if !first.is_empty() {
        first
    } else {
        longest_run(reply)
    }
}
