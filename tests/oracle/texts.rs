//! Names, other strings and messages, in ASCII and in code page 037.

use crate::random::Random;

const NAME_CHARACTERS: &[u8] =
    b"ABCDEFGHIJKLMNOPQRSTUVWXYZabcdefghijklmnopqrstuvwxyz0123456789_$#@";

/// The bytes of page 037 that trimming drops, one for each of the eight blanks.
pub const BLANKS_037: [u8; 8] = [0x05, 0x25, 0x0B, 0x0C, 0x0D, 0x40, 0x15, 0x41];

/// A name character of ASCII in page 037.
fn to_037(character: u8) -> u8 {
    match character {
        b'A'..=b'I' => character - b'A' + 0xC1,
        b'J'..=b'R' => character - b'J' + 0xD1,
        b'S'..=b'Z' => character - b'S' + 0xE2,
        b'a'..=b'i' => character - b'a' + 0x81,
        b'j'..=b'r' => character - b'j' + 0x91,
        b's'..=b'z' => character - b's' + 0xA2,
        b'0'..=b'9' => character - b'0' + 0xF0,
        b'_' => 0x6D,
        b'$' => 0x5B,
        b'#' => 0x7B,
        b'@' => 0x7C,
        _ => 0x40,
    }
}

pub fn page_037(ascii: &[u8]) -> Vec<u8> {
    ascii.iter().map(|byte| to_037(*byte)).collect()
}

/// Name characters in ASCII. Never COL and digits, so that the column counts as named.
pub fn identifier(r: &mut Random, length: usize) -> Vec<u8> {
    let mut text: Vec<u8> = (0..length).map(|_| r.pick(NAME_CHARACTERS)).collect();
    if text.first() == Some(&b'C') {
        text[0] = b'K';
    }
    text
}

fn name_length(r: &mut Random) -> usize {
    match r.weighted(&[12, 12, 66, 10]) {
        0 => 1,
        1 => 2,
        2 => r.between(3, 9),
        _ => r.pick(&[63, 64, 65, 127, 128, 129]),
    }
}

/// Up to three blanks of page 037.
fn blanks(r: &mut Random, text: &mut Vec<u8>) {
    for _ in 0..r.between(0, 3) {
        text.push(r.pick(&BLANKS_037));
    }
}

/// `inner`, in page 037, between blanks.
pub fn in_blanks(r: &mut Random, inner: &[u8]) -> Vec<u8> {
    let mut text = Vec::new();
    blanks(r, &mut text);
    text.extend_from_slice(inner);
    blanks(r, &mut text);
    text
}

/// A name that is not generated, most of them of name characters.
pub fn name(r: &mut Random) -> Vec<u8> {
    let length = name_length(r);
    let ascii = identifier(r, length);
    match r.weighted(&[58, 12, 14, 6, 10]) {
        0 => ascii,
        1 => page_037(&ascii),
        2 => in_blanks(r, &page_037(&ascii)),
        3 => near_generated(r),
        _ => other(r),
    }
}

/// COL and digits: the text of a real column that counts as generated.
pub fn generated(r: &mut Random) -> Vec<u8> {
    let ascii = r.pick(&[
        &b"COL7"[..],
        b"COL1",
        b"COL2",
        b"COL0",
        b"COL00",
        b"COL65536",
    ]);
    match r.weighted(&[50, 25, 25]) {
        0 => ascii.to_vec(),
        1 => page_037(ascii),
        _ => in_blanks(r, &page_037(ascii)),
    }
}

/// Texts that are almost COL and digits; ASCII ones keep their blanks.
pub fn near_generated(r: &mut Random) -> Vec<u8> {
    let texts = [
        &b"COL"[..],
        b"COLX",
        b"COL7X",
        b"col7",
        b"COL7 ",
        b" COL7",
        b"CO7",
        b"COL-7",
    ];
    let text = r.pick(&texts);
    if r.chance(20) {
        page_037(text)
    } else {
        text.to_vec()
    }
}

/// Texts that are no identifiers: blanks and controls in ASCII, and bytes from 0x80 on.
fn other(r: &mut Random) -> Vec<u8> {
    let length = r.between(1, 8);
    let palette: &[u8] = match r.below(5) {
        0 => b" \t\n\x0B\x0C\r",
        1 => b"A B\x00\x7F\x1F-.@",
        2 => &[0x40, 0x41, 0x15, 0x25, 0x05, 0x0B, 0x0C, 0x0D],
        3 => &[0x40, 0xC1, 0x4A, 0x51, 0x80, 0xB5, 0xFF, 0xE1],
        _ => return (0..length).map(|_| r.byte()).collect(),
    };
    (0..length).map(|_| r.pick(palette)).collect()
}

/// Any text, and in `empty` percent of the cases none.
pub fn maybe(r: &mut Random, empty: usize) -> Vec<u8> {
    if r.chance(empty) {
        return Vec::new();
    }
    match r.weighted(&[70, 15, 15]) {
        0 => name(r),
        1 => generated(r),
        _ => other(r),
    }
}

/// A message of a status: tokens between separators, in either alphabet, with the share of
/// printables often next to the 80 percent that tell the two apart.
pub fn message(r: &mut Random) -> Vec<u8> {
    let mut text = Vec::new();
    match r.weighted(&[15, 25, 20, 25, 10, 5]) {
        0 => {}
        1 | 2 => {
            let ebcdic = r.chance(45);
            for _ in 0..r.between(1, 4) {
                let length = r.between(0, 8);
                let token = identifier(r, length);
                text.extend(if ebcdic { page_037(&token) } else { token });
                for _ in 0..r.between(0, 2) {
                    let blank = if ebcdic {
                        r.pick(&BLANKS_037)
                    } else {
                        r.pick(b" \t\r")
                    };
                    text.push(r.pick(&[0xFF, 0xFF, 0x00, blank, blank]));
                }
            }
        }
        3 => {
            let total = r.between(1, 50);
            let printable = (total * r.between(77, 83) / 100).min(total);
            for place in 0..total {
                text.push(if place < printable {
                    r.pick(b" ~Az09@ \x20\x7E")
                } else {
                    r.pick(&[0x1F, 0x7F, 0x80, 0xC1, 0xFE, 0x01, 0x15])
                });
            }
            for _ in 0..r.between(0, 4) {
                let place = r.between(0, text.len());
                text.insert(place, r.pick(&[0x00, 0xFF]));
            }
            for _ in 0..r.below(total) {
                let (a, b) = (r.below(text.len()), r.below(text.len()));
                text.swap(a, b);
            }
        }
        4 => text.extend((0..r.between(1, 6)).map(|_| r.pick(&[0x00, 0xFF, 0x20, 0x40, 0x41]))),
        _ => text.extend((0..r.between(1, 30)).map(|_| r.byte())),
    }
    text
}
