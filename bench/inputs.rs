//! The replies that are measured. Each is made here from what its line says, so that a reader sees
//! what it is; none is random but the one of that name, which has a seed of its own.

use crate::Entry::{self, Description, Group, Message, Names, Status};

/// What is asked of a row: see docs/BENCHMARKS.md.
#[derive(Clone, Copy, PartialEq)]
pub enum Class {
    /// What a server sends, 12 or 512 columns: at least 5 times as fast.
    Typical,
    /// Other replies that can be read: never slower.
    Other,
    /// 65,536 bytes that cost much to read: at least 4 times as fast.
    Adversarial,
}

pub struct Input {
    pub name: &'static str,
    pub class: Class,
    pub entries: &'static [Entry],
    pub reply: Vec<u8>,
}

#[derive(Clone, Copy, PartialEq)]
enum Order {
    Big,
    Little,
}
use Order::{Big, Little};

const LONGEST: usize = 65_536;

const DESCRIPTION: &[Entry] = &[Description];
const BOTH: &[Entry] = &[Description, Names];
const NAMES: &[Entry] = &[Names];
const STATUS: &[Entry] = &[Status, Group];
const MESSAGE: &[Entry] = &[Status, Message, Group];

fn number(out: &mut Vec<u8>, value: u64, size: usize, order: Order) {
    match order {
        Big => out.extend_from_slice(&value.to_be_bytes()[8 - size..]),
        Little => out.extend_from_slice(&value.to_le_bytes()[..size]),
    }
}

/// A string: its length in 16 bits, big-endian in every reading, and its bytes.
fn string(out: &mut Vec<u8>, text: &[u8]) {
    number(out, text.len() as u64, 2, Big);
    out.extend_from_slice(text);
}

fn empty(out: &mut Vec<u8>, count: usize) {
    out.resize(out.len() + 2 * count, 0);
}

/// The 16 bytes at a descriptor's start: precision 5, scale 2, and the rest as given.
fn numbers(out: &mut Vec<u8>, order: Order, sql_type: u64, length: u64) {
    number(out, 5, 2, order);
    number(out, 2, 2, order);
    number(out, length, 8, order);
    number(out, sql_type, 2, order);
    number(out, 1208, 2, order);
}

/// Char, VarChar, Decimal, Integer, Timestamp, BigInt in turn, every third nullable.
fn type_of(place: usize) -> (u64, u64) {
    let (base, length) = [
        (452, 10),
        (448, 60),
        (484, 5),
        (496, 4),
        (392, 26),
        (492, 8),
    ][place % 6];
    (base + u64::from(place % 3 == 0), length)
}

fn column_name(place: usize) -> Vec<u8> {
    format!("COLUMN_{place:03}").into_bytes()
}

/// The same in code page 037: letters and digits, which are all above 80, and _.
fn in_page_037(text: &[u8]) -> Vec<u8> {
    let byte = |byte: &u8| match byte {
        b'A'..=b'I' => byte - b'A' + 0xC1,
        b'J'..=b'R' => byte - b'J' + 0xD1,
        b'S'..=b'Z' => byte - b'S' + 0xE2,
        b'0'..=b'9' => byte - b'0' + 0xF0,
        _ => 0x6D,
    };
    text.iter().map(byte).collect()
}

/// What stands before the columns: a null SQLCA, no SQLDHGRP, the count.
fn head(order: Order, count: usize) -> Vec<u8> {
    let mut out = vec![0xFF, 0xFF];
    number(&mut out, count as u64, 2, order);
    out
}

/// A reply of standard descriptors with names, labels and, if asked for, SQLDXGRP.
fn standard(order: Order, count: usize, extended: bool) -> Vec<u8> {
    standard_in(order, count, extended, <[u8]>::to_vec)
}

/// The same with its texts in an alphabet.
fn standard_in(order: Order, count: usize, extended: bool, text: fn(&[u8]) -> Vec<u8>) -> Vec<u8> {
    let mut out = head(order, count);
    for place in 0..count {
        let (sql_type, length) = type_of(place);
        numbers(&mut out, order, sql_type, length);
        out.extend_from_slice(&[0, 0, 0]);
        string(&mut out, &text(&column_name(place)));
        empty(&mut out, 1);
        string(&mut out, &text(b"A_LABEL"));
        empty(&mut out, 3);
        out.push(0xFF);
        if extended {
            out.push(0);
            out.resize(out.len() + 8, 0);
            string(&mut out, &text(b"SAMPLE")); // SQLRDBNAM
            empty(&mut out, 2);
            string(&mut out, &text(b"LUGGAGE")); // SQLBASENAME_m
            empty(&mut out, 1);
            string(&mut out, &text(b"GROUND")); // SQLSCHEMA_m
            empty(&mut out, 1);
            string(&mut out, &text(&column_name(place))); // SQLXNAME_m
            empty(&mut out, 1);
        } else {
            out.push(0xFF);
        }
    }
    out
}

/// The same without option groups: 17 bytes a column.
fn nameless(order: Order, count: usize) -> Vec<u8> {
    let mut out = head(order, count);
    for place in 0..count {
        let (sql_type, length) = type_of(place);
        numbers(&mut out, order, sql_type, length);
        out.push(0xFF);
    }
    out
}

/// A table of compact descriptors: 16 bytes, a name behind its length byte, FF before the next.
fn compact(count: usize) -> Vec<u8> {
    let mut out = head(Little, count);
    for place in 0..count {
        let (sql_type, length) = type_of(place);
        numbers(&mut out, Little, sql_type, length);
        let name = column_name(place);
        out.push(name.len() as u8);
        out.extend_from_slice(&name);
        out.push(0xFF);
    }
    out
}

/// Descriptors of 16 bytes that only the last reader takes: their last three are FF. One more is
/// declared: a count of 4,095 would start with FF, and be read one byte on.
fn last(count: usize) -> Vec<u8> {
    let mut out = head(Little, count + 1);
    for _ in 0..count {
        out.resize(out.len() + 13, 0);
        out.extend_from_slice(&[0xFF; 3]);
    }
    out
}

/// A SQLCA whose code is -204, with its extension and a message.
fn status(message: &[u8]) -> Vec<u8> {
    let mut out = vec![0];
    out.extend_from_slice(&(-204i32).to_le_bytes());
    out.extend_from_slice(b"42704SQLNQ1FB");
    out.push(0);
    out.resize(out.len() + 24, 0);
    out.extend_from_slice(&[b' '; 11]);
    string(&mut out, b"SAMPLE");
    string(&mut out, message);
    empty(&mut out, 1);
    out
}

/// A SQLCA with the longest message that a reply of 65,536 bytes has room for.
fn long_status(pattern: &[u8]) -> Vec<u8> {
    let room = LONGEST - status(b"").len();
    status(&repeated(pattern, room))
}

/// `pattern` again and again, `size` bytes in all.
fn repeated(pattern: &[u8], size: usize) -> Vec<u8> {
    pattern.iter().copied().cycle().take(size).collect()
}

/// `front`, then `pattern` again and again, 65,536 bytes in all.
fn filled(mut front: Vec<u8>, pattern: &[u8]) -> Vec<u8> {
    let rest = repeated(pattern, LONGEST - front.len());
    front.extend_from_slice(&rest);
    front
}

/// A descriptor without option group: a Char, then FF.
fn chain_link(order: Order) -> Vec<u8> {
    let mut out = Vec::new();
    numbers(&mut out, order, 452, 4);
    out.push(0xFF);
    out
}

/// A descriptor whose option group has a name and nothing else.
fn named_link(order: Order, name: &[u8]) -> Vec<u8> {
    let mut out = Vec::new();
    numbers(&mut out, order, 452, 4);
    out.extend_from_slice(&[0, 0, 0]);
    string(&mut out, name);
    empty(&mut out, 5);
    out.extend_from_slice(&[0xFF, 0xFF]);
    out
}

/// 17 bytes in which descriptors of 17 bytes start at four places: each has SQLTYPE 452 at its
/// places 12 and 13, and FF at 16.
fn dense_links() -> Vec<u8> {
    let mut out = vec![0; 17];
    for start in [0, 2, 8, 10] {
        out[(start + 12) % 17] = 0x01;
        out[(start + 13) % 17] = 0xC4;
        out[(start + 16) % 17] = 0xFF;
    }
    out
}

/// A compact descriptor's 16 bytes.
fn compact_start() -> Vec<u8> {
    let mut out = Vec::new();
    numbers(&mut out, Little, 452, 4);
    out
}

/// A count of 2 before 16 bytes that look compact, again and again, and nowhere a next.
fn compact_starts() -> Vec<u8> {
    let mut pattern = vec![2, 0];
    pattern.extend(compact_start());
    filled(Vec::new(), &pattern)
}

/// Bytes at each of which a name of 64 could start: @ is 64, and a name character. Each comes upon
/// a 00 within those 64.
fn name_search() -> Vec<u8> {
    let mut out = vec![b'@'; 63];
    out.push(0);
    out
}

/// One compact descriptor to the reply's end, all a search for a name.
fn compact_long_scan() -> Vec<u8> {
    let mut front = head(Little, 1);
    front.extend(compact_start());
    filled(front, &name_search())
}

/// 512 compact descriptors of 128 bytes, each such a search for a name.
fn compact_long_scans() -> Vec<u8> {
    let mut descriptor = compact_start();
    descriptor.extend_from_slice(&[b'@'; 47]);
    descriptor.push(0);
    descriptor.extend_from_slice(&[b'@'; 62]);
    descriptor.push(0);
    descriptor.push(0xFF);
    filled(head(Little, 511), &descriptor)
}

/// A column's name, filled up at its front.
fn long_name(place: usize, size: usize) -> Vec<u8> {
    let name = column_name(place);
    let mut out = vec![b'A'; size.saturating_sub(name.len())];
    out.extend(name);
    out
}

/// Strings as a server repeats them: for each column its name, three others, its name again; the
/// first rule lists them. Names have `size` characters or a few.
fn returning_names(size: usize) -> Vec<u8> {
    let mut out = vec![0; 20];
    for place in 0.. {
        let name = long_name(place, size);
        let mut next = Vec::new();
        for text in [&name[..], b"SAMPLE", b"GROUND", b"LUGGAGE", &name] {
            string(&mut next, text);
        }
        if out.len() + next.len() > LONGEST {
            break;
        }
        out.append(&mut next);
    }
    out.resize(LONGEST, 0);
    out
}

/// The first string again behind each name: the second rule lists them. All have `size` characters
/// or a few.
fn names_before_first(size: usize) -> Vec<u8> {
    let mut out = vec![0; 20];
    let first = long_name(0, size);
    string(&mut out, &first);
    for place in 1.. {
        let mut next = Vec::new();
        string(&mut next, &long_name(place, size));
        string(&mut next, &first);
        if out.len() + next.len() > LONGEST {
            break;
        }
        out.append(&mut next);
    }
    out.resize(LONGEST, 0);
    out
}

/// Strings of 128 name characters, all the same: candidates that no rule lists.
fn long_candidates() -> Vec<u8> {
    let mut pattern = Vec::new();
    string(&mut pattern, &[b'A'; 128]);
    filled(Vec::new(), &pattern)
}

/// At each byte of the first 40,000 a string of 8,224 blanks, behind them strings without bytes:
/// layouts that can be read, and whose names are blanks alone.
fn blank_names() -> Vec<u8> {
    let mut out = vec![b' '; 40_000];
    out.resize(LONGEST, 0);
    out
}

/// The same in code page 037, whose blank is 40: at each byte a string of 16,448 of them. The
/// byte C1 is no ASCII.
fn blank_names_037() -> Vec<u8> {
    let mut out = vec![0x40; 32_000];
    for place in (0..out.len()).step_by(1000) {
        out[place] = 0xC1;
    }
    out.resize(LONGEST, 0);
    out
}

/// splitmix64, from a fixed seed.
fn random(size: usize) -> Vec<u8> {
    let mut state: u64 = 1;
    let mut out = Vec::with_capacity(size);
    for _ in 0..size {
        state = state.wrapping_add(0x9E37_79B9_7F4A_7C15);
        let mut value = state;
        value = (value ^ (value >> 30)).wrapping_mul(0xBF58_476D_1CE4_E5B9);
        value = (value ^ (value >> 27)).wrapping_mul(0x94D0_49BB_1331_11EB);
        out.push((value >> 56) as u8);
    }
    out
}

/// For the last reader: a null SQLCA, no SQLDHGRP, a count that only it takes, and `pattern`.
fn for_last(pattern: &[u8]) -> Vec<u8> {
    filled(vec![0xFF, 0xFF, 0xFE, 0xFE], pattern)
}

fn input(name: &'static str, class: Class, entries: &'static [Entry], reply: Vec<u8>) -> Input {
    Input {
        name,
        class,
        entries,
        reply,
    }
}

/// What servers send.
fn typical() -> Vec<Input> {
    let both = |name, reply| input(name, Class::Typical, BOTH, reply);
    let in_037 = |count| standard_in(Big, count, true, in_page_037);
    vec![
        both("12 columns", standard(Big, 12, false)),
        both("12 columns, SQLDXGRP", standard(Big, 12, true)),
        both("12 columns, page 037", in_037(12)),
        both(
            "12 columns, LE, read as compact",
            standard(Little, 12, false),
        ),
        both("12 columns, LE, SQLDXGRP", standard(Little, 12, true)),
        both("12 columns without names", nameless(Big, 12)),
        both("512 columns", standard(Big, 512, false)),
        both("512 columns, SQLDXGRP", standard(Big, 512, true)),
        both("512 columns, page 037", in_037(512)),
        both(
            "512 columns, LE, read as compact",
            standard(Little, 512, false),
        ),
        both("512 columns, LE, SQLDXGRP", standard(Little, 512, true)),
        both("512 columns without names", nameless(Big, 512)),
        both("compact, 12 columns", compact(12)),
    ]
}

/// Other replies that can be read, or that cost nothing.
fn others() -> Vec<Input> {
    let other = |name, entries, reply| input(name, Class::Other, entries, reply);
    let message = b"\xFFGROUND.LUGGAGE\xFFTABLE";
    vec![
        other("compact, 40 columns", BOTH, compact(40)),
        other("last reader, 4,095 columns", BOTH, last(4_095)),
        other("status with message", MESSAGE, status(message)),
        other("null status", STATUS, vec![0xFF]),
        other("zeros", STATUS, vec![0; LONGEST]),
        other("random", STATUS, random(LONGEST)),
        other("names, first rule", NAMES, returning_names(0)),
        other("names, second rule", NAMES, names_before_first(0)),
    ]
}

/// 65,536 bytes against the standard readings, the scan, and runs of names.
fn against_scans() -> Vec<Input> {
    let both = |name, reply| input(name, Class::Adversarial, BOTH, reply);
    let chain = |link: Vec<u8>| filled(Vec::new(), &link);
    let generated = [&b"COL"[..], &[b'7'; 97]].concat();
    vec![
        both("zeros", vec![0; LONGEST]),
        both("FF", vec![0xFF; LONGEST]),
        both("random", random(LONGEST)),
        both("01 9D", repeated(&[0x01, 0x9D], LONGEST)),
        both("01 C4", repeated(&[0x01, 0xC4], LONGEST)),
        both("C4 01", repeated(&[0xC4, 0x01], LONGEST)),
        both("01 80 00 00", repeated(&[0x01, 0x80, 0, 0], LONGEST)),
        both("chain of 17 bytes, BE", chain(chain_link(Big))),
        both("chain of 17 bytes, LE", chain(chain_link(Little))),
        both("chain of 17 bytes, dense", chain(dense_links())),
        both("chain with names, BE", chain(named_link(Big, b"A"))),
        both("chain with names, LE", chain(named_link(Little, b"A"))),
        both("chain, names of 128", chain(named_link(Big, &[b'A'; 128]))),
        both(
            "chain, names COL and 97 digits",
            chain(named_link(Big, &generated)),
        ),
    ]
}

/// 65,536 bytes against the compact reading and the last reader.
fn against_tables() -> Vec<Input> {
    let one = |name, reply| input(name, Class::Adversarial, DESCRIPTION, reply);
    let start = [head(Little, 2), compact_start()].concat();
    let last_link = [&[0; 13][..], &[0xFF; 3]].concat();
    vec![
        one("compact starts without next", compact_starts()),
        one("compact start, then FF", filled(start, &[0xFF])),
        one("compact, one search for a name", compact_long_scan()),
        one("compact, 511 such searches", compact_long_scans()),
        one("last reader, no FF", for_last(&[0x41, 0x20, 0x00])),
        one(
            "last reader, one search for a name",
            for_last(&name_search()),
        ),
        one("last reader, FF FF FF", for_last(&last_link)),
    ]
}

/// 65,536 bytes against the name scan.
fn against_names() -> Vec<Input> {
    let names = |name, reply| input(name, Class::Adversarial, NAMES, reply);
    vec![
        names("00 02 41 41", repeated(&[0, 2, b'A', b'A'], LONGEST)),
        names("names of 128, first rule", returning_names(128)),
        names("names of 128, second rule", names_before_first(128)),
        names("strings of 128", long_candidates()),
        names("blank names, ASCII", blank_names()),
        names("blank names, page 037", blank_names_037()),
    ]
}

/// A status with the longest message that there is room for.
fn long_messages() -> Vec<Input> {
    let message = |name, pattern| input(name, Class::Adversarial, MESSAGE, long_status(pattern));
    vec![
        message("message, ASCII", b"A message "),
        message("message, page 037", &[0xC1, 0x94, 0x40, 0xFF]),
        message("message, blanks", b" "),
        message("message, FF", &[0xFF]),
    ]
}

pub fn all() -> Vec<Input> {
    let mut all = typical();
    all.extend(others());
    all.extend(against_scans());
    all.extend(against_tables());
    all.extend(against_names());
    all.extend(long_messages());
    all
}
