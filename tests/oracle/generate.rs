//! Writes cases of docs/ANSWERS.md, for all of its entries, made from a seed.
//!
//!     generate SEED COUNT [ENTRIES] [--from CASE] [--progress]
//!
//! SEED is any number below 2^64. Each case is for one of ENTRIES (some of DdLPSGNnMsTUCWQR,
//! default DPSGN), all equally often. The same SEED and ENTRIES give the same cases on every machine;
//! --from starts at a later case than 0, so that one case can be made again without those before
//! it. Progress goes to standard error once a second if that is a terminal, or with --progress.
//! ENTRIES may be x instead, which is no entry: exchanges of a column's description, of which
//! tests/exchanges makes cases (exchanges.rs).
//!
//! Half of the cases of S, s and G are SQLCAs on the edges of their fields (cards.rs). What the
//! others hold, in 10,000 of each entry:
//!
//! | family     | DdLP | S, s |    G | N, n | replies                                           |
//! |------------|-----:|-----:|-----:|-----:|---------------------------------------------------|
//! | standard   | 3200 |  400 |  900 |  700 | every group present or absent, BE and LE          |
//! | compact    | 1500 |  150 |  150 |  200 | compact tables, with and without FF, names to 65  |
//! | last       |  650 |  150 |  150 |  100 | FF FF FF, unknown types, the FF before the count  |
//! | scan       | 1450 |  150 |  150 |  400 | runs behind other bytes, equal, negative scores   |
//! | two        |  550 |   50 |   50 |  100 | a list without names and another reply behind it  |
//! | counts     |  450 |   46 |   46 |  100 | counts on the edges with few descriptors          |
//! | many       |   40 |    4 |    4 |   40 | 256 to 514 descriptors                            |
//! | candidates |  150 |  100 |  100 | 1600 | strings that the name scan takes, and repeats     |
//! | layouts    |  250 |  100 |  100 | 1300 | layouts of any type, names in m, s and extension  |
//! | sqlca      |  500 | 7030 | 6530 |  100 | a SQLCA alone, whole or cut, codes and messages   |
//! | small      | 1115 | 1790 | 1790 | 1327 | every size from 0 to 64                           |
//! | longest    |    3 |   10 |   10 |    3 | 65,534 to 65,536 bytes (slow in the Rust)         |
//! | nearly     |   60 |    - |    - |    - | one name, almost COL and digits, names behind it  |
//! | full       |   50 |    - |    - |    - | lists of 511 to 513, by the last reader to 800    |
//! | filled     |   12 |    - |    - |   10 | other families, filled up to 65,535 to 65,537     |
//! | repeats    |    - |    - |    - | 2000 | candidates on the edges, repeats as N asks        |
//! | runs       |    - |    - |    - | 2000 | runs of layouts, equally long, names on the edges |
//! | too long   |   20 |   20 |   20 |   20 | 65,537 to 65,540 bytes, and 70,000                |
//!
//! Of all but the last eight, 35 in 100 are damaged by one to three edits, and so are 15 in 100 of
//! the SQLCAs on the edges. P has the right code point in 92 of 100. L lends as many records as
//! the count says, one less or one more, a number up to 17 or next to 256, 512 and 4,095, or all
//! 4,096. `target/oracle/reach` tells how often each reading is reached.
//!
//! M has a message of its own making (messages.rs): in 10,000, 9,930 of 0 to some 300 bytes, 40
//! longer ones, 10 in replies up to the limit, 20 in replies beyond it. A quarter asks for
//! another part of the reply, at its end or beyond it; rooms are about the text's length.
//!
//! T and U have names of their own making (named.rs), places, numbers and rooms on the edges. C
//! and W have half of their replies made for them (lists.rs), lists alike but for one thing and
//! lists with a width, the others from the families above; Q and R have records (lists.rs).

mod cards;
mod exchanges;
#[allow(dead_code)] // writes cases, reads none
mod frame;
mod groups;
mod lists;
mod messages;
mod named;
mod names;
mod random;
mod replies;
mod texts;
#[allow(dead_code)] // takes words
mod usage;

use random::Random;
use std::io::{self, BufWriter, IsTerminal, Write};
use std::process::ExitCode;
use std::time::{Duration, Instant};

const ENTRIES: &str = "DdLPSGNnMsTUCWQR";
const EXCHANGES: &str = "x";
const DEFAULT_ENTRIES: &str = "DPSGN";
const SQLDARD: u16 = 0x2411;
const MOST_LENT: u16 = 4_096;

const HELP: &str = "\
usage: generate SEED COUNT [ENTRIES] [--from CASE] [--progress]

Writes COUNT cases of docs/ANSWERS.md to standard output. The same SEED and ENTRIES give the same
cases on every machine. Needs nothing else.

SEED         any number below 2^64
COUNT        how many cases
ENTRIES      some of DdLPSGNnMsTUCWQR, all equally often (default DPSGN); or x alone: exchanges of a
             column's description, of which tests/exchanges makes cases
--from CASE  starts at this case instead of case 0
--progress   tells progress even if standard error is no terminal

Exit status: 0 all written, 1 something could not be written, 2 bad usage.
";

type Maker = fn(&mut Random) -> Vec<u8>;

/// The rows of the table above that can be damaged, then the others.
const MAKERS: [Maker; 17] = [
    replies::standard,
    replies::compact,
    replies::last,
    replies::scan,
    replies::two,
    replies::counts,
    replies::many,
    replies::candidates,
    replies::layouts,
    replies::sqlca,
    replies::small,
    replies::longest,
    replies::nearly_generated,
    replies::full,
    replies::filled,
    names::repeats,
    names::runs,
];
const DAMAGED_MAKERS: usize = 10;

/// The columns of the table above.
const DESCRIPTION: [usize; 18] = [
    3200, 1500, 650, 1450, 550, 450, 40, 150, 250, 500, 1115, 3, 60, 50, 12, 0, 0, 20,
];
const STATUS: [usize; 18] = [
    400, 150, 150, 150, 50, 46, 4, 100, 100, 7030, 1790, 10, 0, 0, 0, 0, 0, 20,
];
const GROUP: [usize; 18] = [
    900, 150, 150, 150, 50, 46, 4, 100, 100, 6530, 1790, 10, 0, 0, 0, 0, 0, 20,
];
const NAMES: [usize; 18] = [
    700, 200, 100, 400, 100, 100, 40, 1600, 1300, 100, 1327, 3, 0, 0, 10, 2000, 2000, 20,
];

fn reply(r: &mut Random, entry: u8) -> Vec<u8> {
    if matches!(entry, b'S' | b's' | b'G') && r.chance(50) {
        let mut reply = cards::edges(r);
        if r.chance(15) {
            replies::damage(r, &mut reply);
        }
        return reply;
    }
    let weights = match entry {
        b'S' | b's' => &STATUS,
        b'G' => &GROUP,
        b'N' | b'n' => &NAMES,
        _ => &DESCRIPTION,
    };
    let family = r.weighted(weights);
    let Some(maker) = MAKERS.get(family) else {
        let room = if matches!(entry, b'L' | b'P') { 2 } else { 0 };
        return replies::too_long(r, frame::LONGEST - room);
    };
    let mut reply = maker(r);
    if family < DAMAGED_MAKERS && r.chance(35) {
        replies::damage(r, &mut reply);
    }
    reply
}

fn case(r: &mut Random, request: &Request) -> (u8, Vec<u8>) {
    let entry = r.pick(&request.entries);
    let payload = match entry {
        b'x' => exchanges::exchange(r),
        b'M' => messages::case(r),
        b'T' => named::case(r, true),
        b'U' => named::case(r, false),
        b'Q' => lists::two_lists(r),
        b'R' => lists::records(r),
        b'C' => lists::two_replies(r, |r| reply(r, entry)),
        b'W' if r.chance(50) => lists::row(r),
        b'P' => {
            let code_point = code_point(r);
            [&code_point.to_be_bytes()[..], &reply(r, entry)].concat()
        }
        b'L' => {
            let reply = reply(r, entry);
            let lent = lent(r, &reply);
            [&lent.to_be_bytes()[..], &reply].concat()
        }
        _ => reply(r, entry),
    };
    (entry, payload)
}

fn code_point(r: &mut Random) -> u16 {
    if r.chance(92) {
        return SQLDARD;
    }
    let other = r.next() as u16;
    r.pick(&[0x2408, 0x2410, 0x1124, 0x0000, 0xFFFF, other])
}

/// How many records are lent: most often about as many as the reply's count, where it stands
/// behind the shortest head and one byte order makes it small.
fn lent(r: &mut Random, reply: &[u8]) -> u16 {
    let count = match reply {
        [0xFF, 0xFF, a, b, ..] => {
            let count = u16::from_be_bytes([*a, *b]);
            Some(count.min(count.swap_bytes())).filter(|count| *count <= MOST_LENT)
        }
        _ => None,
    };
    match (count, r.weighted(&[45, 20, 10, 25])) {
        (Some(count), 0) => {
            let moved = r.pick(&[count, count, count.saturating_sub(1), count + 1]);
            moved.min(MOST_LENT)
        }
        (None, 0) | (_, 1) => r.pick(&[0, 1, 1, 2, 2, 3, 3, 4, 5, 6, 8, 12, 16, 17]),
        (_, 2) => r.pick(&[255, 256, 257, 511, 512, 513, 799, 800, 4_094, 4_095]),
        _ => MOST_LENT,
    }
}

struct Request {
    seed: u64,
    count: u64,
    entries: Vec<u8>,
    from: u64,
    progress: bool,
}

fn request(words: Vec<String>) -> Result<Request, String> {
    let mut plain = Vec::new();
    let mut from = 0;
    let mut progress = io::stderr().is_terminal();
    let mut arguments = words.into_iter();
    while let Some(argument) = arguments.next() {
        match argument.as_str() {
            "--progress" => progress = true,
            "--from" => from = whole(&arguments.next().ok_or("--from needs a case number")?)?,
            option if option.starts_with('-') => return Err(format!("unknown word: {option}")),
            _ => plain.push(argument),
        }
    }
    let (seed, count, entries) = match plain.as_slice() {
        [seed, count] => (seed, count, DEFAULT_ENTRIES),
        [seed, count, entries] => (seed, count, entries.as_str()),
        [_, _, _, word, ..] => return Err(format!("unknown word: {word}")),
        _ => return Err("SEED and COUNT are needed".into()),
    };
    let known = !entries.is_empty() && entries.chars().all(|entry| ENTRIES.contains(entry));
    if !known && entries != EXCHANGES {
        return Err(format!("entries are some of {ENTRIES}, not {entries:?}"));
    }
    Ok(Request {
        seed: whole(seed)?,
        count: whole(count)?,
        entries: entries.as_bytes().to_vec(),
        from,
        progress,
    })
}

fn whole(text: &str) -> Result<u64, String> {
    text.parse()
        .map_err(|_| format!("not a whole number below 2^64: {text:?}"))
}

fn run(request: &Request) -> io::Result<()> {
    let mut output = BufWriter::with_capacity(1 << 20, io::stdout().lock());
    let mut said = Instant::now();
    for done in 0..request.count {
        let mut r = Random::of_case(request.seed, request.from.wrapping_add(done));
        let (entry, payload) = case(&mut r, request);
        frame::write(&mut output, entry, &payload)?;
        if request.progress && done % 1024 == 0 && said.elapsed() >= Duration::from_secs(1) {
            eprintln!("generate: {done} of {}", request.count);
            said = Instant::now();
        }
    }
    output.flush()
}

fn main() -> ExitCode {
    let words = usage::words();
    if usage::asks_for_help(&words) {
        print!("{HELP}");
        return ExitCode::SUCCESS;
    }
    let request = match request(words) {
        Ok(request) => request,
        Err(error) => return usage::refuse("generate", &error),
    };
    if let Err(error) = run(&request) {
        eprintln!("generate: cannot write: {error}");
        return ExitCode::FAILURE;
    }
    ExitCode::SUCCESS
}
