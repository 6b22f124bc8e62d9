//! Times the Rust and Jigshard's library on the same replies, in one process, and prints a table.
//! bench/run builds and calls it; docs/BENCHMARKS.md says what the table means, `HELP` what it takes.

mod answers;
mod inputs;
mod library;
mod stack;
/// The library's functions are declared once, in the Rust package.
#[allow(dead_code)]
#[path = "../bindings/rust/src/sys.rs"]
mod sys;

pub use library::{SqlCard, Text};

use inputs::{Class, Input};
use std::fs;
use std::hint::black_box;
use std::process::ExitCode;
use std::time::{Duration, Instant};

/// The Rust's instructions are not counted where it takes longer: under callgrind it would take
/// some 50 times as long again.
const COUNTED: f64 = 0.05;

const HELP: &str = "\
usage: bench times FILE [--quick]
       bench calls FILE
       bench table FILE FOLDER
       bench stack

Times the Rust and Jigshard's library on the same replies. bench/run builds and calls it, and needs
more than this program; docs/BENCHMARKS.md says what the table means.

times  times each row, compares the answers, writes FILE; with --quick each row once
calls  calls each row once for callgrind; the Rust only where it took less than 0.05 seconds in FILE
table  prints the table: times from FILE, counts of instructions from FOLDER, if it is there
stack  prints how much stack each entry takes

Exit status: 0 done, 1 the two answer differently, 2 bad usage, or FILE could not be written.
";

#[derive(Clone, Copy, Debug, PartialEq)]
pub enum Entry {
    Description,
    Names,
    Status,
    /// The status and then its message's text, which the Rust always makes.
    Message,
    Group,
}

impl Entry {
    const ALL: [Entry; 5] = [
        Entry::Description,
        Entry::Names,
        Entry::Status,
        Entry::Message,
        Entry::Group,
    ];

    fn name(self) -> &'static str {
        match self {
            Entry::Description => "description",
            Entry::Names => "name scan",
            Entry::Status => "status",
            Entry::Message => "status, message text",
            Entry::Group => "group",
        }
    }
}

/// Who is called.
#[derive(Clone, Copy, PartialEq)]
enum Side {
    Rust,
    Ours,
}

/// One call of the Rust. Its own symbol: callgrind counts while it is in here.
#[no_mangle]
#[inline(never)]
pub fn bench_rust(entry: Entry, reply: &[u8]) {
    use db2_proto::replies::{sqlcard, sqldard};
    match entry {
        Entry::Description => {
            black_box(&sqldard::parse_sqldard_data(reply));
        }
        Entry::Names => {
            black_box(&sqldard::scan_column_names(reply));
        }
        Entry::Status | Entry::Message => {
            black_box(&sqlcard::parse_sqlcard_data(reply));
        }
        Entry::Group => {
            black_box(&sqldard::consume_sqlca_group(reply));
        }
    }
}

/// One call of the library. Its own symbol, too.
#[no_mangle]
#[inline(never)]
pub fn bench_ours(entry: Entry, reply: &[u8], room: &mut library::Room) {
    match entry {
        Entry::Description => {
            black_box(&library::parse_sqldard_data(reply, room));
        }
        Entry::Names => {
            black_box(&library::scan_column_names(reply, room));
        }
        Entry::Status => {
            black_box(&library::parse_sqlcard_data(reply));
        }
        Entry::Message => {
            let card = library::parse_sqlcard_data(reply).card;
            let (place, length) = (card.message_place, card.message_length);
            black_box(&library::message_text(reply, place, length, room));
        }
        Entry::Group => {
            black_box(&library::consume_sqlca_group(reply));
        }
    }
}

/// One call of either. Its own symbol: callgrind writes down what it has counted when it is left.
#[no_mangle]
#[inline(never)]
fn bench_one(side: Side, entry: Entry, reply: &[u8], room: &mut library::Room) {
    match side {
        Side::Rust => bench_rust(entry, reply),
        Side::Ours => bench_ours(entry, reply, room),
    }
    black_box(()); // no jump in place of the call
}

/// The best time of a call: samples of 5 ms or one call, until `budget` is used up.
fn best(budget: Duration, mut call: impl FnMut()) -> f64 {
    let start = Instant::now();
    call();
    let first = start.elapsed();
    let mut best = first.as_secs_f64();
    let calls = (Duration::from_millis(5).as_nanos() / first.as_nanos().max(1)).clamp(1, 100_000);
    while start.elapsed() < budget {
        let sample = Instant::now();
        for _ in 0..calls {
            call();
        }
        best = best.min(sample.elapsed().as_secs_f64() / calls as f64);
    }
    best
}

/// All rows in their order: an input and an entry.
fn rows(inputs: &[Input]) -> Vec<(&Input, Entry)> {
    let mut rows = Vec::new();
    for input in inputs {
        for &entry in input.entries {
            rows.push((input, entry));
        }
    }
    rows
}

fn times(file: &str, quick: bool) -> ExitCode {
    let budget = Duration::from_millis(if quick { 15 } else { 60 });
    let rounds = if quick { 1 } else { 3 };
    let inputs = inputs::all();
    let mut room = library::Room::new();
    let mut lines = String::new();
    let mut differ = 0;
    for (input, entry) in rows(&inputs) {
        let reply = &input.reply[..];
        let mut rust = f64::INFINITY;
        let mut ours = f64::INFINITY;
        for round in 0..rounds {
            // Long calls are not made again.
            if round == 0 || rust < 0.5 {
                rust = rust.min(best(budget, || bench_rust(entry, black_box(reply))));
            }
            if round == 0 || ours < 0.5 {
                ours = ours.min(best(budget, || {
                    bench_ours(entry, black_box(reply), &mut room)
                }));
            }
        }
        let same = answers::compare(entry, reply, &mut room);
        let note = match &same {
            Ok(answer) => answer.clone(),
            Err(difference) => {
                differ += 1;
                format!("DIFFERS: {difference}")
            }
        };
        lines.push_str(&format!("{rust}\t{ours}\t{note}\n"));
        eprintln!("{} / {}: {:.2}", input.name, entry.name(), rust / ours);
    }
    if let Err(error) = fs::write(file, lines) {
        eprintln!("bench: cannot write {file}: {error}");
        return ExitCode::from(2);
    }
    ExitCode::from(u8::from(differ > 0))
}

struct Times {
    rust: f64,
    ours: f64,
    note: String,
}

fn read_times(file: &str) -> Vec<Times> {
    let text = fs::read_to_string(file).expect("the file that `bench times` wrote");
    text.lines()
        .map(|line| {
            let mut fields = line.split('\t');
            let mut next = || fields.next().expect("three fields a line");
            Times {
                rust: next().parse().expect("seconds"),
                ours: next().parse().expect("seconds"),
                note: next().to_string(),
            }
        })
        .collect()
}

/// Calls each row once. What is called first is not counted: it loads and allocates.
fn calls(file: &str) {
    let inputs = inputs::all();
    let mut room = library::Room::new();
    for entry in Entry::ALL {
        bench_one(Side::Ours, entry, &[0xFF, 0xFF], &mut room);
        bench_one(Side::Rust, entry, &[0xFF, 0xFF], &mut room);
    }
    for ((input, entry), times) in rows(&inputs).into_iter().zip(read_times(file)) {
        let reply = &input.reply[..];
        bench_one(Side::Ours, entry, reply, &mut room);
        // A stand-in for a call that is not made: each row has two dumps.
        let rust = if times.rust < COUNTED { reply } else { &[] };
        bench_one(Side::Rust, entry, rust, &mut room);
    }
}

/// The instructions of a dump of callgrind.
fn instructions(folder: &str, dump: usize) -> Option<u64> {
    let text = fs::read_to_string(format!("{folder}/out.{dump}")).ok()?;
    let line = text
        .lines()
        .rev()
        .find(|line| line.starts_with("totals:"))?;
    line.split_whitespace().nth(1)?.parse().ok()
}

fn grouped(value: u64) -> String {
    let digits = value.to_string();
    let mut out = String::new();
    for (place, digit) in digits.chars().enumerate() {
        if place > 0 && (digits.len() - place) % 3 == 0 {
            out.push(',');
        }
        out.push(digit);
    }
    out
}

fn in_units(seconds: f64) -> String {
    match seconds {
        s if s < 1e-6 => format!("{:.1} ns", s * 1e9),
        s if s < 1e-3 => format!("{:.2} µs", s * 1e6),
        s if s < 1.0 => format!("{:.2} ms", s * 1e3),
        s => format!("{s:.2} s"),
    }
}

fn verdict(class: Class, ratio: f64) -> &'static str {
    match class {
        Class::Typical if ratio < 5.0 => "**below 5**",
        Class::Adversarial if ratio < 4.0 => "**below 4**",
        _ if ratio < 1.0 => "**slower**",
        _ => "ok",
    }
}

fn table(file: &str, folder: &str) {
    let inputs = inputs::all();
    println!("| input | entry | bytes | Rust | Jigshard | ratio | bar | instructions: Rust | Jigshard | ratio | answer |");
    println!("|---|---|--:|--:|--:|--:|---|--:|--:|--:|---|");
    let warmed = 2 * Entry::ALL.len();
    for (row, ((input, entry), times)) in
        rows(&inputs).into_iter().zip(read_times(file)).enumerate()
    {
        let ours = instructions(folder, warmed + 2 * row + 1);
        let rust = instructions(folder, warmed + 2 * row + 2).filter(|_| times.rust < COUNTED);
        let show = |count: Option<u64>| count.map_or("-".to_string(), grouped);
        let counted = match (rust, ours) {
            (Some(rust), Some(ours)) => format!("{:.1}", rust as f64 / ours as f64),
            _ => "-".to_string(),
        };
        let ratio = times.rust / times.ours;
        println!(
            "| {} | {} | {} | {} | {} | {ratio:.1} | {} | {} | {} | {counted} | {} |",
            input.name,
            entry.name(),
            grouped(input.reply.len() as u64),
            in_units(times.rust),
            in_units(times.ours),
            verdict(input.class, ratio),
            show(rust),
            show(ours),
            times.note,
        );
    }
}

fn refuse(reason: &str) -> ExitCode {
    eprintln!("bench: {reason}; 'target/bench/bench --help' says what there is");
    ExitCode::from(2)
}

fn main() -> ExitCode {
    let words: Vec<String> = std::env::args().skip(1).collect();
    let words: Vec<&str> = words.iter().map(String::as_str).collect();
    if words.iter().any(|word| ["-h", "--help"].contains(word)) {
        print!("{HELP}");
        return ExitCode::SUCCESS;
    }
    match words[..] {
        ["times", file] => return times(file, false),
        ["times", file, "--quick"] => return times(file, true),
        ["calls", file] => calls(file),
        ["table", file, folder] => table(file, folder),
        ["stack"] => stack::print(&inputs::all()),
        [] => return refuse("what to do is not said"),
        ["times" | "calls" | "table" | "stack", ..] => {
            return refuse(&format!("too few words or too many: {}", words.join(" ")))
        }
        [word, ..] => return refuse(&format!("unknown word: {word}")),
    }
    ExitCode::SUCCESS
}
