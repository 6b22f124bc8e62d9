//! Tells what generated replies reach: which reading the Rust's answer comes from, and what was
//! met on the way.
//!
//!     generate SEED COUNT D | reach
//!     generate SEED COUNT N | reach
//!
//! Reads cases of D, d, L and P, or of N and n, and writes for each line of `FEATURES` (for N and
//! n those of reach_names.rs) how many replies have it and how many that is in 100,000. Linked to
//! the Rust with its private functions made public.

#[allow(dead_code)] // reads cases, writes none
mod frame;
mod reach_names;
mod usage;

use db2_proto::fdoca::ByteOrder::{self, BigEndian, LittleEndian};
use db2_proto::replies::sqldard::{
    consume_sqlca_group, descriptor_end, is_generated_column_name, is_known_sql_type,
    parse_column_descriptor, parse_compact_sqldard_data, parse_standard_column_descriptor,
    parse_standard_sqldard_data, skip_len_prefixed_string, skip_sqldhgrp, sqldard_has_real_names,
    SqlDard,
};
use frame::Next;
use std::io::{self, BufReader};
use std::process::ExitCode;

const FEATURES: [&str; 58] = [
    "over 65,536 bytes",
    "65,537 bytes",
    "65,536 bytes",
    "empty",
    "another code point",
    "count 0",
    "count 512 BE",
    "count 512 LE",
    "count 513 BE",
    "count 513 LE",
    "standard BE, named",
    "standard BE, all generated",
    "compact, named",
    "compact, all generated",
    "standard LE, named",
    "standard LE, all generated",
    "scan BE",
    "scan LE",
    "last, columns",
    "last, no columns",
    "refused",
    "a reading without names loses to one with",
    "compact in BE's stead",
    "scan in BE's stead",
    "standard LE in compact's stead",
    "scan in compact's stead",
    "scan: equal scores",
    "scan: equal scores in both orders",
    "scan: a score below zero",
    "scan: a score below zero, scan wins",
    "scan: a score below zero, another wins",
    "scan: only scores below zero",
    "scan: the second order wins over the first",
    "list of 512, standard",
    "list of 512, compact",
    "list of 512, scan",
    "list over 512, last",
    "last: count one byte on",
    "last: unknown type",
    "last: ended by FF FF FF",
    "last: a descriptor under 16 bytes after others",
    "last: a descriptor under 16 bytes first",
    "name in m",
    "name in s",
    "name in the extension's m",
    "name in the extension's s",
    "no name, options there",
    "label in s",
    "base table in s",
    "schema in s",
    "UDT group",
    "COL and digits in ASCII",
    "COL and digits in page 037",
    "COL and digits between blanks",
    "name between blanks of page 037",
    "option flag missing",
    "UDT and extension flag missing",
    "extension flag missing",
];

struct Reach {
    features: &'static [&'static str],
    replies: u64,
    counts: Vec<u64>,
    seen: Vec<bool>,
}

impl Reach {
    fn of(features: &'static [&'static str]) -> Self {
        Reach {
            features,
            replies: 0,
            counts: vec![0; features.len()],
            seen: vec![false; features.len()],
        }
    }

    fn hit(&mut self, name: &str) {
        match self.features.iter().position(|feature| *feature == name) {
            Some(place) => self.seen[place] = true,
            None => unreachable!("no such feature: {name}"),
        }
    }

    fn hit_if(&mut self, test: bool, name: &str) {
        if test {
            self.hit(name);
        }
    }

    fn reply(&mut self, reply: &[u8]) {
        self.hit_if(reply.is_empty(), "empty");
        self.hit_if(reply.len() == 65_536, "65,536 bytes");
        self.hit_if(reply.len() == 65_537, "65,537 bytes");
        if reply.len() > 65_536 {
            return self.hit("over 65,536 bytes");
        }
        if let Some(at) = head(reply) {
            if let Some(count) = reply.get(at..at + 2) {
                let count = [count[0], count[1]];
                self.hit_if(count == [0, 0], "count 0");
                self.hit_if(count == [2, 0], "count 512 BE");
                self.hit_if(count == [0, 2], "count 512 LE");
                self.hit_if(count == [2, 1], "count 513 BE");
                self.hit_if(count == [1, 2], "count 513 LE");
            }
        }
        self.choice(reply);
    }

    /// The choice of `parse_sqldard_data`.
    fn choice(&mut self, reply: &[u8]) {
        let standard = |order| {
            let list = parse_standard_sqldard_data(reply, order).ok();
            list.filter(|list| !list.columns.is_empty())
        };
        let big = standard(BigEndian);
        if named(&big) {
            self.hit("standard BE, named");
            return self.standard(reply, BigEndian);
        }
        let compact = parse_compact_sqldard_data(reply).ok().flatten();
        if named(&compact) {
            self.hit("compact, named");
            self.hit_if(count(&compact) == 512, "list of 512, compact");
            self.stead(big.is_some(), false, "compact");
            return;
        }
        let little = standard(LittleEndian);
        if named(&little) {
            // Never in standard BE's stead: both start at the same place, and no two bytes are a
            // known type in both orders.
            self.hit("standard LE, named");
            self.stead(big.is_some(), compact.is_some(), "standard LE");
            return self.standard(reply, LittleEndian);
        }
        if self.scan(reply) {
            return self.stead(big.is_some(), compact.is_some(), "scan");
        }
        if big.is_some() {
            self.hit("standard BE, all generated");
            self.standard(reply, BigEndian);
        } else if compact.is_some() {
            self.hit("compact, all generated");
            self.hit_if(count(&compact) == 512, "list of 512, compact");
        } else if little.is_some() {
            self.hit("standard LE, all generated");
            self.standard(reply, LittleEndian);
        } else {
            self.last(reply);
        }
    }

    /// A reading with a name won over those without.
    fn stead(&mut self, big: bool, compact: bool, winner: &str) {
        self.hit_if(big || compact, "a reading without names loses to one with");
        if big {
            self.hit(&format!("{winner} in BE's stead"));
        } else if compact {
            self.hit(&format!("{winner} in compact's stead"));
        }
    }

    /// All runs, with the exact score. True if one is taken.
    fn scan(&mut self, reply: &[u8]) -> bool {
        let mut best = 0;
        let mut ties: Vec<ByteOrder> = Vec::new();
        let mut columns = 0;
        let (mut below, mut big_best) = (false, 0);
        for order in [BigEndian, LittleEndian] {
            for start in 0..reply.len().saturating_sub(17) {
                let (mut offset, mut all, mut with_name) = (start, 0i64, 0i64);
                while all < 512 {
                    let read = parse_standard_column_descriptor(reply, offset, all as usize, order);
                    let Ok((column, next)) = read else { break };
                    all += 1;
                    with_name += i64::from(!is_generated_column_name(&column.name));
                    offset = next;
                }
                if with_name == 0 || all < 2 {
                    continue;
                }
                let score = with_name * 2048 + all - (all - with_name) * 1024;
                below |= score < 0;
                if score > best {
                    (best, columns) = (score, all);
                    ties.clear();
                }
                if score == best {
                    ties.push(order);
                }
            }
            if order == BigEndian {
                big_best = best;
            }
        }
        self.hit_if(below, "scan: a score below zero");
        self.hit_if(below && best > 0, "scan: a score below zero, scan wins");
        self.hit_if(below && best == 0, "scan: only scores below zero");
        let Some(winner) = ties.first() else {
            return false;
        };
        self.hit_if(ties.len() > 1, "scan: equal scores");
        self.hit_if(
            ties.iter().any(|order| order != winner),
            "scan: equal scores in both orders",
        );
        self.hit_if(columns == 512, "list of 512, scan");
        if *winner == BigEndian {
            self.hit("scan BE");
        } else {
            self.hit("scan LE");
            self.hit_if(big_best > 0, "scan: the second order wins over the first");
        }
        true
    }

    /// The last reader, as the end of `parse_sqldard_data` has it.
    fn last(&mut self, reply: &[u8]) {
        if consume_sqlca_group(reply).is_err() || reply.is_empty() {
            return self.hit("refused");
        }
        let Some(mut at) = head(reply) else {
            return self.hit("refused");
        };
        if at + 2 > reply.len() {
            return self.hit("last, no columns");
        }
        let mut declared = u16::from_le_bytes([reply[at], reply[at + 1]]);
        if declared > 256 && at + 3 <= reply.len() && reply[at] == 0xFF {
            self.hit("last: count one byte on");
            at += 1;
            declared = u16::from_le_bytes([reply[at], reply[at + 1]]);
        }
        at += 2;
        let mut columns = 0;
        for index in 0..usize::from(declared) {
            if at >= reply.len() {
                break;
            }
            let found = descriptor_end(reply, at);
            let end = found.unwrap_or(reply.len());
            if parse_column_descriptor(&reply[at..end], index).is_err() {
                let before = if columns > 0 { "after others" } else { "first" };
                self.hit(&format!("last: a descriptor under 16 bytes {before}"));
                break;
            }
            self.hit_if(found.is_some(), "last: ended by FF FF FF");
            let kind = u16::from_le_bytes([reply[at + 12], reply[at + 13]]);
            self.hit_if(!is_known_sql_type(kind), "last: unknown type");
            columns += 1;
            at = end;
        }
        self.hit_if(columns > 512, "list over 512, last");
        self.hit(if columns > 0 {
            "last, columns"
        } else {
            "last, no columns"
        });
    }

    /// What stands in the descriptors of a standard list that is the answer.
    fn standard(&mut self, reply: &[u8], order: ByteOrder) {
        let Some(mut at) = head(reply) else { return };
        let count = [reply[at], reply[at + 1]];
        let count = match order {
            BigEndian => u16::from_be_bytes(count),
            LittleEndian => u16::from_le_bytes(count),
        };
        self.hit_if(count == 512, "list of 512, standard");
        at += 2;
        for index in 0..usize::from(count) {
            let read = parse_standard_column_descriptor(reply, at, index, order);
            let Ok((_, next)) = read else {
                unreachable!("a list that could be read");
            };
            self.descriptor(&reply[at..next]);
            at = next;
        }
    }

    fn descriptor(&mut self, bytes: &[u8]) {
        match bytes.get(16) {
            None => return self.hit("option flag missing"),
            Some(0xFF) => return,
            Some(_) => {}
        }
        let mut at = 19;
        let direct = strings(bytes, &mut at, 6);
        let mut extended = vec![Vec::new(); 9];
        match bytes.get(at) {
            None => self.hit("UDT and extension flag missing"),
            Some(flag) => {
                at += 1;
                if *flag != 0xFF {
                    self.hit("UDT group");
                    at += 4;
                    strings(bytes, &mut at, 5);
                }
                match bytes.get(at) {
                    None => self.hit("extension flag missing"),
                    Some(0xFF) => {}
                    Some(_) => {
                        at += 9;
                        extended = strings(bytes, &mut at, 9);
                    }
                }
            }
        }
        let in_s = |texts: &[Vec<u8>], m: usize| texts[m].is_empty() && !texts[m + 1].is_empty();
        self.hit_if(in_s(&direct, 2), "label in s");
        self.hit_if(in_s(&extended, 3), "base table in s");
        self.hit_if(in_s(&extended, 5), "schema in s");
        let names = [
            (&direct[0], "name in m"),
            (&direct[1], "name in s"),
            (&extended[7], "name in the extension's m"),
            (&extended[8], "name in the extension's s"),
        ];
        let Some((name, place)) = names.iter().find(|(name, _)| !name.is_empty()) else {
            return self.hit("no name, options there");
        };
        self.hit(place);
        self.name(name);
    }

    fn name(&mut self, name: &[u8]) {
        const BLANKS_037: [u8; 8] = [0x05, 0x25, 0x0B, 0x0C, 0x0D, 0x40, 0x15, 0x41];
        if name.is_ascii() {
            let text = String::from_utf8_lossy(name);
            let generated = is_generated_column_name(&text);
            return self.hit_if(generated, "COL and digits in ASCII");
        }
        let blank = |byte: Option<&u8>| byte.is_some_and(|byte| BLANKS_037.contains(byte));
        let between = blank(name.first()) || blank(name.last());
        let text: Vec<u8> = name
            .iter()
            .copied()
            .filter(|byte| !BLANKS_037.contains(byte))
            .collect();
        let digits = text.strip_prefix(&[0xC3, 0xD6, 0xD3]);
        let generated = digits.is_some_and(|digits| {
            !digits.is_empty() && digits.iter().all(|digit| (0xF0..=0xF9).contains(digit))
        });
        self.hit_if(generated && !between, "COL and digits in page 037");
        self.hit_if(generated && between, "COL and digits between blanks");
        self.hit_if(!generated && between, "name between blanks of page 037");
    }

    fn end_of_reply(&mut self) {
        let all_generated = ["standard BE", "compact", "standard LE"]
            .map(|reading| format!("{reading}, all generated"));
        let below = self.seen(&["scan: a score below zero".into()]);
        if below && (self.seen(&all_generated) || self.seen(&["last, columns".into()])) {
            self.hit("scan: a score below zero, another wins");
        }
        self.count();
    }

    /// Counts what was seen in one reply.
    fn count(&mut self) {
        self.replies += 1;
        for (count, seen) in self.counts.iter_mut().zip(&mut self.seen) {
            *count += u64::from(*seen);
            *seen = false;
        }
    }

    fn tell(&self) {
        for (feature, count) in self.features.iter().zip(&self.counts) {
            let share = count * 100_000 / self.replies.max(1);
            println!("{count:>8} {share:>8}  {feature}");
        }
        println!("{:>8}           replies", self.replies);
    }

    fn seen(&self, names: &[String]) -> bool {
        let mut both = self.features.iter().zip(&self.seen);
        both.any(|(feature, seen)| *seen && names.iter().any(|name| name == feature))
    }
}

fn named(list: &Option<SqlDard>) -> bool {
    list.as_ref().is_some_and(sqldard_has_real_names)
}

fn count(list: &Option<SqlDard>) -> usize {
    list.as_ref().map_or(0, |list| list.columns.len())
}

/// Where the count stands, or would.
fn head(reply: &[u8]) -> Option<usize> {
    let (_, at) = consume_sqlca_group(reply).ok()?;
    match reply.get(at) {
        None => Some(at),
        Some(0xFF) => Some(at + 1),
        Some(_) => skip_sqldhgrp(reply, at + 1).ok(),
    }
}

fn strings(bytes: &[u8], at: &mut usize, count: usize) -> Vec<Vec<u8>> {
    let mut all = Vec::new();
    for _ in 0..count {
        let Ok(end) = skip_len_prefixed_string(bytes, *at) else {
            unreachable!("a descriptor that could be read");
        };
        all.push(bytes[*at + 2..end].to_vec());
        *at = end;
    }
    all
}

const HELP: &str = "\
usage: reach

Reads cases of D, d, L and P, or of N and n, from standard input, as target/oracle/generate makes
them, and tells what their replies reach: how many have each feature, and how many that is in
100,000.

Needs nothing but standard input, and takes no words.

Exit status: 0 all told, 1 something else on standard input, 2 bad usage.
";

fn main() -> ExitCode {
    if let Some(end) = usage::end_at_words("reach", HELP) {
        return end;
    }
    let mut input = BufReader::with_capacity(1 << 20, io::stdin().lock());
    let mut payload = Vec::new();
    let mut reach = Reach::of(&FEATURES);
    let mut names = Reach::of(&reach_names::FEATURES);
    loop {
        match frame::read(&mut input, &mut payload) {
            Ok(Next::End) => break,
            Ok(Next::Case(b'N' | b'n')) => {
                reach_names::reply(&mut names, &payload);
                names.count();
                continue;
            }
            Ok(Next::Case(b'D' | b'd')) => reach.reply(&payload),
            Ok(Next::Case(b'P')) if payload.starts_with(&[0x24, 0x11]) => {
                reach.reply(&payload[2..])
            }
            Ok(Next::Case(b'P')) => reach.hit("another code point"),
            Ok(Next::Case(b'L')) if payload.len() >= 2 => reach.reply(&payload[2..]),
            _ => {
                eprintln!("reach: not a stream of cases of D, d, L and P, or of N and n");
                return ExitCode::FAILURE;
            }
        }
        reach.end_of_reply();
    }
    for told in [reach, names] {
        if told.replies > 0 {
            told.tell();
        }
    }
    ExitCode::SUCCESS
}
