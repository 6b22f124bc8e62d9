//! What replies reach of the name scan: its candidates, its two lists of them, its runs. Two
//! things cannot be: a candidate inside another, as no name character is 0, and a run from the
//! last start, as a layout with a name has 32 bytes.

use crate::Reach;
use db2_proto::replies::sqldard::{
    decode_text, is_generated_column_name, is_probably_identifier_text, is_probably_name,
    scan_descriptor_name, scan_names_immediately_before_rdb, scan_repeated_qualified_column_names,
    skip_len_prefixed_string,
};

pub const FEATURES: [&str; 67] = [
    "over 65,536 bytes",
    "65,537 bytes",
    "65,536 bytes",
    "empty",
    "1 to 19 bytes",
    "20 bytes",
    "21 bytes",
    "22 bytes",
    "no candidate",
    "1 candidate",
    "2 to 4 candidates",
    "5 candidates",
    "candidate of 2 characters",
    "candidate of 128 characters",
    "string of 1 character passed over",
    "string of 129 characters passed over",
    "COL and digits passed over",
    "candidate COL and no digits, or more than digits",
    "candidate at the end",
    "string one byte over the end",
    "repeat less than 8 on, skipped",
    "repeat 7 on, skipped",
    "repeat 8 on, kept",
    "another text less than 8 on, kept",
    "returning: four later",
    "returning: four later and one later",
    "returning: four later and two later",
    "returning: four later and three later",
    "returning: only three later",
    "returning: only five later",
    "returning: another within the five",
    "returning: one name",
    "returning: two names",
    "returning: three names or more",
    "before the first: equal neighbours",
    "before the first: equal, not neighbours",
    "before the first: the first itself",
    "before the first: one name",
    "before the first: one name but for equal neighbours",
    "before the first: two names",
    "before the first: three names or more",
    "before the first longer, both have names",
    "both equally long",
    "returning longer, both have names",
    "only returning has names",
    "only before the first has names",
    "over 8,000 names",
    "no run",
    "run of 1",
    "run of 2",
    "run of 3 or more",
    "run of 512",
    "run of 512, another layout behind it",
    "two runs of equal length, one behind the other",
    "a longer run behind",
    "run ended by option flag FF",
    "run ended by a layout without a name",
    "UDT and extension flag missing",
    "extension flag missing",
    "name in m",
    "name in s, m is none",
    "name in the extension",
    "name in ASCII between blanks",
    "name in page 037 between blanks",
    "name of 128 characters",
    "name of 129 characters passed over",
    "extension's s passed over for its m",
];

struct Candidate {
    offset: usize,
    text: Vec<u8>,
}

pub fn reply(reach: &mut Reach, reply: &[u8]) {
    reach.hit_if(reply.len() == 65_537, "65,537 bytes");
    reach.hit_if(reply.len() == 65_536, "65,536 bytes");
    match reply.len() {
        0 => reach.hit("empty"),
        1..=19 => reach.hit("1 to 19 bytes"),
        20 => reach.hit("20 bytes"),
        21 => reach.hit("21 bytes"),
        22 => reach.hit("22 bytes"),
        65_537.. => return reach.hit("over 65,536 bytes"),
        _ => {}
    }
    let found = candidates(reach, reply);
    returning(reach, &found);
    before_first(reach, &found);
    choice(reach, reply);
}

fn candidates(reach: &mut Reach, reply: &[u8]) -> Vec<Candidate> {
    let mut kept: Vec<Candidate> = Vec::new();
    for (offset, pair) in reply.windows(2).enumerate() {
        let length = usize::from(u16::from_be_bytes([pair[0], pair[1]]));
        let start = offset + 2;
        let there = &reply[start..reply.len().min(start + length)];
        if length == 0 || !is_probably_name(there) {
            continue;
        }
        if there.len() < length {
            reach.hit_if(there.len() + 1 == length, "string one byte over the end");
            continue;
        }
        match length {
            1 => reach.hit("string of 1 character passed over"),
            129 => reach.hit("string of 129 characters passed over"),
            _ => {}
        }
        if !(2..=128).contains(&length) {
            continue;
        }
        let text = decode_text(there);
        if is_generated_column_name(&text) {
            reach.hit("COL and digits passed over");
            continue;
        }
        if let Some(last) = kept.last() {
            let on = offset - last.offset;
            if last.text == there {
                reach.hit_if(on == 7, "repeat 7 on, skipped");
                reach.hit_if(on == 8, "repeat 8 on, kept");
                if on < 8 {
                    reach.hit("repeat less than 8 on, skipped");
                    continue;
                }
            } else {
                reach.hit_if(on < 8, "another text less than 8 on, kept");
            }
        }
        reach.hit_if(length == 2, "candidate of 2 characters");
        reach.hit_if(length == 128, "candidate of 128 characters");
        reach.hit_if(start + length == reply.len(), "candidate at the end");
        reach.hit_if(
            there.starts_with(b"COL"),
            "candidate COL and no digits, or more than digits",
        );
        kept.push(Candidate {
            offset,
            text: there.to_vec(),
        });
    }
    match kept.len() {
        0 => reach.hit("no candidate"),
        1 => reach.hit("1 candidate"),
        2..=4 => reach.hit("2 to 4 candidates"),
        5 => reach.hit("5 candidates"),
        _ => {}
    }
    kept
}

fn returning(reach: &mut Reach, found: &[Candidate]) {
    let (mut names, mut skip) = (0, 0);
    for at in 0..found.len() {
        let same = |on: usize| {
            let later = found.get(at + on);
            later.is_some_and(|later| later.text == found[at].text)
        };
        let between = [same(1), same(2), same(3)];
        if same(4) {
            let places = [
                "returning: four later and one later",
                "returning: four later and two later",
                "returning: four later and three later",
            ];
            for (is, place) in between.into_iter().zip(places) {
                reach.hit_if(is, place);
            }
        } else {
            reach.hit_if(
                same(3) && !same(1) && !same(2),
                "returning: only three later",
            );
            reach.hit_if(
                same(5) && between == [false; 3],
                "returning: only five later",
            );
        }
        let returns = same(4) && between == [false; 3];
        if skip > 0 {
            skip -= 1;
            reach.hit_if(returns, "returning: another within the five");
        } else if returns {
            reach.hit("returning: four later");
            names += 1;
            skip = 4;
        }
    }
    match names {
        0 => {}
        1 => reach.hit("returning: one name"),
        2 => reach.hit("returning: two names"),
        _ => reach.hit("returning: three names or more"),
    }
}

fn before_first(reach: &mut Reach, found: &[Candidate]) {
    let mut names: Vec<&[u8]> = Vec::new();
    let mut equal = 0;
    for pair in found.windows(2) {
        if pair[1].text != found[0].text {
            continue;
        }
        let text = pair[0].text.as_slice();
        if text == found[0].text {
            reach.hit("before the first: the first itself");
        } else if names.last() == Some(&text) {
            reach.hit("before the first: equal neighbours");
            equal += 1;
        } else {
            reach.hit_if(
                names.contains(&text),
                "before the first: equal, not neighbours",
            );
            names.push(text);
        }
    }
    match names.len() {
        0 => {}
        1 => {
            reach.hit("before the first: one name");
            reach.hit_if(
                equal > 0,
                "before the first: one name but for equal neighbours",
            );
        }
        2 => reach.hit("before the first: two names"),
        _ => reach.hit("before the first: three names or more"),
    }
}

fn choice(reach: &mut Reach, reply: &[u8]) {
    let returning = scan_repeated_qualified_column_names(reply).len();
    let before = scan_names_immediately_before_rdb(reply).len();
    reach.hit_if(before.max(returning) > 8_000, "over 8,000 names");
    match (returning, before) {
        (0, 0) => runs(reach, reply),
        (0, _) => reach.hit("only before the first has names"),
        (_, 0) => reach.hit("only returning has names"),
        _ if before > returning => reach.hit("before the first longer, both have names"),
        _ if before == returning => reach.hit("both equally long"),
        _ => reach.hit("returning longer, both have names"),
    }
}

/// A run from each start, up to 512, and where it ends.
fn runs(reach: &mut Reach, reply: &[u8]) {
    let (mut best, mut best_start, mut best_end) = (0, 0, 0);
    for start in 0..reply.len().saturating_sub(20) {
        let (mut at, mut count) = (start, 0);
        while count < 512 {
            let Some((_, next)) = scan_descriptor_name(reply, at) else {
                break;
            };
            (at, count) = (next, count + 1);
        }
        if count > best {
            reach.hit_if(best > 0 && start >= best_end, "a longer run behind");
            (best, best_start, best_end) = (count, start, at);
        } else if count == best && count > 0 && start >= best_end {
            reach.hit("two runs of equal length, one behind the other");
        }
        if count == 0 {
            nameless(reach, reply, start);
        }
    }
    match best {
        0 => return reach.hit("no run"),
        1 => reach.hit("run of 1"),
        2 => reach.hit("run of 2"),
        _ => reach.hit("run of 3 or more"),
    }
    if best == 512 {
        reach.hit("run of 512");
        reach.hit_if(
            scan_descriptor_name(reply, best_end).is_some(),
            "run of 512, another layout behind it",
        );
    } else if reply.get(best_end + 16) == Some(&0xFF) {
        reach.hit("run ended by option flag FF");
    } else if strings(reply, best_end + 19, 6).is_some() {
        reach.hit("run ended by a layout without a name");
    }
    let mut at = best_start;
    for _ in 0..best {
        at = layout(reach, reply, at);
    }
}

/// `count` strings and what is past them; none where one ends early.
fn strings(reply: &[u8], mut at: usize, count: usize) -> Option<(Vec<&[u8]>, usize)> {
    let mut all = Vec::new();
    for _ in 0..count {
        let end = skip_len_prefixed_string(reply, at).ok()?;
        all.push(&reply[at + 2..end]);
        at = end;
    }
    Some((all, at))
}

/// A layout of the run that is taken: where its name stands, and what is past it.
fn layout(reach: &mut Reach, reply: &[u8], start: usize) -> usize {
    let Some((name, next)) = scan_descriptor_name(reply, start) else {
        unreachable!("a layout of a run");
    };
    let Some((texts, at)) = strings(reply, start + 19, 6) else {
        unreachable!("a layout of a run");
    };
    if at == reply.len() {
        reach.hit("UDT and extension flag missing");
    } else if next == reply.len() && reply[at] == 0xFF && at + 1 == next {
        reach.hit("extension flag missing");
    }
    let taken = |text: &[u8]| is_probably_identifier_text(&decode_text(text));
    let bytes = if taken(texts[0]) {
        reach.hit("name in m");
        texts[0]
    } else if taken(texts[1]) {
        reach.hit("name in s, m is none");
        texts[1]
    } else {
        reach.hit("name in the extension");
        &[]
    };
    let blank = |byte: Option<&u8>| byte.is_some_and(|byte| b" \t\n\x0B\x0C\r".contains(byte));
    reach.hit_if(
        blank(bytes.first()) || blank(bytes.last()),
        "name in ASCII between blanks",
    );
    reach.hit_if(
        !bytes.is_ascii() && bytes.len() > name.chars().count(),
        "name in page 037 between blanks",
    );
    reach.hit_if(name.trim().chars().count() == 128, "name of 128 characters");
    next
}

/// A start that gives no run: names that are one character too long, or not asked for.
fn nameless(reach: &mut Reach, reply: &[u8], start: usize) {
    if reply.get(start + 16).is_none_or(|flag| *flag == 0xFF) {
        return;
    }
    let Some((texts, at)) = strings(reply, start + 19, 6) else {
        return;
    };
    for text in &texts[..2] {
        let text = decode_text(text);
        let text = text.trim();
        reach.hit_if(
            text.len() == 129 && is_probably_name(text.as_bytes()),
            "name of 129 characters passed over",
        );
    }
    if reply.get(at) == Some(&0xFF) && reply.get(at + 1).is_some_and(|flag| *flag != 0xFF) {
        let Some((texts, _)) = strings(reply, at + 10, 9) else {
            return;
        };
        let s = decode_text(texts[8]);
        reach.hit_if(
            !texts[7].is_empty() && is_probably_identifier_text(&s),
            "extension's s passed over for its m",
        );
    }
}
