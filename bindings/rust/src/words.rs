//! Words that the library is lent: on the stack for short lists, on the heap for long ones.

use crate::sys::COLUMN_WORDS;
use crate::{Column, Refusal, MAX_COLUMNS, MAX_REPLY};

/// Room for 64 columns.
const STACK_WORDS: usize = 64 * COLUMN_WORDS;

/// No descriptor takes fewer bytes, so a reply has no more columns than this goes into its length.
const SHORTEST_DESCRIPTOR: usize = 16;

/// Has `fill` write records of `size` words, at most `room` of them, and hands the words that it wrote to `take`.
///
/// `fill` answers how many records it wrote and what else it says. What it answers must depend on the words that it is
/// lent by their number alone, and on that only in refusing with the number needed: then it is asked again.
pub fn filled<A, T>(
    size: usize,
    room: usize,
    reply: &[u8],
    fill: impl Fn(&mut [u64]) -> Result<(usize, A), Refusal>,
    take: impl FnOnce(&[u64]) -> T,
) -> Result<(A, T), Refusal> {
    let likely = reply.len().min(MAX_REPLY) / SHORTEST_DESCRIPTOR + 1;
    let length = likely.min(room) * size;
    let mut stack = [0; STACK_WORDS];
    let mut heap;
    let mut words = if length <= STACK_WORDS {
        &mut stack[..length]
    } else {
        heap = vec![0; length];
        &mut heap[..]
    };
    let mut answer = fill(words);
    if let Err(Refusal::RoomTooShort { needed }) = answer {
        if needed <= room {
            heap = vec![0; needed * size];
            words = &mut heap;
            answer = fill(words);
        }
    }
    let (count, said) = answer?;
    Ok((said, take(&words[..count * size])))
}

/// Hands the words of columns to `ask`: all of them, or as many as are refused for their number.
pub fn with_words<T>(columns: &[Column], ask: impl FnOnce(&[u64]) -> T) -> T {
    let columns = &columns[..columns.len().min(MAX_COLUMNS + 1)];
    let length = columns.len() * COLUMN_WORDS;
    let mut stack = [0; STACK_WORDS];
    let mut heap;
    let words = if length <= STACK_WORDS {
        &mut stack[..length]
    } else {
        heap = vec![0; length];
        &mut heap[..]
    };
    for (column, record) in columns.iter().zip(words.chunks_exact_mut(COLUMN_WORDS)) {
        column.put_words(record);
    }
    ask(words)
}
