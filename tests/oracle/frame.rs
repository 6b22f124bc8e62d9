//! The cases of docs/ANSWERS.md on a stream: one byte for the entry, a 32-bit big-endian
//! length, and that many bytes, the payload.

use std::io::{self, Read, Write};

/// The longest payload of entries that take replies, so that some over the limit can be tried.
pub const LONGEST: usize = 70_000;

/// The longest payload of Q and R: two lists just over the limit, and some bytes more.
pub const LONGEST_RECORDS: usize = 420_000;

fn longest(entry: u8) -> usize {
    match entry {
        b'Q' | b'R' => LONGEST_RECORDS,
        _ => LONGEST,
    }
}

/// What stands next on the stream. `Bad` is a case that ends early or is too long.
pub enum Next {
    End,
    Bad,
    Case(u8),
}

/// Reads the next case; its payload replaces what `payload` held.
pub fn read(input: &mut impl Read, payload: &mut Vec<u8>) -> io::Result<Next> {
    let mut head = [0u8; 5];
    match fill(input, &mut head)? {
        0 => return Ok(Next::End),
        5 => {}
        _ => return Ok(Next::Bad),
    }
    let length = u32::from_be_bytes([head[1], head[2], head[3], head[4]]) as usize;
    if length > longest(head[0]) {
        return Ok(Next::Bad);
    }
    payload.resize(length, 0);
    if fill(input, payload)? < length {
        return Ok(Next::Bad);
    }
    Ok(Next::Case(head[0]))
}

pub fn write(output: &mut impl Write, entry: u8, payload: &[u8]) -> io::Result<()> {
    // An exchange is no entry's case: it holds a description beside a reply.
    assert!(entry == b'x' || payload.len() <= longest(entry));
    output.write_all(&[entry])?;
    output.write_all(&(payload.len() as u32).to_be_bytes())?;
    output.write_all(payload)
}

/// How many bytes could be read: less than asked for only at the stream's end.
fn fill(input: &mut impl Read, bytes: &mut [u8]) -> io::Result<usize> {
    let mut done = 0;
    while done < bytes.len() {
        match input.read(&mut bytes[done..]) {
            Ok(0) => break,
            Ok(count) => done += count,
            Err(error) if error.kind() == io::ErrorKind::Interrupted => {}
            Err(error) => return Err(error),
        }
    }
    Ok(done)
}
