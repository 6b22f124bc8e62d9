//! How much stack the library's entries take: each is called in a thread whose stack is filled with
//! one byte before, and the lowest byte that is another afterwards tells.

use crate::inputs::Input;
use crate::library::{self, Alphabet, Room, Text};
use std::ffi::{c_int, c_void};
use std::hint::black_box;
use std::ptr;

const STACK: usize = 1 << 20;
const BAR: usize = 256 << 10;
const PAINT: u8 = 0xA5;

/// Room for glibc's pthread_attr_t, which is 56 bytes.
#[repr(C, align(16))]
struct Attributes([u8; 64]);

extern "C" {
    fn pthread_attr_init(attributes: *mut Attributes) -> c_int;
    fn pthread_attr_setstack(attributes: *mut Attributes, stack: *mut c_void, size: usize)
        -> c_int;
    fn pthread_attr_destroy(attributes: *mut Attributes) -> c_int;
    fn pthread_create(
        thread: *mut usize,
        attributes: *const Attributes,
        run: extern "C" fn(*mut c_void) -> *mut c_void,
        argument: *mut c_void,
    ) -> c_int;
    fn pthread_join(thread: usize, result: *mut *mut c_void) -> c_int;
}

type Entry = fn(&[u8], &mut Room);

/// Each entry on a whole reply: texts are as long as it is.
const ENTRIES: [(&str, Entry); 8] = [
    ("parse_sqldard_data", |reply, room| {
        black_box(&library::parse_sqldard_data(reply, room));
    }),
    ("parse_sqldard", |reply, room| {
        black_box(&library::parse_sqldard(0x2411, reply, room));
    }),
    ("parse_sqlcard_data", |reply, _| {
        black_box(&library::parse_sqlcard_data(reply));
    }),
    ("consume_sqlca_group", |reply, _| {
        black_box(&library::consume_sqlca_group(reply));
    }),
    ("scan_column_names", |reply, room| {
        black_box(&library::scan_column_names(reply, room));
    }),
    ("name_part", |reply, _| {
        black_box(&library::name_part(reply, whole(reply)));
    }),
    ("name_text", |reply, room| {
        black_box(&library::name_text(reply, 0, whole(reply), room));
    }),
    ("message_text", |reply, room| {
        black_box(&library::message_text(reply, 0, reply.len(), room));
    }),
];

/// A text of page 037 that is all of a reply.
fn whole(reply: &[u8]) -> Text {
    Text {
        place: 0,
        length: reply.len(),
        alphabet: Alphabet(2),
    }
}

struct Call<'a> {
    entry: Entry,
    reply: &'a [u8],
    room: &'a mut Room,
    /// Where the stack stood before the call.
    from: usize,
}

extern "C" fn run(argument: *mut c_void) -> *mut c_void {
    let call = unsafe { &mut *argument.cast::<Call>() };
    let here = 0u8;
    call.from = ptr::from_ref(&here) as usize;
    (call.entry)(call.reply, call.room);
    ptr::null_mut()
}

/// A stack, aligned as a thread asks.
#[repr(align(4096))]
struct Stack([u8; STACK]);

/// The bytes below the caller's frame that a call wrote to.
fn used(stack: &mut Stack, call: &mut Call) -> usize {
    stack.0.fill(PAINT);
    let lowest = stack.0.as_ptr() as usize;
    let mut attributes = Attributes([0; 64]);
    let mut thread = 0;
    let argument = ptr::from_mut(call).cast();
    unsafe {
        assert_eq!(pthread_attr_init(&mut attributes), 0);
        assert_eq!(
            pthread_attr_setstack(&mut attributes, stack.0.as_mut_ptr().cast(), STACK),
            0
        );
        assert_eq!(pthread_create(&mut thread, &attributes, run, argument), 0);
        assert_eq!(pthread_join(thread, ptr::null_mut()), 0);
        pthread_attr_destroy(&mut attributes);
    }
    let untouched = stack.0.iter().take_while(|byte| **byte == PAINT).count();
    call.from - (lowest + untouched)
}

/// A line for each entry: the most that any input of the table takes.
pub fn print(inputs: &[Input]) {
    let mut stack: Box<Stack> = unsafe { Box::<Stack>::new_zeroed().assume_init() };
    let mut room = Room::new();
    println!("| entry | most stack, bytes | under {} KiB |", BAR >> 10);
    println!("|---|--:|---|");
    for (name, entry) in ENTRIES {
        let mut most = 0;
        for input in inputs {
            let mut call = Call {
                entry,
                reply: &input.reply,
                room: &mut room,
                from: 0,
            };
            most = most.max(used(&mut stack, &mut call));
        }
        println!(
            "| {} | {most} | {} |",
            name,
            if most < BAR { "yes" } else { "**no**" }
        );
    }
}
