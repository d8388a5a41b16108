//! Sessions as text: a line for each call with its answer, then the memories it leaves.
//!
//!   E FRAME ANSWER              an event
//!   L FILE READER STATUS BYTES  look
//!   S FILE ROOM STATUS SHEET    save
//!   D FILE TEXT STATUS          load
//!   B FILE BYTES                the share of a built file
//!   U PLACE BYTES               record buffer 8 x file + place, if not zero
//!   F ENTRIES                   the free list
//!   Q LIST ENTRIES              list 1 to 81, if not empty: read queues, write queues, reply
//!                               ports, timers
//!
//! Bytes are hexadecimal, - for none; shares and buffers are cut behind the last non-zero byte.

use crate::generator::{Call, Generator};
use crate::model::desk::Desk;
use crate::model::limits::{BUFFER_BYTES, FILES, PLACES, SHARE_BYTES};
use crate::model::line::{digits, frame_of_line};
use crate::model::status::DONE;
use crate::outcome::{make_call, Outcome};

/// A session of n calls and the memories it leaves.
pub fn session_text(seed: u64, n: u64) -> String {
    let mut desk = Desk::fresh();
    let mut generator = Generator::new(seed);
    let mut text = String::new();
    for _ in 0..n {
        let call = next_call(&desk, &mut generator);
        text.push_str(&line_of(&call, &make_call(&mut desk, &call)));
    }
    text.push_str(&memories_text(&desk));
    text
}

/// The calls of a session's text, answered anew.
pub fn replay_text(session: &str) -> String {
    let mut desk = Desk::fresh();
    let mut text = String::new();
    for call in calls_of_text(session) {
        text.push_str(&line_of(&call, &make_call(&mut desk, &call)));
    }
    text.push_str(&memories_text(&desk));
    text
}

/// The generator's next call; a sheet it will see saved is remembered.
pub fn next_call(desk: &Desk, generator: &mut Generator) -> Call {
    let call = generator.next_call(desk);
    if let Call::Save(file, room) = call {
        let (status, sheet) = desk.save(file, room);
        if status == DONE {
            generator.saw_sheet(&sheet);
        }
    }
    call
}

/// A session's line: the call and what it gave.
pub fn line_of(call: &Call, outcome: &Outcome) -> String {
    let Outcome { status, bytes } = outcome;
    let called = call_text(call);
    match call {
        Call::Event(_) => format!("{called} {}\n", hex(bytes)),
        Call::Load(..) => format!("{called} {status}\n"),
        Call::Look(..) | Call::Save(..) => format!("{called} {status} {}\n", hex(bytes)),
    }
}

/// A call, as its line begins.
pub fn call_text(call: &Call) -> String {
    match call {
        Call::Event(frame) => format!("E {}", hex(frame)),
        Call::Look(file, reader) => format!("L {file} {reader}"),
        Call::Save(file, room) => format!("S {file} {room}"),
        Call::Load(file, text) => format!("D {file} {}", hex(text)),
    }
}

pub fn calls_of_text(session: &str) -> Vec<Call> {
    session.lines().filter_map(call_of_line).collect()
}

/// The call of a session's line, its recorded answer left aside; None for the memories.
fn call_of_line(line: &str) -> Option<Call> {
    let fields: Vec<&str> = line.split(' ').collect();
    let number = |text: &str| text.parse::<usize>().ok();
    match fields[..] {
        ["E", frame, ..] => Some(Call::Event(bytes_of(frame)?)),
        ["L", file, reader, ..] => Some(Call::Look(number(file)?, number(reader)?)),
        ["S", file, room, ..] => Some(Call::Save(number(file)?, number(room)?)),
        ["D", file, text, ..] => Some(Call::Load(number(file)?, bytes_of(text)?)),
        _ => None,
    }
}

pub fn memories_text(desk: &Desk) -> String {
    let mut text = String::new();
    let blocks = desk.blocks();
    for file in 0..FILES {
        if desk.files[file].is_some() {
            let share = &blocks[file * SHARE_BYTES..(file + 1) * SHARE_BYTES];
            text.push_str(&format!("B {file} {}\n", hex(cut(share))));
        }
    }
    let buffers = desk.buffers();
    for place in 0..FILES * PLACES {
        let held = cut(&buffers[place * BUFFER_BYTES..(place + 1) * BUFFER_BYTES]);
        if !held.is_empty() {
            text.push_str(&format!("U {place} {}\n", hex(held)));
        }
    }
    for (index, list) in desk.lists().iter().enumerate() {
        let entries: String = list.iter().map(|entry| format!(" {entry}")).collect();
        if index == 0 {
            text.push_str(&format!("F{entries}\n"));
        } else if !list.is_empty() {
            text.push_str(&format!("Q {index}{entries}\n"));
        }
    }
    text
}

/// Hexadecimal, or - for no bytes.
pub fn hex(bytes: &[u8]) -> String {
    if bytes.is_empty() {
        return "-".to_string();
    }
    String::from_utf8_lossy(&digits(bytes)).into_owned()
}

/// Any number of bytes in digits, or - for none.
fn bytes_of(text: &str) -> Option<Vec<u8>> {
    if text == "-" {
        return Some(Vec::new());
    }
    let bytes: Option<Vec<_>> = text.as_bytes().chunks(2).map(frame_of_line).collect();
    bytes.map(|all| all.concat())
}

/// Cut behind the last non-zero byte.
fn cut(bytes: &[u8]) -> &[u8] {
    let length = bytes.iter().rposition(|b| *b != 0).map_or(0, |at| at + 1);
    &bytes[..length]
}
