//! The library of the proved desk is held to the model: every answer, every record shown, every
//! sheet, every byte of the memories it is lent, and the bytes around them.  The calls are made by a
//! program in C that is linked with the library, desk.c, since the library is for x86-64 and Rust is
//! for the machine that this runs on.
//!
//! Where memories are not sound by docs/SEGMENT.md, nothing at all may change; where they are,
//! though no run reaches them, the model is started from them and has to be met too.

mod bad_sheets;
pub mod caller;
pub mod case;
pub mod damage;
mod frames;
mod header;
mod host;
pub mod isolation;
mod lengths;
mod numbers;
mod program;
pub mod reached;
mod sessions;
mod sheets;
pub mod tally;
pub mod twin;

use crate::generator::Call;
use crate::model::desk::Desk;
use crate::model::line::{digits, frame_of_line};
use crate::session::{calls_of_text, line_of, memories_text};
use case::Case;
use host::Host;
pub use program::Library;
use sessions::{damaged_session, full_session, raw_session, session};
use std::io::Write;
use std::ops::Range;
use tally::Tally;

/// A lent memory has the wrong length or unsound content.
pub const UNSOUND: u8 = 29;

/// So many seeds of a part may fail before it is given up.
const ENOUGH: usize = 3;

/// Compares all there is, in sessions of so many calls; false where anything differs.
pub fn compare_all(library: &Library, seed: u64, sessions: u64, calls: usize) -> bool {
    let (some, few) = ((sessions + 3) / 4, (sessions + 49) / 50);
    let seeds = |n: u64| seed..seed + n;
    let parts = [
        once("header", header::compare_header()),
        once("fresh desks", lengths::fresh_desks(library, seed)),
        once("wrong lengths", lengths::wrong_lengths(library, seed)),
        for_seeds("sessions", library, seeds(sessions), |library, one, tally| {
            session(library, one, calls, tally)
        }),
        for_seeds("full", library, seeds(few), |library, one, tally| {
            full_session(library, one, calls, tally)
        }),
        for_seeds("frames", library, seeds(few), frames::all_frames),
        for_seeds("numbers", library, seeds(few), numbers::all_numbers),
        for_seeds("sheets", library, seeds(few), sheets::all_sheets),
        for_seeds("damage", library, seeds(some), damaged_session),
        for_seeds("raw bytes", library, seeds(some), |library, one, tally| {
            raw_session(library, one, calls, tally)
        }),
    ];
    parts.iter().all(|agrees| *agrees)
}

fn once(what: &str, compared: Result<u64, String>) -> bool {
    match &compared {
        Ok(times) => println!("library: {what}: {times} agree"),
        Err(difference) => println!("library: {what}: {difference}"),
    }
    compared.is_ok()
}

fn for_seeds(
    what: &str,
    library: &Library,
    seeds: Range<u64>,
    compare: impl Fn(&Library, u64, &mut Tally) -> Result<(), Case>,
) -> bool {
    print!("library: {what}: seeds {} to {}: ", seeds.start, seeds.end - 1);
    // A call that does not return leaves the line standing.
    let _ = std::io::stdout().flush();
    let mut tally = Tally::default();
    let mut failed = 0;
    for seed in seeds {
        if let Err(case) = compare(library, seed, &mut tally) {
            let report = case.shrunk(library).report(library);
            println!("\nlibrary and model differ, {what}, seed {seed}:\n{report}");
            failed += 1;
        }
        if failed == ENOUGH {
            return false;
        }
    }
    println!("{}", tally.text());
    failed == 0
}

/// The event program, on the library: a line in, the answer's digits out.
pub fn answer_lines(library: &Library, lines: &[Vec<u8>]) -> Vec<u8> {
    let mut output = Vec::new();
    let mut host = Host::new(library, &Desk::fresh().memories());
    for line in lines {
        let frame = frame_of_line(line).unwrap_or_default();
        match host.call(&Call::Event(frame)) {
            Ok(outcome) => output.extend(digits(&outcome.bytes)),
            Err(fault) => output.extend(fault.into_bytes()),
        }
        output.push(b'\n');
    }
    output
}

/// The calls of a session's text, answered by the library, and the memories they leave.
pub fn replay_text(library: &Library, session: &str) -> String {
    let mut text = String::new();
    let mut host = Host::new(library, &Desk::fresh().memories());
    for call in calls_of_text(session) {
        match host.call(&call) {
            Ok(outcome) => text.push_str(&line_of(&call, &outcome)),
            Err(fault) => text.push_str(&format!("{fault}\n")),
        }
    }
    match Desk::load_memories(host.memories()) {
        Ok(desk) => text.push_str(&memories_text(&desk)),
        Err(why) => text.push_str(&format!("the memories are not sound: {why}\n")),
    }
    text
}
