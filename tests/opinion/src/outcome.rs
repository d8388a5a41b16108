//! A call, made on the model, and what it gives.

use crate::generator::Call;
use crate::model::desk::Desk;
use crate::model::status::{DONE, LEAST_REFUSAL};

/// A status, and the bytes that go with it: an event's answer, the record shown, the sheet saved.
#[derive(Clone, PartialEq, Debug)]
pub struct Outcome {
    pub status: u8,
    pub bytes: Vec<u8>,
}

impl Outcome {
    /// An answer has its status in the second byte; of memories that are refused there is none.
    pub fn of_answer(answer: Vec<u8>) -> Outcome {
        Outcome { status: answer.get(1).copied().unwrap_or(LEAST_REFUSAL), bytes: answer }
    }
}

pub fn make_call(desk: &mut Desk, call: &Call) -> Outcome {
    match call {
        Call::Event(frame) => Outcome::of_answer(desk.event(frame)),
        Call::Look(file, reader) => {
            let (status, bytes) = desk.look(*file, *reader);
            Outcome { status, bytes }
        }
        Call::Save(file, room) => {
            let (status, bytes) = desk.save(*file, *room);
            if status == DONE {
                check_sheet(&bytes);
            }
            Outcome { status, bytes }
        }
        Call::Load(file, text) => Outcome { status: desk.load(*file, text), bytes: Vec::new() },
    }
}

/// In a debug build: a saved sheet loads, and saves again as itself.
fn check_sheet(sheet: &[u8]) {
    if cfg!(debug_assertions) {
        let mut other = Desk::fresh();
        assert!(other.load(0, sheet) == DONE, "a saved sheet is refused");
        assert!(other.save(0, sheet.len()).1 == sheet, "a sheet does not come back");
    }
}
