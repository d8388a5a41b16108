//! The library and the model side by side: each call is made on both, and all that it leaves is
//! compared.

use super::host::Host;
use super::program::Library;
use super::UNSOUND;
use crate::generator::Call;
use crate::model::desk::Desk;
use crate::model::limits::{BUFFER_BYTES, PLACES, SHARE_BYTES};
use crate::model::loading::Unsound;
use crate::model::segment::{file_row, place_row, Memories, ENTRY_WORDS, LISTS, ROW_WORDS};
use crate::model::status::{DONE, LEAST_REFUSAL};
use crate::outcome::{make_call, Outcome};
use crate::session::hex;

/// How the two differ.
pub type Difference = String;

/// The words of an entry, of a file's row and of a place's, as docs/SEGMENT.md names them.
pub const ENTRY_NAMES: [&str; ENTRY_WORDS] =
    ["link", "place", "unit", "limit", "keep", "status", "log", "size", "seconds", "word 9"];
pub const FILE_NAMES: [&str; ROW_WORDS] =
    ["R", "B", "D", "block", "spent", "held", "word 6", "word 7"];
pub const PLACE_NAMES: [&str; ROW_WORDS] =
    ["side", "ID", "share", "timeout", "extended", "typed", "keep", "first"];

pub struct Twin<'a> {
    host: Host<'a>,
    model: Result<Desk, Unsound>,
    /// What the library's memories must be.
    memories: Memories,
}

impl<'a> Twin<'a> {
    /// The library's own fresh desk beside the model's.
    pub fn fresh(library: &'a Library) -> Result<Twin<'a>, Difference> {
        let mut memories = Desk::fresh().memories();
        for part in [&mut memories.segment, &mut memories.blocks, &mut memories.buffers] {
            part.iter_mut().enumerate().for_each(|(at, byte)| *byte = (at * 7 + at / 251) as u8);
        }
        Twin::made_fresh(library, &memories)
    }

    /// The library makes a fresh desk of memories with any bytes in them.
    pub fn made_fresh(library: &'a Library, memories: &Memories) -> Result<Twin<'a>, Difference> {
        let mut host = Host::new(library, memories);
        let status = host.fresh()?;
        if status != DONE {
            return Err(format!("fresh: status {status}"));
        }
        let model = Desk::fresh();
        let twin = Twin { memories: model.memories(), model: Ok(model), host };
        twin.compare_memories()?;
        Ok(twin)
    }

    /// Both start from these memories, sound or not.
    pub fn of(library: &'a Library, memories: &Memories) -> Twin<'a> {
        Twin {
            host: Host::new(library, memories),
            model: Desk::load_memories(memories),
            memories: memories.clone(),
        }
    }

    pub fn library(&self) -> &'a Library {
        self.host.library()
    }

    /// The model's desk, or why the memories are not sound.
    pub fn model(&self) -> Result<&Desk, Unsound> {
        self.model.as_ref().map_err(|why| *why)
    }

    /// What the library's memories must be.
    pub fn memories(&self) -> &Memories {
        &self.memories
    }

    /// Both go back to a desk and its memories.
    pub fn reset(&mut self, desk: &Desk, memories: &Memories) {
        self.host.set(memories);
        self.model = Ok(desk.clone());
        self.memories = memories.clone();
    }

    /// Makes a call on both; what it gives, or how the two differ.
    pub fn call(&mut self, call: &Call) -> Result<Outcome, Difference> {
        let expected = self.expected(call);
        let outcome = self.host.call(call)?;
        if outcome != expected {
            let (one, other) = (outcome_text(call, &outcome), outcome_text(call, &expected));
            return Err(format!("library {one}, model {other}"));
        }
        self.compare_memories()?;
        Ok(outcome)
    }

    /// What the model gives; where the memories are not sound, that they are not.
    fn expected(&mut self, call: &Call) -> Outcome {
        match &mut self.model {
            Ok(desk) => {
                let outcome = make_call(desk, call);
                let reads_only = matches!(call, Call::Look(..) | Call::Save(..));
                if !reads_only && outcome.status < LEAST_REFUSAL {
                    self.memories = desk.memories_over(&self.memories);
                }
                outcome
            }
            Err(_) => Outcome { status: UNSOUND, bytes: Vec::new() },
        }
    }

    fn compare_memories(&self) -> Result<(), Difference> {
        let library = self.host.memories();
        compare(&library.segment, &self.memories.segment, segment_place)?;
        compare(&library.blocks, &self.memories.blocks, |at| {
            format!("blocks, byte {at}: share {}, its byte {}", at / SHARE_BYTES, at % SHARE_BYTES)
        })?;
        compare(&library.buffers, &self.memories.buffers, |at| {
            let place = at / BUFFER_BYTES;
            let (file, accessor) = (place / PLACES, place % PLACES);
            let byte = at % BUFFER_BYTES;
            format!("buffers, byte {at}: file {file}, accessor {accessor}, its byte {byte}")
        })
    }
}

fn compare(
    library: &[u8],
    model: &[u8],
    place: impl Fn(usize) -> String,
) -> Result<(), Difference> {
    if library == model {
        return Ok(());
    }
    let differing: Vec<usize> = (0..model.len()).filter(|at| library[*at] != model[*at]).collect();
    let first = differing[0];
    let (one, other) = (library[first], model[first]);
    let all = differing.len();
    Err(format!("{}: library {one:02X}, model {other:02X} ({all} bytes differ)", place(first)))
}

/// Where a byte of the segment lies, in the words of docs/SEGMENT.md.
fn segment_place(at: usize) -> String {
    let word = at / 2;
    let named = |names: [&'static str; ROW_WORDS], from: usize| names[(word - from) % ROW_WORDS];
    let what = if word < LISTS {
        format!("head of list {word}")
    } else if word < file_row(0) {
        let (entry, part) = ((word - LISTS) / ENTRY_WORDS, (word - LISTS) % ENTRY_WORDS);
        format!("entry {entry}, {}", ENTRY_NAMES[part])
    } else if word < place_row(0) {
        let file = (word - file_row(0)) / ROW_WORDS;
        format!("row of file {file}, {}", named(FILE_NAMES, file_row(0)))
    } else {
        let place = (word - place_row(0)) / ROW_WORDS;
        format!("row of place {place}, {}", named(PLACE_NAMES, place_row(0)))
    };
    format!("segment, byte {at}: {what}")
}

/// The answer's digits; of other calls the status and what goes with it.
pub fn outcome_text(call: &Call, outcome: &Outcome) -> String {
    let Outcome { status, bytes } = outcome;
    match call {
        Call::Event(_) if bytes.is_empty() => "no answer (29)".to_string(),
        Call::Event(_) => format!("answer {}", hex(bytes)),
        Call::Save(..) => format!("status {status}, {} bytes: {}", bytes.len(), text(bytes)),
        Call::Look(..) => format!("status {status}, {} bytes: {}", bytes.len(), hex(bytes)),
        Call::Load(..) => format!("status {status}"),
    }
}

/// A sheet's text, or another, on one line; / for LF.
pub fn text(bytes: &[u8]) -> String {
    let lines: Vec<String> =
        bytes.split(|b| *b == b'\n').map(|line| line.escape_ascii().to_string()).collect();
    lines.join("/")
}
