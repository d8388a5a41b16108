//! A case: calls that reach a desk, bytes changed behind the library's back, and the calls that
//! are compared.  One that fails is made smaller, and printed so that it can be tried again.

use super::program::Library;
use super::twin::{text, Difference, Twin};
use crate::generator::Call;
use crate::model::desk::Desk;
use crate::model::limits::LINE_BYTES;
use crate::model::segment::{Memories, Part};
use crate::outcome::make_call;
use crate::session::{call_text, hex};

/// A byte that is set to another value.
#[derive(Clone, Debug)]
pub struct Change {
    pub part: Part,
    pub at: usize,
    pub byte: u8,
}

#[derive(Clone, Default)]
pub struct Case {
    /// Calls made on the model alone, to reach a desk.
    pub before: Vec<Call>,
    pub changes: Vec<Change>,
    /// Calls made on both.
    pub calls: Vec<Call>,
}

impl Case {
    /// Where library and model differ, if they do.
    pub fn difference(&self, library: &Library) -> Option<Difference> {
        match self.start(library) {
            Ok(mut twin) => self.calls.iter().find_map(|call| twin.call(call).err()),
            Err(difference) => Some(difference),
        }
    }

    fn start<'a>(&self, library: &'a Library) -> Result<Twin<'a>, Difference> {
        if self.before.is_empty() && self.changes.is_empty() {
            return Twin::fresh(library);
        }
        let mut desk = Desk::fresh();
        for call in &self.before {
            make_call(&mut desk, call);
        }
        let mut memories = desk.memories();
        apply(&self.changes, &mut memories);
        Ok(Twin::of(library, &memories))
    }

    /// Calls and changes are dropped while it still fails.
    pub fn shrunk(mut self, library: &Library) -> Case {
        loop {
            let size = self.size();
            let fails = |case: Case| case.difference(library).is_some();
            self.calls = shrink(&self.calls, |calls| fails(Case { calls, ..self.clone() }));
            self.changes = shrink(&self.changes, |changes| fails(Case { changes, ..self.clone() }));
            self.before = shrink(&self.before, |before| fails(Case { before, ..self.clone() }));
            if self.size() == size {
                return self;
            }
        }
    }

    fn size(&self) -> usize {
        self.before.len() + self.changes.len() + self.calls.len()
    }

    /// What to call, a line a call, and where the two differ.
    pub fn report(&self, library: &Library) -> String {
        let mut lines = Vec::new();
        if !self.before.is_empty() {
            lines.push("these calls reach the desk:".to_string());
            lines.extend(self.before.iter().map(line));
        }
        if !self.changes.is_empty() {
            lines.push("then these bytes are changed:".to_string());
            lines.extend(self.changes.iter().map(|c| {
                format!("{:?} byte {} becomes {:02X}", c.part, c.at, c.byte).to_lowercase()
            }));
        }
        lines.push("these calls show the difference, at the last one:".to_string());
        lines.extend(self.calls.iter().map(line));
        let difference = self.difference(library);
        lines.push(difference.unwrap_or_else(|| "it does not show again".to_string()));
        lines.join("\n")
    }
}

pub fn apply(changes: &[Change], memories: &mut Memories) {
    for change in changes {
        memories.part_mut(change.part)[change.at] = change.byte;
    }
}

/// Drops halves, quarters, ... and single items of a list while what is left still fails.
pub fn shrink<T: Clone>(items: &[T], fails: impl Fn(Vec<T>) -> bool) -> Vec<T> {
    let mut items = items.to_vec();
    let mut run = items.len();
    while run > 0 {
        let mut from = 0;
        while from < items.len() {
            let end = (from + run).min(items.len());
            let smaller = [&items[..from], &items[end..]].concat();
            if fails(smaller.clone()) {
                items = smaller;
            } else {
                from += run;
            }
        }
        run /= 2;
    }
    items
}

/// A call as a session's line begins, so that it can be replayed, and in words.
pub fn line(call: &Call) -> String {
    let called = call_text(call);
    match call {
        Call::Event(frame) if frame.len() > LINE_BYTES => {
            format!("(event: {} bytes) {} ...", frame.len(), hex(&frame[..16]))
        }
        Call::Event(_) => called,
        Call::Look(file, reader) => format!("{called}  (look: file {file}, reader {reader})"),
        Call::Save(file, room) => format!("{called}  (save: file {file}, {room} bytes of output)"),
        // The text would be lost behind its own digits.
        Call::Load(file, sheet) => format!("(load: file {file}, {})\n{called}", text(sheet)),
    }
}
