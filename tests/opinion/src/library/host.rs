//! The library's side: a host that lends memories and calls.

use super::program::{Fault, Library, Reply, Request, Run};
use crate::generator::Call;
use crate::model::limits::{ANSWER_BYTES, BUFFER_BYTES};
use crate::model::segment::Memories;
use crate::outcome::Outcome;

/// So many numbers stand for different bytes.
const SHADES: usize = 251;

pub struct Host<'a> {
    library: &'a Library,
    /// Hosts share the program, which holds the memories of one of them: what it holds is known by
    /// this number.
    number: usize,
    /// The library's memories, to the byte: as they were lent, with every change that was told.
    memories: Memories,
    shift: usize,
    /// The lengths of the answer and the record memory that it lends.
    answer_length: usize,
    record_length: usize,
    calls: usize,
}

impl<'a> Host<'a> {
    /// Lends these memories, of any lengths, and answer and record memories of the right ones.
    pub fn new(library: &'a Library, memories: &Memories) -> Host<'a> {
        Host::lending(library, memories, ANSWER_BYTES, BUFFER_BYTES)
    }

    pub fn lending(
        library: &'a Library,
        memories: &Memories,
        answer_length: usize,
        record_length: usize,
    ) -> Host<'a> {
        let shift = memories.segment.first().map_or(0, |b| usize::from(*b));
        let (number, memories) = (library.new_host(), memories.clone());
        Host { library, number, memories, shift, answer_length, record_length, calls: 0 }
    }

    /// Other memories, which the next call lends.
    pub fn set(&mut self, memories: &Memories) {
        self.memories = memories.clone();
        self.number = self.library.new_host();
    }

    pub fn library(&self) -> &'a Library {
        self.library
    }

    pub fn memories(&self) -> &Memories {
        &self.memories
    }

    /// Lends answer and record memories of these lengths from now on.
    pub fn lend_lengths(&mut self, answer: usize, record: usize) {
        self.answer_length = answer;
        self.record_length = record;
    }

    pub fn call(&mut self, call: &Call) -> Result<Outcome, Fault> {
        self.call_over(call, self.calls + 1)
    }

    /// The number says which bytes lie beforehand in what the call writes to.
    pub fn call_over(&mut self, call: &Call, number: usize) -> Result<Outcome, Fault> {
        self.calls += 1;
        let shade = number % SHADES + 1;
        let request = match call {
            Call::Event(frame) => {
                Request::new(b'E').number(shade).number(self.answer_length).lent(frame, self.calls)
            }
            Call::Look(file, reader) => Request::new(b'L')
                .number(shade)
                .number(self.record_length)
                .number(*file)
                .number(*reader),
            Call::Save(file, room) => Request::new(b'S').number(shade).number(*room).number(*file),
            Call::Load(file, text) => Request::new(b'D').number(*file).lent(text, self.calls),
        };
        let Reply { status, bytes, .. } = self.ask(request)?;
        Ok(match call {
            Call::Event(_) => Outcome::of_answer(bytes),
            _ => Outcome { status, bytes },
        })
    }

    pub fn fresh(&mut self) -> Result<u8, Fault> {
        Ok(self.ask(Request::new(b'F'))?.status)
    }

    fn ask(&mut self, request: Request) -> Result<Reply, Fault> {
        let request = match self.library.lender() == self.number {
            true => request,
            false => self.lend().then(request),
        };
        let reply = self.library.ask(self.number, &request)?;
        for run in &reply.changes {
            self.change(run).ok_or("a change is reported of bytes that do not exist")?;
        }
        match reply.fault.is_empty() {
            true => Ok(reply),
            false => Err(reply.fault),
        }
    }

    fn lend(&self) -> Request {
        let Memories { segment, blocks, buffers } = &self.memories;
        Request::new(b'M')
            .lent(segment, self.shift + 1)
            .lent(blocks, self.shift + 2)
            .lent(buffers, self.shift + 7)
    }

    fn change(&mut self, run: &Run) -> Option<()> {
        let Memories { segment, blocks, buffers } = &mut self.memories;
        let memory = [segment, blocks, buffers].into_iter().nth(run.part)?;
        let end = run.at.checked_add(run.bytes.len())?;
        memory.get_mut(run.at..end)?.copy_from_slice(&run.bytes);
        Some(())
    }
}
