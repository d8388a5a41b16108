//! Bytes of blocks and record buffers that docs/SEGMENT.md asks nothing of, by kind: those that no
//! call reads, and what a request has in its buffer, which may be anything.

use super::desk::Desk;
use super::file::MessageFile;
use super::limits::{BUFFER_BYTES, FILES, PLACES, SHARE_BYTES};
use super::segment::Part;
use std::ops::Range;

#[derive(Clone, Copy, PartialEq, Eq, PartialOrd, Ord, Debug)]
pub enum Kind {
    /// The buffer of an open place, with no request or one that has nothing there.
    IdleBuffer,
    /// A buffer after a waiting write's data or a completed read's record.
    AfterData,
    /// The buffer of a place that is not open.
    NotOpen,
    /// A held block after its last record.
    Tail,
    /// A share after its last block.
    ShareEnd,
    /// A block that holds no record, and keeps what it had.
    EmptyBlock,
    UnbuiltShare,
    UnbuiltBuffers,
    /// A waiting write's data.
    WaitingData,
    /// A completed read's record.
    CompletedRecord,
}

/// All kinds.
pub const KINDS: [Kind; 10] = [
    Kind::IdleBuffer,
    Kind::AfterData,
    Kind::NotOpen,
    Kind::Tail,
    Kind::ShareEnd,
    Kind::EmptyBlock,
    Kind::UnbuiltShare,
    Kind::UnbuiltBuffers,
    Kind::WaitingData,
    Kind::CompletedRecord,
];

impl Kind {
    pub fn name(self) -> &'static str {
        match self {
            Kind::IdleBuffer => "idle buffer",
            Kind::AfterData => "after a request's data",
            Kind::NotOpen => "buffer of a place not open",
            Kind::Tail => "tail of a held block",
            Kind::ShareEnd => "after a share's last block",
            Kind::EmptyBlock => "block without a record",
            Kind::UnbuiltShare => "share of a file not built",
            Kind::UnbuiltBuffers => "buffers of a file not built",
            Kind::WaitingData => "data of a waiting write",
            Kind::CompletedRecord => "record of a completed read",
        }
    }

    /// Whether a call answers these bytes, or writes them into a block.
    pub fn is_read(self) -> bool {
        matches!(self, Kind::WaitingData | Kind::CompletedRecord)
    }

    /// Whether they are zero on every desk that is reached from a fresh one.
    pub fn zero_in_runs(self) -> bool {
        !self.is_read() && self != Kind::EmptyBlock
    }
}

/// Bytes of one kind, at least one, side by side in a memory.
#[derive(Clone, Debug)]
pub struct Stretch {
    pub kind: Kind,
    pub part: Part,
    pub range: Range<usize>,
}

impl Desk {
    /// All stretches of the desk's memories. No two overlap.
    pub fn stretches(&self) -> Vec<Stretch> {
        let mut all = Vec::new();
        let mut add = |kind, part, from, to| all.push(Stretch { kind, part, range: from..to });
        for file in 0..FILES {
            let share = SHARE_BYTES * file;
            let buffers = BUFFER_BYTES * PLACES * file;
            match &self.files[file] {
                Some(f) => {
                    share_stretches(f, |kind, from, to| {
                        add(kind, Part::Blocks, share + from, share + to)
                    });
                    buffer_stretches(f, |kind, from, to| {
                        add(kind, Part::Buffers, buffers + from, buffers + to)
                    });
                }
                None => {
                    let end = buffers + BUFFER_BYTES * PLACES;
                    add(Kind::UnbuiltShare, Part::Blocks, share, share + SHARE_BYTES);
                    add(Kind::UnbuiltBuffers, Part::Buffers, buffers, end);
                }
            }
        }
        all.retain(|stretch| !stretch.range.is_empty());
        all
    }

    /// Whether all is zero that is zero on every desk reached from a fresh one.
    pub fn otherwise_zero(&self) -> bool {
        let (blocks, buffers) = (self.blocks(), self.buffers());
        let zero = |stretch: &Stretch| {
            let memory = if stretch.part == Part::Blocks { &blocks } else { &buffers };
            memory[stretch.range.clone()].iter().all(|byte| *byte == 0)
        };
        self.stretches().iter().filter(|stretch| stretch.kind.zero_in_runs()).all(zero)
    }
}

/// Where the stretches of a built file's share begin and end in it.
fn share_stretches(f: &MessageFile, mut add: impl FnMut(Kind, usize, usize)) {
    let length = 2 * f.geometry.block_words();
    for number in 0..f.geometry.data_blocks {
        let end = length * (number + 1);
        match f.ring.iter().find(|block| block.number == number) {
            Some(block) => add(Kind::Tail, length * number + 2 * block.words, end),
            None => add(Kind::EmptyBlock, length * number, end),
        }
    }
    add(Kind::ShareEnd, length * f.geometry.data_blocks, SHARE_BYTES);
}

/// Where the stretches of a built file's buffers begin and end in them.
fn buffer_stretches(f: &MessageFile, mut add: impl FnMut(Kind, usize, usize)) {
    for (place, accessor) in f.accessors.iter().enumerate() {
        let (start, end) = (BUFFER_BYTES * place, BUFFER_BYTES * (place + 1));
        let lies = f.in_buffer(place).len();
        match accessor {
            None => add(Kind::NotOpen, start, end),
            Some(_) if lies == 0 => add(Kind::IdleBuffer, start, end),
            Some(a) => {
                let kind = if a.has_waiting() { Kind::WaitingData } else { Kind::CompletedRecord };
                add(kind, start, start + lies);
                add(Kind::AfterData, start + lies, end);
            }
        }
    }
}
