//! Records, and the blocks that hold them.

use super::word::word;
use std::collections::VecDeque;

pub const TYPE_DATA: u16 = 0;
pub const TYPE_OPEN: u16 = 1;
pub const TYPE_CLOSE: u16 = 2;

#[derive(Clone, PartialEq, Debug)]
pub struct Record {
    pub kind: u16,
    pub id: u16,
    pub data: Vec<u8>,
}

impl Record {
    /// Type and ID words before the data: what control 46 reads, and a sheet's frame.
    pub(super) fn with_header(&self) -> Vec<u8> {
        let mut bytes = word(self.kind);
        bytes.extend(word(self.id));
        bytes.extend(&self.data);
        bytes
    }

    /// As it lies in a block: length word (4 + data), type, ID, data, pad byte if odd.
    pub(super) fn in_block(&self) -> Vec<u8> {
        let mut bytes = word((4 + self.data.len()) as u16);
        bytes.extend(self.with_header());
        if bytes.len() % 2 == 1 {
            bytes.push(0);
        }
        bytes
    }
}

/// A block that still holds an unread record.
#[derive(Clone, PartialEq, Debug)]
pub struct HeldBlock {
    pub number: usize,
    /// Records put since it was begun (its word 0).
    pub put: usize,
    /// Words used, the two counting words included (its word 1).
    pub words: usize,
    pub unread: VecDeque<Record>,
}
