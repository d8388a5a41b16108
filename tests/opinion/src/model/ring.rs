//! The ring of blocks: putting records and taking them from the head.

use super::count::Count;
use super::file::MessageFile;
use super::record::{HeldBlock, Record, TYPE_CLOSE, TYPE_DATA, TYPE_OPEN};
use super::word::word;
use std::collections::VecDeque;

impl MessageFile {
    /// A block is zeroed whole when its first record is put; word 1 then counts words 0 and 1.
    fn begin_block(&mut self) {
        let number = self.next_block;
        debug_assert!(self.ring.iter().all(|b| b.number != number), "a held block is begun again");
        let length = 2 * self.geometry.block_words();
        let start = number * length;
        let old = self.share[start..start + length].iter().any(|b| *b != 0);
        self.notes.add_if(old, "block begun over old bytes");
        let fresh_file = self.ring.is_empty() && !self.share.iter().any(|b| *b != 0);
        self.notes.add_if(number == 0 && !fresh_file, "ring wrapped to block 0");
        let across = self.ring.len() >= 2 && self.ring[0].number > number;
        self.notes.add_if(across, "held blocks lie across the wrap");
        self.share[start..start + length].fill(0);
        self.ring.push_back(HeldBlock { number, put: 0, words: 2, unread: VecDeque::new() });
        self.next_block = (number + 1) % self.geometry.data_blocks;
    }

    /// Each record goes right behind the one before; a block takes at most B records.
    pub(super) fn put(&mut self, record: Record) {
        let full = self.ring.back().map_or(true, |block| block.put == self.geometry.blocking);
        if full {
            self.begin_block();
        }
        let length = 2 * self.geometry.block_words();
        let block = self.ring.back_mut().expect("a block was just seen to have a place");
        let bytes = record.in_block();
        let start = block.number * length;
        let at = start + 2 * block.words;
        self.share[at..at + bytes.len()].copy_from_slice(&bytes);
        block.put += 1;
        block.words += bytes.len() / 2;
        block.unread.push_back(record);
        self.share[start..start + 2].copy_from_slice(&word(block.put as u16));
        self.share[start + 2..start + 4].copy_from_slice(&word(block.words as u16));
    }

    pub fn head(&self) -> Option<&Record> {
        self.ring.front().and_then(|block| block.unread.front())
    }

    /// The head record goes; a block no longer holding one leaves the ring.  When the
    /// last block leaves, used is 0 and the next put begins the block after it.
    fn remove_head(&mut self) {
        let block = self.ring.front_mut().expect("a record is at the head");
        block.unread.pop_front();
        if block.unread.is_empty() {
            let partly = block.put < self.geometry.blocking;
            self.ring.pop_front();
            let emptied = self.ring.is_empty();
            self.notes.add_if(emptied && partly, "file emptied in a part-filled block");
            self.notes.add_if(emptied && !partly, "file emptied in a full block");
            self.notes.add_if(!emptied, "room returned by the block");
            let one_block = self.geometry.data_blocks == 1;
            self.notes.add_if(emptied && one_block, "file of one block emptied");
        }
    }

    /// Open and close records at the head go; says how many.
    fn discard_marks(&mut self) -> usize {
        let mut gone = 0;
        while self.head().map_or(false, |record| record.kind != TYPE_DATA) {
            self.remove_head();
            gone += 1;
        }
        gone
    }

    /// A purge takes every record; an empty file does not move (docs/DECISIONS.md, R28).
    pub(super) fn purge(&mut self) {
        self.notes.add_if(self.ring.is_empty(), "purge of an empty file");
        self.notes.add_if(!self.ring.is_empty(), "purge of records");
        self.ring.clear();
    }

    /// What a read takes, as it will be answered; None if it can't be served.
    pub(super) fn take_record(
        &mut self,
        reads_id: bool,
        count: Count,
        leave: bool,
    ) -> Option<Vec<u8>> {
        // An ordinary read discards open and close records, whatever then comes of it.
        if !reads_id && self.discard_marks() > 0 {
            self.notes.add("a read discarded open or close records");
            self.notes.add_if(self.is_empty(), "a read discarded all that was there");
        }
        let record = self.head()?;
        // With 46 the head record of any type, type and ID words before the data.
        let kind = record.kind;
        let mut bytes = if reads_id { record.with_header() } else { record.data.clone() };
        let whole = bytes.len();
        // A longer record is cut to the count and the rest is lost.
        bytes.truncate(count.bytes);
        self.notes.add_if(bytes.len() < whole, "record cut to the count");
        self.notes.add_if(reads_id && bytes.len() < 4, "46: record cut inside the header");
        self.notes.add_if(reads_id && kind == TYPE_OPEN, "46: open record read");
        self.notes.add_if(reads_id && kind == TYPE_CLOSE, "46: close record read");
        let odd = !reads_id && bytes.len() % 2 == 1;
        self.notes.add_if(odd && count.in_words, "odd record read in words");
        self.notes.add_if(whole == 0, "zero-byte record read");
        // Control 47: the record is left at the head.
        if leave {
            self.notes.add("47: record left at the head");
        } else {
            self.remove_head();
        }
        Some(bytes)
    }
}
