//! One message file: what it holds, who has it open, and what fits.

use super::accessor::Accessor;
use super::geometry::Geometry;
use super::limits::{BUFFER_BYTES, PLACES, SHARE_BYTES};
use super::notes::Notes;
use super::record::{HeldBlock, Record};
use super::status::NOT_OPEN;
use std::collections::VecDeque;

#[derive(Clone, PartialEq, Debug)]
pub struct MessageFile {
    pub number: usize,
    pub geometry: Geometry,
    /// The 4,096 bytes, leftovers included.
    pub share: Vec<u8>,
    /// The eight record buffers of 260 bytes, leftovers included.
    pub buffers: Vec<Vec<u8>>,
    /// The blocks from the oldest still holding a record to the last one put to.
    pub ring: VecDeque<HeldBlock>,
    /// The block that is begun next: the one after the last begun.
    pub next_block: usize,
    pub accessors: Vec<Option<Accessor>>,
    pub read_queue: VecDeque<usize>,
    pub write_queue: VecDeque<usize>,
    pub notes: Notes,
}

impl MessageFile {
    /// Build and load zero the share, and the buffers.
    pub(super) fn new(number: usize, geometry: Geometry) -> MessageFile {
        MessageFile {
            number,
            geometry,
            share: vec![0; SHARE_BYTES],
            buffers: vec![vec![0; BUFFER_BYTES]; PLACES],
            ring: VecDeque::new(),
            next_block: 0,
            accessors: vec![None; PLACES],
            read_queue: VecDeque::new(),
            write_queue: VecDeque::new(),
            notes: Notes::default(),
        }
    }

    // ---- counting

    pub fn writers(&self) -> usize {
        self.accessors.iter().flatten().filter(|a| a.is_writer()).count()
    }

    pub fn readers(&self) -> usize {
        self.accessors.iter().flatten().filter(|a| !a.is_writer()).count()
    }

    pub fn open_count(&self) -> usize {
        self.accessors.iter().flatten().count()
    }

    /// The records not yet read, oldest first.
    pub fn records(&self) -> impl Iterator<Item = &Record> {
        self.ring.iter().flat_map(|block| block.unread.iter())
    }

    pub fn is_empty(&self) -> bool {
        self.ring.is_empty()
    }

    /// Records put since the start of the oldest block still holding one.
    pub fn used(&self) -> usize {
        self.ring.iter().map(|block| block.put).sum()
    }

    /// A data record fits exactly when used + W + 1 <= C.
    pub fn data_fits(&self) -> bool {
        self.used() + self.writers() + 1 <= self.geometry.capacity()
    }

    /// All accessors open together give the same share; None with nobody open.
    pub fn share_in_force(&self) -> Option<u16> {
        self.accessors.iter().flatten().next().map(|a| a.share)
    }

    // ---- places

    pub(super) fn accessor(&self, place: usize) -> &Accessor {
        self.accessors[place].as_ref().expect("an open accessor")
    }

    pub(super) fn accessor_mut(&mut self, place: usize) -> &mut Accessor {
        self.accessors[place].as_mut().expect("an open accessor")
    }

    /// 32: accessor not open (a place above 7 too: docs/DECISIONS.md, R4).
    pub(super) fn open_place(&self, place: usize) -> Result<usize, u8> {
        if place < PLACES && self.accessors[place].is_some() {
            Ok(place)
        } else {
            Err(NOT_OPEN)
        }
    }

    /// The smallest number from 1 that no open writer of the file holds.
    pub(super) fn smallest_free_id(&self) -> u16 {
        let mut id = 1;
        while self.accessors.iter().flatten().any(|a| a.writer_id == Some(id)) {
            id += 1;
        }
        id
    }
}
