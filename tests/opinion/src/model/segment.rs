//! The segment, word by word (docs/SEGMENT.md), and the three memories together.

use super::accessor::Accessor;
use super::desk::Desk;
use super::file::MessageFile;
use super::limits::{BUFFER_BYTES, FILES, PLACES, SHARE_BYTES};
use super::request::{Progress, Request, Want};

pub const SEGMENT_BYTES: usize = 3876;
pub const BLOCKS_BYTES: usize = FILES * SHARE_BYTES;
pub const BUFFERS_BYTES: usize = FILES * PLACES * BUFFER_BYTES;

/// The lists: free, read queues, write queues, reply ports, timers.
pub const LISTS: usize = 82;
pub const NIL: u16 = 65535;
pub const ENTRY_WORDS: usize = 10;
pub const ROW_WORDS: usize = 8;

/// The word that is an entry's link; its other nine stand behind.
pub fn entry_word(entry: u16) -> usize {
    LISTS + ENTRY_WORDS * usize::from(entry)
}

pub fn file_row(file: usize) -> usize {
    1362 + ROW_WORDS * file
}

/// Place 8 x file + accessor.
pub fn place_row(place: usize) -> usize {
    1426 + ROW_WORDS * place
}

/// What a host lends of a desk.
#[derive(Clone, PartialEq, Debug)]
pub struct Memories {
    pub segment: Vec<u8>,
    pub blocks: Vec<u8>,
    pub buffers: Vec<u8>,
}

/// One of the three.
#[derive(Clone, Copy, PartialEq, Eq, PartialOrd, Ord, Debug)]
pub enum Part {
    Segment,
    Blocks,
    Buffers,
}

impl Memories {
    pub fn part(&self, part: Part) -> &[u8] {
        match part {
            Part::Segment => &self.segment,
            Part::Blocks => &self.blocks,
            Part::Buffers => &self.buffers,
        }
    }

    pub fn part_mut(&mut self, part: Part) -> &mut [u8] {
        match part {
            Part::Segment => &mut self.segment,
            Part::Blocks => &mut self.blocks,
            Part::Buffers => &mut self.buffers,
        }
    }
}

impl Desk {
    /// The memories of a desk that was fresh once.
    pub fn memories(&self) -> Memories {
        Memories { segment: self.segment(), blocks: self.blocks(), buffers: self.buffers() }
    }

    /// The memories of a desk whose files not built have other bytes than zeros in their shares and
    /// buffers: nothing is asked of these, and no call changes them.
    pub fn memories_over(&self, before: &Memories) -> Memories {
        let mut now = self.memories();
        for file in (0..FILES).filter(|n| self.files[*n].is_none()) {
            let share = file * SHARE_BYTES..(file + 1) * SHARE_BYTES;
            now.blocks[share.clone()].copy_from_slice(&before.blocks[share]);
            let held = file * PLACES * BUFFER_BYTES..(file + 1) * PLACES * BUFFER_BYTES;
            now.buffers[held.clone()].copy_from_slice(&before.buffers[held]);
        }
        now
    }

    fn segment(&self) -> Vec<u8> {
        let mut words = vec![0u16; SEGMENT_BYTES / 2];
        for (list, entries) in self.lists().iter().enumerate() {
            let mut slot = list;
            for entry in entries {
                words[slot] = *entry;
                slot = entry_word(*entry);
            }
            words[slot] = NIL;
        }
        for f in self.files.iter().flatten() {
            put(&mut words, file_row(f.number), &file_words(f));
            for (index, accessor) in f.accessors.iter().enumerate() {
                if let Some(accessor) = accessor {
                    let place = PLACES * f.number + index;
                    put(&mut words, place_row(place), &place_words(accessor));
                    if let Some(request) = &accessor.request {
                        let data = request_words(request, place);
                        put(&mut words, entry_word(request.entry) + 1, &data);
                    }
                }
            }
        }
        for timer in &self.entries.timers {
            let place = (PLACES * timer.file + timer.place) as u16;
            let seconds = (timer.due - self.entries.clock) as u16;
            put(&mut words, entry_word(timer.entry) + 1, &[place, 0, 0, 0, 0, 0, 0, seconds, 0]);
        }
        words.iter().flat_map(|w| w.to_be_bytes()).collect()
    }
}

fn put(words: &mut [u16], at: usize, values: &[u16]) {
    words[at..at + values.len()].copy_from_slice(values);
}

/// R B D, the oldest block still holding a record, the places of it that are spent, records held.
fn file_words(f: &MessageFile) -> [u16; ROW_WORDS] {
    let (block, spent) = match f.ring.front() {
        Some(oldest) => (oldest.number, oldest.put - oldest.unread.len()),
        None => (f.next_block, 0),
    };
    let g = &f.geometry;
    let numbers = [g.record_words, g.blocking, g.data_blocks, block, spent, f.records().count()];
    let mut row = [0; ROW_WORDS];
    for (word, number) in row.iter_mut().zip(numbers) {
        *word = number as u16;
    }
    row
}

/// Side, ID, share, timeout, the settings of 45, 46 and 47, first.
fn place_words(a: &Accessor) -> [u16; ROW_WORDS] {
    let side = if a.is_writer() { 2 } else { 1 };
    let settings = [a.extended_wait, a.reads_id, a.leave_next, a.first].map(u16::from);
    let [extended, typed, keep, first] = settings;
    [side, a.writer_id.unwrap_or(0), a.share, a.timeout, extended, typed, keep, first]
}

/// Place, unit, limit, keep, status, log, size, seconds, 0; what is not of its list is 0.
fn request_words(request: &Request, place: usize) -> [u16; ENTRY_WORDS - 1] {
    let place = place as u16;
    match (&request.progress, &request.want) {
        (Progress::Completed { status, log, size }, _) => {
            [place, 0, 0, 0, u16::from(*status), *log, *size as u16, 0, 0]
        }
        (_, Want::Read { count, leave }) => {
            let unit = u16::from(count.in_words);
            [place, unit, count.bytes as u16, u16::from(*leave), 0, 0, 0, 0, 0]
        }
        (_, Want::Write { count }) => {
            [place, u16::from(count.in_words), 0, 0, 0, 0, count.bytes as u16, 0, 0]
        }
    }
}
