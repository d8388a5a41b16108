//! The desk that three memories stand for, if they are sound: docs/SEGMENT.md, "Which memories
//! are sound", point by point.

use super::accessor::Accessor;
use super::desk::Desk;
use super::entries::Entries;
use super::file::MessageFile;
use super::geometry::Geometry;
use super::limits::{BUFFER_BYTES, FILES, PLACES, SHARE_BYTES};
use super::record::{HeldBlock, Record, TYPE_CLOSE, TYPE_DATA};
use super::segment::{file_row, place_row, Memories, ROW_WORDS};
use super::segment::{BLOCKS_BYTES, BUFFERS_BYTES, SEGMENT_BYTES};
use super::word::word_at;
use std::collections::VecDeque;

/// Why memories are not sound.
pub type Unsound = &'static str;

/// Err(why) if it does not hold.
pub(super) fn ask(holds: bool, why: Unsound) -> Result<(), Unsound> {
    if holds {
        Ok(())
    } else {
        Err(why)
    }
}

impl Desk {
    pub fn load_memories(memories: &Memories) -> Result<Desk, Unsound> {
        // 1. The lengths.
        ask(memories.segment.len() == SEGMENT_BYTES, "the segment's length")?;
        ask(memories.blocks.len() == BLOCKS_BYTES, "the blocks' length")?;
        ask(memories.buffers.len() == BUFFERS_BYTES, "the buffers' length")?;
        let words: Vec<u16> =
            memories.segment.chunks(2).map(|pair| u16::from_be_bytes([pair[0], pair[1]])).collect();
        let mut desk = Desk::fresh();
        desk.entries = Entries { free: VecDeque::new(), timers: Vec::new(), clock: 0 };
        for file in 0..FILES {
            desk.files[file] = load_file(&words, memories, file)?;
        }
        // 2 and 3. Lists and places.
        desk.load_lists(&words)?;
        Ok(desk)
    }
}

/// 4. Rows.
fn load_file(
    words: &[u16],
    memories: &Memories,
    file: usize,
) -> Result<Option<MessageFile>, Unsound> {
    let row = &words[file_row(file)..file_row(file) + ROW_WORDS];
    let rows = &words[place_row(PLACES * file)..place_row(PLACES * (file + 1))];
    let numbers: Vec<usize> = row.iter().map(|w| usize::from(*w)).collect();
    let (r, b, d) = (numbers[0], numbers[1], numbers[2]);
    let (block, spent, held) = (numbers[3], numbers[4], numbers[5]);
    if r == 0 {
        ask(row.iter().all(|w| *w == 0), "the row of a file not built")?;
        ask(rows.iter().all(|w| *w == 0), "a place's row of a file not built")?;
        return Ok(None);
    }
    let geometry = Geometry { record_words: r, blocking: b, data_blocks: d };
    let capacity = geometry.capacity();
    ask(r <= 128 && (1..=16).contains(&b), "R or B")?;
    ask(capacity >= 3 && geometry.fits_share(), "D")?;
    ask(row[6] == 0 && row[7] == 0, "the end of a file's row")?;
    let mut f = MessageFile::new(file, geometry);
    f.share = memories.blocks[SHARE_BYTES * file..][..SHARE_BYTES].to_vec();
    // Nothing is asked of the record buffers.
    let buffers = &memories.buffers[BUFFER_BYTES * PLACES * file..][..BUFFER_BYTES * PLACES];
    f.buffers = buffers.chunks(BUFFER_BYTES).map(|buffer| buffer.to_vec()).collect();
    for (place, row) in rows.chunks(ROW_WORDS).enumerate() {
        f.accessors[place] = load_place(row)?;
    }
    ask(spent + held + f.writers() <= capacity, "spent + held + writers")?;
    ask(f.writers() + 1 <= capacity, "writers")?;
    load_blocks(&mut f, block, spent, held)?;
    Ok(Some(f))
}

fn load_place(row: &[u16]) -> Result<Option<Accessor>, Unsound> {
    let (side, id) = (row[0], row[1]);
    if side == 0 {
        ask(row.iter().all(|w| *w == 0), "the row of a place not open")?;
        return Ok(None);
    }
    ask(side <= 2, "a side")?;
    ask((side == 2) == (id >= 1), "a reader's or a writer's ID")?;
    ask(row[4..].iter().all(|w| *w <= 1), "a setting")?;
    Ok(Some(Accessor {
        writer_id: if side == 2 { Some(id) } else { None },
        share: row[2],
        timeout: row[3],
        extended_wait: row[4] == 1,
        reads_id: row[5] == 1,
        leave_next: row[6] == 1,
        first: row[7] == 1,
        request: None,
    }))
}

/// 5. Held blocks.
fn load_blocks(
    f: &mut MessageFile,
    block: usize,
    spent: usize,
    held: usize,
) -> Result<(), Unsound> {
    let (blocking, blocks) = (f.geometry.blocking, f.geometry.data_blocks);
    ask(block < blocks, "the oldest block")?;
    ask(spent < blocking && (held > 0 || spent == 0), "the places spent")?;
    f.next_block = block;
    let mut left = if held == 0 { 0 } else { spent + held };
    while left > 0 {
        let put = left.min(blocking);
        let mut read = load_block(f, f.next_block, put)?;
        if f.ring.is_empty() {
            read.unread.drain(..spent);
        }
        f.next_block = (f.next_block + 1) % blocks;
        f.ring.push_back(read);
        left -= put;
    }
    Ok(())
}

/// A block that holds a record: records put, words used, the records; nothing is asked of what lies
/// after them.
fn load_block(f: &MessageFile, number: usize, put: usize) -> Result<HeldBlock, Unsound> {
    let length = 2 * f.geometry.block_words();
    let bytes = &f.share[number * length..(number + 1) * length];
    ask(word_at(bytes, 0) == put, "a block's records put")?;
    let mut at = 4;
    let mut unread = VecDeque::new();
    for _ in 0..put {
        let follows = word_at(bytes, at);
        ask((4..=4 + 2 * f.geometry.record_words).contains(&follows), "a record's length")?;
        let kind = word_at(bytes, at + 2) as u16;
        let id = word_at(bytes, at + 4) as u16;
        let data = bytes[at + 6..at + 2 + follows].to_vec();
        ask(kind <= TYPE_CLOSE && id >= 1, "a record's type or ID")?;
        ask(kind == TYPE_DATA || data.is_empty(), "data in an open or close record")?;
        at += 2 + follows;
        if follows % 2 == 1 {
            ask(bytes[at] == 0, "a record's pad byte")?;
            at += 1;
        }
        unread.push_back(Record { kind, id, data });
    }
    ask(word_at(bytes, 2) == at / 2, "a block's words used")?;
    Ok(HeldBlock { number, put, words: at / 2, unread })
}
