//! Bytes changed behind the library's back: mostly where a change means something.

use super::case::Change;
use crate::generator::random::Random;
use crate::model::desk::Desk;
use crate::model::file::MessageFile;
use crate::model::limits::{ENTRIES, PLACES, SHARE_BYTES};
use crate::model::segment::{entry_word, file_row, place_row, Memories, Part};
use crate::model::segment::{ENTRY_WORDS, LISTS, ROW_WORDS, SEGMENT_BYTES};
use crate::model::unread::{Kind, Stretch};
use crate::model::word::{word, word_at};

/// One to three changes of a desk's memories.
pub fn changes(desk: &Desk, memories: &Memories, random: &mut Random) -> Vec<Change> {
    let used = words_in_use(desk);
    let mut all = Vec::new();
    for _ in 0..random.pick(&[1, 1, 1, 2, 3]) {
        match random.below(22) {
            0 => {
                let at = random.below(SEGMENT_BYTES);
                let bit = 1 << random.below(8);
                all.push(change(Part::Segment, at, memories.segment[at] ^ bit));
            }
            1..=4 => {
                let at = random.pick(&used);
                let value = other_value(&memories.segment, at, &used, random);
                all.extend(word_change(at, value));
            }
            5 => {
                // Settings, IDs, shares, timeouts: what a place's row says.
                let rows = used.iter().copied().filter(|w| *w >= place_row(0));
                let rows: Vec<usize> = rows.collect();
                if !rows.is_empty() {
                    let at = random.pick(&rows);
                    all.extend(word_change(at, random.pick(&[0, 1, 1, 2, 3, 500])));
                }
            }
            6 => {
                let (one, other) = (random.pick(&used), random.pick(&used));
                all.extend(word_change(one, word_at(&memories.segment, 2 * other) as u16));
                all.extend(word_change(other, word_at(&memories.segment, 2 * one) as u16));
            }
            7 => all.extend(rearranged(desk, memories, random)),
            8..=9 => all.extend(block_change(desk, memories, random)),
            10..=15 => all.extend(raw_change(desk, memories, random)),
            16 => all.extend(crowded(desk, random)),
            17 if !desk.entries.timers.is_empty() => {
                let timer = random.pick(&desk.entries.timers);
                all.extend(word_change(entry_word(timer.entry) + 8, random.pick(&[0, 1, 3, 9000])));
            }
            _ => {
                // Requests and timers: what their entries say.
                let entry = used.iter().copied().filter(|w| (LISTS..file_row(0)).contains(w));
                let entry: Vec<usize> = entry.collect();
                if !entry.is_empty() {
                    let at = random.pick(&entry);
                    let value = other_value(&memories.segment, at, &entry, random);
                    all.extend(word_change(at, value));
                }
            }
        }
    }
    all
}

fn change(part: Part, at: usize, byte: u8) -> Change {
    Change { part, at, byte }
}

fn word_change(at: usize, value: u16) -> Vec<Change> {
    let bytes = word(value);
    (0..2).map(|i| change(Part::Segment, 2 * at + i, bytes[i])).collect()
}

/// Heads, the entries of requests and timers, the rows of built files and open places.
fn words_in_use(desk: &Desk) -> Vec<usize> {
    let mut used: Vec<usize> = (0..LISTS).collect();
    for entry in (0..ENTRIES).filter(|e| !desk.entries.free.contains(e)) {
        used.extend(entry_word(entry)..entry_word(entry) + ENTRY_WORDS);
    }
    for f in desk.files.iter().flatten() {
        used.extend(file_row(f.number)..file_row(f.number) + ROW_WORDS);
        for place in (0..PLACES).filter(|p| f.accessors[*p].is_some()) {
            let row = place_row(PLACES * f.number + place);
            used.extend(row..row + ROW_WORDS);
        }
    }
    used
}

fn other_value(segment: &[u8], at: usize, used: &[usize], random: &mut Random) -> u16 {
    let old = word_at(segment, 2 * at) as u16;
    match random.below(5) {
        0 => old.wrapping_add(1),
        1 => old.wrapping_sub(1),
        2 => old ^ (1 << random.below(16)),
        3 => word_at(segment, 2 * random.pick(used)) as u16,
        _ => random.pick(&[0, 1, 2, 3, 22, 127, 128, 255, 256, 260, 261, 65535]),
    }
}

/// Free entries and waiting requests in another order: still sound.
fn rearranged(desk: &Desk, memories: &Memories, random: &mut Random) -> Vec<Change> {
    let mut other = desk.clone();
    let free = other.entries.free.len();
    if free > 1 {
        other.entries.free.swap(random.below(free), random.below(free));
    }
    for f in other.files.iter_mut().flatten() {
        for queue in [&mut f.read_queue, &mut f.write_queue] {
            if queue.len() > 1 {
                queue.rotate_left(1);
            }
        }
    }
    let segment = other.memories().segment;
    let differing = (0..SEGMENT_BYTES).filter(|at| segment[*at] != memories.segment[*at]);
    differing.map(|at| change(Part::Segment, at, segment[at])).collect()
}

/// Writers at so many places of a file that there is no room for one more, or none at all.
fn crowded(desk: &Desk, random: &mut Random) -> Vec<Change> {
    let mut all = Vec::new();
    if let Some(f) = built_file(desk, random) {
        let room = f.geometry.capacity() - f.used().min(f.geometry.capacity());
        for place in 0..PLACES.min(random.pick(&[room, room, room.max(1) - 1, room + 1])) {
            let row = place_row(PLACES * f.number + place);
            for (index, value) in [2, place as u16 + 1, 3, 0, 0, 0, 0, 0].into_iter().enumerate() {
                all.extend(word_change(row + index, value));
            }
        }
    }
    all
}

/// A byte of a built file's share, mostly of a block that holds a record.
fn block_change(desk: &Desk, memories: &Memories, random: &mut Random) -> Option<Change> {
    let f = built_file(desk, random)?;
    let mut at = random.below(SHARE_BYTES);
    if !f.ring.is_empty() && random.percent(85) {
        let block = &f.ring[random.below(f.ring.len())];
        let start = 2 * f.geometry.block_words() * block.number;
        at = start + random.below(2 * block.words + 2).min(2 * f.geometry.block_words() - 1);
    }
    let at = SHARE_BYTES * f.number + at;
    let old = memories.blocks[at];
    let flipped = old ^ (1 << random.below(8));
    let byte = random.pick(&[flipped, flipped, old.wrapping_add(1), 0, 1, 2, 255]);
    Some(change(Part::Blocks, at, byte))
}

/// Bytes that nothing is asked of, of one kind: one, or a few side by side.
pub fn raw_change(desk: &Desk, memories: &Memories, random: &mut Random) -> Vec<Change> {
    let stretches = desk.stretches();
    let mut kinds: Vec<Kind> = stretches.iter().map(|stretch| stretch.kind).collect();
    kinds.sort_unstable();
    kinds.dedup();
    let kind = random.pick(&kinds);
    let of_kind: Vec<&Stretch> = stretches.iter().filter(|s| s.kind == kind).collect();
    let Stretch { part, range, .. } = random.pick(&of_kind);
    // What goes too far, or not far enough, shows at an end.
    let from = match random.below(4) {
        0 => range.start,
        1 => range.end - 1,
        _ => range.start + random.below(range.len()),
    };
    let to = range.end.min(from + random.pick(&[1, 1, 2, 30]));
    let memory = memories.part(*part);
    (from..to).map(|at| change(*part, at, memory[at] ^ random.pick(&[1, 16, 128, 255]))).collect()
}

/// Every byte of these kinds.
pub fn noise(desk: &Desk, kinds: &[Kind], random: &mut Random) -> Vec<Change> {
    let stretches = desk.stretches().into_iter().filter(|stretch| kinds.contains(&stretch.kind));
    let bytes = stretches.flat_map(|stretch| stretch.range.map(move |at| (stretch.part, at)));
    bytes.map(|(part, at)| change(part, at, random.between(1, 255) as u8)).collect()
}

fn built_file<'a>(desk: &'a Desk, random: &mut Random) -> Option<&'a MessageFile> {
    let built: Vec<&MessageFile> = desk.files.iter().flatten().collect();
    match built.is_empty() {
        true => None,
        false => Some(random.pick(&built)),
    }
}
