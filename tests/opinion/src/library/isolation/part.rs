//! A file's part of the three memories, read from their bytes by docs/SEGMENT.md: its share, its
//! record buffers, its row and its accessors' rows, and its lists as the words of their entries.
//! Which entries these are, how they are linked and which are free is no part of it.

use crate::library::twin::{Difference, ENTRY_NAMES, FILE_NAMES, PLACE_NAMES};
use crate::model::limits::{BUFFER_BYTES, ENTRIES, PLACES, SHARE_BYTES};
use crate::model::segment::{entry_word, file_row, place_row, Memories, ENTRY_WORDS, ROW_WORDS};

/// An entry's words but for its link.
type Data = Vec<u16>;

pub struct Part {
    file: usize,
    share: Vec<u8>,
    /// Eight buffers.
    buffers: Vec<u8>,
    row: Vec<u16>,
    /// Eight rows.
    accessors: Vec<u16>,
    /// The read queue, the write queue, eight reply ports, and the timers.
    lists: Vec<Vec<Data>>,
    pub beside: Beside,
}

/// What is no part of the file's: it is counted, and not compared.
#[derive(Default)]
pub struct Beside {
    /// The entries of the file's lists.
    pub entries: Vec<u16>,
    pub free: usize,
    /// The timers of other files.
    pub timers: usize,
}

/// The heads of the lists that are no file's own.
const FREE: usize = 0;
const TIMERS: usize = 81;

impl Part {
    pub fn of(memories: &Memories, file: usize) -> Part {
        let place = PLACES * file;
        let (row, rows) = (file_row(file), place_row(place));
        let mut part = Part {
            file,
            share: memories.blocks[SHARE_BYTES * file..][..SHARE_BYTES].to_vec(),
            buffers: memories.buffers[BUFFER_BYTES * place..][..BUFFER_BYTES * PLACES].to_vec(),
            row: words(memories, row, ROW_WORDS),
            accessors: words(memories, rows, ROW_WORDS * PLACES),
            lists: Vec::new(),
            beside: Beside { free: list(memories, FREE).len(), ..Beside::default() },
        };
        for head in [1 + file, 9 + file].into_iter().chain(17 + place..17 + place + PLACES) {
            part.add_list(memories, list(memories, head));
        }
        let timers = list(memories, TIMERS).into_iter();
        let (own, others): (Vec<u16>, Vec<u16>) =
            timers.partition(|entry| usize::from(data(memories, *entry)[0]) / PLACES == file);
        part.beside.timers = others.len();
        part.add_list(memories, own);
        part
    }

    fn add_list(&mut self, memories: &Memories, entries: Vec<u16>) {
        self.lists.push(entries.iter().map(|entry| data(memories, *entry)).collect());
        self.beside.entries.extend(entries);
    }

    /// How many timers of the file run.
    pub fn timers(&self) -> usize {
        self.lists.last().map_or(0, Vec::len)
    }

    /// Where another part, of the same file, is not the same.
    pub fn compare(&self, other: &Part) -> Result<(), Difference> {
        let place = |at: usize, width: usize| (at / width, at % width);
        let file = self.file;
        compare(&self.share, &other.share, |at| format!("share of file {file}, its byte {at}"))?;
        compare(&self.buffers, &other.buffers, |at| {
            let (accessor, byte) = place(at, BUFFER_BYTES);
            format!("buffer of file {file}, accessor {accessor}, its byte {byte}")
        })?;
        compare(&self.row, &other.row, |at| format!("row of file {file}, {}", FILE_NAMES[at]))?;
        compare(&self.accessors, &other.accessors, |at| {
            let (accessor, word) = place(at, ROW_WORDS);
            format!("row of file {file}, accessor {accessor}, {}", PLACE_NAMES[word])
        })?;
        for (at, (one, two)) in self.lists.iter().zip(&other.lists).enumerate() {
            let name = format!("{} of file {file}", list_name(at));
            if one.len() != two.len() {
                let (one, two) = (one.len(), two.len());
                return Err(format!("{name}, how many there are: alone {one}, among others {two}"));
            }
            compare(&one.concat(), &two.concat(), |at| {
                let (entry, word) = place(at, ENTRY_WORDS - 1);
                format!("{name}, number {entry} of them, {}", ENTRY_NAMES[word + 1])
            })?;
        }
        Ok(())
    }
}

/// Waiting and completed requests, and timers, as the lists stand in a part.
fn list_name(at: usize) -> String {
    match at {
        0 => "waiting reads".to_string(),
        1 => "waiting writes".to_string(),
        2..=9 => format!("completed requests of accessor {}", at - 2),
        _ => "timers".to_string(),
    }
}

fn compare<T: Copy + PartialEq + Into<u64>>(
    alone: &[T],
    among: &[T],
    place: impl Fn(usize) -> String,
) -> Result<(), Difference> {
    if alone == among {
        return Ok(());
    }
    let differing: Vec<usize> = (0..alone.len()).filter(|at| alone[*at] != among[*at]).collect();
    let first = differing[0];
    let (one, two) = (shown(alone[first]), shown(among[first]));
    let all = differing.len();
    Err(format!("{}: alone {one}, among others {two} ({all} differ)", place(first)))
}

/// A byte in digits, a word as a number.
fn shown<T: Into<u64>>(value: T) -> String {
    match std::mem::size_of::<T>() {
        1 => format!("{:02X}", value.into()),
        _ => value.into().to_string(),
    }
}

fn word(memories: &Memories, at: usize) -> u16 {
    u16::from(memories.segment[2 * at]) << 8 | u16::from(memories.segment[2 * at + 1])
}

fn words(memories: &Memories, from: usize, count: usize) -> Vec<u16> {
    (from..from + count).map(|at| word(memories, at)).collect()
}

fn data(memories: &Memories, entry: u16) -> Data {
    words(memories, entry_word(entry) + 1, ENTRY_WORDS - 1)
}

/// The entries of a list, from its head on; of one that goes round, one more than there are.
fn list(memories: &Memories, head: usize) -> Vec<u16> {
    let mut entries = Vec::new();
    let mut next = word(memories, head);
    while next < ENTRIES && entries.len() <= usize::from(ENTRIES) {
        entries.push(next);
        next = word(memories, entry_word(next));
    }
    entries
}
