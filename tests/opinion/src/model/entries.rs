//! The 128 entries: the free list, and the timers.

use super::limits::ENTRIES;
use std::collections::VecDeque;

#[derive(Clone, PartialEq, Debug)]
pub struct Timer {
    pub entry: u16,
    /// The clock's reading at which nothing remains.
    pub due: u64,
    pub file: usize,
    pub place: usize,
}

/// The free list, the running timers in arming order, and the seconds passed.
#[derive(Clone, PartialEq, Debug)]
pub struct Entries {
    pub free: VecDeque<u16>,
    pub timers: Vec<Timer>,
    pub clock: u64,
}

impl Entries {
    /// The free list in order of entry number.
    pub(super) fn fresh() -> Entries {
        Entries { free: (0..ENTRIES).collect(), timers: Vec::new(), clock: 0 }
    }

    /// Entries are taken from the front of the free list.
    pub(super) fn take(&mut self) -> u16 {
        self.free.pop_front().expect("64 accessors of two entries each cannot use up 128")
    }

    /// Freed entries go to the front of the free list.
    pub(super) fn release(&mut self, entry: u16) {
        self.free.push_front(entry);
    }

    /// A timer takes an entry of its own.
    pub(super) fn arm(&mut self, seconds: u16, file: usize, place: usize) -> u16 {
        let entry = self.take();
        let due = self.clock + u64::from(seconds);
        self.timers.push(Timer { entry, due, file, place });
        entry
    }

    /// The timer goes, and its entry is freed.
    pub(super) fn disarm(&mut self, timer: Option<u16>) {
        if let Some(entry) = timer {
            self.timers.retain(|t| t.entry != entry);
            self.release(entry);
        }
    }

    /// Smallest remaining first, equals in arming order.
    pub fn in_order(&self) -> Vec<&Timer> {
        let mut sorted: Vec<&Timer> = self.timers.iter().collect();
        sorted.sort_by_key(|t| t.due);
        sorted
    }
}
