//! Close, and time: how waiting requests end unserved.

use super::desk::Desk;
use super::entries::{Entries, Timer};
use super::file::MessageFile;
use super::record::{Record, TYPE_CLOSE};
use super::status::{Answer, DONE, END_OF_FILE, OUTSTANDING, TIMED_OUT};

impl Desk {
    pub(super) fn close(&mut self, file: u8, accessor: u8) -> Answer {
        let (f, entries) = self.file_and_entries(file)?;
        let place = f.open_place(accessor.into())?;
        // 33: close with a completed request uncollected.
        if f.accessor(place).has_completed() {
            return Err(OUTSTANDING);
        }
        // A waiting request is cancelled.
        if f.accessor(place).has_waiting() {
            let timed = f.accessor(place).timeout > 0;
            f.notes.add("close cancelled a waiting request");
            f.notes.add_if(timed, "close cancelled a waiting request with a timer");
            f.cancel(place, entries);
        }
        if let Some(id) = f.accessor(place).writer_id {
            // For the last writer, the waiting readers without extended wait end.
            if f.writers() == 1 {
                end_waiting_readers(f, entries);
            }
            // Then the writer's close record is put.
            f.put(Record { kind: TYPE_CLOSE, id, data: Vec::new() });
        } else {
            // Waiting writers stay when the last reader goes.
            let stay = f.readers() == 1 && !f.write_queue.is_empty();
            f.notes.add_if(stay, "waiting writers stay as the last reader goes");
        }
        f.accessors[place] = None;
        f.settle(entries);
        Ok((DONE, Vec::new()))
    }

    /// Every waiting request with at most e seconds left ends with 22, smallest first.
    pub(super) fn time(&mut self, seconds: u64) -> Answer {
        self.entries.clock += seconds;
        let now = self.entries.clock;
        let due: Vec<Timer> =
            self.entries.in_order().into_iter().filter(|t| t.due <= now).cloned().collect();
        let equals = due.windows(2).any(|w| w[0].due == w[1].due);
        let two_files = due.windows(2).any(|w| w[0].file != w[1].file);
        self.notes.add_if(due.len() == 1, "time ends one request");
        self.notes.add_if(due.len() >= 2, "time ends several requests");
        self.notes.add_if(equals, "time ends equals");
        self.notes.add_if(two_files, "time ends requests of two files");
        for timer in due {
            if let Some(f) = &mut self.files[timer.file] {
                f.complete(timer.place, TIMED_OUT, 0, &[], &mut self.entries);
            }
        }
        Ok((DONE, Vec::new()))
    }
}

/// Every waiting reader without extended wait, in queue order, ends with status 2.
fn end_waiting_readers(f: &mut MessageFile, entries: &mut Entries) {
    let waiting: Vec<usize> = f.read_queue.iter().copied().collect();
    let mut stayed = false;
    for place in waiting {
        if f.accessor(place).extended_wait {
            stayed = true;
            continue;
        }
        f.notes.add("waiting reader ended by the last writer's close");
        f.notes.add_if(stayed, "waiting reader ended behind one with 45");
        f.complete(place, END_OF_FILE, 0, &[], entries);
    }
    f.notes.add_if(stayed, "reader with 45 outlives the last writer's close");
}
