//! Read, write and collect.

use super::count::Count;
use super::desk::Desk;
use super::record::{Record, TYPE_DATA};
use super::request::{Progress, Want};
use super::status::{Answer, DONE, END_OF_FILE, WAITING};
use super::status::{NOTHING_THERE, OUTSTANDING, OUT_OF_RANGE, WRONG_SIDE};
use super::word::word;

impl Desk {
    pub(super) fn read(&mut self, file: u8, accessor: u8, count: Count) -> Answer {
        let (f, entries) = self.file_and_entries(file)?;
        let place = f.open_place(accessor.into())?;
        let reader = f.accessor_mut(place);
        // 33: one outstanding request per accessor, until collected.
        if reader.request.is_some() {
            return Err(OUTSTANDING);
        }
        // 34: read by a writer.
        if reader.is_writer() {
            return Err(WRONG_SIDE);
        }
        // 35: read counts run from -260 to 130, 260 bytes either way.
        if count.bytes > 260 {
            return Err(OUT_OF_RANGE);
        }
        // The grace is spent by the first accepted read; 47 is spent by this read.
        let first = std::mem::replace(&mut reader.first, false);
        let leave = std::mem::replace(&mut reader.leave_next, false);
        let reads_id = reader.reads_id;
        let was_empty = f.is_empty();
        let answer = match f.take_record(reads_id, count, leave) {
            Some(bytes) => {
                let mut body = word(count.log(bytes.len()));
                body.extend(bytes);
                (DONE, body)
            }
            None if f.may_wait(place, first) => {
                f.notes.add_if(!was_empty, "a read discarded, then waited");
                f.wait(place, Want::Read { count, leave }, &[], entries);
                (WAITING, Vec::new())
            }
            None => {
                f.notes.add_if(!was_empty, "a read discarded, then ended");
                f.notes.add_if(leave, "47 spent by a read that ended");
                (END_OF_FILE, Vec::new())
            }
        };
        f.settle(entries);
        let at_once = answer.0 == WAITING && f.accessor(place).has_completed();
        let timed = at_once && f.accessor(place).timeout > 0;
        f.notes.add_if(at_once, "a read answered 1 was served in the same call");
        f.notes.add_if(timed, "a read answered 1 was served in the same call, with a timer");
        Ok(answer)
    }

    pub(super) fn write(&mut self, file: u8, accessor: u8, count: Count, data: &[u8]) -> Answer {
        let (f, entries) = self.file_and_entries(file)?;
        let place = f.open_place(accessor.into())?;
        let largest = 2 * f.geometry.record_words;
        let writer = f.accessor_mut(place);
        // 33: one outstanding request per accessor, until collected.
        if writer.request.is_some() {
            return Err(OUTSTANDING);
        }
        // 34: write by a reader.
        let id = writer.writer_id.ok_or(WRONG_SIDE)?;
        // 35: a write has at most 2R bytes.
        if count.bytes > largest {
            return Err(OUT_OF_RANGE);
        }
        let first = std::mem::replace(&mut writer.first, false);
        // It waits if it doesn't fit or has writers waiting ahead.
        let answer = if f.write_queue.is_empty() && f.data_fits() {
            f.notes.add_if(data.is_empty(), "zero-byte record written");
            f.notes.add_if(data.len() % 2 == 1, "odd record written");
            f.put(Record { kind: TYPE_DATA, id, data: data.to_vec() });
            (DONE, word(count.log(data.len())))
        } else if f.may_wait(place, first) {
            f.notes.add("a write waits");
            f.notes.add_if(data.is_empty(), "a write of zero bytes waits");
            f.wait(place, Want::Write { count }, data, entries);
            (WAITING, Vec::new())
        } else {
            (END_OF_FILE, Vec::new())
        };
        f.settle(entries);
        Ok(answer)
    }

    pub(super) fn collect(&mut self, file: u8, accessor: u8) -> Answer {
        let (f, entries) = self.file_and_entries(file)?;
        let place = f.open_place(accessor.into())?;
        // Collect of a waiting request answers 1.
        if f.accessor(place).has_waiting() {
            return Ok((WAITING, Vec::new()));
        }
        // 39: nothing outstanding.
        let shown = f.in_buffer(place).to_vec();
        let request = f.accessor_mut(place).request.take().ok_or(NOTHING_THERE)?;
        entries.release(request.entry);
        f.refill(place, &[]);
        match request.progress {
            Progress::Completed { status: DONE, log, .. } => {
                Ok((DONE, [word(log), shown].concat()))
            }
            // Any other status: operation and status only.
            Progress::Completed { status, .. } => Ok((status, Vec::new())),
            Progress::Waiting { .. } => unreachable!("a waiting request was answered above"),
        }
    }
}
