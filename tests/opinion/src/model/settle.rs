//! Settling: while something can be done, serve the first waiting reader, else the first waiting
//! writer.

use super::entries::Entries;
use super::file::MessageFile;
use super::record::{Record, TYPE_DATA};
use super::request::{Request, Want};
use super::status::DONE;

impl MessageFile {
    pub(super) fn settle(&mut self, entries: &mut Entries) {
        let mut served = 0;
        while self.serve_first_reader(entries) || self.serve_first_writer(entries) {
            served += 1;
        }
        self.notes.add_if(served == 1, "settling served one request");
        self.notes.add_if(served == 2, "settling served two requests");
        self.notes.add_if(served >= 3, "settling served three or more requests");
    }

    /// Says whether there was one, and a record for it.
    fn serve_first_reader(&mut self, entries: &mut Entries) -> bool {
        let place = match self.read_queue.front() {
            Some(place) => *place,
            None => return false,
        };
        let reader = self.accessor(place);
        let reads_id = reader.reads_id;
        let (count, leave) = match reader.request {
            Some(Request { want: Want::Read { count, leave }, .. }) => (count, leave),
            _ => return false,
        };
        let before = self.records().count();
        let bytes = match self.take_record(reads_id, count, leave) {
            Some(bytes) => bytes,
            None => {
                let discarded = before > 0;
                self.notes.add_if(discarded, "first waiting reader discarded and goes on waiting");
                return false;
            }
        };
        let another = leave && self.read_queue.len() > 1;
        self.notes.add_if(another, "47: record left serves the next waiting reader too");
        self.complete(place, DONE, count.log(bytes.len()), &bytes, entries);
        true
    }

    /// Says whether there was one, and room for its record.
    fn serve_first_writer(&mut self, entries: &mut Entries) -> bool {
        let place = match self.write_queue.front() {
            Some(place) if self.data_fits() => *place,
            _ => return false,
        };
        let reader_waits = !self.read_queue.is_empty();
        self.notes.add_if(reader_waits, "a waiting writer served while a reader waits");
        let writer = self.accessor(place);
        let id = writer.writer_id.unwrap_or(0);
        let count = match writer.request {
            Some(Request { want: Want::Write { count }, .. }) => count,
            _ => return false,
        };
        // What is written is what lies in the buffer.
        let data = self.in_buffer(place).to_vec();
        let log = count.log(data.len());
        self.put(Record { kind: TYPE_DATA, id, data });
        // A waiting write's buffer is zero again once it no longer waits
        // (docs/DECISIONS.md, R30).
        self.complete(place, DONE, log, &[], entries);
        true
    }
}
