//! Counts and look: what is there to read.

use super::desk::Desk;
use super::record::TYPE_DATA;
use super::request::{Progress, Request};
use super::status::{Answer, DONE, NOTHING_THERE, WRONG_SIDE};
use super::word::word;

impl Desk {
    pub(super) fn counts(&self, file: u8) -> Answer {
        let f = self.built(file.into())?;
        let data = f.records().filter(|r| r.kind == TYPE_DATA).count();
        let all = f.records().count();
        let numbers = [data, all, f.writers(), f.readers()];
        Ok((DONE, numbers.iter().flat_map(|n| word(*n as u16)).collect()))
    }

    /// The record in the reader's buffer, else the data of the file's oldest data record.
    pub fn look(&self, file: usize, reader: usize) -> (u8, Vec<u8>) {
        match self.looked_at(file, reader) {
            Ok(bytes) => (DONE, bytes),
            Err(refusal) => (refusal, Vec::new()),
        }
    }

    fn looked_at(&self, file: usize, reader: usize) -> Result<Vec<u8>, u8> {
        let f = self.built(file)?;
        let accessor = f.accessor(f.open_place(reader)?);
        // 34: look by a writer.
        if accessor.is_writer() {
            return Err(WRONG_SIDE);
        }
        // A read completed with status 0 has its record, be it of no bytes, in the buffer.
        if let Some(Request { progress: Progress::Completed { status: DONE, .. }, .. }) =
            accessor.request
        {
            return Ok(f.in_buffer(reader).to_vec());
        }
        // 39: look with no record.
        let oldest = f.records().find(|r| r.kind == TYPE_DATA);
        oldest.map(|r| r.data.clone()).ok_or(NOTHING_THERE)
    }
}
