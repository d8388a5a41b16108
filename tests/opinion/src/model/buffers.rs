//! The record buffers: what lies in them, and when they change.
//!
//! They are raw bytes.  A request that begins to wait, completes, is cancelled or is collected fills
//! its place's buffer anew; nothing else changes one, but for build and load, which zero all eight.

use super::file::MessageFile;

impl MessageFile {
    /// The request at this place has changed: what lies there now, and zeros after it.
    pub(super) fn refill(&mut self, place: usize, lies: &[u8]) {
        let buffer = &mut self.buffers[place];
        buffer.fill(0);
        buffer[..lies.len()].copy_from_slice(lies);
    }

    /// A waiting write's data, or a completed read's record, as the buffer has it; else nothing.
    pub fn in_buffer(&self, place: usize) -> &[u8] {
        let request = self.accessors[place].as_ref().and_then(|a| a.request.as_ref());
        &self.buffers[place][..request.map_or(0, |r| r.bytes_in_buffer())]
    }
}
