//! The bytes of blocks and record buffers, and the lists that the entries are on.

use super::desk::Desk;
use super::file::MessageFile;
use super::limits::{BUFFER_BYTES, FILES, PLACES, SHARE_BYTES};
use std::collections::VecDeque;

impl Desk {
    /// Eight shares of 4,096 bytes; file f's begins at byte 4096 f.
    pub fn blocks(&self) -> Vec<u8> {
        let mut bytes = Vec::with_capacity(FILES * SHARE_BYTES);
        for file in &self.files {
            match file {
                Some(f) => bytes.extend(&f.share),
                None => bytes.extend(vec![0; SHARE_BYTES]),
            }
        }
        bytes
    }

    /// 64 record buffers; accessor a of file f has the one at 260 (8f + a).
    pub fn buffers(&self) -> Vec<u8> {
        let mut bytes = Vec::with_capacity(FILES * PLACES * BUFFER_BYTES);
        for file in &self.files {
            match file {
                Some(f) => bytes.extend(f.buffers.concat()),
                None => bytes.extend(vec![0; PLACES * BUFFER_BYTES]),
            }
        }
        bytes
    }

    /// The 82 lists: free, read queues, write queues, reply ports, timers; front to back.
    pub fn lists(&self) -> Vec<Vec<u16>> {
        let mut lists = vec![self.entries.free.iter().copied().collect::<Vec<u16>>()];
        for file in 0..FILES {
            lists.push(self.queue_entries(file, |f| &f.read_queue));
        }
        for file in 0..FILES {
            lists.push(self.queue_entries(file, |f| &f.write_queue));
        }
        for place in 0..FILES * PLACES {
            lists.push(self.reply_port(place / PLACES, place % PLACES));
        }
        lists.push(self.entries.in_order().iter().map(|t| t.entry).collect());
        lists
    }

    fn queue_entries(&self, file: usize, queue: fn(&MessageFile) -> &VecDeque<usize>) -> Vec<u16> {
        match &self.files[file] {
            Some(f) => {
                let requests = queue(f).iter().filter_map(|p| f.accessor(*p).request.as_ref());
                requests.map(|r| r.entry).collect()
            }
            None => Vec::new(),
        }
    }

    fn reply_port(&self, file: usize, place: usize) -> Vec<u16> {
        let accessor = self.files[file].as_ref().and_then(|f| f.accessors[place].as_ref());
        let request = accessor.and_then(|a| a.request.as_ref());
        request.filter(|r| !r.waits()).map(|r| r.entry).into_iter().collect()
    }
}
