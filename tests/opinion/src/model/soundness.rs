//! What must hold between any two calls; looked at after every one in a debug build.

use super::accessor::Accessor;
use super::desk::Desk;
use super::entries::Entries;
use super::file::MessageFile;
use super::limits::{BUFFER_BYTES, ENTRIES};
use super::record::Record;
use super::request::{Progress, Want};
use super::status::LEAST_REFUSAL;
use super::word::word_at;
use std::collections::VecDeque;

impl Desk {
    pub(super) fn check(&self) {
        check_entries(self);
        for f in self.files.iter().flatten() {
            check_room(f);
            check_queues(f);
            check_settled(f, &self.entries);
            check_share(f);
            check_accessors(f);
        }
    }
}

/// Each entry is on exactly one list, and each running timer belongs to a waiting request.
fn check_entries(desk: &Desk) {
    let mut seen: Vec<u16> = desk.lists().concat();
    seen.sort_unstable();
    let all: Vec<u16> = (0..ENTRIES).collect();
    assert!(seen == all, "an entry is not on exactly one list");
    let running = &desk.entries.timers;
    let mut timed = 0;
    for f in desk.files.iter().flatten() {
        for (place, accessor) in f.accessors.iter().enumerate() {
            let request = accessor.as_ref().and_then(|a| a.request.as_ref());
            let progress = request.map(|r| &r.progress);
            if let Some(Progress::Waiting { timer: Some(entry) }) = progress {
                timed += 1;
                let this = (*entry, f.number, place);
                let found = running.iter().any(|t| (t.entry, t.file, t.place) == this);
                assert!(found, "a waiting request's timer is not running");
            }
        }
    }
    assert!(timed == running.len(), "a timer runs for nobody");
    let clock = desk.entries.clock;
    assert!(running.iter().all(|t| t.due > clock), "a timer with nothing remaining runs on");
}

/// used + W <= C, held blocks follow each other, all but the last are full.
fn check_room(f: &MessageFile) {
    let capacity = f.geometry.capacity();
    let blocking = f.geometry.blocking;
    assert!(f.used() + f.writers() <= capacity, "no place is kept for a close record");
    assert!(f.writers() < capacity, "an empty file would not take a data record");
    for block in &f.ring {
        assert!(!block.unread.is_empty(), "a block without a record is held");
        assert!(block.unread.len() <= block.put && block.put <= blocking, "a block is overfull");
    }
    for (index, block) in f.ring.iter().enumerate() {
        let follower = (block.number + 1) % f.geometry.data_blocks;
        match f.ring.get(index + 1) {
            Some(next) => {
                assert!(next.number == follower, "held blocks do not follow");
                assert!(next.unread.len() == next.put, "a block behind the oldest was read");
                assert!(block.put == blocking, "a block before the last is not full");
            }
            None => assert!(f.next_block == follower, "the next block does not follow the last"),
        }
    }
}

/// The queues hold exactly the waiting requests, never both, readers only at an empty file.
fn check_queues(f: &MessageFile) {
    let (readers, writers) = (&f.read_queue, &f.write_queue);
    assert!(readers.is_empty() || writers.is_empty(), "both queues hold a request");
    assert!(readers.is_empty() || f.is_empty(), "a reader waits at a file with records");
    assert!(writers.is_empty() || !f.data_fits(), "a writer waits though a record fits");
    for (place, accessor) in f.accessors.iter().enumerate() {
        let reading = readers.iter().filter(|p| **p == place).count();
        let writing = writers.iter().filter(|p| **p == place).count();
        let request = accessor.as_ref().and_then(|a| a.request.as_ref());
        let expected = match request {
            Some(r) if r.waits() => match r.want {
                Want::Read { .. } => (1, 0),
                Want::Write { .. } => (0, 1),
            },
            _ => (0, 0),
        };
        assert!((reading, writing) == expected, "a queue and the requests disagree");
    }
}

/// After every call nothing more could be settled.
fn check_settled(f: &MessageFile, entries: &Entries) {
    let (mut again, mut entries_again) = (f.clone(), entries.clone());
    again.settle(&mut entries_again);
    assert!(again == *f && entries_again == *entries, "something was left to settle");
}

/// The share's bytes read back as the records held.
fn check_share(f: &MessageFile) {
    let length = 2 * f.geometry.block_words();
    for block in &f.ring {
        let bytes = &f.share[block.number * length..(block.number + 1) * length];
        assert!(word_at(bytes, 0) == block.put, "a block's count of records is wrong");
        assert!(word_at(bytes, 2) == block.words, "a block's count of words is wrong");
        let mut at = 4;
        let mut read_back = VecDeque::new();
        for _ in 0..block.put {
            let size = word_at(bytes, at) - 4;
            let kind = word_at(bytes, at + 2) as u16;
            let id = word_at(bytes, at + 4) as u16;
            let data = bytes[at + 6..at + 6 + size].to_vec();
            read_back.push_back(Record { kind, id, data });
            at += 6 + size + size % 2;
        }
        assert!(at == 2 * block.words, "a block's records do not fill its words used");
        let unread = read_back.split_off(block.put - block.unread.len());
        assert!(unread == block.unread, "a block's bytes are not its records");
    }
}

/// Same share, allowed numbers of each side, different writer's IDs, requests in bounds.
fn check_accessors(f: &MessageFile) {
    let open: Vec<&Accessor> = f.accessors.iter().flatten().collect();
    for a in &open {
        assert!(Some(a.share) == f.share_in_force(), "two shares together");
        let lies = a.request.as_ref().map_or(0, |r| r.bytes_in_buffer());
        assert!(lies <= BUFFER_BYTES, "a buffer overflows");
        if let Some(Progress::Completed { status, .. }) = a.request.as_ref().map(|r| &r.progress) {
            assert!(*status < LEAST_REFUSAL, "a request completed as if it were refused");
        }
        let twins = open.iter().filter(|b| b.is_writer() && b.writer_id == a.writer_id).count();
        assert!(!a.is_writer() || twins == 1, "two writers hold one ID");
        assert!(a.share != 1 || (f.writers() <= 1 && f.readers() <= 1), "share 1 broken");
        assert!(a.share != 2 || f.readers() <= 1, "share 2 broken");
        assert!(!(a.first && a.request.is_some()), "a request left the grace unspent");
        assert!(!a.has_waiting() || !a.leave_next, "47 is on while its read waits");
    }
}
