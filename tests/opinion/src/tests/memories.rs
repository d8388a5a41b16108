//! The three memories: what a desk's bytes are, and that they are read back as that desk.

use super::vocabulary::Told::{Built, Done, Opened, TimedOut, Waiting};
use super::vocabulary::{builds, collects, controls, opens, passes, reads};
use super::{after, talk, WORKED};
use crate::generator::Generator;
use crate::model::desk::Desk;
use crate::model::segment::{entry_word, file_row, place_row, Memories, SEGMENT_BYTES};
use crate::model::word::word_at;
use crate::outcome::make_call;
use crate::session::next_call;

fn words(memories: &Memories, at: usize, n: usize) -> Vec<usize> {
    (at..at + n).map(|word| word_at(&memories.segment, 2 * word)).collect()
}

#[test]
fn a_fresh_desk() {
    let fresh = Desk::fresh().memories();
    assert_eq!(fresh.segment.len(), SEGMENT_BYTES);
    assert_eq!(words(&fresh, 0, 3), [0, 65535, 65535]);
    assert_eq!(words(&fresh, entry_word(0), 10), [1, 0, 0, 0, 0, 0, 0, 0, 0, 0]);
    assert_eq!(words(&fresh, entry_word(127), 10), [65535, 0, 0, 0, 0, 0, 0, 0, 0, 0]);
    assert!(fresh.segment[2 * file_row(0)..].iter().all(|b| *b == 0));
}

#[test]
fn the_worked_session_while_a_write_waits() {
    let desk = after(&WORKED[..6]);
    let memories = desk.memories();
    // The write of three bytes at place 0 took entry 0.
    assert_eq!(words(&memories, 0, 1), [1]);
    assert_eq!(words(&memories, 9, 1), [0]);
    assert_eq!(words(&memories, entry_word(0), 10), [65535, 0, 0, 0, 0, 0, 0, 3, 0, 0]);
    assert_eq!(words(&memories, file_row(0), 8), [4, 1, 3, 0, 0, 2, 0, 0]);
    assert_eq!(words(&memories, place_row(0), 8), [2, 1, 1, 0, 0, 0, 0, 0]);
    assert_eq!(words(&memories, place_row(1), 8), [1, 0, 1, 0, 0, 0, 0, 1]);
    assert_eq!(&memories.buffers[..4], b"EFG\0");
}

#[test]
fn a_completed_read_and_a_timer() {
    let desk = after(&[
        (builds(7, 4, 1, 1, 1), Built(3)),
        (opens(7, 0, 3, 0), Opened(0, 0)),
        (opens(7, 0, 3, 0), Opened(1, 0)),
        (controls(7, 1, 4, 9), Done),
        (controls(7, 0, 4, 7), Done),
        (reads(7, 0, 4), Waiting),
        (reads(7, 1, -8), Waiting),
        (passes(7), Done),
    ]);
    let memories = desk.memories();
    // Entries 0 and 1 at place 56, 2 and 3 at place 57; 1 went free.
    assert_eq!(words(&memories, 17 + 56, 2), [0, 65535]);
    assert_eq!(words(&memories, 8, 1), [2]);
    assert_eq!(words(&memories, 81, 1), [3]);
    assert_eq!(words(&memories, entry_word(0), 10), [65535, 56, 0, 0, 0, 22, 0, 0, 0, 0]);
    assert_eq!(words(&memories, entry_word(2), 10), [65535, 57, 0, 8, 0, 0, 0, 0, 0, 0]);
    assert_eq!(words(&memories, entry_word(3), 10), [65535, 57, 0, 0, 0, 0, 0, 0, 2, 0]);
    assert_eq!(words(&memories, 0, 1), [1]);
}

#[test]
fn memories_are_sound_and_read_back_as_themselves() {
    for seed in 1..=10 {
        let mut desk = Desk::fresh();
        let mut generator = Generator::new(seed);
        for _ in 0..150 {
            let call = next_call(&desk, &mut generator);
            make_call(&mut desk, &call);
            let memories = desk.memories();
            let loaded = Desk::load_memories(&memories).expect("a run's memories are sound");
            assert!(loaded.memories() == memories, "seed {seed}: read back as another desk");
        }
    }
}

#[test]
fn damaged_memories_are_not_sound() {
    let good = after(&WORKED[..6]).memories();
    let faults: [(usize, u8, &str); 8] = [
        (1, 2, "an entry on no list"),
        (19, 1, "an entry on two lists, or twice on one"),
        (2 * entry_word(5) + 7, 1, "a free entry's words"),
        (2 * entry_word(0) + 3, 8, "a waiting write's place"),
        (2 * entry_word(0) + 15, 9, "a waiting write"),
        (2 * file_row(0) + 1, 129, "R or B"),
        (2 * file_row(1) + 5, 1, "the row of a file not built"),
        (2 * place_row(1) + 1, 3, "a side"),
    ];
    for (at, byte, why) in faults {
        let mut bad = good.clone();
        bad.segment[at] = byte;
        assert_eq!(Desk::load_memories(&bad).err(), Some(why));
    }
    // In blocks 0 and 1: records put, words used, a record's length, type and ID.
    for (at, byte, why) in [
        (1, 2, "a block's records put"),
        (3, 6, "a block's words used"),
        (5, 13, "a record's length"),
        (7, 3, "a record's type or ID"),
        (9, 0, "a record's type or ID"),
        (18 + 7, 1, "data in an open or close record"),
    ] {
        let mut bad = good.clone();
        bad.blocks[at] = byte;
        assert_eq!(Desk::load_memories(&bad).err(), Some(why));
    }
}

/// A reply port has an entry only where its place is open.
#[test]
fn a_reply_port_of_a_place_not_open() {
    let mut desk = after(&[
        (builds(7, 4, 1, 1, 1), Built(3)),
        (opens(7, 0, 3, 0), Opened(0, 0)),
        (controls(7, 0, 4, 7), Done),
        (reads(7, 0, 4), Waiting),
        (passes(7), Done),
    ]);
    assert_eq!(desk.lists()[17 + 56], [0]);
    let memories = desk.memories();
    let mut closed = memories.clone();
    closed.segment[2 * place_row(56)..2 * place_row(57)].fill(0);
    assert_eq!(Desk::load_memories(&closed).err(), Some("a request of a place not open"));
    let mut unbuilt = closed;
    unbuilt.segment[2 * file_row(7)..2 * file_row(7) + 16].fill(0);
    assert_eq!(Desk::load_memories(&unbuilt).err(), Some("a request of a file not built"));
    talk(&mut desk, &[(collects(7, 0), TimedOut)]);
    assert!(Desk::load_memories(&desk.memories()).is_ok());
}
