//! Waiting requests: their order, their entries, their timers.

use super::vocabulary::Told::{Built, Counted, Done, EndOfFile, Got, Opened, Waiting, Wrote};
use super::vocabulary::{builds, closes, collects, controls, counts, opens, passes, reads, writes};
use super::{after, free_front, saved, talk};

#[test]
fn a_read_answered_1_may_be_served_in_the_same_call() {
    // C = 4; two open records and W = 2 leave no room for data.
    let desk = after(&[
        (builds(0, 4, 1, 2, 1), Built(4)),
        (opens(0, 3, 3, 0), Opened(0, 1)),
        (opens(0, 3, 3, 0), Opened(1, 2)),
        (controls(0, 1, 4, 5), Done),
        (writes(0, 1, 1, b"AB"), Waiting),
        (opens(0, 0, 3, 0), Opened(2, 0)),
        (controls(0, 2, 4, 9), Done),
        (reads(0, 2, 4), Waiting),
    ]);
    // Writer 0 and 1, reader 2 and 3; the writer's timer went first, then the reader's.
    assert_eq!(free_front(&desk, 3), [3, 1, 4]);
    assert_eq!(desk.lists()[18], [0]);
    assert_eq!(desk.lists()[19], [2]);
    let mut desk = desk;
    talk(
        &mut desk,
        &[
            (collects(0, 2), Got(1, b"AB")),
            (collects(0, 1), Wrote(1)),
            (counts(0), Counted(0, 0, 2, 1)),
        ],
    );
}

#[test]
fn the_last_writers_close_ends_readers_in_queue_order_past_one_with_45() {
    let mut desk = after(&[
        (builds(0, 4, 1, 1, 1), Built(3)),
        (opens(0, 2, 3, 0), Opened(0, 1)),
        (opens(0, 0, 3, 0), Opened(1, 0)),
        (opens(0, 0, 3, 0), Opened(2, 0)),
        (opens(0, 0, 3, 0), Opened(3, 0)),
        (controls(0, 2, 45, 1), Done),
        (controls(0, 1, 4, 7), Done),
        (controls(0, 3, 4, 7), Done),
        (reads(0, 1, 4), Waiting),
        (reads(0, 2, 4), Waiting),
        (reads(0, 3, 4), Waiting),
        (closes(0, 0), Done),
        (collects(0, 1), EndOfFile),
        (collects(0, 2), Waiting),
        (collects(0, 3), EndOfFile),
        (counts(0), Counted(0, 0, 0, 3)),
    ]);
    // Entries 0+1, 2, 3+4; freed 1, 4 at the close, then 0 and 3 by collecting.
    assert_eq!(free_front(&desk, 5), [3, 0, 4, 1, 5]);
    assert_eq!(desk.lists()[1], [2]);
    // Its own close: the request's entry goes.
    talk(&mut desk, &[(closes(0, 2), Done)]);
    assert_eq!(free_front(&desk, 2), [2, 3]);
}

#[test]
fn equal_timeouts_end_in_arming_order_over_all_files() {
    let desk = after(&[
        (builds(0, 4, 1, 1, 1), Built(3)),
        (builds(1, 4, 1, 1, 1), Built(3)),
        (opens(0, 0, 3, 0), Opened(0, 0)),
        (opens(1, 0, 3, 0), Opened(0, 0)),
        (opens(0, 0, 3, 0), Opened(1, 0)),
        (controls(1, 0, 4, 5), Done),
        (controls(0, 0, 4, 3), Done),
        (controls(0, 1, 4, 2), Done),
        // Entries 0+1 with 5, time 2: 3 left; entries 2+3 with 3; entries 4+5 with 2.
        (reads(1, 0, 1), Waiting),
        (passes(2), Done),
        (reads(0, 0, 1), Waiting),
        (reads(0, 1, 1), Waiting),
    ]);
    assert_eq!(desk.lists()[81], [5, 1, 3]);
    let mut desk = desk;
    talk(&mut desk, &[(passes(3), Done)]);
    assert_eq!(free_front(&desk, 4), [3, 1, 5, 6]);
}

#[test]
fn waiting_writers_stay_and_are_written_in_order() {
    let mut desk = after(&[
        (builds(0, 1, 2, 4, 1), Built(6)),
        (opens(0, 2, 2, 0), Opened(0, 1)),
        (opens(0, 2, 2, 0), Opened(1, 2)),
        (opens(0, 0, 2, 0), Opened(2, 0)),
        (writes(0, 0, 0, b""), Wrote(0)),
        (writes(0, 1, 0, b""), Wrote(0)),
        // used 4, W 2: full.
        (writes(0, 0, 1, b"AA"), Waiting),
        (writes(0, 1, -1, b"B"), Waiting),
        (closes(0, 2), Done),
        (collects(0, 0), Waiting),
    ]);
    assert_eq!(desk.buffers()[..2], [0x41, 0x41]);
    assert_eq!(desk.buffers()[260..262], [0x42, 0]);
    assert_eq!(desk.lists()[9], [0, 1]);
    talk(
        &mut desk,
        &[
            (opens(0, 0, 2, 0), Opened(2, 0)),
            // Both open records filled block 0: two places at once.
            (reads(0, 2, 0), Got(0, b"")),
            (collects(0, 0), Wrote(1)),
            (collects(0, 1), Wrote(1)),
            (counts(0), Counted(3, 3, 2, 1)),
        ],
    );
    assert!(desk.buffers().iter().all(|b| *b == 0));
    assert_eq!(saved(&desk, 0), "0100010200030003\n00000002\n000000014141\n0000000242\n");
}
