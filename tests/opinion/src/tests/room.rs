//! Room, the ring's blocks, and who may open.

use super::vocabulary::Told::{Built, Counted, Done, Got, Opened, Refused, Waiting, Wrote};
use super::vocabulary::{builds, closes, collects, counts, opens, reads, writes};
use super::{after, talk};
use crate::model::desk::Desk;

#[test]
fn room_returns_by_the_block() {
    // R 1, B 2, N 2: two blocks of two, C = 4.
    talk(
        &mut Desk::fresh(),
        &[
            (builds(0, 1, 2, 2, 1), Built(4)),
            (opens(0, 1, 1, 0), Opened(0, 1)),
            (writes(0, 0, -1, b"a"), Wrote(1)),
            (writes(0, 0, -1, b"b"), Wrote(1)),
            (opens(0, 0, 1, 0), Opened(1, 0)),
            (writes(0, 0, -1, b"c"), Waiting),
            // Open record and "a" were all of block 0: one block is free again, "c" goes in.
            (reads(0, 1, 1), Got(1, b"a")),
            (collects(0, 0), Wrote(1)),
            (writes(0, 0, -1, b"d"), Wrote(1)),
            (writes(0, 0, -1, b"e"), Waiting),
            // "b" alone leaves its block held by "c".
            (reads(0, 1, 1), Got(1, b"b")),
            (collects(0, 0), Waiting),
            (reads(0, 1, 1), Got(1, b"c")),
            (collects(0, 0), Wrote(1)),
            (counts(0), Counted(2, 2, 1, 1)),
        ],
    );
}

#[test]
fn purge_goes_on_at_the_next_block_and_an_empty_one_stays() {
    let mut desk = after(&[
        (builds(0, 4, 1, 1, 1), Built(3)),
        (opens(0, 1, 1, 0), Opened(0, 1)),
        (closes(0, 0), Done),
        // Open at block 0 and close at block 1 are purged; the open record begins block 2.
        (opens(0, 1, 1, 0), Opened(0, 1)),
        (counts(0), Counted(0, 1, 1, 0)),
    ]);
    assert_eq!(desk.blocks()[36..46], [0, 1, 0, 5, 0, 4, 0, 1, 0, 1]);
    assert_eq!(desk.blocks()[18..28], [0, 1, 0, 5, 0, 4, 0, 2, 0, 1]);
    talk(
        &mut desk,
        &[
            (opens(0, 0, 1, 0), Opened(1, 0)),
            (reads(0, 1, 0), Waiting),
            (counts(0), Counted(0, 0, 1, 1)),
        ],
    );
}

#[test]
fn writers_ids_places_and_shares() {
    talk(
        &mut Desk::fresh(),
        &[
            (builds(0, 1, 1, 9, 1), Built(11)),
            (opens(0, 2, 2, 0), Opened(0, 1)),
            (opens(0, 2, 2, 1), Opened(1, 2)),
            (opens(0, 2, 2, 2), Opened(2, 3)),
            (opens(0, 2, 2, 3), Refused(40)),
            (opens(0, 2, 2, 4), Refused(35)),
            (opens(0, 2, 3, 0), Refused(40)),
            (opens(0, 0, 2, 0), Opened(3, 0)),
            (opens(0, 0, 2, 0), Refused(40)),
            (closes(0, 1), Done),
            (opens(0, 1, 2, 0), Opened(1, 2)),
            (closes(0, 0), Done),
            (opens(0, 0, 2, 0), Refused(40)),
            (opens(0, 3, 2, 0), Opened(0, 1)),
        ],
    );
}

#[test]
fn no_room_for_the_open_record_and_eight_accessors() {
    talk(
        &mut Desk::fresh(),
        &[
            (builds(0, 1, 1, 1, 1), Built(3)),
            (opens(0, 2, 3, 0), Opened(0, 1)),
            (opens(0, 2, 3, 0), Refused(42)),
            (opens(0, 0, 3, 0), Opened(1, 0)),
            (opens(0, 0, 3, 0), Opened(2, 0)),
            (opens(0, 0, 3, 0), Opened(3, 0)),
            (opens(0, 0, 3, 0), Opened(4, 0)),
            (opens(0, 0, 3, 0), Opened(5, 0)),
            (opens(0, 0, 3, 0), Opened(6, 0)),
            (opens(0, 0, 3, 0), Opened(7, 0)),
            (opens(0, 0, 3, 0), Refused(41)),
            (opens(0, 2, 3, 0), Refused(41)),
            (opens(0, 2, 2, 0), Refused(40)),
        ],
    );
}
