//! What a read takes and leaves: controls 45, 46 and 47.

use super::vocabulary::Told::{
    Built, Counted, Done, EndOfFile, Got, Opened, Refused, Waiting, Wrote,
};
use super::vocabulary::{builds, closes, collects, controls, counts, opens, reads, writes};
use super::{after, free_front, talk};
use crate::model::desk::Desk;
use crate::model::status::DONE;

#[test]
fn a_46_reader_waiting_does_not_get_the_last_writers_close_record() {
    talk(
        &mut Desk::fresh(),
        &[
            (builds(0, 4, 1, 1, 1), Built(3)),
            (opens(0, 3, 1, 0), Opened(0, 1)),
            (opens(0, 0, 1, 0), Opened(1, 0)),
            (controls(0, 1, 46, 1), Done),
            (reads(0, 1, 4), Got(2, b"\x00\x01\x00\x01")),
            (reads(0, 1, 4), Waiting),
            (closes(0, 0), Done),
            (collects(0, 1), EndOfFile),
            // Cut inside the header: one byte of it lost.
            (controls(0, 1, 47, 1), Done),
            (reads(0, 1, -3), Got(3, b"\x00\x02\x00")),
            (reads(0, 1, 4), Got(2, b"\x00\x02\x00\x01")),
            (reads(0, 1, 4), EndOfFile),
        ],
    );
}

#[test]
fn with_45_a_waiting_46_reader_gets_the_close_record() {
    talk(
        &mut Desk::fresh(),
        &[
            (builds(0, 4, 1, 1, 1), Built(3)),
            (opens(0, 3, 1, 0), Opened(0, 1)),
            (opens(0, 0, 1, 0), Opened(1, 0)),
            (controls(0, 1, 46, 1), Done),
            (controls(0, 1, 45, 1), Done),
            (reads(0, 1, 4), Got(2, b"\x00\x01\x00\x01")),
            (reads(0, 1, 4), Waiting),
            (closes(0, 0), Done),
            (collects(0, 1), Got(2, b"\x00\x02\x00\x01")),
            (counts(0), Counted(0, 0, 0, 1)),
        ],
    );
}

#[test]
fn control_47_is_spent_by_a_read_that_ended() {
    talk(
        &mut Desk::fresh(),
        &[
            (builds(0, 4, 1, 1, 1), Built(3)),
            (opens(0, 0, 1, 0), Opened(0, 0)),
            // First read: waits without a writer; aborted, the grace is not given back.
            (reads(0, 0, 4), Waiting),
            (controls(0, 0, 43, 7), Done),
            (collects(0, 0), Refused(39)),
            (controls(0, 0, 47, 1), Done),
            (reads(0, 0, 4), EndOfFile),
            (opens(0, 3, 0, 0), Opened(1, 1)),
            (writes(0, 1, 1, b"AB"), Wrote(1)),
            (reads(0, 0, 4), Got(1, b"AB")),
            (counts(0), Counted(0, 0, 1, 1)),
        ],
    );
}

#[test]
fn a_record_left_serves_the_next_waiting_reader() {
    let mut desk = after(&[
        (builds(0, 4, 1, 1, 1), Built(3)),
        (opens(0, 0, 3, 0), Opened(0, 0)),
        (opens(0, 0, 3, 0), Opened(1, 0)),
        (controls(0, 0, 47, 1), Done),
        (controls(0, 0, 4, 9), Done),
        (controls(0, 1, 4, 9), Done),
        (reads(0, 0, 4), Waiting),
        (reads(0, 1, -1), Waiting),
        (opens(0, 1, 3, 2), Opened(2, 1)),
    ]);
    assert_eq!(desk.lists()[1], [0, 2]);
    assert_eq!(desk.lists()[81], [1, 3]);
    talk(&mut desk, &[(writes(0, 2, 1, b"AB"), Wrote(1))]);
    // Timers were freed reader by reader: 1, then 3 before it.
    assert_eq!(free_front(&desk, 3), [3, 1, 4]);
    assert_eq!((desk.lists()[17].clone(), desk.lists()[18].clone()), (vec![0], vec![2]));
    assert_eq!(desk.buffers()[..3], [0x41, 0x42, 0]);
    assert_eq!(desk.buffers()[260..262], [0x41, 0]);
    assert_eq!(desk.look(0, 1), (DONE, vec![0x41]));
    talk(
        &mut desk,
        &[
            (collects(0, 0), Got(1, b"AB")),
            (collects(0, 1), Got(1, b"A")),
            (counts(0), Counted(0, 0, 1, 2)),
        ],
    );
    assert_eq!(free_front(&desk, 4), [2, 0, 3, 1]);
}
