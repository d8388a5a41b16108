//! The lowest refusal that applies is given.

use super::vocabulary::Told::{Done, Malformed, Refused};
use super::vocabulary::{builds, closes, collects, controls, counts, line, passes, reads, writes};
use super::{after, talk, WORKED};
use crate::model::status::{DONE, NOT_OPEN, NO_FILE, WRONG_SIDE};

#[test]
fn lowest_refusal_first() {
    let mut desk = after(&WORKED[..5]);
    talk(
        &mut desk,
        &[
            (line(""), Malformed),
            (line("0400000002414243"), Malformed),
            (line("04080000024142"), Malformed),
            (line("0408000002"), Malformed),
            (writes(8, 0, 1, b"AB"), Refused(31)),
            (writes(0, 8, 1, b"AB"), Refused(32)),
            (writes(0, 1, 1, b"AB"), Refused(34)),
            (writes(0, 0, 5, b"ABCDEFGHIJ"), Refused(35)),
            (line("0400008000"), Malformed),
            (reads(0, 0, 131), Refused(34)),
            (controls(0, 0, 46, 2), Refused(34)),
            (controls(0, 0, 45, 2), Refused(35)),
            (controls(0, 1, 48, 0), Refused(35)),
            (line("0500000400000"), Malformed),
            (controls(0, 0, 6, 65535), Done),
            (controls(0, 0, 43, 0), Refused(39)),
            (builds(0, 4, 1, 1, 1), Refused(31)),
            (builds(8, 4, 1, 1, 1), Refused(31)),
            (builds(1, 0, 1, 1, 1), Refused(35)),
            (builds(1, 1, 17, 1, 1), Refused(35)),
            (builds(1, 1, 1, 2001, 1), Refused(35)),
            (builds(1, 1, 1, 1, 33), Refused(35)),
            (builds(1, 1, 1, 340, 1), Refused(38)),
            (line("0900 "), Malformed),
            (counts(8), Refused(31)),
            (passes(65535), Done),
            (line("09000"), Malformed),
            (collects(0, 1), Refused(39)),
            (collects(0, 4), Refused(32)),
            (closes(0, 2), Refused(32)),
        ],
    );
    assert_eq!(desk.look(0, 0).0, WRONG_SIDE);
    assert_eq!(desk.look(0, 2).0, NOT_OPEN);
    assert_eq!(desk.look(1, 2).0, NO_FILE);
    assert_eq!(desk.look(0, 1), (DONE, b"ABCD".to_vec()));
}

#[test]
fn numbers_are_not_cut_to_bytes() {
    let mut desk = after(&WORKED[..5]);
    assert_eq!(desk.look(0, 1).0, DONE);
    assert_eq!(desk.look(256, 1).0, NO_FILE);
    assert_eq!(desk.look(0, 257).0, NOT_OPEN);
    assert_eq!(desk.save(256, 9999), (NO_FILE, Vec::new()));
    assert_eq!(desk.load(257, b"01008001000F0000\n"), NO_FILE);
}
