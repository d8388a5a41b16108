//! The worked session, its sheet, and the P cases of document 01.

use super::vocabulary::Told::{
    Built, Done, EndOfFile, Got, Malformed, Opened, Refused, TimedOut, Waiting,
};
use super::vocabulary::{builds, closes, collects, controls, line, opens, passes, reads};
use super::{after, free_front, saved, talk, WORKED};
use crate::model::desk::Desk;
use crate::model::geometry::Geometry;
use crate::model::status::{DONE, NO_FILE, OUTPUT_TOO_SHORT};

#[test]
fn worked_session() {
    let desk = after(&WORKED);
    assert_eq!(free_front(&desk, 3), [0, 1, 2]);
    assert!(desk.buffers().iter().all(|b| *b == 0));
    // open at block 0, ABCD at 1, EFG at 2 (one on from 1), close at 0 (one on from 2).
    let blocks = desk.blocks();
    let block = |n: usize| &blocks[18 * n..18 * (n + 1)];
    assert_eq!(block(0)[..10], [0, 1, 0, 5, 0, 4, 0, 2, 0, 1]);
    assert_eq!(block(1)[..14], [0, 1, 0, 7, 0, 8, 0, 0, 0, 1, 0x41, 0x42, 0x43, 0x44]);
    assert_eq!(block(2)[..14], [0, 1, 0, 7, 0, 7, 0, 0, 0, 1, 0x45, 0x46, 0x47, 0]);
}

#[test]
fn sheet_after_the_third_line() {
    let desk = after(&WORKED[..3]);
    let text = "0100040100030002\n00010001\n0000000141424344\n";
    assert_eq!(saved(&desk, 0), text);
    // Exactly enough output is enough; one less is 44.
    assert_eq!(desk.save(0, text.len()).0, DONE);
    assert_eq!(desk.save(0, text.len() - 1), (OUTPUT_TOO_SHORT, Vec::new()));
    assert_eq!(desk.save(1, 9999).0, NO_FILE);
}

#[test]
fn p_geometry() {
    assert_eq!(Geometry::from_build(1, 3, 51, 8).capacity(), 69);
    assert_eq!(Geometry::from_build(1, 1, 1023, 8).capacity(), 1031);
    assert_eq!(Geometry::from_build(1, 1, 1, 1).capacity(), 3);
    assert_eq!(Geometry::from_build(100, 10, 1, 1).block_words(), 1032);
    assert_eq!(Geometry::from_build(128, 3, 1, 1).block_words(), 395);
    talk(
        &mut Desk::fresh(),
        &[(builds(0, 128, 1, 14, 1), Refused(38)), (builds(0, 128, 1, 13, 1), Built(15))],
    );
}

#[test]
fn p_read_counts() {
    let mut desk = after(&WORKED[..3]);
    talk(
        &mut desk,
        &[
            (opens(0, 0, 1, 0), Opened(1, 0)),
            (reads(0, 1, 131), Refused(35)),
            (reads(0, 1, -261), Refused(35)),
            (reads(0, 1, -32768), Refused(35)),
            (line("050001002F0001"), Malformed),
            (controls(0, 1, 47, 1), Done),
            (reads(0, 1, 130), Got(2, b"ABCD")),
            (reads(0, 1, -260), Got(4, b"ABCD")),
        ],
    );
}

#[test]
fn p_timeout() {
    let mut desk = after(&[
        (builds(0, 4, 1, 1, 1), Built(3)),
        (opens(0, 0, 1, 0), Opened(0, 0)),
        (controls(0, 0, 4, 5), Done),
        (reads(0, 0, 4), Waiting),
        (passes(4), Done),
        (collects(0, 0), Waiting),
    ]);
    assert_eq!(desk.lists()[1], [0]);
    assert_eq!(desk.lists()[81], [1]);
    talk(
        &mut desk,
        &[
            (passes(1), Done),
            (controls(0, 0, 6, 0), Refused(33)),
            (controls(0, 0, 43, 0), EndOfFile),
        ],
    );
    assert_eq!(desk.lists()[17], [0]);
    assert_eq!(free_front(&desk, 2), [1, 2]);
    talk(
        &mut desk,
        &[
            (closes(0, 0), Refused(33)),
            (collects(0, 0), TimedOut),
            (collects(0, 0), Refused(39)),
            (closes(0, 0), Done),
        ],
    );
    assert_eq!(free_front(&desk, 2), [0, 1]);
}
