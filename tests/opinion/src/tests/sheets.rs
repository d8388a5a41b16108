//! Sheets that load, and texts that are no sheets.

use super::vocabulary::Told::{Counted, Done, Got, Opened, Refused};
use super::vocabulary::{closes, counts, opens, reads};
use super::{saved, talk};
use crate::model::desk::Desk;
use crate::model::geometry::Geometry;
use crate::model::limits::SHEET_BYTES;
use crate::model::sheet::{sheet_head, sheet_text};
use crate::model::status::{DONE, NOT_A_SHEET, NO_FILE};

#[test]
fn a_full_sheet_loads_and_access_1_purges_it_first() {
    let mut desk = Desk::fresh();
    let text = b"0100010100030003\n00000009\n0000FFFF4142\n00020001\n";
    assert_eq!(desk.load(5, text), DONE);
    assert_eq!(desk.load(5, text), NO_FILE);
    assert_eq!(desk.load(8, text), NO_FILE);
    assert_eq!(saved(&desk, 5).as_bytes(), text);
    talk(
        &mut desk,
        &[
            (counts(5), Counted(2, 3, 0, 0)),
            (opens(5, 2, 1, 0), Refused(42)),
            (opens(5, 0, 1, 0), Opened(0, 0)),
            (reads(5, 0, 1), Got(0, b"")),
        ],
    );
    assert_eq!(desk.look(5, 0), (DONE, vec![0x41, 0x42]));
    talk(&mut desk, &[(closes(5, 0), Done), (opens(5, 1, 1, 0), Opened(0, 1))]);
    // The last record lay in block 2, so the open record begins block 0 (6 words a block).
    assert_eq!(desk.blocks()[5 * 4096..5 * 4096 + 12], [0, 1, 0, 5, 0, 4, 0, 1, 0, 1, 0, 0]);
}

#[test]
fn texts_that_are_not_sheets() {
    let texts: [&[u8]; 16] = [
        b"",
        b"\n",
        b"0100010100030000",
        b"0100010100030000\n\n",
        b"0100010100030000\n0",
        b"0100010100030000\r\n",
        b"0100010100030001\n",
        b"0100010100030000\n00000001\n",
        b"0100000100030000\n",
        b"0100811100030000\n",
        b"0100010100020000\n",
        b"0100800100100000\n",
        b"0100010100030001\n00030001\n",
        b"0100010100030001\n00000000\n",
        b"0100010100030001\n00000001414243\n",
        b"0100010100030001\n0001000141\n",
    ];
    for text in texts {
        assert_eq!(Desk::fresh().load(0, text), NOT_A_SHEET, "{}", String::from_utf8_lossy(text));
    }
    assert_eq!(Desk::fresh().load(0, b"01008001000F0000\n"), DONE);
}

/// A file full of records of 2R bytes, in as many blocks as there can be.
fn full(r: usize, b: usize) -> Geometry {
    let one = Geometry { record_words: r, blocking: b, data_blocks: 1 };
    Geometry { data_blocks: 2048 / one.block_words(), ..one }
}

#[test]
fn no_sheet_is_longer_than_its_memory() {
    // Two digits a byte, and LF: 8 bytes of head, 4 + 2R a record.
    let length = |r: usize, b: usize| 17 + full(r, b).capacity() * (9 + 4 * r);
    let all = (1..=128).flat_map(|r| (1..=16).map(move |b| (length(r, b), r, b)));
    assert_eq!(all.max(), Some((8117, 99, 10)));
    assert!(8117 <= SHEET_BYTES);
    let mut frames = vec![sheet_head(&full(99, 10), 20)];
    frames.resize(21, [vec![0, 0, 0, 1], vec![0xA5; 198]].concat());
    let text = sheet_text(&frames);
    let mut desk = Desk::fresh();
    assert_eq!((text.len(), desk.load(7, &text)), (8117, DONE));
    assert_eq!(saved(&desk, 7).as_bytes(), text);
}
