//! Bytes that nothing is asked of: memories are taken with any, they stay until a call writes there,
//! and a call that reads them answers them.

use super::vocabulary::Told::{
    Built, Counted, Done, EndOfFile, Got, Opened, Refused, Waiting, Wrote,
};
use super::vocabulary::{builds, closes, collects, controls, counts, opens, passes, reads, writes};
use super::{after, talk, WORKED};
use crate::generator::random::Random;
use crate::library::caller::Caller;
use crate::library::case::apply;
use crate::library::damage::{noise, raw_change};
use crate::library::reached::Reached;
use crate::library::tally::Tally;
use crate::model::desk::Desk;
use crate::model::segment::{Memories, Part};
use crate::model::status::DONE;
use crate::model::unread::{Kind, KINDS};
use crate::outcome::make_call;

/// The desk that a desk's memories stand for, some bytes of which were changed.
fn changed(desk: &Desk, change: impl Fn(&mut Memories)) -> Desk {
    let mut memories = desk.memories();
    change(&mut memories);
    Desk::load_memories(&memories).expect("nothing is asked of these bytes")
}

fn buffer(desk: &Desk, place: usize) -> Vec<u8> {
    desk.buffers()[260 * place..260 * (place + 1)].to_vec()
}

/// What lies there, and zeros after it.
fn filled(lies: &[u8]) -> Vec<u8> {
    [lies, &vec![0; 260 - lies.len()]].concat()
}

#[test]
fn a_buffer_stays_until_its_places_request_changes() {
    let desk = after(&[
        (builds(0, 4, 1, 1, 1), Built(3)),
        (opens(0, 3, 3, 0), Opened(0, 1)),
        (opens(0, 0, 3, 0), Opened(1, 0)),
    ]);
    let mut desk = changed(&desk, |memories| memories.buffers[..260 * 8].fill(7));
    let noise = vec![7; 260];
    // Served at once, refused, opened, closed: no request, and no buffer changes.
    talk(
        &mut desk,
        &[
            (writes(0, 0, -3, b"ABC"), Wrote(3)),
            (reads(0, 1, -9), Got(3, b"ABC")),
            (controls(0, 1, 45, 1), Done),
            (reads(0, 0, 4), Refused(34)),
            (opens(0, 0, 3, 0), Opened(2, 0)),
            (closes(0, 2), Done),
            (counts(0), Counted(0, 0, 1, 1)),
        ],
    );
    assert!((0..8).all(|place| buffer(&desk, place) == noise));
    // A read that begins to wait leaves zeros in its own.
    talk(&mut desk, &[(controls(0, 1, 4, 5), Done), (reads(0, 1, -9), Waiting)]);
    assert_eq!(buffer(&desk, 1), filled(b""));
    assert!([0, 2, 3, 4, 5, 6, 7].iter().all(|place| buffer(&desk, *place) == noise));
}

#[test]
fn a_request_that_changes_fills_its_buffer_anew() {
    // A read waits at place 1.
    let desk = after(&[
        (builds(0, 4, 1, 1, 1), Built(3)),
        (opens(0, 3, 3, 0), Opened(0, 1)),
        (opens(0, 0, 3, 0), Opened(1, 0)),
        (controls(0, 1, 4, 5), Done),
        (reads(0, 1, -9), Waiting),
    ]);
    let noisy = |desk: &Desk| changed(desk, |memories| memories.buffers[..260 * 8].fill(7));
    let others =
        |desk: &Desk| (0..8).filter(|place| *place != 1).all(|p| buffer(desk, p) == [7; 260]);
    // It is aborted, its accessor closes, its time ends, the last writer closes, a record comes.
    for (ending, told, lies) in [
        (controls(0, 1, 43, 0), Done, &b""[..]),
        (closes(0, 1), Done, b""),
        (passes(5), Done, b""),
        (closes(0, 0), Done, b""),
        (writes(0, 0, -2, b"DE"), Wrote(2), b"DE"),
    ] {
        let mut ended = noisy(&desk);
        talk(&mut ended, &[(ending, told)]);
        assert_eq!(buffer(&ended, 1), filled(lies));
        assert!(others(&ended));
    }
    // It is collected.
    let mut desk = desk;
    talk(&mut desk, &[(writes(0, 0, -2, b"DE"), Wrote(2))]);
    let mut desk = noisy(&desk);
    talk(&mut desk, &[(collects(0, 1), Got(2, b"\x07\x07"))]);
    assert_eq!(buffer(&desk, 1), filled(b""));
    assert!(others(&desk));
}

#[test]
fn a_waiting_write_is_what_lies_in_its_buffer() {
    // EFG waits at place 0.
    let desk = after(&WORKED[..6]);
    let mut desk = changed(&desk, |memories| {
        memories.buffers[1] = b'X';
        memories.buffers[3..260].fill(9);
    });
    assert_eq!(desk.buffers()[..4], *b"EXG\x09");
    talk(
        &mut desk,
        &[
            ("0300010004", "0300000241424344"),
            ("030001FFF8", "03000003455847"),
            ("060000", "06000003"),
        ],
    );
    assert_eq!(buffer(&desk, 0), filled(b""));
}

#[test]
fn a_completed_read_is_what_lies_in_its_buffer() {
    let desk = after(&[
        (builds(0, 4, 1, 1, 1), Built(3)),
        (opens(0, 0, 3, 0), Opened(0, 0)),
        (reads(0, 0, 4), Waiting),
        (opens(0, 3, 3, 0), Opened(1, 1)),
        (writes(0, 1, -3, b"ABC"), Wrote(3)),
    ]);
    assert_eq!(buffer(&desk, 0), filled(b"ABC"));
    let mut desk = changed(&desk, |memories| memories.buffers[2..260].fill(b'Y'));
    assert_eq!(desk.look(0, 0), (DONE, b"ABY".to_vec()));
    talk(&mut desk, &[(collects(0, 0), Got(2, b"ABY"))]);
    assert_eq!(buffer(&desk, 0), filled(b""));
}

#[test]
fn a_record_is_put_into_a_tail_and_a_block_begun_is_zeroed() {
    // Two blocks of 32 bytes; the open record ends at byte 10 of the first.
    let desk = after(&[(builds(0, 4, 2, 2, 1), Built(4)), (opens(0, 3, 3, 0), Opened(0, 1))]);
    let mut desk = changed(&desk, |memories| memories.blocks[10..4096].fill(9));
    talk(&mut desk, &[(writes(0, 0, -1, b"A"), Wrote(1))]);
    let share = desk.blocks();
    assert_eq!(share[..10], [0, 2, 0, 9, 0, 4, 0, 1, 0, 1]);
    // The pad byte is zero, and the bytes after the record stay.
    assert_eq!(share[10..20], [0, 5, 0, 0, 0, 1, b'A', 0, 9, 9]);
    assert!(share[18..4096].iter().all(|byte| *byte == 9));
    // The close record begins the other block.
    talk(&mut desk, &[(closes(0, 0), Done)]);
    let share = desk.blocks();
    assert_eq!(share[32..42], [0, 1, 0, 5, 0, 4, 0, 2, 0, 1]);
    assert!(share[42..64].iter().all(|byte| *byte == 0));
    assert!(share[18..32].iter().chain(&share[64..4096]).all(|byte| *byte == 9));
    // The tail is never read: the first record and then the end.
    talk(
        &mut desk,
        &[
            (opens(0, 0, 3, 0), Opened(0, 0)),
            (reads(0, 0, 4), Got(1, b"A")),
            (controls(0, 0, 46, 1), Done),
            (reads(0, 0, 4), Got(2, b"\x00\x02\x00\x01")),
            (reads(0, 0, 4), EndOfFile),
        ],
    );
}

#[test]
fn build_and_load_zero_share_and_buffers() {
    let mut memories = Desk::fresh().memories();
    memories.blocks.fill(9);
    memories.buffers.fill(9);
    let mut desk = Desk::load_memories(&memories).expect("nothing is asked of a file not built");
    assert!(desk.memories_over(&memories) == memories);
    talk(&mut desk, &[(builds(0, 4, 1, 1, 1), Built(3))]);
    assert_eq!(desk.load(1, b"0100040100030000\n"), DONE);
    let now = desk.memories_over(&memories);
    assert!(now.blocks[..2 * 4096].iter().all(|byte| *byte == 0));
    assert!(now.buffers[..16 * 260].iter().all(|byte| *byte == 0));
    assert!(now.blocks[2 * 4096..].iter().chain(&now.buffers[16 * 260..]).all(|byte| *byte == 9));
}

/// Other bytes wherever no call reads change no answer, and each of them is what it was or what the
/// same calls make of a desk without them.
#[test]
fn what_no_call_reads_changes_no_answer() {
    let unread: Vec<Kind> = KINDS.into_iter().filter(|kind| !kind.is_read()).collect();
    for seed in 1..=12 {
        let (mut random, mut caller) = (Random::new(seed), Caller::new(seed));
        let kind = KINDS[seed as usize % KINDS.len()];
        let mut plain = Reached::having(kind, &mut caller, random.between(0, 50)).desk;
        let mut lent = plain.memories();
        apply(&noise(&plain, &unread, &mut random), &mut lent);
        let mut noisy = Desk::load_memories(&lent).expect("nothing is asked of these bytes");
        let mut now = lent.clone();
        for _ in 0..100 {
            let call = caller.next(&plain);
            assert_eq!(make_call(&mut noisy, &call), make_call(&mut plain, &call), "seed {seed}");
            now = noisy.memories_over(&now);
            let expected = plain.memories();
            assert!(now.segment == expected.segment, "seed {seed}");
            for part in [Part::Blocks, Part::Buffers] {
                let of = |memories: &Memories| memories.part(part).to_vec();
                let (now, was, expected) = (of(&now), of(&lent), of(&expected));
                let kept = (0..now.len()).all(|at| now[at] == was[at] || now[at] == expected[at]);
                assert!(kept, "seed {seed}");
            }
        }
    }
}

/// Changed bytes of each kind are met and taken, one by one and all at once. Calls leave some and
/// write others; none writes after a share's last block.
#[test]
fn each_kind_is_changed_and_taken() {
    let (mut some, mut all) = (Tally::default(), Tally::default());
    for seed in 1..=40 {
        let (mut random, mut caller) = (Random::new(seed), Caller::new(seed));
        let kind = KINDS[seed as usize % KINDS.len()];
        let desk = Reached::having(kind, &mut caller, random.between(0, 50)).desk;
        let before = desk.memories();
        for _ in 0..20 {
            let mut lent = before.clone();
            apply(&raw_change(&desk, &before, &mut random), &mut lent);
            assert!(Desk::load_memories(&lent).is_ok());
            some.taken(&desk.stretches(), &before, &lent, &lent);
        }
        let mut lent = before.clone();
        apply(&noise(&desk, &KINDS, &mut random), &mut lent);
        let mut noisy = Desk::load_memories(&lent).expect("nothing is asked of these bytes");
        let mut now = lent.clone();
        for _ in 0..random.pick(&[3, 60]) {
            let call = caller.next(&noisy);
            make_call(&mut noisy, &call);
            now = noisy.memories_over(&now);
        }
        all.taken(&desk.stretches(), &before, &lent, &now);
    }
    for kind in KINDS {
        assert!(some.taken_of(kind).0 > 0, "{}", kind.name());
        let (taken, written) = all.taken_of(kind);
        assert!(written < taken, "{}: {taken} taken, {written} written", kind.name());
        assert_eq!(written > 0, kind != Kind::ShareEnd, "{}", kind.name());
    }
}
