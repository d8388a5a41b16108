//! What is called in two runs that agree on a file, and what is read of that file and compared.

use super::after;
use super::vocabulary::Told::{Built, Opened, Waiting};
use super::vocabulary::{builds, controls, opens, passes, reads, Asked};
use crate::generator::frames::{
    build_frame, close_frame, collect_frame, control_frame, counts_frame, open_frame, read_frame,
    write_frame,
};
use crate::generator::Call;
use crate::library::isolation::own::own_calls;
use crate::library::isolation::part::Part;
use crate::library::isolation::runs::{named, Named, Step};
use crate::library::isolation::strangers::{Stranger, KINDS};
use crate::model::desk::Desk;
use crate::model::segment::Memories;
use crate::outcome::{make_call, Outcome};

#[test]
fn what_a_call_names() {
    let frame = |bytes: &[u8]| named(&Call::Event(bytes.to_vec()));
    for shape in [
        build_frame(5, 4, 1, 1, 1),
        open_frame(5, 0, 0, 0),
        read_frame(5, 0, 4),
        write_frame(5, 0, 1, b"AB"),
        write_frame(5, 0, -1, b"A"),
        control_frame(5, 0, 4, 1),
        collect_frame(5, 0),
        close_frame(5, 0),
        counts_frame(5),
    ] {
        assert_eq!(frame(&shape), Named::File(5));
        assert_eq!(frame(&[&shape[..], &[0]].concat()), Named::Nothing);
        assert_eq!(frame(&shape[..shape.len() - 1]), Named::Nothing);
    }
    assert_eq!(frame(&[8, 5, 0]), Named::Time);
    assert_eq!(frame(&[8, 5]), Named::Nothing);
    assert_eq!(frame(&[4, 5, 0, 0, 1, 65]), Named::Nothing);
    assert_eq!(frame(&[]), Named::Nothing);
    assert_eq!(frame(&[9, 255]), Named::File(255));
    assert_eq!(named(&Call::Look(256, 5)), Named::File(256));
}

/// File 1: one reader's request timed out, and another waits with seven seconds left.
fn lines() -> [Asked; 8] {
    [
        builds(1, 4, 1, 1, 1),
        opens(1, 0, 3, 0),
        opens(1, 0, 3, 0),
        controls(1, 0, 4, 2),
        controls(1, 1, 4, 9),
        reads(1, 0, 4),
        reads(1, 1, 4),
        passes(2),
    ]
}

fn one_file() -> Memories {
    let mut desk = Desk::fresh();
    lines().iter().for_each(|line| drop(desk.line(line)));
    desk.memories()
}

/// The same on a desk at which file 0 has a waiting reader.
fn two_files() -> Memories {
    let mut desk = after(&[
        (builds(0, 4, 1, 1, 1), Built(3)),
        (opens(0, 0, 1, 0), Opened(0, 0)),
        (reads(0, 0, 4), Waiting),
    ]);
    lines().iter().for_each(|line| drop(desk.line(line)));
    desk.memories()
}

#[test]
fn entries_links_and_the_free_list_are_no_part() {
    let (one, two) = (one_file(), two_files());
    let (alone, among) = (Part::of(&one, 1), Part::of(&two, 1));
    assert_eq!(alone.compare(&among), Ok(()));
    assert!(alone.beside.entries != among.beside.entries && one.segment != two.segment);
    assert_eq!((alone.timers(), among.beside.free), (1, 124));
}

/// A byte is changed behind the desk's back.
fn told(change: impl Fn(&mut Memories)) -> String {
    let one = one_file();
    let mut two = one.clone();
    change(&mut two);
    match Part::of(&one, 1).compare(&Part::of(&two, 1)) {
        Ok(()) => "they agree".to_string(),
        Err(difference) => difference,
    }
}

#[test]
fn each_byte_of_the_part_is_compared() {
    for (at, place) in [(4096, "its byte 0"), (8191, "its byte 4095")] {
        let difference = format!("share of file 1, {place}: alone 00, among others 7F (1 differ)");
        assert_eq!(told(|memories| memories.blocks[at] = 127), difference);
    }
    for (at, place) in [(260 * 8, "0, its byte 0"), (260 * 16 - 1, "7, its byte 259")] {
        let place = format!("buffer of file 1, accessor {place}");
        let difference = format!("{place}: alone 00, among others 7F (1 differ)");
        assert_eq!(told(|memories| memories.buffers[at] = 127), difference);
    }
    for (word, place, was) in [
        (1370, "row of file 1, R", 4),
        (1377, "row of file 1, word 7", 0),
        (1490, "row of file 1, accessor 0, side", 1),
        (1553, "row of file 1, accessor 7, first", 0),
        // Entries 0 and 2 are the requests', entries 1 and 3 their timers'.
        (82 + 5, "completed requests of accessor 0 of file 1, number 0 of them, status", 22),
        (82 + 20 + 9, "waiting reads of file 1, number 0 of them, word 9", 0),
        (82 + 30 + 8, "timers of file 1, number 0 of them, seconds", 7),
    ] {
        let difference = format!("{place}: alone {was}, among others 99 (1 differ)");
        assert_eq!(told(|memories| memories.segment[2 * word + 1] = 99), difference);
    }
}

#[test]
fn nothing_else_is_compared() {
    assert_eq!(told(|memories| memories.blocks[..4096].fill(7)), "they agree");
    assert_eq!(told(|memories| memories.blocks[8192..].fill(7)), "they agree");
    assert_eq!(told(|memories| memories.buffers[..260 * 8].fill(7)), "they agree");
    assert_eq!(told(|memories| memories.buffers[260 * 16..].fill(7)), "they agree");
    // The heads of file 0's and file 2's read queues, and the rows of file 0 and of its accessors.
    for word in [1, 3, 1362, 1426] {
        assert_eq!(told(|memories| memories.segment[2 * word + 1] = 99), "they agree");
    }
}

#[test]
fn a_lost_entry_and_a_list_that_goes_round_are_told() {
    let no_timer = "timers of file 1, how many there are: alone 1, among others 0";
    assert_eq!(told(|memories| memories.segment[2 * 81..2 * 82].fill(255)), no_timer);
    let round = "waiting reads of file 1, how many there are: alone 1, among others 129";
    assert_eq!(told(|memories| memories.segment[2 * 102..2 * 103].copy_from_slice(&[0, 2])), round);
}

/// On the model: a run's own answers, and the file's part of the memories at its end.
fn on_the_model(steps: &[Step], file: usize) -> (Vec<Outcome>, Part) {
    let mut desk = Desk::fresh();
    let mut outcomes = Vec::new();
    for step in steps.iter().filter(|step| step.room.is_none()) {
        let outcome = make_call(&mut desk, &step.call);
        if step.own {
            outcomes.push(outcome);
        }
    }
    (outcomes, Part::of(&desk.memories(), file))
}

#[test]
fn strangers_leave_the_file_alone_and_the_model_keeps_it_so() {
    for seed in 1..=8 {
        let file = seed as usize % 8;
        let (own, _) = own_calls(seed, file, 60);
        let mine = |step: &Step| !matches!(named(&step.call), Named::File(other) if other != file);
        assert!(own.iter().all(|step| step.own && mine(step)));
        let (outcomes, part) = on_the_model(&own, file);
        for (kind, name) in KINDS {
            let steps = Stranger::new(kind, seed, file).among(&own);
            let others = steps.iter().filter(|step| !step.own).map(|step| named(&step.call));
            assert!(others.into_iter().all(|n| n != Named::Time && n != Named::File(file)));
            assert_eq!(steps.iter().filter(|step| step.own).count(), own.len());
            let (again, among) = on_the_model(&steps, file);
            assert_eq!(again, outcomes, "seed {seed}, {name}");
            assert_eq!(part.compare(&among), Ok(()), "seed {seed}, {name}");
        }
    }
}
