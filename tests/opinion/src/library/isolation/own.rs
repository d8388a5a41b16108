//! The own calls of a file: those that name it, good and bad, passages of time, and frames that name
//! nothing.  The generator looks at a model on which nothing else is called.

use super::runs::{named, Named, Step};
use crate::generator::frames::{
    build_frame, control_frame, counts_frame, open_frame, read_frame, time_frame,
};
use crate::generator::random::Random;
use crate::generator::Call;
use crate::library::caller::Caller;
use crate::library::lengths::other_length;
use crate::library::sessions::full_house;
use crate::model::desk::Desk;
use crate::model::limits::{ANSWER_BYTES, BUFFER_BYTES, PLACES, SHEET_BYTES};
use crate::outcome::make_call;

/// So many calls, with a few before and behind them; and the desk that they leave.
pub fn own_calls(seed: u64, file: usize, calls: usize) -> (Vec<Step>, Desk) {
    let mut random = Random::new(seed.wrapping_add(1 << 41));
    let mut caller = Caller::new(seed).at_files(&[file]);
    let mut desk = Desk::fresh();
    let mut steps = Vec::new();
    let mut first = before_it_is_built(file, &mut caller, &mut random);
    if random.percent(25) {
        let number = file as u8;
        first.extend(full_house(number..number + 1, &mut random).into_iter().map(Call::Event));
    }
    for call in first {
        steps.push(own(call, &mut desk, &mut random));
    }
    while steps.len() < calls {
        let timed = timed_call(&desk, file, &mut random);
        let call = timed.unwrap_or_else(|| caller.next(&desk));
        match named(&call) {
            Named::File(other) if other != file => {}
            _ => steps.push(own(call, &mut desk, &mut random)),
        }
    }
    let looks = (0..PLACES).map(|place| Call::Look(file, place));
    let last = looks.chain([Call::Save(file, SHEET_BYTES), Call::Event(counts_frame(file as u8))]);
    steps.extend(last.map(|call| Step { call, own: true, room: None }));
    (steps, desk)
}

/// Now and then the call is lent an answer or record memory of a wrong length, and refused.
fn own(call: Call, desk: &mut Desk, random: &mut Random) -> Step {
    let room = wrong_room(&call, random);
    if room.is_none() {
        make_call(desk, &call);
    }
    Step { call, own: true, room }
}

/// Now and then the time that the first timer has left, or a timeout for somebody who has none.
fn timed_call(desk: &Desk, file: usize, random: &mut Random) -> Option<Call> {
    if let Some(timer) = desk.entries.in_order().first() {
        if random.percent(12) {
            let left = (timer.due - desk.entries.clock) as usize;
            let seconds = random.pick(&[left, left, left, left - 1, left + 1]);
            return Some(Call::Event(time_frame(seconds)));
        }
    }
    let accessors = &desk.built(file).ok()?.accessors;
    let untimed = |place: &usize| {
        accessors[*place].as_ref().map_or(false, |a| a.timeout == 0 && a.request.is_none())
    };
    let untimed: Vec<usize> = (0..PLACES).filter(untimed).collect();
    if untimed.is_empty() || !random.percent(20) {
        return None;
    }
    let seconds = random.pick(&[1, 2, 2, 3, 5]);
    Some(Call::Event(control_frame(file as u8, random.pick(&untimed) as u8, 4, seconds)))
}

/// The length of the answer or record memory, if it is to be a wrong one.
pub fn wrong_room(call: &Call, random: &mut Random) -> Option<usize> {
    let right = match call {
        Call::Event(_) if named(call) != Named::Nothing => ANSWER_BYTES,
        Call::Look(..) => BUFFER_BYTES,
        _ => return None,
    };
    random.percent(3).then(|| other_length(right, random))
}

/// Calls that a file refuses that is not built, and builds and loads of no file.
fn before_it_is_built(file: usize, caller: &mut Caller, random: &mut Random) -> Vec<Call> {
    let number = file as u8;
    let mut calls = vec![
        Call::Event(counts_frame(number)),
        Call::Event(open_frame(number, 0, 3, 0)),
        Call::Event(read_frame(number, 0, 4)),
        Call::Event(build_frame(number, 0, 1, 1, 1)),
        Call::Event(build_frame(number, 128, 1, 14, 1)),
        Call::Look(file, random.below(PLACES)),
        Call::Save(file, random.below(100)),
        Call::Load(file, Vec::new()),
        Call::Load(file, caller.damaged_sheet()),
        Call::Load(file, caller.damaged_sheet()),
    ];
    let mut chosen = Vec::new();
    for _ in 0..random.below(6) {
        chosen.push(calls.swap_remove(random.below(calls.len())));
    }
    chosen
}
