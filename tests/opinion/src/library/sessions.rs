//! Random sessions: from a fresh desk, with every entry in use, and on memories changed behind
//! the library's back.

use super::caller::Caller;
use super::case::{apply, Case};
use super::damage::{changes, noise};
use super::program::Library;
use super::reached::Reached;
use super::sheets::comes_back;
use super::tally::Tally;
use super::twin::Twin;
use crate::generator::frames::{build_frame, control_frame, open_frame, read_frame, write_frame};
use crate::generator::random::Random;
use crate::generator::Call;
use crate::model::desk::Desk;
use crate::model::status::DONE;
use crate::model::unread::KINDS;
use crate::outcome::{make_call, Outcome};
use std::ops::Range;

/// A session of so many calls, now and then a long one; the case, if one is answered otherwise.
pub fn session(library: &Library, seed: u64, calls: usize, tally: &mut Tally) -> Result<(), Case> {
    let calls = if seed % 25 == 0 { 10 * calls } else { calls };
    let mut twin = Twin::fresh(library).map_err(|_| Case::default())?;
    let mut caller = Caller::new(seed);
    play(Case::default(), &mut twin, &Desk::fresh(), &mut caller, calls, tally)
}

/// A session that begins with a request and a timer at each of the 64 places: no entry is free.
pub fn full_session(
    library: &Library,
    seed: u64,
    calls: usize,
    tally: &mut Tally,
) -> Result<(), Case> {
    let mut twin = Twin::fresh(library).map_err(|_| Case::default())?;
    let mut case = Case::default();
    for frame in full_house(0..8, &mut Random::new(seed)) {
        send(Call::Event(frame), &mut case, &mut twin, tally)?;
    }
    let free = twin.model().map_or(0, |desk| desk.entries.free.len());
    assert!(free == 0, "the house is not full: {free} entries are free");
    let mut caller = Caller::new(seed).at_all_files();
    play(case, &mut twin, &Desk::fresh(), &mut caller, calls, tally)
}

/// Eight waiting readers or eight waiting writers at each of these files, each with a timeout.
pub fn full_house(files: Range<u8>, random: &mut Random) -> Vec<Vec<u8>> {
    let (mut frames, mut waits) = (Vec::new(), Vec::new());
    for file in files {
        // Room for the records of eight opens and eight closes, and for no other.
        frames.push(build_frame(file, random.between(1, 4), 4, 14, 1));
        let writes = random.percent(50);
        for place in 0..8 {
            frames.push(open_frame(file, if writes { 3 } else { 0 }, 3, 0));
            frames.push(control_frame(file, place, 4, random.between(1, 9) as u16));
            waits.push(match writes {
                true => write_frame(file, place, 1, &[file, place]),
                false => read_frame(file, place, 2),
            });
        }
    }
    while !waits.is_empty() {
        frames.push(waits.swap_remove(random.below(waits.len())));
    }
    frames
}

/// A desk reached by some calls, bytes of it changed, and a few calls on what that makes.
pub fn damaged_session(library: &Library, seed: u64, tally: &mut Tally) -> Result<(), Case> {
    let mut caller = Caller::new(seed);
    let mut random = Random::new(seed.wrapping_add(1 << 32));
    let mut desk = Desk::fresh();
    let mut before = Vec::new();
    for _ in 0..10 {
        for _ in 0..random.between(1, 30) {
            let call = caller.next(&desk);
            make_call(&mut desk, &call);
            before.push(call);
        }
        let reached = desk.memories();
        for _ in 0..8 {
            let changes = changes(&desk, &reached, &mut random);
            let mut memories = reached.clone();
            apply(&changes, &mut memories);
            let mut twin = Twin::of(library, &memories);
            tally.memory(twin.model().err());
            let taken = twin.model().map(|desk| desk.stretches()).unwrap_or_default();
            let mut case = Case { before: before.clone(), changes, calls: Vec::new() };
            for call in caller.one_of_each(twin.model().unwrap_or(&desk)) {
                step(call, &mut case, &mut twin, tally)?;
            }
            let calls = if twin.model().is_ok() { 6 } else { 2 };
            play(case, &mut twin, &desk, &mut caller, calls, tally)?;
            tally.taken(&taken, &reached, &memories, twin.memories());
        }
    }
    Ok(())
}

/// A session on a desk with other bytes wherever nothing is asked of them: a call answers those that
/// it reads, and all stay until the rules write there.
pub fn raw_session(
    library: &Library,
    seed: u64,
    calls: usize,
    tally: &mut Tally,
) -> Result<(), Case> {
    let mut caller = Caller::new(seed);
    let mut random = Random::new(seed.wrapping_add(1 << 33));
    let kind = random.pick(&KINDS);
    let Reached { desk, before } = Reached::having(kind, &mut caller, random.between(0, 80));
    let reached = desk.memories();
    let changes = noise(&desk, &KINDS, &mut random);
    let mut memories = reached.clone();
    apply(&changes, &mut memories);
    let mut twin = Twin::of(library, &memories);
    tally.memory(twin.model().err());
    assert!(twin.model().is_ok(), "the model asks something of these bytes");
    let case = Case { before, changes, calls: Vec::new() };
    play(case, &mut twin, &desk, &mut caller, calls, tally)?;
    tally.taken(&desk.stretches(), &reached, &memories, twin.memories());
    Ok(())
}

/// Makes calls on both; where the memories are not sound, those that `desk` would be asked.
fn play(
    mut case: Case,
    twin: &mut Twin,
    desk: &Desk,
    caller: &mut Caller,
    calls: usize,
    tally: &mut Tally,
) -> Result<(), Case> {
    for _ in 0..calls {
        let call = caller.next(twin.model().unwrap_or(desk));
        step(call, &mut case, twin, tally)?;
    }
    if let Ok(desk) = twin.model() {
        tally.notes(desk);
    }
    Ok(())
}

/// One more call of a case; a sheet that it saves comes back.
fn step(call: Call, case: &mut Case, twin: &mut Twin, tally: &mut Tally) -> Result<(), Case> {
    let saved = match call {
        Call::Save(file, _) => Some(file),
        _ => None,
    };
    let outcome = send(call, case, twin, tally)?;
    match saved {
        Some(file) if outcome.status == DONE => {
            comes_back(twin.library(), &outcome.bytes, file, tally)
        }
        _ => Ok(()),
    }
}

/// One more call of a case, on both.
pub fn send(
    call: Call,
    case: &mut Case,
    twin: &mut Twin,
    tally: &mut Tally,
) -> Result<Outcome, Case> {
    case.calls.push(call.clone());
    let outcome = twin.call(&call).map_err(|_| case.clone())?;
    tally.call(&call, &outcome);
    Ok(outcome)
}
