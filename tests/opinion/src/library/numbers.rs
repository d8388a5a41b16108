//! Files and readers that no frame can name, and outputs of every length, each on the same desk.

use super::caller::{unbuilt, Caller};
use super::case::Case;
use super::program::Library;
use super::reached::Reached;
use super::tally::Tally;
use crate::generator::random::Random;
use crate::generator::Call;
use crate::model::desk::Desk;
use crate::model::limits::{FILES, PLACES, SHEET_BYTES};

/// Added to 0 to 7 these are no file and no reader, though some of their bytes are one's.
const FAR: [usize; 9] = [8, 248, 256, 512, 1 << 15, 1 << 16, 1 << 32, 1 << 63, usize::MAX - 7];

/// More output than any sheet needs.
pub const MUCH: [usize; 4] = [SHEET_BYTES, SHEET_BYTES + 1, 65536, 100_000];

/// A number above 7 that may look like this one.
pub fn far(number: usize, random: &mut Random) -> usize {
    random.pick(&FAR) + number % 8
}

/// The case, if one is answered otherwise.
pub fn all_numbers(library: &Library, seed: u64, tally: &mut Tally) -> Result<(), Case> {
    let mut caller = Caller::new(seed);
    let mut random = Random::new(seed);
    let reached = Reached::by(&mut caller, random.between(20, 120));
    let desk = &reached.desk;
    let mut calls = looks(desk);
    calls.extend(saves(desk));
    let free = unbuilt(desk);
    for file in (0..FILES).chain(FAR.map(|base| base + free)) {
        calls.push(Call::Load(file, caller.good_sheet()));
        calls.push(Call::Load(file, Vec::new()));
    }
    reached.try_each(library, &calls, tally)
}

/// Every reader of every file, and far ones of both.
fn looks(desk: &Desk) -> Vec<Call> {
    let mut calls = Vec::new();
    for file in 0..FILES {
        let readers = (0..PLACES).chain(FAR);
        calls.extend(readers.map(|reader| Call::Look(file, reader)));
        if let Ok(f) = desk.built(file) {
            for place in (0..PLACES).filter(|p| f.accessors[*p].is_some()) {
                calls.extend(FAR.map(|base| Call::Look(file, base + place)));
                calls.extend(FAR.map(|base| Call::Look(base + file, place)));
                calls.extend(FAR.map(|base| Call::Look(base + file, base + place)));
            }
        }
    }
    calls
}

/// Outputs around the length of each file's sheet, or all lengths up to it if it is short.
fn saves(desk: &Desk) -> Vec<Call> {
    let mut calls = Vec::new();
    for file in 0..FILES {
        let needed = desk.save(file, usize::MAX).1.len();
        let mut rooms = vec![0, 1, 16, 17, 18, needed / 2, needed.saturating_sub(1)];
        rooms.extend([needed, needed + 1, needed + 2, needed + 256]);
        rooms.extend(MUCH);
        if needed < 200 {
            rooms.extend(0..needed);
        }
        calls.extend(rooms.into_iter().map(|room| Call::Save(file, room)));
        calls.extend(FAR.map(|base| Call::Save(base + file, needed)));
    }
    calls
}
