//! Who makes the calls: the generator's, some of them with numbers that no frame can carry.

use super::numbers::{far, MUCH};
use crate::generator::random::Random;
use crate::generator::{Call, Generator};
use crate::model::desk::Desk;
use crate::model::limits::{FILES, PLACES, SHEET_BYTES};
use crate::session::next_call;

pub struct Caller {
    generator: Generator,
    random: Random,
}

impl Caller {
    pub fn new(seed: u64) -> Caller {
        Caller { generator: Generator::new(seed), random: Random::new(seed.wrapping_add(1 << 40)) }
    }

    /// All eight files in play.
    pub fn at_all_files(self) -> Caller {
        Caller { generator: self.generator.at_all_files(), random: self.random }
    }

    /// These files in play.
    pub fn at_files(self, files: &[usize]) -> Caller {
        Caller { generator: self.generator.at_files(files), random: self.random }
    }

    pub fn next(&mut self, desk: &Desk) -> Call {
        let random = &mut self.random;
        match next_call(desk, &mut self.generator) {
            Call::Look(file, reader) if random.percent(5) => Call::Look(far(file, random), reader),
            Call::Look(file, reader) if random.percent(5) => Call::Look(file, far(reader, random)),
            Call::Save(file, room) if random.percent(4) => Call::Save(far(file, random), room),
            Call::Save(file, _) if random.percent(6) => Call::Save(file, random.pick(&MUCH)),
            Call::Load(file, text) if random.percent(5) => Call::Load(far(file, random), text),
            other => other,
        }
    }

    /// The next that is an event.
    pub fn next_event(&mut self, desk: &Desk) -> Call {
        loop {
            let call = self.next(desk);
            if let Call::Event(_) = call {
                return call;
            }
        }
    }

    /// A look, a save and a load that this desk would accept, if there is one.
    pub fn one_of_each(&mut self, desk: &Desk) -> Vec<Call> {
        let (file, reader) = self.some_reader(desk);
        let built: Vec<usize> = (0..FILES).filter(|n| desk.files[*n].is_some()).collect();
        let saved = if built.is_empty() { 0 } else { self.random.pick(&built) };
        vec![
            Call::Look(file, reader),
            Call::Save(saved, SHEET_BYTES),
            Call::Load(unbuilt(desk), self.good_sheet()),
        ]
    }

    fn some_reader(&mut self, desk: &Desk) -> (usize, usize) {
        let mut readers = Vec::new();
        for f in desk.files.iter().flatten() {
            for (place, accessor) in f.accessors.iter().enumerate() {
                if accessor.as_ref().map_or(false, |a| !a.is_writer()) {
                    readers.push((f.number, place));
                }
            }
        }
        match readers.is_empty() {
            true => (self.random.below(FILES), self.random.below(PLACES)),
            false => self.random.pick(&readers),
        }
    }

    pub fn good_sheet(&mut self) -> Vec<u8> {
        self.generator.good_sheet()
    }

    pub fn damaged_sheet(&mut self) -> Vec<u8> {
        self.generator.damaged_sheet()
    }
}

/// The first file that is not built, if there is one.
pub fn unbuilt(desk: &Desk) -> usize {
    desk.files.iter().position(Option::is_none).unwrap_or(0)
}
