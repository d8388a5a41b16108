//! The other calls: none names the file, and none lets time pass.  Each kind of stranger looks at a
//! model of the whole run.

use super::crowd::Crowd;
use super::own::wrong_room;
use super::runs::{named, Named, Step};
use crate::generator::frames::{
    close_frame, control_frame, open_frame, read_frame, time_frame, write_frame,
};
use crate::generator::random::Random;
use crate::generator::Call;
use crate::library::caller::Caller;
use crate::library::numbers::far;
use crate::model::desk::Desk;
use crate::model::limits::{FILES, PLACES, SHEET_BYTES};
use crate::outcome::make_call;

#[derive(Clone, Copy, PartialEq)]
pub enum Kind {
    /// Waiting and timed requests at as many places of the other files as possible.
    Crowd,
    /// Loads and saves, and what else there is to do with records.
    Sheets,
    /// Anything, frames of no shape and files that do not exist too.
    Mix,
}

pub const KINDS: [(Kind, &str); 3] =
    [(Kind::Crowd, "crowd"), (Kind::Sheets, "loads and saves"), (Kind::Mix, "mix")];

pub struct Stranger {
    kind: Kind,
    file: usize,
    others: Vec<usize>,
    random: Random,
    caller: Caller,
    crowd: Crowd,
}

impl Stranger {
    pub fn new(kind: Kind, seed: u64, file: usize) -> Stranger {
        let seed = seed.wrapping_add((kind as u64 + 1) << 42);
        let others: Vec<usize> = (0..FILES).filter(|other| *other != file).collect();
        let mut random = Random::new(seed);
        let crowd = Crowd::new(&others, &mut random);
        let caller = Caller::new(seed).at_files(&others);
        Stranger { kind, file, others, random, caller, crowd }
    }

    /// The own calls with other calls before, between and behind them.
    pub fn among(&mut self, own: &[Step]) -> Vec<Step> {
        let mut desk = Desk::fresh();
        let mut steps = Vec::new();
        for step in own {
            self.others(&mut desk, &mut steps);
            if step.room.is_none() {
                make_call(&mut desk, &step.call);
            }
            steps.push(step.clone());
        }
        self.others(&mut desk, &mut steps);
        steps
    }

    fn others(&mut self, desk: &mut Desk, steps: &mut Vec<Step>) {
        let calls = match self.kind {
            Kind::Crowd => self.crowd.gap(desk, &mut self.random),
            Kind::Sheets | Kind::Mix => self.random.pick(&[0, 0, 1, 1, 2, 3, 4]),
        };
        for _ in 0..calls {
            let call = self.other_call(desk);
            let mix = self.kind == Kind::Mix;
            let room = if mix { wrong_room(&call, &mut self.random) } else { None };
            if room.is_none() {
                make_call(desk, &call);
            }
            steps.push(Step { call, own: false, room });
        }
    }

    /// One that does not name the file and does not let time pass.
    fn other_call(&mut self, desk: &Desk) -> Call {
        loop {
            let call = match self.kind {
                Kind::Crowd => self.crowd.call(desk, &mut self.random),
                Kind::Sheets => self.sheets(desk),
                Kind::Mix => self.mix(desk),
            };
            if named(&call) != Named::Time && named(&call) != Named::File(self.file) {
                return call;
            }
        }
    }

    fn sheets(&mut self, desk: &Desk) -> Call {
        let file = self.random.pick(&self.others);
        match (self.random.below(20), desk.built(file)) {
            (0..=9, Err(_)) | (0, Ok(_)) => Call::Load(file, self.some_sheet()),
            (1..=4, Ok(_)) | (10, _) => Call::Save(file, self.room(desk, file)),
            // Purges where nobody has the file open.
            (5..=6, Ok(f)) if f.open_count() == 0 => Call::Event(open_frame(file as u8, 1, 3, 0)),
            (5, Ok(_)) => Call::Event(close_frame(file as u8, self.random.below(PLACES) as u8)),
            _ => self.caller.next(desk),
        }
    }

    fn some_sheet(&mut self) -> Vec<u8> {
        match self.random.percent(65) {
            true => self.caller.good_sheet(),
            false => self.caller.damaged_sheet(),
        }
    }

    fn room(&mut self, desk: &Desk, file: usize) -> usize {
        let needed = desk.save(file, usize::MAX).1.len();
        self.random.pick(&[needed, needed, needed.saturating_sub(1), needed + 9, SHEET_BYTES])
    }

    fn mix(&mut self, desk: &Desk) -> Call {
        match self.random.below(10) {
            0 => Call::Event(self.no_shape()),
            1 => self.no_file(),
            _ => self.caller.next(desk),
        }
    }

    /// Frames that would name the file, or let time pass, if they had a shape.
    fn no_shape(&mut self) -> Vec<u8> {
        let random = &mut self.random;
        let (file, place) = (self.file as u8, random.below(PLACES) as u8);
        let mut frame = match random.below(6) {
            0 => time_frame(random.byte().into()),
            1 => close_frame(file, place),
            2 => read_frame(file, place, 4),
            3 => control_frame(file, place, 43, 0),
            4 => open_frame(file, 1, 3, 0),
            _ => return write_frame(file, place, 2, &[random.byte()]),
        };
        match random.percent(50) {
            true => frame.push(random.byte()),
            false => frame.truncate(random.below(frame.len())),
        }
        frame
    }

    /// Numbers above 7, some of which have the file's number in their low byte.
    fn no_file(&mut self) -> Call {
        let random = &mut self.random;
        let beyond = random.pick(&[8, 9, 16, 128, 248, 255]) & !7 | self.file as u8;
        let place = random.below(PLACES);
        let file = far(self.file, random);
        match random.below(6) {
            0 => Call::Look(file, place),
            1 => Call::Save(file, SHEET_BYTES),
            2 => Call::Load(file, self.caller.good_sheet()),
            3 => Call::Event(close_frame(beyond, place as u8)),
            4 => Call::Event(write_frame(beyond, place as u8, 1, &[0x41, 0x42])),
            _ => Call::Event(read_frame(beyond, place as u8, 4)),
        }
    }
}
