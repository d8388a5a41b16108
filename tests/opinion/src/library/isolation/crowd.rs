//! A crowd: waiting reads and writes with timeouts at as many places of the other seven files as
//! possible, so that few entries are free; aborted, collected and armed again in any order.

use crate::generator::frames::{
    build_frame, close_frame, collect_frame, control_frame, counts_frame, open_frame, read_frame,
    write_frame,
};
use crate::generator::random::Random;
use crate::generator::Call;
use crate::model::accessor::Accessor;
use crate::model::desk::Desk;
use crate::model::limits::{FILES, PLACES};

pub struct Crowd {
    others: Vec<usize>,
    /// Of each file: whether its accessors are writers.
    writes: Vec<bool>,
    /// Until everybody waits, nobody is let go.
    rising: bool,
}

impl Crowd {
    pub fn new(others: &[usize], random: &mut Random) -> Crowd {
        let writes = (0..FILES).map(|_| random.percent(50)).collect();
        Crowd { others: others.to_vec(), writes, rising: random.percent(70) }
    }

    /// How many calls come before the next own one.
    pub fn gap(&mut self, desk: &Desk, random: &mut Random) -> usize {
        if self.rising || random.percent(2) {
            // A place needs three calls at first, a file one.
            self.rising = true;
            return 3 * self.idle(desk).len() + self.others.len();
        }
        random.pick(&[0, 0, 1, 1, 2, 3, 5])
    }

    pub fn call(&mut self, desk: &Desk, random: &mut Random) -> Call {
        let idle = self.idle(desk);
        self.rising &= !idle.is_empty();
        if !idle.is_empty() && (self.rising || random.percent(75)) {
            let (file, place) = random.pick(&idle);
            return self.further(desk, file, place, random);
        }
        let (file, place) = (random.pick(&self.others) as u8, random.below(PLACES) as u8);
        match random.below(12) {
            0 => Call::Event(counts_frame(file)),
            1 => Call::Event(collect_frame(file, place)),
            2 => Call::Event(read_frame(file, place, 2)),
            // A writer that closes leaves a record, and may not find room to come back.
            3..=4 if !self.writes[usize::from(file)] => Call::Event(close_frame(file, place)),
            _ => Call::Event(control_frame(file, place, 43, 0)),
        }
    }

    /// The places at which nobody waits.
    fn idle(&self, desk: &Desk) -> Vec<(usize, usize)> {
        let mut idle = Vec::new();
        for file in &self.others {
            for place in 0..PLACES {
                let accessor = desk.built(*file).ok().and_then(|f| f.accessors[place].as_ref());
                let request = accessor.and_then(|a| a.request.as_ref());
                if !request.map_or(false, |request| request.waits()) {
                    idle.push((*file, place));
                }
            }
        }
        idle
    }

    /// A call that brings somebody at this place nearer to waiting.
    fn further(&self, desk: &Desk, file: usize, place: usize, random: &mut Random) -> Call {
        let number = file as u8;
        let built = match desk.built(file) {
            Ok(built) => built,
            // Room for the records of eight opens and eight closes, and for no other.
            Err(_) => return Call::Event(build_frame(number, random.between(1, 4), 4, 14, 1)),
        };
        // Nobody waits to write before eight writers take up the room.
        if built.open_count() < PLACES {
            let access = if self.writes[file] { random.pick(&[2, 3]) } else { 0 };
            return Call::Event(open_frame(number, access, 3, 0));
        }
        match &built.accessors[place] {
            Some(accessor) => Call::Event(self.request(number, place as u8, accessor, random)),
            None => Call::Event(counts_frame(number)),
        }
    }

    fn request(&self, file: u8, place: u8, accessor: &Accessor, random: &mut Random) -> Vec<u8> {
        if accessor.request.is_some() {
            return collect_frame(file, place);
        }
        if accessor.timeout == 0 || random.percent(10) {
            let seconds = random.pick(&[1, 2, 2, 3, 3, 4, 5, 5, 6, 40, 1000, 65535]);
            return control_frame(file, place, 4, seconds);
        }
        if !accessor.first && !accessor.extended_wait {
            return control_frame(file, place, 45, 1);
        }
        match accessor.is_writer() {
            true => write_frame(file, place, 1, &[random.byte(), random.byte()]),
            false => read_frame(file, place, random.pick(&[0, 2, -3, 130])),
        }
    }
}
