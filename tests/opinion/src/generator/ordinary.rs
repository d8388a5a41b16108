//! Calls that make sense where the file stands, each with a weight.

use super::frames::{
    close_frame, collect_frame, control_frame, counts_frame, open_frame, read_frame, time_frame,
    write_frame,
};
use super::{Call, Generator, Mood};
use crate::model::accessor::Accessor;
use crate::model::desk::Desk;
use crate::model::file::MessageFile;

type Candidates = Vec<(usize, Call)>;

impl Generator {
    pub(super) fn call_on(&mut self, desk: &Desk, f: &MessageFile, file: u8) -> Call {
        let mut candidates: Candidates = Vec::new();
        for (place, accessor) in f.accessors.iter().enumerate() {
            if let Some(accessor) = accessor {
                self.accessor_calls(f, file, place as u8, accessor, &mut candidates);
            }
        }
        self.open_calls(f, file, &mut candidates);
        self.time_calls(desk, &mut candidates);
        self.other_calls(desk, f, file, &mut candidates);
        self.random.weighted(candidates).unwrap_or(Call::Event(counts_frame(file)))
    }

    fn accessor_calls(
        &mut self,
        f: &MessageFile,
        file: u8,
        place: u8,
        accessor: &Accessor,
        into: &mut Candidates,
    ) {
        match &accessor.request {
            Some(request) if request.waits() => self.waiting_calls(file, place, into),
            Some(_) => self.completed_calls(f, file, place, into),
            None => self.idle_calls(f, file, place, accessor, into),
        }
        // A last writer's close is of most interest while readers wait, some with 45.
        let waiting = f.read_queue.iter().filter_map(|p| f.accessors[*p].as_ref());
        let extended = waiting.filter(|a| a.extended_wait).count();
        let last = accessor.is_writer() && f.writers() == 1;
        let close = match self.mood {
            _ if last && extended > 0 && f.read_queue.len() > 1 => 25,
            Mood::Churn => 18,
            _ if self.crowded => 1,
            _ => 4,
        };
        let close = if accessor.request.is_some() { (close + 1) / 2 } else { close };
        into.push((close, Call::Event(close_frame(file, place))));
    }

    fn waiting_calls(&mut self, file: u8, place: u8, into: &mut Candidates) {
        let param = self.random.next() as u16;
        into.push((4, Call::Event(collect_frame(file, place))));
        into.push((3, Call::Event(control_frame(file, place, 43, param))));
        let code = self.random.pick(&[4, 6, 45, 46, 47, 48, 99]);
        into.push((1, Call::Event(control_frame(file, place, code, 1))));
        into.push((2, Call::Look(file.into(), place.into())));
    }

    fn completed_calls(&mut self, f: &MessageFile, file: u8, place: u8, into: &mut Candidates) {
        let collect = if self.mood == Mood::Starve { 20 } else { 35 };
        into.push((collect, Call::Event(collect_frame(file, place))));
        into.push((2, Call::Event(control_frame(file, place, 43, 0))));
        into.push((4, Call::Look(file.into(), place.into())));
        into.push((1, Call::Event(read_frame(file, place, 4))));
        into.push((1, Call::Event(self.write_of(f, file, place))));
        let code = self.random.pick(&[4, 45, 46, 47, 50]);
        into.push((1, Call::Event(control_frame(file, place, code, 0))));
    }

    fn idle_calls(
        &mut self,
        f: &MessageFile,
        file: u8,
        place: u8,
        accessor: &Accessor,
        into: &mut Candidates,
    ) {
        let mood = self.mood;
        let timeout = self.timeout();
        let clock = match (mood, accessor.timeout) {
            (Mood::Clock, 0) => 20,
            (_, 0) => 4,
            _ => 1,
        };
        into.push((clock, Call::Event(control_frame(file, place, 4, timeout))));
        let extended = u16::from(!accessor.extended_wait);
        into.push((2, Call::Event(control_frame(file, place, 45, extended))));
        if self.random.percent(25) {
            into.push((1, Call::Event(control_frame(file, place, 6, timeout))));
        }
        if accessor.is_writer() {
            let weight = match mood {
                Mood::Fill => 35,
                Mood::Drain | Mood::Starve => 3,
                _ if !f.read_queue.is_empty() => 20,
                _ => 12,
            };
            into.push((weight, Call::Event(self.write_of(f, file, place))));
        } else {
            let weight = match mood {
                Mood::Drain | Mood::Starve => 35,
                Mood::Fill => 3,
                _ if !f.write_queue.is_empty() => 20,
                _ => 12,
            };
            let count = self.read_count(f);
            into.push((weight, Call::Event(read_frame(file, place, count))));
            let typed = u16::from(!accessor.reads_id);
            into.push((2, Call::Event(control_frame(file, place, 46, typed))));
            let leave = if self.random.percent(80) { 1 } else { 0 };
            let keep = if accessor.leave_next { 1 } else { 4 };
            into.push((keep, Call::Event(control_frame(file, place, 47, leave))));
            into.push((3, Call::Look(file.into(), place.into())));
        }
    }

    /// Timeouts short enough to meet, some off, some long.
    fn timeout(&mut self) -> u16 {
        match self.random.below(12) {
            0 => 0,
            1 => 65535,
            2 => self.random.next() as u16,
            3 => self.random.between(1, 6) as u16,
            _ => self.random.pick(&self.timeouts),
        }
    }

    fn read_count(&mut self, f: &MessageFile) -> i32 {
        let r = f.geometry.record_words;
        let random = &mut self.random;
        match random.below(12) {
            0 => random.between(0, 4) as i32,
            1 => -(random.between(0, 9) as i32),
            2 => random.pick(&[130, -260, 0, -1, 1, 2, -3, -4, -5]),
            3 => random.between(0, r) as i32,
            4..=6 => -(random.between(0, 2 * r + 4) as i32),
            7..=9 => (r + 2) as i32,
            _ => random.pick(&[130, -260]),
        }
    }

    fn write_of(&mut self, f: &MessageFile, file: u8, place: u8) -> Vec<u8> {
        let r = f.geometry.record_words;
        let length = match self.random.below(10) {
            0 => 0,
            1..=2 => 2 * r,
            _ => self.random.between(0, 2 * r),
        };
        let in_words = length % 2 == 0 && self.random.percent(50);
        let count = if in_words { (length / 2) as i32 } else { -(length as i32) };
        let data = self.some_bytes(length);
        write_frame(file, place, count, &data)
    }

    fn open_calls(&mut self, f: &MessageFile, file: u8, into: &mut Candidates) {
        let open = f.open_count();
        let many = if self.mood == Mood::Crowd { 40 } else { 12 };
        let weight = match (self.mood, open) {
            (_, 0) => 30,
            (_, 1) => 20,
            (Mood::Crowd, _) => 30,
            _ if self.crowded => 20,
            (Mood::Churn, 0..=5) => 20,
            (_, 2..=4) => 8,
            _ => 2,
        };
        let share = match f.share_in_force() {
            Some(1) => self.random.pick(&[0, 1]),
            Some(in_force) => in_force as u8,
            None => self.random.pick(&self.shares),
        };
        let mut access = self.random.pick(&[0, 0, 1, 2, 3]);
        if open > 0 && f.writers() == 0 && self.random.percent(50) {
            access = self.random.pick(&[1, 2, 3]);
        }
        if open > 0 && f.readers() == 0 && self.random.percent(60) {
            access = 0;
        }
        // A share that forbids what is asked is a bad call: seldom.
        let forbidden =
            if access == 0 { share < 3 && f.readers() > 0 } else { share < 2 && f.writers() > 0 };
        let no_room = access > 0 && f.used() + f.writers() + 2 > f.geometry.capacity();
        let weight = if forbidden || no_room { 1 } else { weight.min(many) };
        let multi = self.random.pick(&[0, 1, 2]);
        into.push((weight, Call::Event(open_frame(file, access, share, multi))));
    }

    fn time_calls(&mut self, desk: &Desk, into: &mut Candidates) {
        let timers = desk.entries.in_order();
        let weight = match (self.mood, timers.is_empty()) {
            (_, true) => 1,
            (Mood::Clock, false) => 12,
            (_, false) => 3,
        };
        let seconds = match self.random.below(8) {
            0 => 0,
            1 => self.random.pick(&[65535, 1000, 7]),
            2..=4 if !timers.is_empty() => {
                let timer = timers[self.random.below(timers.len().min(3))];
                let left = (timer.due - desk.entries.clock) as usize;
                self.random.pick(&[left, left, left.saturating_sub(1), left + 1]).min(65535)
            }
            _ => self.random.between(1, 4),
        };
        into.push((weight, Call::Event(time_frame(seconds))));
    }

    fn other_calls(&mut self, desk: &Desk, f: &MessageFile, file: u8, into: &mut Candidates) {
        into.push((4, Call::Event(counts_frame(file))));
        let needed = desk.save(file.into(), usize::MAX).1.len();
        let room = match self.random.below(6) {
            0 => needed - 1,
            1 => self.random.below(needed),
            2 => needed + self.random.below(50),
            _ => needed,
        };
        into.push((3, Call::Save(file.into(), room)));
        let loadable = if f.number == 0 {
            self.random.below(8) as u8
        } else {
            self.random.pick(&[5, 6, 7, file])
        };
        if desk.built(loadable.into()).is_err() && self.random.percent(15) {
            let good = self.random.percent(50);
            let text = if good { self.good_sheet() } else { self.damaged_sheet() };
            into.push((6, Call::Load(loadable.into(), text)));
            let joins = self.random.percent(30);
            if joins && !self.files.contains(&loadable) && self.files.len() < 3 {
                self.files.push(loadable);
            }
        }
    }
}
