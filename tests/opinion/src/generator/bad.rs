//! Calls that are refused, mostly: numbers out of range, wrong sides, damaged frames.

use super::frames::{
    build_frame, close_frame, collect_frame, control_frame, counts_frame, open_frame, read_frame,
    write_frame,
};
use super::{Call, Generator};
use crate::model::desk::Desk;

impl Generator {
    pub(super) fn bad_call(&mut self, desk: &Desk) -> Call {
        let file = if self.random.percent(88) {
            self.random.pick(&self.files)
        } else {
            self.random.below(12) as u8
        };
        let place = self.some_place(desk, file);
        match self.random.below(23) {
            0 => {
                let file = self.random.pick(&[file, file, file, 8, 255, 3]);
                Call::Look(file.into(), self.random.pick(&[place, place, 7, 8, 200]).into())
            }
            1 => {
                let file = self.random.pick(&[file, 8, 9, 255]);
                Call::Save(file.into(), self.random.pick(&[0, 5, 17, 5000]))
            }
            2 => {
                let good = self.random.percent(50);
                let text = if good { self.good_sheet() } else { self.damaged_sheet() };
                Call::Load(file.into(), text)
            }
            3 => {
                let text = self.damaged_sheet();
                Call::Load(unbuilt_or(desk, file).into(), text)
            }
            chosen => Call::Event(self.bad_frame(chosen, desk, file, place)),
        }
    }

    fn bad_frame(&mut self, chosen: usize, desk: &Desk, file: u8, place: u8) -> Vec<u8> {
        let random = &mut self.random;
        match chosen {
            4 => {
                let length = random.below(12);
                (0..length).map(|_| random.byte() % 12).collect()
            }
            5..=8 => {
                let good = self.ordinary_frame(desk, file);
                self.damaged_frame(good)
            }
            9 => {
                let count = random.pick(&[131, -261, -32768, 32767, 200, -300, 132]);
                read_frame(file, place, count)
            }
            10 => self.write_out_of_range(desk, file, place),
            11 => {
                let code = random.pick(&[0, 1, 5, 7, 42, 44, 48, 48, 49, 255]);
                control_frame(file, place, code, random.pick(&[0, 1, 2]))
            }
            12 => {
                let code = random.pick(&[45, 46, 47]);
                control_frame(file, place, code, random.pick(&[2, 256, 65535, 3]))
            }
            13 => {
                let code = random.pick(&[46, 47, 43, 43]);
                control_frame(file, place, code, random.pick(&[0, 1, 2]))
            }
            14 => {
                let access = random.pick(&[0, 1, 2, 3, 4, 255]);
                let share = random.pick(&[0, 1, 2, 3, 4]);
                open_frame(file, access, share, random.pick(&[0, 1, 2, 3, 4]))
            }
            15 => {
                let access = random.pick(&[0, 1, 2, 3]);
                let share = random.pick(&[0, 1, 2, 3]);
                open_frame(file, access, share, random.pick(&[0, 3]))
            }
            16 => self.bad_build(desk, file),
            17 => collect_frame(file, random.pick(&[place, place, 8, 255])),
            18 => close_frame(file, random.pick(&[place, 8, 255])),
            19 => counts_frame(random.pick(&[8, 255, 0, 1, 2, 3, 4, 5, 6, 7])),
            // The wrong side: a reader writes, a writer reads.
            20 => read_frame(file, place, 2),
            21 => write_frame(file, place, 0, &[]),
            _ => self.long_frame(file, place),
        }
    }

    /// Mostly a place that is open, some that are not, a few that do not exist.
    fn some_place(&mut self, desk: &Desk, file: u8) -> u8 {
        let mut places: Vec<u8> = (0..8).collect();
        if let Ok(f) = desk.built(file.into()) {
            let open: Vec<u8> = (0..8).filter(|p| f.accessors[usize::from(*p)].is_some()).collect();
            if !open.is_empty() && self.random.percent(80) {
                places = open;
            }
        }
        if self.random.percent(4) {
            places = vec![8, 9, 255];
        }
        self.random.pick(&places)
    }

    fn ordinary_frame(&mut self, desk: &Desk, file: u8) -> Vec<u8> {
        if let Ok(f) = desk.built(file.into()) {
            for _ in 0..8 {
                if let Call::Event(frame) = self.call_on(desk, f, file) {
                    return frame;
                }
            }
        }
        counts_frame(file)
    }

    fn damaged_frame(&mut self, mut frame: Vec<u8>) -> Vec<u8> {
        match self.random.below(6) {
            0 => {
                frame.pop();
            }
            1 => frame.push(self.random.byte()),
            2 => frame.truncate(self.random.below(frame.len() + 1)),
            3 => {
                let at = self.random.below(frame.len() + 1);
                frame.insert(at, self.random.byte());
            }
            4 if !frame.is_empty() => {
                let at = self.random.below(frame.len().min(6));
                frame[at] = self.random.byte();
            }
            _ if !frame.is_empty() => {
                let at = self.random.below(frame.len().min(6));
                frame[at] ^= 1 << self.random.below(8);
            }
            _ => {}
        }
        frame
    }

    /// A count above 2R, or data not as long as the count.
    fn write_out_of_range(&mut self, desk: &Desk, file: u8, place: u8) -> Vec<u8> {
        let words = desk.built(file.into()).map_or(4, |f| f.geometry.record_words);
        let (count, length) = self.random.pick(&[
            (words as i32 + 1, 2 * words + 2),
            (-(2 * words as i32) - 1, 2 * words + 1),
            (129, 258),
            (130, 260),
            (-257, 257),
            (-32768, 0),
            (2, 3),
            (-3, 4),
            (1, 0),
            (0, 1),
        ]);
        let data = self.some_bytes(length);
        write_frame(file, place, count, &data)
    }

    fn bad_build(&mut self, desk: &Desk, file: u8) -> Vec<u8> {
        let unbuilt = unbuilt_or(desk, file);
        let random = &mut self.random;
        let file = random.pick(&[file, 8, unbuilt, unbuilt, unbuilt, unbuilt]);
        let (r, b, n, x) = match random.below(10) {
            0 => (0, 1, 1, 1),
            1 => (129, 1, 1, 1),
            2 => (1, 0, 1, 1),
            3 => (1, 17, 1, 1),
            4 => (1, 1, random.pick(&[0, 2001, 65535]), 1),
            5 => (1, 1, 1, random.pick(&[0, 33, 255])),
            6 => (128, 1, 14, 1),
            7 => (1, 1, random.pick(&[339, 340, 400, 2000]), 1),
            8 => {
                let (r, b) = (random.between(1, 128), random.between(1, 16));
                (r, b, random.between(100, 2000), random.between(1, 32))
            }
            _ => (128, 16, 2000, 32),
        };
        build_frame(file, r, b, n, x)
    }

    /// Longer than any line: only a write has such a shape.
    fn long_frame(&mut self, file: u8, place: u8) -> Vec<u8> {
        let length = self.random.pick(&[256, 257, 259, 260, 261, 300, 700]);
        let data = self.some_bytes(length);
        let count = self.random.pick(&[-(length as i32), length as i32 / 2, 128]);
        write_frame(file, place, count, &data)
    }
}

/// The first file that is not built, or the one given.
fn unbuilt_or(desk: &Desk, file: u8) -> u8 {
    (0..8).find(|n| desk.built(usize::from(*n)).is_err()).unwrap_or(file)
}
