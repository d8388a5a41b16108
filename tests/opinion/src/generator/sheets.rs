//! Geometries, data and sheets; sheets that break a rule.

use super::Generator;
use crate::model::geometry::Geometry;
use crate::model::line::frame_of_line;
use crate::model::record::TYPE_DATA;
use crate::model::sheet::{read_sheet, sheet_head, sheet_text};
use crate::model::word::word;

impl Generator {
    /// R, B, N and X: mostly small; some of one data block, some larger.
    pub(super) fn geometry(&mut self) -> (usize, usize, usize, usize) {
        let random = &mut self.random;
        loop {
            let chosen = if self.crowded && random.percent(60) { 30 } else { random.below(20) };
            let mut from = |low, high| random.between(low, high);
            let (r, b, n, x) = match chosen {
                // Room for the open and close records of a crowd.
                30 => (from(1, 4), from(1, 4), from(4, 12), from(1, 3)),
                0..=10 => (from(1, 6), from(1, 4), from(1, 5), from(1, 3)),
                11..=13 => (from(1, 3), from(1, 2), 1, 1),
                14..=15 => (from(1, 6), from(3, 16), from(1, 3), from(1, 2)),
                16..=17 => (from(1, 20), from(1, 6), from(3, 20), from(1, 5)),
                18 => (128, from(1, 3), from(1, 6), from(1, 3)),
                _ => (from(1, 128), from(1, 16), from(1, 60), from(1, 32)),
            };
            if Geometry::from_build(r, b, n, x).fits_share() {
                return (r, b, n, x);
            }
        }
    }

    pub(super) fn some_bytes(&mut self, length: usize) -> Vec<u8> {
        let random = &mut self.random;
        match random.below(6) {
            0 => vec![0; length],
            1 => (0..length).map(|i| i as u8).collect(),
            _ => (0..length).map(|_| random.byte()).collect(),
        }
    }

    /// A sheet saved earlier, or one made up.
    pub fn good_sheet(&mut self) -> Vec<u8> {
        if !self.sheets.is_empty() && self.random.percent(55) {
            return self.random.pick(&self.sheets);
        }
        let (r, b, n, x) = self.geometry();
        let geometry = Geometry::from_build(r, b, n, x);
        let capacity = geometry.capacity();
        let held = match self.random.below(4) {
            0 => capacity,
            1 => 0,
            _ => self.random.between(0, capacity),
        };
        let mut frames = vec![sheet_head(&geometry, held)];
        for _ in 0..held {
            frames.push(self.sheet_record(r));
        }
        sheet_text(&frames)
    }

    fn sheet_record(&mut self, r: usize) -> Vec<u8> {
        let kind = self.random.pick(&[0u16, 0, 0, 1, 2]);
        let mut frame = word(kind);
        frame.extend(word(self.random.pick(&[1, 2, 3, 7, 256, 65535])));
        if kind == TYPE_DATA {
            let length = self.random.between(0, 2 * r);
            frame.extend(self.some_bytes(length));
        }
        frame
    }

    /// A sheet that breaks, mostly, one of the sheet's rules.
    pub fn damaged_sheet(&mut self) -> Vec<u8> {
        let good = self.good_sheet();
        let (mut geometry, held) = match read_sheet(&good) {
            Some((geometry, records)) => (geometry, records.len()),
            None => return good,
        };
        if self.random.percent(45) {
            return self.damaged_text(good);
        }
        let mut said = held;
        let lines = good.split(|b| *b == b'\n');
        let mut frames: Vec<Vec<u8>> = lines.filter_map(frame_of_line).skip(1).take(held).collect();
        let r = geometry.record_words;
        let random = &mut self.random;
        match random.below(12) {
            0 => said = held + 1,
            1 => said = held.saturating_sub(1),
            2 => geometry.record_words = random.pick(&[0, 129, 256]),
            3 => geometry.blocking = random.pick(&[0, 17, 255]),
            4 => geometry.data_blocks = random.pick(&[0, 1, 2, 2000, 65535]),
            5 => frames.push([word(3), word(1)].concat()),
            6 => frames.push([word(0), word(0), vec![1]].concat()),
            7 => frames.push([word(0), word(1), vec![7; 2 * r + 1]].concat()),
            8 => frames.push([word(random.pick(&[1, 2])), word(1), vec![9]].concat()),
            9 => frames.push([word(0), vec![1]].concat()),
            10 => {
                while frames.len() <= geometry.capacity() {
                    frames.push([word(1), word(1)].concat());
                }
            }
            _ => frames.insert(0, Vec::new()),
        }
        // The head mostly counts the frames, so that the frame itself is at fault.
        if frames.len() != held {
            said = frames.len();
        }
        let mut all = vec![sheet_head(&geometry, said)];
        all.extend(frames);
        sheet_text(&all)
    }

    fn damaged_text(&mut self, mut text: Vec<u8>) -> Vec<u8> {
        let random = &mut self.random;
        let at = random.below(text.len());
        match random.below(9) {
            0 => {
                text.pop();
            }
            1 => text.push(b'\n'),
            2 => text.extend(b"00"),
            3 => text[at] = random.pick(&[b'a', b'G', b' ', b'\r', b'\n', b'0', b'F', 0x80]),
            4 => text.insert(at, random.pick(b"0\n\rF")),
            5 => {
                text.remove(at);
            }
            6 => text.truncate(at),
            7 => text = text.to_ascii_lowercase(),
            _ => text.insert(0, b'\n'),
        }
        text
    }
}
