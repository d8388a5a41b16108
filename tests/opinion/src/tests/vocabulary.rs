//! What a test asks and is told, by name. The bytes of the frames are the generator's, those of the
//! answers stand here.

use crate::generator::frames::{
    build_frame, close_frame, collect_frame, control_frame, counts_frame, open_frame, read_frame,
    time_frame, write_frame,
};
use crate::model::line::digits;
use crate::model::word::word;

/// A line of the event program.
pub type Asked = Vec<u8>;

pub fn builds(file: u8, r: usize, b: usize, n: usize, x: usize) -> Asked {
    digits(&build_frame(file, r, b, n, x))
}

pub fn opens(file: u8, access: u8, share: u8, multi: u8) -> Asked {
    digits(&open_frame(file, access, share, multi))
}

pub fn reads(file: u8, place: u8, count: i32) -> Asked {
    digits(&read_frame(file, place, count))
}

pub fn writes(file: u8, place: u8, count: i32, data: &[u8]) -> Asked {
    digits(&write_frame(file, place, count, data))
}

pub fn controls(file: u8, place: u8, code: u8, param: u16) -> Asked {
    digits(&control_frame(file, place, code, param))
}

pub fn collects(file: u8, place: u8) -> Asked {
    digits(&collect_frame(file, place))
}

pub fn closes(file: u8, place: u8) -> Asked {
    digits(&close_frame(file, place))
}

pub fn passes(seconds: usize) -> Asked {
    digits(&time_frame(seconds))
}

pub fn counts(file: u8) -> Asked {
    digits(&counts_frame(file))
}

/// A line as it stands.
pub fn line(text: &str) -> Asked {
    text.into()
}

#[derive(Clone)]
pub enum Told {
    Built(u16),
    Opened(u8, u16),
    /// A read, at once or collected.
    Got(u16, &'static [u8]),
    /// A write, at once or collected.
    Wrote(u16),
    Counted(u16, u16, u16, u16),
    Done,
    Waiting,
    EndOfFile,
    TimedOut,
    Refused(u8),
    Malformed,
}

impl Told {
    /// The bytes of an answer to this operation.
    fn bytes(&self, operation: u8) -> Vec<u8> {
        match *self {
            Told::Built(c) => [vec![1, 0], word(c)].concat(),
            Told::Opened(place, id) => [vec![2, 0, place], word(id)].concat(),
            Told::Got(log, data) => [vec![operation, 0], word(log), data.to_vec()].concat(),
            Told::Wrote(log) => [vec![operation, 0], word(log)].concat(),
            Told::Counted(d, a, w, r) => [vec![9, 0], word(d), word(a), word(w), word(r)].concat(),
            Told::Done => vec![operation, 0],
            Told::Waiting => vec![operation, 1],
            Told::EndOfFile => vec![operation, 2],
            Told::TimedOut => vec![operation, 22],
            Told::Refused(status) => vec![operation, status],
            Told::Malformed => vec![0, 30],
        }
    }
}

/// A line and the line that answers it.
pub trait Exchange {
    fn asked(&self) -> Vec<u8>;
    fn told(&self) -> Vec<u8>;
}

impl Exchange for (Asked, Told) {
    fn asked(&self) -> Vec<u8> {
        self.0.clone()
    }

    fn told(&self) -> Vec<u8> {
        let operation = self.0.get(1).map_or(0, |digit| digit.wrapping_sub(b'0'));
        digits(&self.1.bytes(operation))
    }
}

impl Exchange for (&str, &str) {
    fn asked(&self) -> Vec<u8> {
        self.0.into()
    }

    fn told(&self) -> Vec<u8> {
        self.1.into()
    }
}
