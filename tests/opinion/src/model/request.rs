//! Requests: what is wanted, and how far it came.

use super::count::Count;

#[derive(Clone, PartialEq, Debug)]
pub enum Want {
    /// `leave`: control 47 was on when the read was accepted.
    Read { count: Count, leave: bool },
    /// Its data lie in the place's buffer, as many bytes as the count says.
    Write { count: Count },
}

#[derive(Clone, PartialEq, Debug)]
pub enum Progress {
    /// `timer`: the entry of its timer, if it has one.
    Waiting { timer: Option<u16> },
    /// `size` is the length of the record that a read brought into the place's buffer.
    Completed { status: u8, log: u16, size: usize },
}

/// An outstanding request; it holds one entry until collected.
#[derive(Clone, PartialEq, Debug)]
pub struct Request {
    pub entry: u16,
    pub want: Want,
    pub progress: Progress,
}

impl Request {
    pub fn waits(&self) -> bool {
        matches!(self.progress, Progress::Waiting { .. })
    }

    /// How many bytes at the start of the place's buffer are a waiting write's data or a completed
    /// read's record.
    pub fn bytes_in_buffer(&self) -> usize {
        match (&self.progress, &self.want) {
            (Progress::Completed { size, .. }, _) => *size,
            (Progress::Waiting { .. }, Want::Write { count }) => count.bytes,
            (Progress::Waiting { .. }, Want::Read { .. }) => 0,
        }
    }
}
