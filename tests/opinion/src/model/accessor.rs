//! An open accessor: its side, its settings, its request.

use super::request::Request;

#[derive(Clone, PartialEq, Debug)]
pub struct Accessor {
    /// None for a reader.
    pub writer_id: Option<u16>,
    /// 1, 2 or 3 (0 counts as 1).
    pub share: u16,
    /// Control 4, 0 is off.
    pub timeout: u16,
    /// Control 45.
    pub extended_wait: bool,
    /// Control 46.
    pub reads_id: bool,
    /// Control 47.
    pub leave_next: bool,
    /// No read or write was accepted yet.
    pub first: bool,
    pub request: Option<Request>,
}

impl Accessor {
    /// Settings and the grace of the first operation start anew at each open
    /// (docs/DECISIONS.md, R14).
    pub(super) fn new(writer_id: Option<u16>, share: u16) -> Accessor {
        Accessor {
            writer_id,
            share,
            timeout: 0,
            extended_wait: false,
            reads_id: false,
            leave_next: false,
            first: true,
            request: None,
        }
    }

    pub fn is_writer(&self) -> bool {
        self.writer_id.is_some()
    }

    pub(super) fn has_waiting(&self) -> bool {
        self.request.as_ref().map_or(false, |r| r.waits())
    }

    pub(super) fn has_completed(&self) -> bool {
        self.request.as_ref().map_or(false, |r| !r.waits())
    }
}
