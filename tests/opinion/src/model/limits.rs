//! What the desk holds: how many, and how long.

pub const FILES: usize = 8;
pub const PLACES: usize = 8;
pub const SHARE_BYTES: usize = 4096;
pub const BUFFER_BYTES: usize = 260;
pub const ANSWER_BYTES: usize = 264;
pub const ENTRIES: u16 = 128;
/// A line carries at most 261 bytes.
pub const LINE_BYTES: usize = 261;
/// No sheet is longer.
pub const SHEET_BYTES: usize = 8192;
