//! The statuses and refusals by their numbers.

pub const DONE: u8 = 0;
pub const WAITING: u8 = 1;
pub const END_OF_FILE: u8 = 2;
pub const TIMED_OUT: u8 = 22;

/// The numbers of refusals begin here; this one, of memories, is none of the model's.
pub const LEAST_REFUSAL: u8 = 29;
pub const NOT_A_FRAME: u8 = 30;
pub const NO_FILE: u8 = 31;
pub const NOT_OPEN: u8 = 32;
pub const OUTSTANDING: u8 = 33;
pub const WRONG_SIDE: u8 = 34;
pub const OUT_OF_RANGE: u8 = 35;
pub const TOO_LARGE: u8 = 38;
pub const NOTHING_THERE: u8 = 39;
pub const FORBIDDEN: u8 = 40;
pub const EIGHT_OPEN: u8 = 41;
pub const NO_ROOM: u8 = 42;
pub const NOT_A_SHEET: u8 = 43;
pub const OUTPUT_TOO_SHORT: u8 = 44;

/// An accepted call's status and the bytes behind it, or a refusal's number.
pub type Answer = Result<(u8, Vec<u8>), u8>;
