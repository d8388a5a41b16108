//! The numbers of include/tendrilhook.h are the model's.

use super::UNSOUND;
use crate::model::limits::{ANSWER_BYTES, BUFFER_BYTES, SHEET_BYTES};
use crate::model::segment::{BLOCKS_BYTES, BUFFERS_BYTES, SEGMENT_BYTES};
use crate::model::status::*;

const HEADER: &str = include_str!("../../../../include/tendrilhook.h");

/// How many numbers agreed.
pub fn compare_header() -> Result<u64, String> {
    let lengths = [
        ("SEGMENT_BYTES", SEGMENT_BYTES),
        ("BLOCKS_BYTES", BLOCKS_BYTES),
        ("BUFFERS_BYTES", BUFFERS_BYTES),
        ("ANSWER_BYTES", ANSWER_BYTES),
        ("RECORD_BYTES", BUFFER_BYTES),
        ("SHEET_BYTES", SHEET_BYTES),
    ];
    let statuses = [
        ("DONE", DONE),
        ("WAITING", WAITING),
        ("END_OF_FILE", END_OF_FILE),
        ("TIMED_OUT", TIMED_OUT),
        ("UNSOUND", UNSOUND),
        ("BAD_FRAME", NOT_A_FRAME),
        ("NO_FILE", NO_FILE),
        ("NOT_OPEN", NOT_OPEN),
        ("OUTSTANDING", OUTSTANDING),
        ("WRONG_SIDE", WRONG_SIDE),
        ("OUT_OF_RANGE", OUT_OF_RANGE),
        ("TOO_LARGE", TOO_LARGE),
        ("NOTHING_THERE", NOTHING_THERE),
        ("FORBIDDEN", FORBIDDEN),
        ("EIGHT_OPEN", EIGHT_OPEN),
        ("NO_ROOM", NO_ROOM),
        ("NOT_A_SHEET", NOT_A_SHEET),
        ("OUTPUT_TOO_SHORT", OUTPUT_TOO_SHORT),
    ];
    let numbers = statuses.map(|(name, status)| (name, usize::from(status)));
    let expected: Vec<(&str, usize)> = lengths.into_iter().chain(numbers).collect();
    let found: Vec<(&str, usize)> = HEADER.lines().filter_map(constant).collect();
    match expected == found {
        true => Ok(found.len() as u64),
        false => Err(format!("the header has {found:?}, the model {expected:?}")),
    }
}

/// A line `TENDRILHOOK_NAME = NUMBER`, whatever stands behind it.
fn constant(line: &str) -> Option<(&str, usize)> {
    let (name, rest) = line.trim().strip_prefix("TENDRILHOOK_")?.split_once(" = ")?;
    let end = rest.find(|c: char| !c.is_ascii_digit()).unwrap_or(rest.len());
    Some((name, rest[..end].parse().ok()?))
}
