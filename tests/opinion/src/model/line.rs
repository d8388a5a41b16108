//! Lines of hexadecimal digits, and the frames they carry.

use super::limits::LINE_BYTES;

/// Upper-case digits, two a byte, at most 261 bytes; None for any other line.
pub fn frame_of_line(line: &[u8]) -> Option<Vec<u8>> {
    if line.len() % 2 == 1 || line.len() > 2 * LINE_BYTES {
        return None;
    }
    line.chunks(2).map(|pair| Some(digit_value(pair[0])? * 16 + digit_value(pair[1])?)).collect()
}

fn digit_value(digit: u8) -> Option<u8> {
    match digit {
        b'0'..=b'9' => Some(digit - b'0'),
        b'A'..=b'F' => Some(digit - b'A' + 10),
        _ => None,
    }
}

/// Upper-case hexadecimal digits.
pub fn digits(bytes: &[u8]) -> Vec<u8> {
    bytes.iter().flat_map(|b| format!("{b:02X}").into_bytes()).collect()
}
