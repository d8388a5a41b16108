//! Words are stored high byte first.

pub fn word(value: u16) -> Vec<u8> {
    value.to_be_bytes().to_vec()
}

pub fn number(high: u8, low: u8) -> usize {
    usize::from(high) * 256 + usize::from(low)
}

pub fn word_at(bytes: &[u8], at: usize) -> usize {
    number(bytes[at], bytes[at + 1])
}
