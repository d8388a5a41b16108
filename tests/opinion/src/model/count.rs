//! The signed counts of read and write, and their logs.

/// A count as asked: its unit and how many bytes it is.
#[derive(Clone, Copy, PartialEq, Debug)]
pub struct Count {
    pub in_words: bool,
    pub bytes: usize,
}

impl Count {
    /// n >= 0 is n words, below 0 it is -n bytes (negated in 32 bits).
    pub fn from_word(high: u8, low: u8) -> Count {
        let raw = i32::from(i16::from_be_bytes([high, low]));
        if raw >= 0 {
            Count { in_words: true, bytes: 2 * raw as usize }
        } else {
            Count { in_words: false, bytes: (-raw) as usize }
        }
    }

    /// The log is in the unit asked, words rounded up.
    pub(super) fn log(&self, delivered: usize) -> u16 {
        if self.in_words {
            ((delivered + 1) / 2) as u16
        } else {
            delivered as u16
        }
    }
}
