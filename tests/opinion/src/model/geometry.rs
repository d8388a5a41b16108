//! Geometry: what build's four numbers make of a file.

#[derive(Clone, PartialEq, Debug)]
pub struct Geometry {
    /// R, in words.
    pub record_words: usize,
    /// B.
    pub blocking: usize,
    /// D.
    pub data_blocks: usize,
}

impl Geometry {
    /// N+2, whole blocks, a label block, a multiple of X; D is that less one.
    pub fn from_build(r: usize, b: usize, n: usize, x: usize) -> Geometry {
        let mut blocks = (n + 2) / b;
        if (n + 2) % b != 0 {
            blocks += 1;
        }
        blocks += 1;
        while blocks % x != 0 {
            blocks += 1;
        }
        Geometry { record_words: r, blocking: b, data_blocks: blocks - 1 }
    }

    /// C = B x D.
    pub fn capacity(&self) -> usize {
        self.blocking * self.data_blocks
    }

    /// (R+3) x B + 2 words.
    pub fn block_words(&self) -> usize {
        (self.record_words + 3) * self.blocking + 2
    }

    /// D x block size is at most 2,048 words: the label block does not count
    /// (docs/DECISIONS.md, R10).
    pub fn fits_share(&self) -> bool {
        self.data_blocks * self.block_words() <= 2048
    }
}
