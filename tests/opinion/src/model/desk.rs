//! The desk: eight files and the entries they share.

use super::entries::Entries;
use super::file::MessageFile;
use super::limits::FILES;
use super::notes::Notes;
use super::status::NO_FILE;
use std::collections::BTreeMap;

#[derive(Clone, PartialEq, Debug)]
pub struct Desk {
    pub files: Vec<Option<MessageFile>>,
    pub entries: Entries,
    pub notes: Notes,
}

impl Desk {
    /// No file built, blocks and buffers zero, the free list in order of entry number.
    pub fn fresh() -> Desk {
        Desk { files: vec![None; FILES], entries: Entries::fresh(), notes: Notes::default() }
    }

    /// 31: file above 7 or not built.
    pub(super) fn file_and_entries(
        &mut self,
        file: u8,
    ) -> Result<(&mut MessageFile, &mut Entries), u8> {
        match self.files.get_mut(usize::from(file)) {
            Some(Some(built)) => Ok((built, &mut self.entries)),
            _ => Err(NO_FILE),
        }
    }

    /// 31: file above 7 or not built, for calls that change nothing.
    pub fn built(&self, file: usize) -> Result<&MessageFile, u8> {
        match self.files.get(file) {
            Some(Some(built)) => Ok(built),
            _ => Err(NO_FILE),
        }
    }

    /// 31 for build and load: file above 7 or already built.
    pub(super) fn not_yet_built(&self, file: usize) -> Result<usize, u8> {
        match self.files.get(file) {
            Some(None) => Ok(file),
            _ => Err(NO_FILE),
        }
    }

    /// All notes of the desk and its files together.
    pub fn all_notes(&self) -> BTreeMap<&'static str, u64> {
        let mut sum = self.notes.0.clone();
        for f in self.files.iter().flatten() {
            for (what, times) in &f.notes.0 {
                *sum.entry(what).or_insert(0) += times;
            }
        }
        sum
    }
}
