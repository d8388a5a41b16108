//! The saved sheet: save, load, and what a sheet is.

use super::desk::Desk;
use super::file::MessageFile;
use super::geometry::Geometry;
use super::line::{digits, frame_of_line};
use super::record::{Record, TYPE_CLOSE, TYPE_DATA};
use super::status::{DONE, NOT_A_SHEET, OUTPUT_TOO_SHORT};
use super::word::{number, word};

impl Desk {
    /// The sheet, if the output has room for it.
    pub fn save(&self, file: usize, room: usize) -> (u8, Vec<u8>) {
        let f = match self.built(file) {
            Ok(f) => f,
            Err(refusal) => return (refusal, Vec::new()),
        };
        let text = sheet_of(f);
        // 44: output too short; exactly enough is enough (docs/DECISIONS.md, R35).
        if text.len() > room {
            return (OUTPUT_TOO_SHORT, Vec::new());
        }
        (DONE, text)
    }

    /// Packs a sheet's records from the share's first block, with no accessor.
    pub fn load(&mut self, file: usize, text: &[u8]) -> u8 {
        let before = if cfg!(debug_assertions) { Some(self.clone()) } else { None };
        let status = self.try_load(file, text).err().unwrap_or(DONE);
        if let Some(before) = before {
            assert!(status == DONE || *self == before, "a refused load changed the desk");
            let zero = !before.otherwise_zero() || self.otherwise_zero();
            assert!(zero, "a load left bytes where all else is zero");
            self.check();
        }
        status
    }

    fn try_load(&mut self, file: usize, text: &[u8]) -> Result<(), u8> {
        let index = self.not_yet_built(file)?;
        let (geometry, records) = read_sheet(text).ok_or(NOT_A_SHEET)?;
        let mut f = MessageFile::new(index, geometry);
        for record in records {
            f.put(record);
        }
        let full = f.used() == f.geometry.capacity();
        self.notes.add_if(full, "a full sheet loaded");
        self.notes.add_if(f.is_empty(), "an empty sheet loaded");
        self.files[index] = Some(f);
        Ok(())
    }
}

/// First frame: 01, R(2), B, D(2), records held(2); then one frame a record, oldest first.
fn sheet_of(f: &MessageFile) -> Vec<u8> {
    let mut frames = vec![sheet_head(&f.geometry, f.records().count())];
    frames.extend(f.records().map(Record::with_header));
    sheet_text(&frames)
}

/// A sheet's first frame.
pub fn sheet_head(geometry: &Geometry, held: usize) -> Vec<u8> {
    let r = word(geometry.record_words as u16);
    let d = word(geometry.data_blocks as u16);
    [vec![1], r, vec![geometry.blocking as u8], d, word(held as u16)].concat()
}

/// Frames as lines, each ended by LF.
pub fn sheet_text(frames: &[Vec<u8>]) -> Vec<u8> {
    frames.iter().flat_map(|frame| [digits(frame), vec![b'\n']].concat()).collect()
}

/// A sheet's geometry and records, or None if the text is not a sheet.
pub fn read_sheet(text: &[u8]) -> Option<(Geometry, Vec<Record>)> {
    // Each line is ended by LF; nothing stands behind the last.
    let lines = text.strip_suffix(b"\n")?;
    let mut frames = lines.split(|b| *b == b'\n').map(frame_of_line);
    let (geometry, held) = head_of_frame(&frames.next()??)?;
    let mut records = Vec::new();
    for frame in frames {
        records.push(record_of_frame(&frame?, &geometry)?);
    }
    // As many frames as it says.
    if records.len() == held {
        Some((geometry, records))
    } else {
        None
    }
}

/// R and B in range, C >= 3, D x block size <= 2,048, records <= C.
fn head_of_frame(frame: &[u8]) -> Option<(Geometry, usize)> {
    let (geometry, held) = match *frame {
        [1, r1, r0, b, d1, d0, h1, h0] => {
            let (r, d) = (number(r1, r0), number(d1, d0));
            (Geometry { record_words: r, blocking: b.into(), data_blocks: d }, number(h1, h0))
        }
        _ => return None,
    };
    let in_range =
        (1..=128).contains(&geometry.record_words) && (1..=16).contains(&geometry.blocking);
    let capacity = geometry.capacity();
    if in_range && capacity >= 3 && geometry.fits_share() && held <= capacity {
        Some((geometry, held))
    } else {
        None
    }
}

/// Types 0 to 2, IDs >= 1, data of at most 2R bytes, none in open and close records.
fn record_of_frame(frame: &[u8], geometry: &Geometry) -> Option<Record> {
    let (kind, id, data) = match frame {
        [t1, t0, i1, i0, data @ ..] => (number(*t1, *t0) as u16, number(*i1, *i0) as u16, data),
        _ => return None,
    };
    let longest = if kind == TYPE_DATA { 2 * geometry.record_words } else { 0 };
    if kind > TYPE_CLOSE || id == 0 || data.len() > longest {
        return None;
    }
    Some(Record { kind, id, data: data.to_vec() })
}
