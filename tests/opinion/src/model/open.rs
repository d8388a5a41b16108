//! Build and open.

use super::accessor::Accessor;
use super::desk::Desk;
use super::file::MessageFile;
use super::geometry::Geometry;
use super::record::{Record, TYPE_OPEN};
use super::status::{Answer, DONE, EIGHT_OPEN, FORBIDDEN, NO_ROOM, OUT_OF_RANGE, TOO_LARGE};
use super::word::word;

impl Desk {
    pub(super) fn build(&mut self, file: u8, r: usize, b: usize, n: usize, x: usize) -> Answer {
        let index = self.not_yet_built(file.into())?;
        let in_range = (1..=128).contains(&r)
            && (1..=16).contains(&b)
            && (1..=2000).contains(&n)
            && (1..=32).contains(&x);
        if !in_range {
            return Err(OUT_OF_RANGE);
        }
        let geometry = Geometry::from_build(r, b, n, x);
        // 38: D x block size above 2,048 words.
        if !geometry.fits_share() {
            return Err(TOO_LARGE);
        }
        let capacity = geometry.capacity() as u16;
        self.notes.add_if(geometry.data_blocks == 1, "file of one data block built");
        self.files[index] = Some(MessageFile::new(index, geometry));
        Ok((DONE, word(capacity)))
    }

    pub(super) fn open(&mut self, file: u8, access: u8, share: u8, multi: u8) -> Answer {
        let (f, entries) = self.file_and_entries(file)?;
        if access > 3 || share > 3 || multi > 3 {
            return Err(OUT_OF_RANGE);
        }
        let writes = access > 0;
        // Share 0 counts as 1.
        let share = if share == 0 { 1 } else { u16::from(share) };
        // 40: multiaccess 3, another share, or a second accessor the share forbids.
        if multi == 3 || f.accessors.iter().flatten().any(|a| a.share != share) {
            return Err(FORBIDDEN);
        }
        let forbidden =
            if writes { share == 1 && f.writers() > 0 } else { share != 3 && f.readers() > 0 };
        if forbidden {
            return Err(FORBIDDEN);
        }
        // Accessor: the smallest free place; 41: eight accessors open.
        let place = f.accessors.iter().position(|a| a.is_none()).ok_or(EIGHT_OPEN)?;
        // Access 1 purges if no accessor is open.
        let purges = access == 1 && f.open_count() == 0;
        // 42: a writer needs used + W + 2 <= C, with W before it and after any purge.
        let used = if purges { 0 } else { f.used() };
        if writes && used + f.writers() + 2 > f.geometry.capacity() {
            return Err(NO_ROOM);
        }
        if purges {
            f.purge();
        }
        let id = if writes { Some(f.smallest_free_id()) } else { None };
        f.accessors[place] = Some(Accessor::new(id, share));
        // A writer puts an open record.
        if let Some(id) = id {
            f.put(Record { kind: TYPE_OPEN, id, data: Vec::new() });
            f.notes.add_if(usize::from(id) < f.writers(), "writer's ID below one still held");
        }
        f.settle(entries);
        let mut body = vec![place as u8];
        body.extend(word(id.unwrap_or(0)));
        Ok((DONE, body))
    }
}
