//! The six controls.

use super::desk::Desk;
use super::entries::Entries;
use super::file::MessageFile;
use super::status::{Answer, DONE, END_OF_FILE};
use super::status::{NOTHING_THERE, OUTSTANDING, OUT_OF_RANGE, WRONG_SIDE};

impl Desk {
    pub(super) fn control(&mut self, file: u8, accessor: u8, code: u8, param: u16) -> Answer {
        let (f, entries) = self.file_and_entries(file)?;
        let place = f.open_place(accessor.into())?;
        if code == 43 {
            return abort(f, place, entries);
        }
        let accessor = f.accessor_mut(place);
        // 33: any control but 43 while a request is outstanding.
        if accessor.request.is_some() {
            return Err(OUTSTANDING);
        }
        // 34: 46 or 47 by a writer, whatever the parameter (docs/DECISIONS.md, R5).
        if (code == 46 || code == 47) && accessor.is_writer() {
            return Err(WRONG_SIDE);
        }
        match (code, param) {
            (4, seconds) => accessor.timeout = seconds,
            // 6 verifies: nothing to do here.
            (6, _) => {}
            (45, 0 | 1) => accessor.extended_wait = param == 1,
            (46, 0 | 1) => accessor.reads_id = param == 1,
            (47, 0 | 1) => accessor.leave_next = param == 1,
            // 35: any other code, 48 too, and any other parameter.
            _ => return Err(OUT_OF_RANGE),
        }
        Ok((DONE, Vec::new()))
    }
}

/// 43 removes a waiting request; on a completed one it answers 2 and leaves it.
fn abort(f: &mut MessageFile, place: usize, entries: &mut Entries) -> Answer {
    if f.accessor(place).request.is_none() {
        return Err(NOTHING_THERE);
    }
    if f.accessor(place).has_completed() {
        f.notes.add("43 on a completed request");
        return Ok((END_OF_FILE, Vec::new()));
    }
    let timed = f.accessor(place).timeout > 0;
    f.notes.add("43 on a waiting request");
    f.notes.add_if(timed, "43 on a waiting request with a timer");
    f.cancel(place, entries);
    Ok((DONE, Vec::new()))
}
