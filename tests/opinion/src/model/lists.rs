//! The lists of a segment, read back: docs/SEGMENT.md, "Which memories are sound", 2 and 3.

use super::count::Count;
use super::desk::Desk;
use super::entries::Timer;
use super::limits::{ENTRIES, FILES, PLACES};
use super::loading::{ask, Unsound};
use super::request::{Progress, Request, Want};
use super::segment::{entry_word, ENTRY_WORDS, LISTS, NIL};
use super::status::LEAST_REFUSAL;

const LONGEST_READ: u16 = 260;

impl Desk {
    /// Each entry is on exactly one list, and says what its list asks.
    pub(super) fn load_lists(&mut self, words: &[u16]) -> Result<(), Unsound> {
        let mut met = vec![false; usize::from(ENTRIES)];
        for list in 0..LISTS {
            for entry in walk(words, list, &mut met)? {
                let at = entry_word(entry) + 1;
                let data = &words[at..at + ENTRY_WORDS - 1];
                match list {
                    0 => {
                        ask(data.iter().all(|w| *w == 0), "a free entry's words")?;
                        self.entries.free.push_back(entry);
                    }
                    1..=8 => self.load_read(list - 1, entry, data)?,
                    9..=16 => self.load_write(list - 9, entry, data)?,
                    17..=80 => self.load_completed(list - 17, entry, data)?,
                    _ => self.load_timer(entry, data)?,
                }
            }
        }
        ask(met.iter().all(|m| *m), "an entry on no list")
    }

    fn load_read(&mut self, file: usize, entry: u16, data: &[u16]) -> Result<(), Unsound> {
        let (unit, limit, keep) = (data[1], data[2], data[3]);
        ask(usize::from(data[0]) / PLACES == file, "a waiting read's place")?;
        ask(unit <= 1 && keep <= 1 && limit <= LONGEST_READ, "a waiting read")?;
        ask(data[4..].iter().all(|w| *w == 0), "a waiting read's other words")?;
        let count = Count { in_words: unit == 1, bytes: usize::from(limit) };
        let want = Want::Read { count, leave: keep == 1 };
        self.put_request(data[0], entry, want, Progress::Waiting { timer: None })
    }

    fn load_write(&mut self, file: usize, entry: u16, data: &[u16]) -> Result<(), Unsound> {
        let (unit, size) = (data[1], usize::from(data[6]));
        ask(usize::from(data[0]) / PLACES == file, "a waiting write's place")?;
        let most = self.files[file].as_ref().map_or(0, |f| 2 * f.geometry.record_words);
        ask(unit <= 1 && size <= most, "a waiting write")?;
        let other = data[2..6].iter().chain(&data[7..]);
        ask(other.into_iter().all(|w| *w == 0), "a waiting write's other words")?;
        let want = Want::Write { count: Count { in_words: unit == 1, bytes: size } };
        self.put_request(data[0], entry, want, Progress::Waiting { timer: None })
    }

    fn load_completed(&mut self, place: usize, entry: u16, data: &[u16]) -> Result<(), Unsound> {
        let (status, log, size) = (data[4], data[5], data[6]);
        ask(usize::from(data[0]) == place, "a completed request's place")?;
        let other = data[1..4].iter().chain(&data[7..]);
        ask(other.into_iter().all(|w| *w == 0), "a completed request's other words")?;
        let file = self.files[place / PLACES].as_ref();
        let accessor = file.and_then(|f| f.accessors[place % PLACES].as_ref());
        let writes = accessor.map_or(false, |a| a.is_writer());
        ask(size <= if writes { 0 } else { LONGEST_READ }, "a completed request's size")?;
        // What was wanted is forgotten once a request completes.
        let count = Count { in_words: false, bytes: 0 };
        let want = match writes {
            true => Want::Write { count },
            false => Want::Read { count, leave: false },
        };
        ask(status < u16::from(LEAST_REFUSAL), "a completed request's status")?;
        let progress = Progress::Completed { status: status as u8, log, size: size.into() };
        self.put_request(data[0], entry, want, progress)
    }

    /// A place has at most one request, of its own side; one that waits stands in its queue.
    fn put_request(
        &mut self,
        place: u16,
        entry: u16,
        want: Want,
        progress: Progress,
    ) -> Result<(), Unsound> {
        let (file, index) = (usize::from(place) / PLACES, usize::from(place) % PLACES);
        let built = self.files[file].as_mut().ok_or("a request of a file not built")?;
        let accessor = built.accessors[index].as_mut().ok_or("a request of a place not open")?;
        ask(accessor.request.is_none(), "two requests of a place")?;
        let writes = matches!(want, Want::Write { .. });
        ask(accessor.is_writer() == writes, "a request of the other side")?;
        let request = Request { entry, want, progress };
        if request.waits() {
            let queue = if writes { &mut built.write_queue } else { &mut built.read_queue };
            queue.push_back(index);
        }
        accessor.request = Some(request);
        Ok(())
    }

    /// A timer's place waits, and has no other timer; it has a second left, and the smallest stands first.
    fn load_timer(&mut self, entry: u16, data: &[u16]) -> Result<(), Unsound> {
        let (place, seconds) = (usize::from(data[0]), u64::from(data[7]));
        ask(place < FILES * PLACES, "a timer's place")?;
        let other = data[1..7].iter().chain(&data[8..]);
        ask(other.into_iter().all(|w| *w == 0), "a timer's other words")?;
        let last = self.entries.timers.last().map_or(0, |t| t.due);
        ask(seconds >= 1, "a timer with nothing left")?;
        ask(last <= seconds, "the order of timers")?;
        let (file, index) = (place / PLACES, place % PLACES);
        let accessor = self.files[file].as_mut().and_then(|f| f.accessors[index].as_mut());
        let request = accessor.and_then(|a| a.request.as_mut());
        match request.map(|r| &mut r.progress) {
            Some(Progress::Waiting { timer }) if timer.is_none() => *timer = Some(entry),
            _ => return Err("a timer of a place that does not wait, or has one"),
        }
        self.entries.timers.push(Timer { entry, due: seconds, file, place: index });
        Ok(())
    }
}

/// A list's entries: it ends at nil, and meets no entry that was met before.
fn walk(words: &[u16], list: usize, met: &mut [bool]) -> Result<Vec<u16>, Unsound> {
    let mut entries = Vec::new();
    let mut next = words[list];
    while next != NIL {
        ask(next < ENTRIES, "a link that leads nowhere")?;
        ask(!met[usize::from(next)], "an entry on two lists, or twice on one")?;
        met[usize::from(next)] = true;
        entries.push(next);
        next = words[entry_word(next)];
    }
    Ok(entries)
}
