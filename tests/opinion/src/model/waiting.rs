//! Waiting: who may wait, and how a request joins and leaves its queue.

use super::entries::Entries;
use super::file::MessageFile;
use super::request::{Progress, Request, Want};

impl MessageFile {
    /// The other side has an accessor, or extended wait is on, or it was the first.
    pub(super) fn may_wait(&mut self, place: usize, first: bool) -> bool {
        let accessor = self.accessor(place);
        let extended = accessor.extended_wait;
        let writer = accessor.is_writer();
        let other_side = if writer { self.readers() > 0 } else { self.writers() > 0 };
        self.notes.add_if(!other_side && extended, "waits by 45 alone or with grace");
        let grace = !other_side && !extended && first;
        self.notes.add_if(grace, "waits by first-operation grace alone");
        other_side || extended || first
    }

    /// A request takes its own entry before its timer's and joins its queue; a write's data lie in
    /// the buffer meanwhile.
    pub(super) fn wait(&mut self, place: usize, want: Want, data: &[u8], entries: &mut Entries) {
        let entry = entries.take();
        let seconds = self.accessor(place).timeout;
        let file = self.number;
        let timer = if seconds > 0 { Some(entries.arm(seconds, file, place)) } else { None };
        let queue = match want {
            Want::Read { .. } => &mut self.read_queue,
            Want::Write { .. } => &mut self.write_queue,
        };
        queue.push_back(place);
        let length = queue.len();
        let progress = Progress::Waiting { timer };
        self.accessor_mut(place).request = Some(Request { entry, want, progress });
        self.refill(place, data);
        self.notes.add_if(length == 2, "queue reaches two");
        self.notes.add_if(length >= 3, "queue reaches three or more");
        let other_file = entries.timers.iter().any(|t| t.file != file);
        self.notes.add_if(timer.is_some() && other_file, "timers running on two files");
    }

    /// A waiting request leaves its queue; the timer's entry is freed first.
    fn leave_queue(&mut self, place: usize, entries: &mut Entries) {
        self.read_queue.retain(|p| *p != place);
        self.write_queue.retain(|p| *p != place);
        let request = &self.accessor(place).request;
        if let Some(Request { progress: Progress::Waiting { timer }, .. }) = request {
            entries.disarm(*timer);
        }
    }

    /// A waiting request goes to its accessor's reply port with its outcome; a read's record lies in
    /// the buffer then.
    pub(super) fn complete(
        &mut self,
        place: usize,
        status: u8,
        log: u16,
        shown: &[u8],
        entries: &mut Entries,
    ) {
        self.leave_queue(place, entries);
        if let Some(request) = &mut self.accessor_mut(place).request {
            request.progress = Progress::Completed { status, log, size: shown.len() };
        }
        self.refill(place, shown);
    }

    /// A waiting request is removed and nothing is left to collect.
    pub(super) fn cancel(&mut self, place: usize, entries: &mut Entries) {
        self.leave_queue(place, entries);
        if let Some(request) = self.accessor_mut(place).request.take() {
            entries.release(request.entry);
        }
        self.refill(place, &[]);
    }
}
