//! What the runs exercised, so that a reader sees that the comparison is not empty.

use super::part::Part;
use super::runs::{named, Alone, Named, Step};
use crate::generator::Call;
use crate::library::tally::Tally;
use crate::model::desk::Desk;
use crate::outcome::Outcome;

/// With waiting requests and timers at all places of the other seven files, so many entries are
/// left for the eight places of this one.
const FEW: usize = 16;

/// Of one kind of run.
pub struct Counts {
    others: Tally,
    runs: u64,
    /// Runs in which an own request or timer had another entry than where it was alone.
    elsewhere: u64,
    /// Runs in which few entries were free behind an own call.
    scarce: u64,
    least_free: usize,
    /// Passages of time at which own timers and others ran out.
    together: u64,
    run: RunCounts,
}

/// Of the run that goes on.
#[derive(Default)]
struct RunCounts {
    elsewhere: bool,
    scarce: bool,
    /// The timers behind the last call.
    own_timers: usize,
    other_timers: usize,
}

impl Default for Counts {
    fn default() -> Counts {
        Counts {
            others: Tally::default(),
            runs: 0,
            elsewhere: 0,
            scarce: 0,
            least_free: usize::MAX,
            together: 0,
            run: RunCounts::default(),
        }
    }
}

impl Counts {
    pub fn other_call(&mut self, call: &Call, outcome: &Outcome, part: &Part) {
        self.others.operation(call, outcome);
        self.see_timers(part);
    }

    /// Behind an own call, where it was alone and here.
    pub fn own_call(&mut self, alone: &Part, part: &Part) {
        let (own, other) = (self.run.own_timers, self.run.other_timers);
        if part.timers() < own && part.beside.timers < other {
            self.together += 1;
        }
        self.see_timers(part);
        self.run.elsewhere |= part.beside.entries != alone.beside.entries;
        self.run.scarce |= part.beside.free <= FEW;
        self.least_free = self.least_free.min(part.beside.free);
    }

    fn see_timers(&mut self, part: &Part) {
        self.run.own_timers = part.timers();
        self.run.other_timers = part.beside.timers;
    }

    pub fn end_run(&mut self) {
        let run = std::mem::take(&mut self.run);
        self.runs += 1;
        self.elsewhere += u64::from(run.elsewhere);
        self.scarce += u64::from(run.scarce);
    }

    pub fn text(&self) -> String {
        let Counts { others, runs, elsewhere, scarce, least_free, together, .. } = self;
        format!(
            "{runs} runs; in {elsewhere} an own request had another entry than alone; \
             in {scarce} at most {FEW} entries were free behind an own call (least {least_free}); \
             {together} times own and other timers ran out together; others: {}",
            others.text()
        )
    }
}

/// Of the own calls, once a seed.
#[derive(Default)]
pub struct OwnCounts {
    tally: Tally,
    /// Timers that ran out.
    timeouts: usize,
    /// The most own requests and timers at once.
    most: usize,
}

impl OwnCounts {
    pub fn count(&mut self, steps: &[Step], alone: &Alone, desk: &Desk) {
        for (step, outcome) in steps.iter().zip(&alone.outcomes) {
            self.tally.operation(&step.call, outcome);
        }
        let parts = alone.parts.windows(2);
        for (step, pair) in steps.iter().zip(parts) {
            if named(&step.call) == Named::Time {
                self.timeouts += pair[0].timers().saturating_sub(pair[1].timers());
            }
            self.most = self.most.max(pair[1].beside.entries.len());
        }
        self.tally.notes(desk);
    }

    pub fn text(&self) -> String {
        let OwnCounts { tally, timeouts, most } = self;
        format!("{timeouts} own timeouts ran out; up to {most} own entries; own: {}", tally.text())
    }
}
