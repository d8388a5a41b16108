//! How many calls were compared, and what was answered.

use crate::coverage::kind;
use crate::generator::Call;
use crate::model::desk::Desk;
use crate::model::loading::Unsound;
use crate::model::segment::Memories;
use crate::model::unread::{Kind, Stretch, KINDS};
use crate::outcome::Outcome;
use std::collections::{BTreeMap, BTreeSet};

#[derive(Default)]
pub struct Tally {
    /// By kind of call: how often each status.
    calls: BTreeMap<&'static str, BTreeMap<u8, u64>>,
    sound: u64,
    unsound: BTreeMap<Unsound, u64>,
    /// By kind, the changed bytes that nothing is asked of, and those of them that calls wrote over.
    taken: BTreeMap<Kind, (u64, u64)>,
    notes: BTreeSet<&'static str>,
}

impl Tally {
    pub fn call(&mut self, call: &Call, outcome: &Outcome) {
        let kind = match call {
            Call::Event(_) => "event",
            Call::Look(..) => "look",
            Call::Save(..) => "save",
            Call::Load(..) => "load",
        };
        self.count(kind, outcome.status);
    }

    /// The same, but each kind of event for itself.
    pub fn operation(&mut self, call: &Call, outcome: &Outcome) {
        self.count(kind(call, outcome.status), outcome.status);
    }

    fn count(&mut self, kind: &'static str, status: u8) {
        *self.calls.entry(kind).or_default().entry(status).or_insert(0) += 1;
    }

    /// A memory that was changed, and why it is not sound, if it is not.
    pub fn memory(&mut self, unsound: Option<Unsound>) {
        match unsound {
            None => self.sound += 1,
            Some(why) => *self.unsound.entry(why).or_insert(0) += 1,
        }
    }

    /// Counts the bytes of these stretches that were changed before they were lent, and those of them
    /// that calls wrote over.
    pub fn taken(
        &mut self,
        stretches: &[Stretch],
        reached: &Memories,
        lent: &Memories,
        left: &Memories,
    ) {
        for Stretch { kind, part, range } in stretches {
            let (reached, lent, left) = (reached.part(*part), lent.part(*part), left.part(*part));
            for at in range.clone().filter(|at| reached[*at] != lent[*at]) {
                let sum = self.taken.entry(*kind).or_insert((0, 0));
                sum.0 += 1;
                sum.1 += u64::from(lent[at] != left[at]);
            }
        }
    }

    /// How many changed bytes of a kind were taken, and how many of them calls wrote over.
    pub fn taken_of(&self, kind: Kind) -> (u64, u64) {
        self.taken.get(&kind).copied().unwrap_or_default()
    }

    /// What of interest happened at a desk.
    pub fn notes(&mut self, desk: &Desk) {
        self.notes.extend(desk.all_notes().keys());
    }

    pub fn text(&self) -> String {
        let all: u64 = self.calls.values().flat_map(|statuses| statuses.values()).sum();
        let unsound: u64 = self.unsound.values().sum();
        let reasons = self.unsound.len();
        let memories = match self.sound + unsound {
            0 => String::new(),
            all => format!("{all} memories ({unsound} unsound for {reasons} reasons), "),
        };
        let notes = match self.notes.len() {
            0 => String::new(),
            n => format!(", {n} things of note"),
        };
        let kinds: Vec<String> =
            self.calls.iter().map(|(kind, statuses)| kind_text(kind, statuses)).collect();
        let taken = match self.taken.is_empty() {
            true => String::new(),
            false => format!("; changed bytes taken (written over): {}", self.taken_text()),
        };
        format!("{memories}{all} calls{notes}, by status: {}{taken}", kinds.join("; "))
    }

    /// `idle buffer 812 (77)` and so on, for each kind.
    fn taken_text(&self) -> String {
        let each = KINDS.map(|kind| {
            let (all, written) = self.taken_of(kind);
            format!("{} {all} ({written})", kind.name())
        });
        each.join(", ")
    }
}

/// `save 12 (0: 9, 44: 3)`.
fn kind_text(kind: &str, statuses: &BTreeMap<u8, u64>) -> String {
    let each: Vec<String> =
        statuses.iter().map(|(status, times)| format!("{status}: {times}")).collect();
    format!("{kind} {} ({})", statuses.values().sum::<u64>(), each.join(", "))
}
