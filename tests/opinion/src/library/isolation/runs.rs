//! Two runs from a fresh desk that agree on one file: its own calls and the passages of time alone,
//! and the same among calls that neither name the file nor let time pass.

use super::counts::Counts;
use super::part::Part;
use crate::generator::frames::is_frame;
use crate::generator::Call;
use crate::library::case::{line, shrink};
use crate::library::host::Host;
use crate::library::program::Library;
use crate::library::twin::{outcome_text, Difference};
use crate::model::desk::Desk;
use crate::model::limits::{ANSWER_BYTES, BUFFER_BYTES};
use crate::model::segment::Memories;
use crate::model::status::DONE;
use crate::outcome::Outcome;

/// The run in which nothing else is called; others have other numbers.
const ALONE: usize = 0;

/// So many runs a seed: at an own call, other bytes lie in the answer memory in each of them.
const RUNS: usize = 4;

/// What a call is about.
#[derive(PartialEq, Debug)]
pub enum Named {
    File(usize),
    Time,
    /// The frame has none of the nine shapes.
    Nothing,
}

pub fn named(call: &Call) -> Named {
    let frame = match call {
        Call::Event(frame) => frame,
        Call::Look(file, _) | Call::Save(file, _) | Call::Load(file, _) => {
            return Named::File(*file)
        }
    };
    match frame.first() {
        _ if !is_frame(frame) => Named::Nothing,
        Some(8) => Named::Time,
        _ => Named::File(frame[1].into()),
    }
}

/// A call of a run.
#[derive(Clone)]
pub struct Step {
    pub call: Call,
    /// Made in both runs.
    pub own: bool,
    /// The length of the answer or record memory, if it is not the right one.
    pub room: Option<usize>,
}

impl Step {
    fn text(&self) -> String {
        let room = self.room.map_or(String::new(), |room| match self.call {
            Call::Event(_) => format!("  (answer memory: {room} bytes)"),
            _ => format!("  (record memory: {room} bytes)"),
        });
        format!("{}{room}{}", line(&self.call), if self.own { "  own" } else { "" })
    }
}

/// A run that goes on, on the library.
struct Course<'a> {
    host: Host<'a>,
    file: usize,
    number: usize,
    /// So many own calls were made.
    own: usize,
}

impl<'a> Course<'a> {
    /// The library makes a fresh desk, of other bytes in each run.
    fn begin(library: &'a Library, file: usize, number: usize) -> Result<Course<'a>, Difference> {
        let Memories { mut segment, mut blocks, mut buffers } = Desk::fresh().memories();
        for part in [&mut segment, &mut blocks, &mut buffers] {
            part.iter_mut().enumerate().for_each(|(at, byte)| *byte = (at * 7 + number) as u8);
        }
        let mut host = Host::new(library, &Memories { segment, blocks, buffers });
        match host.fresh()? {
            DONE => Ok(Course { host, file, number, own: 0 }),
            status => Err(format!("fresh: status {status}")),
        }
    }

    fn make(&mut self, step: &Step) -> Result<Outcome, Difference> {
        let room = |right| step.room.unwrap_or(right);
        self.host.lend_lengths(room(ANSWER_BYTES), room(BUFFER_BYTES));
        if !step.own {
            return self.host.call(&step.call);
        }
        self.own += 1;
        self.host.call_over(&step.call, RUNS * self.own + self.number)
    }

    fn part(&self) -> Part {
        Part::of(self.host.memories(), self.file)
    }
}

/// What the own calls gave and left where nothing else was called.
pub struct Alone {
    pub outcomes: Vec<Outcome>,
    /// The part of the fresh desk, and what it was behind each call.
    pub parts: Vec<Part>,
}

impl Alone {
    /// Leaves out the steps that are not own.
    pub fn run(library: &Library, file: usize, steps: &[Step]) -> Result<Alone, Difference> {
        let mut course = Course::begin(library, file, ALONE)?;
        let mut alone = Alone { outcomes: Vec::new(), parts: vec![course.part()] };
        for step in steps.iter().filter(|step| step.own) {
            let outcome = course.make(step);
            alone.outcomes.push(outcome.map_err(|fault| format!("{fault}\n{}", step.text()))?);
            alone.parts.push(course.part());
        }
        Ok(alone)
    }
}

/// A run with other calls between the own ones.
#[derive(Clone)]
pub struct Run {
    pub file: usize,
    /// 1 to 3.
    pub number: usize,
    pub steps: Vec<Step>,
}

impl Run {
    /// Makes the calls; at which of them something is not as it is alone.
    ///
    /// A part of a run is a run, so what belongs to the file is compared behind every call: behind
    /// own ones, and behind others, which may not have changed it.
    pub fn compare(
        &self,
        library: &Library,
        alone: &Alone,
        counts: &mut Counts,
    ) -> Result<(), (usize, Difference)> {
        let begun = Course::begin(library, self.file, self.number);
        let mut course = begun.map_err(|difference| (0, difference))?;
        for (at, step) in self.steps.iter().enumerate() {
            let compared = follow(&mut course, step, alone, counts);
            compared.map_err(|difference| (at, difference))?;
        }
        Ok(())
    }

    fn failure(&self, library: &Library) -> Option<(usize, Difference)> {
        match Alone::run(library, self.file, &self.steps) {
            Ok(alone) => self.compare(library, &alone, &mut Counts::default()).err(),
            Err(difference) => Some((self.steps.len(), difference)),
        }
    }

    /// Calls are dropped while the two runs still differ.
    pub fn shrunk(mut self, library: &Library) -> Run {
        loop {
            let before = self.steps.len();
            if let Some((at, _)) = self.failure(library) {
                self.steps.truncate(at + 1);
            }
            let (file, number) = (self.file, self.number);
            let fails = |steps| Run { file, number, steps }.failure(library).is_some();
            self.steps = shrink(&self.steps, fails);
            if self.steps.len() == before {
                return self;
            }
        }
    }

    /// What to call, a line a call, and what differs.
    pub fn report(&self, library: &Library) -> String {
        let mut lines = vec![
            "from a fresh desk, these calls, and of them those marked own alone, differ at the last:"
                .to_string(),
        ];
        lines.extend(self.steps.iter().map(Step::text));
        let failure = self.failure(library).map(|(_, difference)| difference);
        lines.push(failure.unwrap_or_else(|| "it does not show again".to_string()));
        lines.join("\n")
    }
}

fn follow(
    course: &mut Course,
    step: &Step,
    alone: &Alone,
    counts: &mut Counts,
) -> Result<(), Difference> {
    let outcome = course.make(step)?;
    if step.own {
        let expected = &alone.outcomes[course.own - 1];
        if outcome != *expected {
            let call = &step.call;
            let (one, other) = (outcome_text(call, expected), outcome_text(call, &outcome));
            return Err(format!("alone {one}, among others {other}"));
        }
    }
    let part = course.part();
    alone.parts[course.own].compare(&part)?;
    match step.own {
        true => counts.own_call(&alone.parts[course.own], &part),
        false => counts.other_call(&step.call, &outcome, &part),
    }
    Ok(())
}
