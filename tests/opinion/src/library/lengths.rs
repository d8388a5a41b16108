//! Memories of wrong lengths: nothing is written at all.  And a fresh desk of any bytes.

use super::caller::Caller;
use super::case::line;
use super::host::Host;
use super::program::Library;
use super::reached::Reached;
use super::twin::{Difference, Twin};
use super::UNSOUND;
use crate::generator::random::Random;
use crate::generator::Call;
use crate::model::desk::Desk;
use crate::model::limits::{ANSWER_BYTES, BUFFER_BYTES};
use crate::model::segment::Memories;
use crate::outcome::Outcome;

/// What a host lends: a desk's memories, and the lengths of answer and record memory.
struct Loan {
    memories: Memories,
    answer: usize,
    record: usize,
}

/// How many calls agreed.
pub fn wrong_lengths(library: &Library, seed: u64) -> Result<u64, Difference> {
    let mut caller = Caller::new(seed);
    let mut random = Random::new(seed);
    let desk = Reached::by(&mut caller, 60).desk;
    let good = desk.memories();
    let mut calls = 0;
    for which in 0..6 {
        for _ in 0..40 {
            let loan = wrong_loan(&good, which, &mut random);
            let mut made = caller.one_of_each(&desk);
            made.extend([caller.next_event(&desk), caller.next(&desk)]);
            // 29 is the lowest refusal.
            made.extend([Call::Look(8, 8), Call::Save(256, 0), Call::Load(1 << 32, Vec::new())]);
            // An answer memory is lent to events alone, a record memory to looks.
            made.retain(|call| match which {
                3 => matches!(call, Call::Event(_)),
                4 => matches!(call, Call::Look(..)),
                _ => true,
            });
            let told = loan.text();
            calls += refused(library, &loan, &made, which).map_err(|d| format!("{told}: {d}"))?;
        }
    }
    Ok(calls)
}

fn wrong_loan(good: &Memories, which: usize, random: &mut Random) -> Loan {
    let mut loan = Loan { memories: good.clone(), answer: ANSWER_BYTES, record: BUFFER_BYTES };
    let memories = &mut loan.memories;
    let mut resize = |memory: &mut Vec<u8>| memory.resize(other_length(memory.len(), random), 0);
    match which {
        0 => resize(&mut memories.segment),
        1 => resize(&mut memories.blocks),
        2 => resize(&mut memories.buffers),
        3 => loan.answer = other_length(ANSWER_BYTES, random),
        4 => loan.record = other_length(BUFFER_BYTES, random),
        _ => {
            resize(&mut memories.segment);
            resize(&mut memories.blocks);
            resize(&mut memories.buffers);
        }
    }
    loan
}

/// Each call is refused, and all bytes stay; so is fresh, which is lent the desk's memories alone.
fn refused(
    library: &Library,
    loan: &Loan,
    calls: &[Call],
    which: usize,
) -> Result<u64, Difference> {
    let mut host = Host::lending(library, &loan.memories, loan.answer, loan.record);
    for call in calls {
        let outcome = host.call(call)?;
        if outcome != (Outcome { status: UNSOUND, bytes: Vec::new() }) {
            return Err(format!("status {} by this call:\n{}", outcome.status, line(call)));
        }
        if *host.memories() != loan.memories {
            return Err(format!("a memory was changed by this call:\n{}", line(call)));
        }
    }
    if which == 3 || which == 4 {
        return Ok(calls.len() as u64);
    }
    let status = host.fresh()?;
    if status != UNSOUND || *host.memories() != loan.memories {
        return Err(format!("fresh: status {status}, or it changed a memory"));
    }
    Ok(calls.len() as u64 + 1)
}

pub fn other_length(right: usize, random: &mut Random) -> usize {
    match random.below(10) {
        0 => 0,
        1 => right - 1,
        2 => right + 1,
        3 => right - 2,
        4 => right + 2,
        5 => 2 * right,
        6 => right + 65536,
        7 => right % 256,
        8 => random.below(right),
        _ => right + random.between(1, 300),
    }
}

impl Loan {
    fn text(&self) -> String {
        let Memories { segment, blocks, buffers } = &self.memories;
        let (segment, blocks, buffers) = (segment.len(), blocks.len(), buffers.len());
        let (answer, record) = (self.answer, self.record);
        format!("lengths {segment}, {blocks}, {buffers}, answer {answer}, record {record}")
    }
}

/// Fresh asks nothing of the bytes, and leaves none of them.
pub fn fresh_desks(library: &Library, seed: u64) -> Result<u64, Difference> {
    let mut random = Random::new(seed);
    let mut memories = Desk::fresh().memories();
    let mut calls = 0;
    for _ in 0..20 {
        for memory in [&mut memories.segment, &mut memories.blocks, &mut memories.buffers] {
            memory.iter_mut().for_each(|byte| *byte = random.byte());
        }
        Twin::made_fresh(library, &memories)?;
        calls += 1;
    }
    Ok(calls)
}
