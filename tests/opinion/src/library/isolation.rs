//! Isolation, on the running library: what is called on other files changes nothing of a file.
//!
//! A file's own calls are made from a fresh desk, with the passages of time and nothing else; and
//! again among the calls of strangers, of three kinds.  Every own answer, shown record and sheet has
//! to be the same, and behind every call what belongs to the file, read from the memories' bytes.

mod counts;
mod crowd;
pub mod own;
pub mod part;
pub mod runs;
pub mod strangers;

use super::program::Library;
use super::ENOUGH;
use crate::model::limits::FILES;
use counts::{Counts, OwnCounts};
use own::own_calls;
use runs::{Alone, Run};
use std::io::Write;
use strangers::{Stranger, KINDS};

/// So many seeds, of so many own calls; false where anything differs.
pub fn compare_runs(library: &Library, seed: u64, seeds: u64, calls: usize) -> bool {
    print!("isolation: seeds {seed} to {}: ", seed + seeds - 1);
    // A call that does not return leaves the line standing.
    let _ = std::io::stdout().flush();
    let mut own = OwnCounts::default();
    let mut kinds = KINDS.map(|_| Counts::default());
    let mut failed = 0;
    for one in seed..seed + seeds {
        if let Err(report) = compare_seed(library, one, calls, &mut own, &mut kinds) {
            println!("\nisolation: seed {one}, {report}");
            failed += 1;
        }
        if failed == ENOUGH {
            return false;
        }
    }
    println!("{}", own.text());
    for ((_, name), counts) in KINDS.iter().zip(&kinds) {
        println!("isolation: {name}: {}", counts.text());
    }
    failed == 0
}

/// The own calls alone, and among each kind of stranger; a report of the first that differs.
fn compare_seed(
    library: &Library,
    seed: u64,
    calls: usize,
    own: &mut OwnCounts,
    kinds: &mut [Counts],
) -> Result<(), String> {
    let file = seed as usize % FILES;
    let (steps, desk) = own_calls(seed, file, calls);
    let alone = Alone::run(library, file, &steps);
    let alone = alone.map_err(|fault| format!("file {file} alone: {fault}"))?;
    own.count(&steps, &alone, &desk);
    for (at, (kind, name)) in KINDS.iter().enumerate() {
        let steps = Stranger::new(*kind, seed, file).among(&steps);
        let run = Run { file, number: at + 1, steps };
        if run.compare(library, &alone, &mut kinds[at]).is_err() {
            let report = run.shrunk(library).report(library);
            return Err(format!("file {file}, {name}:\n{report}"));
        }
        kinds[at].end_run();
    }
    Ok(())
}
