//! A desk that some calls reached, and calls that are each made on it.

use super::caller::Caller;
use super::case::Case;
use super::program::Library;
use super::tally::Tally;
use super::twin::Twin;
use crate::generator::Call;
use crate::model::desk::Desk;
use crate::model::status::LEAST_REFUSAL;
use crate::model::unread::Kind;
use crate::outcome::make_call;

/// How many calls more are made at most, for a desk to have what is wanted.
const PATIENCE: usize = 300;

pub struct Reached {
    pub desk: Desk,
    pub before: Vec<Call>,
}

impl Reached {
    pub fn by(caller: &mut Caller, calls: usize) -> Reached {
        let mut reached = Reached { desk: Desk::fresh(), before: Vec::new() };
        for _ in 0..calls {
            reached.go_on(caller);
        }
        reached
    }

    /// Makes these calls, and then more until the desk has bytes of this kind or patience ends.
    pub fn having(kind: Kind, caller: &mut Caller, calls: usize) -> Reached {
        let mut reached = Reached::by(caller, calls);
        let has = |desk: &Desk| desk.stretches().iter().any(|stretch| stretch.kind == kind);
        while !has(&reached.desk) && reached.before.len() < calls + PATIENCE {
            reached.go_on(caller);
        }
        reached
    }

    fn go_on(&mut self, caller: &mut Caller) {
        let call = caller.next(&self.desk);
        make_call(&mut self.desk, &call);
        self.before.push(call);
    }

    /// Makes each call on this desk; the case, if one is answered otherwise.
    pub fn try_each(
        &self,
        library: &Library,
        calls: &[Call],
        tally: &mut Tally,
    ) -> Result<(), Case> {
        let memories = self.desk.memories();
        let mut twin = Twin::of(library, &memories);
        for call in calls {
            match twin.call(call) {
                Ok(outcome) => {
                    tally.call(call, &outcome);
                    // A refusal was just seen to change nothing.
                    if outcome.status < LEAST_REFUSAL {
                        twin.reset(&self.desk, &memories);
                    }
                }
                Err(_) => {
                    let (before, calls) = (self.before.clone(), vec![call.clone()]);
                    return Err(Case { before, changes: Vec::new(), calls });
                }
            }
        }
        Ok(())
    }
}
