//! Coverage: how often each status and each thing of interest occurred in many sessions.

use crate::generator::{Call, Generator};
use crate::model::desk::Desk;
use crate::model::status::NOT_A_FRAME;
use crate::outcome::make_call;
use crate::session::next_call;
use std::collections::BTreeMap;

pub fn coverage_text(seed: u64, sessions: u64, n: u64) -> String {
    let mut statuses: BTreeMap<String, u64> = BTreeMap::new();
    let mut notes: BTreeMap<&'static str, (u64, u64)> = BTreeMap::new();
    for one in seed..seed + sessions {
        let mut desk = Desk::fresh();
        let mut generator = Generator::new(one);
        for _ in 0..n {
            let call = next_call(&desk, &mut generator);
            let status = make_call(&mut desk, &call).status;
            *statuses.entry(format!("{:8} {status:2}", kind(&call, status))).or_insert(0) += 1;
        }
        for (what, times) in desk.all_notes() {
            let sum = notes.entry(what).or_insert((0, 0));
            sum.0 += times;
            sum.1 += 1;
        }
    }
    let mut text = format!("{sessions} sessions of {n} calls\n");
    for (what, times) in statuses {
        text.push_str(&format!("{what} {times:7}\n"));
    }
    text.push_str("times (sessions)\n");
    for (what, (times, within)) in notes {
        text.push_str(&format!("{times:7} ({within:4})  {what}\n"));
    }
    text
}

/// What a call is, and of an event which.
pub fn kind(call: &Call, status: u8) -> &'static str {
    match call {
        Call::Look(..) => "look",
        Call::Save(..) => "save",
        Call::Load(..) => "load",
        Call::Event(_) if status == NOT_A_FRAME => "frame",
        Call::Event(frame) => match frame.first() {
            Some(1) => "build",
            Some(2) => "open",
            Some(3) => "read",
            Some(4) => "write",
            Some(5) => "control",
            Some(6) => "collect",
            Some(7) => "close",
            Some(8) => "time",
            Some(9) => "counts",
            _ => "frame",
        },
    }
}
