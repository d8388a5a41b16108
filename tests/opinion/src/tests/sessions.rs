//! Random sessions: sound after every call, and answered alike when replayed.

use crate::session::{call_text, calls_of_text, replay_text, session_text};

/// A debug build looks at the desk after every call.
#[test]
fn sessions_stay_sound_and_replay_as_themselves() {
    for seed in 1..=30 {
        let session = session_text(seed, 150);
        assert_eq!(replay_text(&session), session, "seed {seed}");
    }
}

#[test]
fn calls_are_read_from_lines_with_words_behind() {
    let lines = ["E -", "E 0900", "L 0 257", "S 65536 43", "D 3 30310A"];
    let text: Vec<String> = lines.iter().map(|line| format!("{line}  (in words)\n")).collect();
    let calls = calls_of_text(&text.concat());
    assert_eq!(calls.iter().map(call_text).collect::<Vec<String>>(), lines);
}
