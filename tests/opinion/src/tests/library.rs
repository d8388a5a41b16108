//! Programs that stand in for desk.c answer a call, and the comparison says what is wrong with it.

use crate::generator::frames::counts_frame;
use crate::generator::Call;
use crate::library::twin::Twin;
use crate::library::Library;
use crate::model::desk::Desk;

fn number(number: u64) -> Vec<u8> {
    number.to_le_bytes().to_vec()
}

fn bytes(bytes: &[u8]) -> Vec<u8> {
    [number(bytes.len() as u64), bytes.to_vec()].concat()
}

fn change(part: u64, at: u64, changed: &[u8]) -> Vec<u8> {
    [number(part), number(at), bytes(changed)].concat()
}

/// As desk.c would write it: what is wrong, the status, the bytes, the changes, and 3.
fn answer(fault: &str, answered: &[u8], changes: &[Vec<u8>]) -> Vec<u8> {
    let head = [bytes(fault.as_bytes()), number(0), bytes(answered)].concat();
    [head, changes.concat(), number(3)].concat()
}

/// How a program compares that answers so, and then does as this command of the shell says.
fn compared(answer: &[u8], then: &str) -> String {
    let octal: String = answer.iter().map(|byte| format!("\\{byte:03o}")).collect();
    let script = format!("printf '{octal}'; {then}");
    let library = Library::new(&["sh", "-c", &script]).unwrap();
    let mut twin = Twin::of(&library, &Desk::fresh().memories());
    // Counts of a file that is not built: refusal 31.
    match twin.call(&Call::Event(counts_frame(0))) {
        Ok(_) => "they agree".to_string(),
        Err(difference) => difference,
    }
}

fn told(answer: &[u8]) -> String {
    compared(answer, "exec cat >/dev/null")
}

#[test]
fn the_right_answer_agrees() {
    assert_eq!(told(&answer("", &[9, 31], &[])), "they agree");
}

#[test]
fn a_wrong_answer_and_a_fault_are_told() {
    assert_eq!(told(&answer("", &[9, 32], &[])), "library answer 0920, model answer 091F");
    assert_eq!(told(&answer("", &[], &[])), "library no answer (29), model answer 091F");
    let fault = "bytes beside the blocks were changed";
    assert_eq!(told(&answer(fault, &[9, 31], &[])), fault);
}

#[test]
fn bytes_that_differ_are_told() {
    for (part, at, place) in [
        (0, 0, "segment, byte 0: head of list 0"),
        (1, 32767, "blocks, byte 32767: share 7, its byte 4095"),
        (2, 16639, "buffers, byte 16639: file 7, accessor 7, its byte 259"),
    ] {
        let difference = format!("{place}: library 01, model 00 (1 bytes differ)");
        assert_eq!(told(&answer("", &[9, 31], &[change(part, at, &[1])])), difference);
    }
    let two = [change(1, 4097, &[2]), change(1, 0, &[0, 3])];
    let place = "blocks, byte 1: share 0, its byte 1: library 03, model 00 (2 bytes differ)";
    assert_eq!(told(&answer("", &[9, 31], &two)), place);
}

#[test]
fn a_change_where_there_is_no_byte_is_told() {
    for (part, at) in [(0, 3876), (1, 32768), (2, 16640), (2, u64::MAX), (4, 0)] {
        let outside = "a change is reported of bytes that do not exist";
        assert_eq!(told(&answer("", &[9, 31], &[change(part, at, &[0])])), outside);
    }
}

#[test]
fn a_program_that_ends_is_told() {
    let whole = answer("", &[9, 31], &[]);
    for (written, then, how) in [
        (0, "exit 7", "exit status: 7"),
        (20, "exit 0", "exit status: 0"),
        (whole.len() - 1, "kill -9 $$", "signal: 9 (SIGKILL)"),
    ] {
        let ended = format!("the program that makes the calls ended: {how}");
        assert_eq!(compared(&whole[..written], then), ended);
    }
    assert!(Library::new(&["/no/such/program"]).is_err());
    assert!(Library::new(&[]).is_err());
}
