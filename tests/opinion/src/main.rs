//! The second opinion's command line.
//!
//!   opinion session SEED N        a session of N calls and the memories it leaves
//!   opinion replay                the calls of a session on standard input, answered anew
//!   opinion run                   the event program on standard input
//!   opinion coverage SEED K N     K sessions of N calls: how often each thing occurred
//!   opinion words SEED K N        the events of K sessions of N calls, in words
//!
//! With the library of the proved desk.  DESK is the command line of the program that calls it,
//! desk.c, and has an emulator before it where the machine needs one (tools/check-host builds it).
//!
//!   opinion library SEED K N -- DESK    K sessions of N calls, and what goes with them, on both
//!   opinion isolation SEED K N -- DESK  K files' own calls, N each, alone and among those of others
//!   opinion library-run -- DESK         the event program on standard input, answered by the library
//!   opinion library-replay -- DESK      the calls of a session on standard input, answered by the
//!                                       library

mod coverage;
mod generator;
mod library;
mod model;
mod outcome;
mod session;
#[cfg(test)]
mod tests;
mod words;

use library::Library;
use model::desk::Desk;
use std::io::{Read, Write};

const USAGE: &str = "opinion session SEED N | opinion replay | opinion run \
                     | opinion coverage SEED SESSIONS N | opinion words SEED SESSIONS N \
                     | opinion library SEED SESSIONS N -- DESK... \
                     | opinion isolation SEED SEEDS N -- DESK... \
                     | opinion library-run -- DESK... | opinion library-replay -- DESK...";

fn main() {
    let arguments: Vec<String> = std::env::args().skip(1).collect();
    let words: Vec<&str> = arguments.iter().map(|s| s.as_str()).collect();
    let output = match words[..] {
        ["session", seed, n] => session::session_text(number(seed), number(n)).into_bytes(),
        ["replay"] => session::replay_text(&String::from_utf8_lossy(&input())).into_bytes(),
        ["run"] => run(&input()),
        ["coverage", seed, sessions, n] => {
            coverage::coverage_text(number(seed), number(sessions), number(n)).into_bytes()
        }
        ["words", seed, sessions, n] => {
            words::words_text(number(seed), number(sessions), number(n)).into_bytes()
        }
        ["library", seed, sessions, n, "--", ref desk @ ..] => {
            let (seed, sessions, n) = (number(seed), number(sessions), number(n) as usize);
            let agree = library::compare_all(&library_of(desk), seed, sessions, n);
            std::process::exit(if agree { 0 } else { 1 });
        }
        ["isolation", seed, seeds, n, "--", ref desk @ ..] => {
            let (seed, seeds, n) = (number(seed), number(seeds), number(n) as usize);
            let agree = library::isolation::compare_runs(&library_of(desk), seed, seeds, n);
            std::process::exit(if agree { 0 } else { 1 });
        }
        ["library-run", "--", ref desk @ ..] => {
            library::answer_lines(&library_of(desk), &lines(&input()))
        }
        ["library-replay", "--", ref desk @ ..] => {
            let session = String::from_utf8_lossy(&input()).into_owned();
            library::replay_text(&library_of(desk), &session).into_bytes()
        }
        _ => {
            eprintln!("{USAGE}");
            std::process::exit(2);
        }
    };
    // A reader that stops early is no error.
    let _ = std::io::stdout().write_all(&output);
}

fn number(text: &str) -> u64 {
    text.parse().unwrap_or_else(|_| {
        eprintln!("not a number: {text}");
        std::process::exit(2)
    })
}

/// The library that this command line gives.
fn library_of(desk: &[&str]) -> Library {
    Library::new(desk).unwrap_or_else(|fault| {
        eprintln!("{fault}");
        std::process::exit(2)
    })
}

fn input() -> Vec<u8> {
    let mut input = Vec::new();
    std::io::stdin().read_to_end(&mut input).expect("standard input can be read");
    input
}

/// Lines ended by LF (the last may lack it).
fn lines(input: &[u8]) -> Vec<Vec<u8>> {
    let text = input.strip_suffix(b"\n").unwrap_or(input);
    match input.is_empty() {
        true => Vec::new(),
        false => text.split(|b| *b == b'\n').map(|line| line.to_vec()).collect(),
    }
}

/// One answer a line.
fn run(input: &[u8]) -> Vec<u8> {
    let mut output = Vec::new();
    let mut desk = Desk::fresh();
    for line in lines(input) {
        output.extend(desk.line(&line));
        output.push(b'\n');
    }
    output
}
