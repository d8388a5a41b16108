//! Events in words, for the header that makes frames for C (tests/frames says how to read the
//! words): the frame and what its answer says, as this program reads them.
//!
//!   EVENT NUMBERS... ANSWER <tab> FRAME STATUS NUMBERS...
//!
//! Unless it is done, all that an answer says beside its status is 0 or empty.

use crate::generator::frames::*;
use crate::generator::random::Random;
use crate::generator::{Call, Generator};
use crate::model::desk::Desk;
use crate::model::limits::LINE_BYTES;
use crate::model::word::number;
use crate::outcome::make_call;
use crate::session::{hex, next_call};

/// The events of K sessions of N calls, each with a frame of any numbers after it.
pub fn words_text(seed: u64, sessions: u64, n: u64) -> String {
    let mut text = String::new();
    for seed in seed..seed + sessions {
        let (mut desk, mut generator, mut random) =
            (Desk::fresh(), Generator::new(seed), Random::new(seed));
        for _ in 0..n {
            let call = next_call(&desk, &mut generator);
            let outcome = make_call(&mut desk, &call);
            if let Call::Event(frame) = call {
                text.push_str(&line(&frame, &outcome.bytes));
            }
            let frame = any_frame(&mut random);
            let answer = desk.event(&frame);
            text.push_str(&line(&frame, &answer));
        }
    }
    text
}

/// A frame of any numbers, of a file above 7 so that the session goes on as it would.
fn any_frame(random: &mut Random) -> Vec<u8> {
    let (file, place, word) = (random.byte() | 8, random.byte(), random.below(65536));
    let sizes = [0, 1, 2, 3, 127, 128, 129, 254, 255, 256];
    let data: Vec<u8> = (0..random.pick(&sizes)).map(|_| random.byte()).collect();
    match random.below(8) {
        0 => build_frame(file, word, place.into(), random.below(65536), random.byte().into()),
        1 => open_frame(file, place, random.byte(), random.byte()),
        2 => read_frame(file, place, word as i32 - 32768),
        3 if data.len() % 2 == 0 => write_frame(file, place, (data.len() / 2) as i32, &data),
        3 | 4 => write_frame(file, place, -(data.len() as i32), &data),
        5 => control_frame(file, place, random.byte(), word as u16),
        6 => random.pick(&[collect_frame(file, place), close_frame(file, place)]),
        _ => counts_frame(file),
    }
}

/// The line of an event; none if its frame has no shape, or is longer than a line can have it.
fn line(frame: &[u8], answer: &[u8]) -> String {
    match is_frame(frame) && frame.len() <= LINE_BYTES {
        true => format!("{} {}\t{} {}\n", asked(frame), hex(answer), hex(frame), told(answer)),
        false => String::new(),
    }
}

/// A frame in words: a count of bytes or of words.
fn asked(frame: &[u8]) -> String {
    let in_bytes = |high: u8, low: u8| 65536 - number(high, low);
    match *frame {
        [1, file, r1, r0, b, n1, n0, x] => {
            format!("build {file} {} {b} {} {x}", number(r1, r0), number(n1, n0))
        }
        [2, file, access, share, multi] => format!("open {file} {access} {share} {multi}"),
        [3, file, place, c1, c0] if c1 < 128 => {
            format!("read_words {file} {place} {}", number(c1, c0))
        }
        [3, file, place, c1, c0] => format!("read {file} {place} {}", in_bytes(c1, c0)),
        [4, file, place, c1, _, ref data @ ..] => {
            let unit = if c1 < 128 { "_words" } else { "" };
            format!("write{unit} {file} {place} {}", hex(data))
        }
        [5, file, place, code, p1, p0] => {
            format!("control {file} {place} {code} {}", number(p1, p0))
        }
        [6, file, place] => format!("collect {file} {place}"),
        [7, file, place] => format!("close {file} {place}"),
        [8, s1, s0] => format!("time {}", number(s1, s0)),
        [9, file] => format!("counts {file}"),
        _ => unreachable!("a frame has one of nine shapes"),
    }
}

/// What an answer says.
fn told(answer: &[u8]) -> String {
    match *answer {
        [1, 0, c1, c0] => format!("0 {}", number(c1, c0)),
        [2, 0, accessor, i1, i0] => format!("0 {accessor} {}", number(i1, i0)),
        [3 | 6, 0, l1, l0, ref data @ ..] => format!("0 {} {}", number(l1, l0), hex(data)),
        [4, 0, l1, l0] => format!("0 {}", number(l1, l0)),
        [5 | 7 | 8, status] => format!("{status}"),
        [9, 0, d1, d0, a1, a0, w1, w0, r1, r0] => {
            let (data, all) = (number(d1, d0), number(a1, a0));
            format!("0 {data} {all} {} {}", number(w1, w0), number(r1, r0))
        }
        [1 | 4, status] => format!("{status} 0"),
        [2, status] => format!("{status} 0 0"),
        [3 | 6, status] => format!("{status} 0 -"),
        [9, status] => format!("{status} 0 0 0 0"),
        _ => unreachable!("an answer has the shape that document 01 gives it"),
    }
}
