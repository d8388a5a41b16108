//! Events: a frame in, an answer out; and the event program's lines.

use super::count::Count;
use super::desk::Desk;
use super::limits::ANSWER_BYTES;
use super::line::{digits, frame_of_line};
use super::status::{Answer, NOT_A_FRAME};
use super::word::number;

impl Desk {
    /// The answer to any frame: operation and status, then what the event gives.
    pub fn event(&mut self, frame: &[u8]) -> Vec<u8> {
        let before = if cfg!(debug_assertions) { Some(self.clone()) } else { None };
        let operation = frame.first().copied().unwrap_or(0);
        let answer = match self.act(frame) {
            Ok((status, body)) => {
                let mut bytes = vec![operation, status];
                bytes.extend(body);
                bytes
            }
            // Refusal 30 always answers 00 1E (docs/DECISIONS.md, R3).
            Err(NOT_A_FRAME) => vec![0, NOT_A_FRAME],
            Err(refusal) => vec![operation, refusal],
        };
        if let Some(before) = before {
            if answer[1] >= NOT_A_FRAME {
                assert!(*self == before, "a refusal changed the desk");
            }
            assert!(answer.len() <= ANSWER_BYTES, "an answer is longer than its memory");
            let zero = !before.otherwise_zero() || self.otherwise_zero();
            assert!(zero, "a call left bytes where all else is zero");
            self.check();
        }
        answer
    }

    /// 30: frame not one of the nine shapes, or write data not as long as its count.
    fn act(&mut self, frame: &[u8]) -> Answer {
        match *frame {
            [1, file, r1, r0, b, n1, n0, x] => {
                self.build(file, number(r1, r0), b.into(), number(n1, n0), x.into())
            }
            [2, file, access, share, multi] => self.open(file, access, share, multi),
            [3, file, accessor, c1, c0] => self.read(file, accessor, Count::from_word(c1, c0)),
            [4, file, accessor, c1, c0, ref data @ ..] => {
                let count = Count::from_word(c1, c0);
                if data.len() != count.bytes {
                    return Err(NOT_A_FRAME);
                }
                self.write(file, accessor, count, data)
            }
            [5, file, accessor, code, p1, p0] => {
                self.control(file, accessor, code, number(p1, p0) as u16)
            }
            [6, file, accessor] => self.collect(file, accessor),
            [7, file, accessor] => self.close(file, accessor),
            [8, s1, s0] => self.time(number(s1, s0) as u64),
            [9, file] => self.counts(file),
            _ => Err(NOT_A_FRAME),
        }
    }

    /// The event program: a line in, the answer's digits out; any other line is an empty frame.
    pub fn line(&mut self, line: &[u8]) -> Vec<u8> {
        let frame = frame_of_line(line).unwrap_or_default();
        digits(&self.event(&frame))
    }
}
