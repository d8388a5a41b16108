//! Frames of every first byte, every length and every count, each on the same desk.

use super::caller::Caller;
use super::case::Case;
use super::program::Library;
use super::reached::Reached;
use super::tally::Tally;
use crate::generator::frames::{build_frame, control_frame, open_frame, read_frame, write_frame};
use crate::generator::random::Random;
use crate::generator::Call;

/// Sends each frame to a desk that some calls reached; the case, if one is answered otherwise.
pub fn all_frames(library: &Library, seed: u64, tally: &mut Tally) -> Result<(), Case> {
    let mut caller = Caller::new(seed);
    let mut random = Random::new(seed);
    let reached = Reached::by(&mut caller, random.between(20, 120));
    let mut frames = shapes(&mut random);
    for _ in 0..40 {
        if let Call::Event(frame) = caller.next_event(&reached.desk) {
            frames.extend(cut_and_longer(&frame));
        }
    }
    for f in reached.desk.files.iter().flatten() {
        let file = f.number as u8;
        for place in (0..8).filter(|p| f.accessors[usize::from(*p)].is_some()) {
            frames.extend(counts(file, place));
        }
        frames.extend(opens(file));
    }
    frames.extend([0, 1, 8, 255].iter().flat_map(|file| builds(*file)));
    let calls: Vec<Call> = frames.into_iter().map(Call::Event).collect();
    reached.try_each(library, &calls, tally)
}

/// Every first byte with every length a small frame can have, and some long ones.
fn shapes(random: &mut Random) -> Vec<Vec<u8>> {
    let mut frames = vec![Vec::new()];
    for first in 0..=255 {
        for length in 0..=12 {
            let rest = (0..length).map(|_| random.pick(&[0, 0, 0, 1, 1, 2, 3, 4, 43, 255]));
            frames.push(std::iter::once(first).chain(rest).collect());
        }
    }
    for first in 0..=9 {
        for length in (13..=270).chain([300, 511, 512, 4096, 65535, 65536, 65541]) {
            let mut frame = vec![0; length];
            frame[0] = first;
            frames.push(frame);
        }
    }
    frames
}

/// A frame cut at every length, and with bytes more.
fn cut_and_longer(frame: &[u8]) -> Vec<Vec<u8>> {
    let cut = (0..frame.len()).map(|length| frame[..length].to_vec());
    let longer = (1..4).map(|n| [frame.to_vec(), vec![0; n]].concat());
    cut.chain(longer).collect()
}

/// Reads and writes of every count near a limit, with data as long as it, longer and shorter; all
/// control codes.
fn counts(file: u8, place: u8) -> Vec<Vec<u8>> {
    let mut frames = Vec::new();
    let far = [-32768, -32767, -16384, -513, -512, 255, 256, 1000, 16384, 32766, 32767];
    for count in (-270..=140).chain(far) {
        frames.push(read_frame(file, place, count));
    }
    for count in (-260..=132).chain(far) {
        let bytes = if count < 0 { -count as usize } else { 2 * count as usize };
        for length in [bytes.saturating_sub(1), bytes, bytes + 1] {
            frames.push(write_frame(file, place, count, &vec![0x5A; length]));
        }
    }
    for code in 0..=255 {
        for param in [0, 1, 2, 256, 65535] {
            frames.push(control_frame(file, place, code, param));
        }
    }
    frames
}

fn opens(file: u8) -> Vec<Vec<u8>> {
    let mut frames = Vec::new();
    for access in [0, 1, 2, 3, 4, 255] {
        for share in [0, 1, 2, 3, 4, 255] {
            for multi in [0, 1, 2, 3, 4, 255] {
                frames.push(open_frame(file, access, share, multi));
            }
        }
    }
    frames
}

/// Numbers at the ends of their ranges.
fn builds(file: u8) -> Vec<Vec<u8>> {
    let mut frames = Vec::new();
    for r in [0, 1, 2, 127, 128, 129, 256] {
        for b in [0, 1, 3, 16, 17] {
            for n in [0, 1, 2, 13, 14, 51, 337, 338, 2000, 2001, 65535] {
                for x in [0, 1, 8, 32, 33] {
                    frames.push(build_frame(file, r, b, n, x));
                }
            }
        }
    }
    frames
}
