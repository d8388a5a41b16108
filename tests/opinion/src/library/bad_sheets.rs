//! Texts that differ from a good sheet in one field, one frame, one line or one byte.  Most of them
//! are not sheets; the model says which.

use crate::model::geometry::Geometry;
use crate::model::line::frame_of_line;
use crate::model::sheet::{sheet_head, sheet_text};
use crate::model::word::{word, word_at};

type Frames = Vec<Vec<u8>>;

/// A line's limit is 261 bytes.
const LONG: [usize; 4] = [256, 257, 258, 300];

/// Each field, each frame and each line of a sheet changed; of a long one at some lines.
pub fn damaged(sheet: &[u8]) -> Vec<Vec<u8>> {
    let lines = sheet.split(|b| *b == b'\n');
    let mut frames: Frames = lines.filter_map(frame_of_line).collect();
    // An empty frame behind the last LF.
    frames.pop();
    let mut texts = other_heads(&frames);
    texts.extend(other_records(&frames));
    texts.extend(other_counts(&frames));
    texts.extend(other_lines(sheet));
    texts.extend(other_ends(sheet));
    texts
}

fn with_frame(frames: &Frames, at: usize, frame: Vec<u8>) -> Vec<u8> {
    let mut changed = frames.clone();
    changed[at] = frame;
    sheet_text(&changed)
}

fn with_bytes(frame: &[u8], at: usize, bytes: &[u8]) -> Vec<u8> {
    let mut changed = frame.to_vec();
    changed[at..at + bytes.len()].copy_from_slice(bytes);
    changed
}

/// Form, R, B, D and records held, in and out of range; a head too short and too long.
fn other_heads(frames: &Frames) -> Vec<Vec<u8>> {
    let head = &frames[0];
    let (r, b, d, held) = (word_at(head, 1), head[3], word_at(head, 4), word_at(head, 6));
    let near = |n: usize| [n + 1, n.wrapping_sub(1), n + 256, n | 0x8000];
    let block_words = (r + 3) * usize::from(b) + 2;
    let mut heads = Vec::new();
    heads.extend([0, 2, 3, 16, 129, 255].map(|form| with_bytes(head, 0, &[form])));
    let bs = [0, 1, 16, 17, 18, 32, 255, b.wrapping_add(1), b.wrapping_sub(1)];
    heads.extend(bs.map(|b| with_bytes(head, 3, &[b])));
    let rs = [0, 128, 129, 130, 255, 256, 257, 65535].into_iter().chain(near(r));
    let ds = [0, 1, 2, 3, 2000, 32768, 65535, 2048 / block_words, 2048 / block_words + 1];
    let fields: [(usize, Vec<usize>); 3] = [
        (1, rs.collect()),
        (4, ds.into_iter().chain(near(d)).collect()),
        (6, [0, 65535].into_iter().chain(near(held)).collect()),
    ];
    for (at, values) in fields {
        heads.extend(values.into_iter().map(|value| with_bytes(head, at, &word(value as u16))));
    }
    heads.extend((0..8).map(|length| head[..length].to_vec()));
    heads.extend([1, 2, 253, 254].map(|n| [head.clone(), vec![0; n]].concat()));
    heads.into_iter().map(|head| with_frame(frames, 0, head)).collect()
}

/// Types, IDs and lengths of a record, in and out of range.
fn other_records(frames: &Frames) -> Vec<Vec<u8>> {
    let r = word_at(&frames[0], 1);
    let mut texts = Vec::new();
    for at in some_of(frames.len()).into_iter().skip(1) {
        let frame = &frames[at];
        let mut records = Vec::new();
        for kind in [0, 1, 2, 3, 4, 127, 255, 256, 257, 258, 512, 0x8000, 65535] {
            records.push(with_bytes(frame, 0, &word(kind)));
        }
        for id in [0, 1, 2, 255, 256, 0x8000, 65535] {
            records.push(with_bytes(frame, 2, &word(id)));
        }
        records.extend((0..=4).map(|length| frame[..length].to_vec()));
        for kind in 0..4 {
            for length in [0, 1, 2, 2 * r - 1, 2 * r, 2 * r + 1, 2 * r + 2].into_iter().chain(LONG)
            {
                records.push([word(kind), word(1), vec![0xAB; length]].concat());
            }
        }
        texts.extend(records.into_iter().map(|record| with_frame(frames, at, record)));
    }
    texts
}

/// A frame more or less than the head says; a head in the wrong place; as many as the file can
/// hold, and one more.
fn other_counts(frames: &Frames) -> Vec<Vec<u8>> {
    let mut all: Vec<Frames> = Vec::new();
    for at in some_of(frames.len()) {
        let (mut less, mut more) = (frames.clone(), frames.clone());
        more.insert(at, less.remove(at));
        let mut swapped = frames.clone();
        swapped.swap(0, at);
        all.extend([less, more, swapped]);
    }
    let head = &frames[0];
    let geometry = Geometry {
        record_words: word_at(head, 1),
        blocking: head[3].into(),
        data_blocks: word_at(head, 4),
    };
    let capacity = geometry.capacity();
    for (held, said) in [(0, 0), (1, 0), (0, 1), (1, 2), (2, 1)] {
        all.push(close_records(&geometry, capacity - held, capacity - said));
    }
    all.push(close_records(&geometry, capacity + 1, capacity + 1));
    all.push(close_records(&geometry, capacity + 1, capacity));
    all.iter().map(|frames| sheet_text(frames)).collect()
}

fn close_records(geometry: &Geometry, held: usize, said: usize) -> Frames {
    let mut frames = vec![sheet_head(geometry, said)];
    frames.resize(held + 1, vec![0, 2, 0, 1]);
    frames
}

/// LF, CR, digits and spaces at each line's start and end.
fn other_lines(sheet: &[u8]) -> Vec<Vec<u8>> {
    let ends: Vec<usize> = (0..sheet.len()).filter(|at| sheet[*at] == b'\n').collect();
    let mut texts = Vec::new();
    for line in some_of(ends.len()) {
        let end = ends[line];
        let start = if line == 0 { 0 } else { ends[line - 1] + 1 };
        let mut change = |from: usize, to: usize, by: &[u8]| {
            texts.push([&sheet[..from], by, &sheet[to..]].concat());
        };
        change(end, end + 1, b"");
        for ended in [&b"\r\n"[..], b"\r", b"\n\n", b"\n\r\n", b" \n", b"0\n", b"\0\n", b"\0"] {
            change(end, end + 1, ended);
        }
        for begun in [&b"\n"[..], b"\r\n", b" ", b"0", b"00", b"0x", b"+", b"-"] {
            change(start, start, begun);
        }
        change(end - 1, end, b"");
        change(start, start + 1, b"");
        change(start, end, b"");
        change(start, end + 1, b"");
        change(start, end, &sheet[start..end].to_ascii_lowercase());
        // Letters of either kind next to each other.
        if let Some(at) = (start..end).find(|at| sheet[*at].is_ascii_uppercase()) {
            change(at, at + 1, &[sheet[at].to_ascii_lowercase()]);
        }
    }
    texts
}

/// Nothing at all, no last LF, and text behind it.
fn other_ends(sheet: &[u8]) -> Vec<Vec<u8>> {
    let starts = [&b""[..], b"\n", b"\r\n", b"0", b"00", b"\0", b"\xFF", b" "];
    let mut texts: Vec<Vec<u8>> = starts.iter().map(|text| text.to_vec()).collect();
    for behind in [&b"\n"[..], b"\r", b"\r\n", b"0", b"00", b"00010001", b"00010001\n", b" ", b"\0"]
    {
        texts.push([sheet, behind].concat());
        texts.push([&sheet[..sheet.len() - 1], behind].concat());
    }
    texts.push([sheet, sheet].concat());
    texts.push(String::from_utf8_lossy(sheet).replace('\n', "\r\n").into_bytes());
    texts.push(sheet.to_ascii_lowercase());
    texts
}

/// Each byte of a sheet another, gone, twice, and all behind it gone.
pub fn every_byte(sheet: &[u8]) -> Vec<Vec<u8>> {
    let mut texts = Vec::new();
    for at in 0..sheet.len() {
        let (before, old, behind) = (&sheet[..at], sheet[at], &sheet[at + 1..]);
        let others = *b"0129AFaf/:@G`g\n\r \0\xFF";
        for byte in others.into_iter().chain([old ^ 1, old ^ 0x20, old | 0x80, old + 1, old - 1]) {
            texts.push([before, &[byte], behind].concat());
        }
        texts.push([before, behind].concat());
        texts.push([before, &[old, old], behind].concat());
        texts.push(before.to_vec());
    }
    texts
}

/// Heads of empty files, with R, B and D at the ends of their ranges.
pub fn heads() -> Vec<Vec<u8>> {
    let mut texts = Vec::new();
    for r in [0, 1, 2, 127, 128, 129, 256] {
        for b in [0, 1, 2, 3, 15, 16, 17, 255] {
            for d in [0, 1, 2, 3, 15, 16, 31, 32, 341, 342, 2048, 65535] {
                let geometry = Geometry { record_words: r, blocking: b, data_blocks: d };
                texts.push(sheet_text(&[sheet_head(&geometry, 0)]));
            }
        }
    }
    texts
}

/// The first three of so many, the middle and the last two.
fn some_of(all: usize) -> Vec<usize> {
    let chosen = |at: usize| at < 3 || at == all / 2 || at + 2 >= all;
    (0..all).filter(|at| chosen(*at)).collect()
}
