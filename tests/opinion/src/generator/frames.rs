//! The frames of document 01: the bytes of each are written here, and nowhere else.

use crate::model::count::Count;
use crate::model::word::word;

pub fn build_frame(file: u8, r: usize, b: usize, n: usize, x: usize) -> Vec<u8> {
    [vec![1, file], word(r as u16), vec![b as u8], word(n as u16), vec![x as u8]].concat()
}

pub fn open_frame(file: u8, access: u8, share: u8, multi: u8) -> Vec<u8> {
    vec![2, file, access, share, multi]
}

pub fn read_frame(file: u8, place: u8, count: i32) -> Vec<u8> {
    [vec![3, file, place], word(count as i16 as u16)].concat()
}

pub fn write_frame(file: u8, place: u8, count: i32, data: &[u8]) -> Vec<u8> {
    [vec![4, file, place], word(count as i16 as u16), data.to_vec()].concat()
}

pub fn control_frame(file: u8, place: u8, code: u8, param: u16) -> Vec<u8> {
    [vec![5, file, place, code], word(param)].concat()
}

pub fn collect_frame(file: u8, place: u8) -> Vec<u8> {
    vec![6, file, place]
}

pub fn close_frame(file: u8, place: u8) -> Vec<u8> {
    vec![7, file, place]
}

pub fn time_frame(seconds: usize) -> Vec<u8> {
    [vec![8], word(seconds as u16)].concat()
}

pub fn counts_frame(file: u8) -> Vec<u8> {
    vec![9, file]
}

/// Whether these bytes have the shape of a frame: as many as a frame of their operation has.
pub fn is_frame(bytes: &[u8]) -> bool {
    let made = match bytes {
        [1, ..] => build_frame(0, 0, 0, 0, 0),
        [2, ..] => open_frame(0, 0, 0, 0),
        [3, ..] => read_frame(0, 0, 0),
        [4, _, _, c1, c0, ..] => write_frame(0, 0, 0, &vec![0; Count::from_word(*c1, *c0).bytes]),
        [5, ..] => control_frame(0, 0, 0, 0),
        [6, ..] => collect_frame(0, 0),
        [7, ..] => close_frame(0, 0),
        [8, ..] => time_frame(0),
        [9, ..] => counts_frame(0),
        _ => return false,
    };
    bytes.len() == made.len()
}
