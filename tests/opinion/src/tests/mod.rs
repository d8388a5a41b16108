//! Cases worked out by hand from document 01, random sessions with every check on, and that the
//! comparison with the library sees a difference.

mod isolation;
mod library;
mod memories;
mod raw;
mod reading;
mod refusals;
mod room;
mod sessions;
mod sheets;
mod vocabulary;
mod waiting;
mod worked;

use crate::model::desk::Desk;
use crate::model::status::DONE;
use vocabulary::Exchange;

/// Sends lines and expects an answer each.
fn talk<E: Exchange>(desk: &mut Desk, exchanges: &[E]) {
    for (index, exchange) in exchanges.iter().enumerate() {
        let text = |bytes: Vec<u8>| String::from_utf8(bytes).unwrap();
        let line = exchange.asked();
        let answer = desk.line(&line);
        assert_eq!(text(answer), text(exchange.told()), "line {index}: {}", text(line));
    }
}

fn after<E: Exchange>(exchanges: &[E]) -> Desk {
    let mut desk = Desk::fresh();
    talk(&mut desk, exchanges);
    desk
}

fn free_front(desk: &Desk, n: usize) -> Vec<u16> {
    desk.lists()[0][..n].to_vec()
}

fn saved(desk: &Desk, file: usize) -> String {
    let (status, text) = desk.save(file, 100_000);
    assert_eq!(status, DONE);
    String::from_utf8(text).unwrap()
}

const WORKED: [(&str, &str); 12] = [
    ("0100000401000101", "01000003"),
    ("0200030100", "0200000001"),
    ("040000000241424344", "04000002"),
    ("040000FFFD454647", "0402"),
    ("0200000100", "0200010000"),
    ("040000FFFD454647", "0401"),
    ("0300010004", "0300000241424344"),
    ("030001FFF8", "03000003454647"),
    ("060000", "06000003"),
    ("070000", "0700"),
    ("0300010004", "0302"),
    ("0300", "001E"),
];
