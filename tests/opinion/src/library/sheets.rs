//! Sheets: good ones come back as they were, and of texts that differ a little from one the
//! library loads those that the model loads.

use super::bad_sheets::{damaged, every_byte, heads};
use super::caller::{unbuilt, Caller};
use super::case::Case;
use super::numbers::MUCH;
use super::program::Library;
use super::reached::Reached;
use super::sessions::send;
use super::tally::Tally;
use super::twin::Twin;
use crate::generator::random::Random;
use crate::generator::Call;
use crate::model::geometry::Geometry;
use crate::model::limits::{FILES, SHEET_BYTES};
use crate::model::record::{TYPE_CLOSE, TYPE_DATA, TYPE_OPEN};
use crate::model::sheet::{sheet_head, sheet_text};
use crate::model::status::DONE;
use crate::model::word::word;

/// A sheet with a record of each type, all sixteen digits, and room for one record more.
const SHORT: &[u8] = b"0100020200030005
00010001
00000001ABCDEF
00000002987654
0000FF01
00020001
";

/// R and B that make the longest records, the most records, the longest sheet.
const EXTREME: [(usize, usize); 8] =
    [(128, 1), (1, 1), (1, 16), (99, 10), (128, 15), (128, 2), (62, 16), (3, 7)];

/// Texts of every kind, loaded into a desk that some calls reached.
pub fn all_sheets(library: &Library, seed: u64, tally: &mut Tally) -> Result<(), Case> {
    let mut caller = Caller::new(seed);
    let mut random = Random::new(seed);
    let reached = Reached::by(&mut caller, random.between(20, 120));
    let file = unbuilt(&reached.desk);
    let mut sheets = vec![SHORT.to_vec(), caller.good_sheet(), caller.good_sheet()];
    let saved = (0..FILES).map(|n| reached.desk.save(n, SHEET_BYTES));
    sheets.extend(saved.filter(|(status, _)| *status == DONE).map(|(_, sheet)| sheet));
    sheets.push(full_sheet(seed, &mut random));
    let mut texts = heads();
    for sheet in &sheets {
        comes_back(library, sheet, file, tally)?;
        texts.extend(damaged(sheet));
        if sheet.len() <= SHORT.len() {
            texts.extend(every_byte(sheet));
        }
    }
    texts.extend(sheets);
    let calls: Vec<Call> = texts.into_iter().map(|text| Call::Load(file, text)).collect();
    reached.try_each(library, &calls, tally)
}

/// A sheet loads into a fresh desk, and saves again as itself, into exactly as many bytes or more.
pub fn comes_back(
    library: &Library,
    sheet: &[u8],
    file: usize,
    tally: &mut Tally,
) -> Result<(), Case> {
    let mut case = Case::default();
    let mut twin = Twin::fresh(library).map_err(|_| Case::default())?;
    let mut call = |call| send(call, &mut case, &mut twin, tally);
    let loaded = call(Call::Load(file, sheet.to_vec()))?;
    let again = call(Call::Save(file, sheet.len()))?;
    assert!(loaded.status == DONE && again.bytes == sheet, "the model does not bring a sheet back");
    for room in [sheet.len() - 1, 0, sheet.len() + 1, MUCH[0]] {
        call(Call::Save(file, room))?;
    }
    Ok(())
}

/// As many blocks and records as there can be, nearly all records as long as they can be.
fn full_sheet(seed: u64, random: &mut Random) -> Vec<u8> {
    let (r, b) = EXTREME[seed as usize % EXTREME.len()];
    let mut geometry = Geometry { record_words: r, blocking: b, data_blocks: 1 };
    geometry.data_blocks = 2048 / geometry.block_words();
    let held = geometry.capacity();
    let mut frames = vec![sheet_head(&geometry, held)];
    for _ in 0..held {
        let id = word(random.next() as u16 | 1);
        frames.push(match random.below(20) {
            0 => [word(random.pick(&[TYPE_OPEN, TYPE_CLOSE])), id].concat(),
            1 => [word(TYPE_DATA), id, vec![random.byte(); random.below(2 * r)]].concat(),
            _ => [word(TYPE_DATA), id, (0..2 * r).map(|_| random.byte()).collect()].concat(),
        });
    }
    sheet_text(&frames)
}
