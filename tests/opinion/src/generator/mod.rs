//! Random sessions: a generator of calls that looks at the model's state to reach deep states.

mod bad;
pub mod frames;
mod ordinary;
pub mod random;
mod sheets;

use crate::model::desk::Desk;
use frames::build_frame;
use random::Random;

#[derive(Clone, Debug)]
pub enum Call {
    /// A frame.
    Event(Vec<u8>),
    /// File, reader.
    Look(usize, usize),
    /// File, length of the output lent.
    Save(usize, usize),
    /// File, text.
    Load(usize, Vec<u8>),
}

/// What a stretch of a session leans to.
#[derive(Clone, Copy, PartialEq)]
enum Mood {
    Fill,
    Drain,
    Starve,
    Churn,
    Crowd,
    Clock,
    Mixed,
}

const MOODS: [Mood; 7] =
    [Mood::Fill, Mood::Drain, Mood::Starve, Mood::Churn, Mood::Crowd, Mood::Clock, Mood::Mixed];

pub struct Generator {
    random: Random,
    mood: Mood,
    /// The files in play.
    files: Vec<u8>,
    /// The shares a file is opened with while nobody has it open.
    shares: Vec<u8>,
    /// Sheets saved earlier.
    sheets: Vec<Vec<u8>>,
    bad_percent: usize,
    /// Many accessors at once: long queues, eight places full.
    crowded: bool,
    /// Timers that fall due together need equal timeouts.
    timeouts: Vec<u16>,
}

impl Generator {
    pub fn new(seed: u64) -> Generator {
        let mut random = Random::new(seed);
        let in_play = random.pick(&[1, 1, 2, 2, 3]);
        let mut numbers: Vec<u8> = (0..8).collect();
        let mut files = Vec::new();
        for _ in 0..in_play {
            let at = random.below(numbers.len());
            files.push(numbers.remove(at));
        }
        let crowded = random.percent(40);
        let mut shares =
            random.pick(&[vec![3], vec![3], vec![2], vec![1, 0], vec![0, 1, 2, 3], vec![2, 3, 3]]);
        if crowded {
            shares = random.pick(&[vec![3], vec![3], vec![2, 3, 3]]);
        }
        let bad_percent = random.pick(&[3, 8, 10, 15]);
        let timeouts = random.pick(&[vec![2], vec![3, 5], vec![1, 2, 3], vec![4, 4, 0, 6]]);
        Generator {
            random,
            mood: Mood::Mixed,
            files,
            shares,
            sheets: Vec::new(),
            bad_percent,
            crowded,
            timeouts,
        }
    }

    /// All eight files in play, with many accessors each.
    pub fn at_all_files(mut self) -> Generator {
        self.files = (0..8).collect();
        self.crowded = true;
        self
    }

    /// These files in play.
    pub fn at_files(mut self, files: &[usize]) -> Generator {
        self.files = files.iter().map(|file| *file as u8).collect();
        self
    }

    /// Remembers good sheets, to load them later.
    pub fn saw_sheet(&mut self, text: &[u8]) {
        if self.sheets.len() < 12 {
            self.sheets.push(text.to_vec());
        } else {
            let at = self.random.below(12);
            self.sheets[at] = text.to_vec();
        }
    }

    pub fn next_call(&mut self, desk: &Desk) -> Call {
        if self.random.percent(6) {
            self.mood = self.random.pick(&MOODS);
        }
        if self.random.percent(self.bad_percent) {
            return self.bad_call(desk);
        }
        let file = self.random.pick(&self.files);
        match desk.built(file.into()) {
            Ok(f) => self.call_on(desk, f, file),
            Err(_) => self.make_file(file),
        }
    }

    /// A file that is not built: by build, or by load.
    fn make_file(&mut self, file: u8) -> Call {
        if self.random.percent(25) {
            let text = self.good_sheet();
            return Call::Load(file.into(), text);
        }
        let (r, b, n, x) = self.geometry();
        Call::Event(build_frame(file, r, b, n, x))
    }
}
