//! What the comparisons of the four calls share.

use std::fmt::{self, Display};
use std::io::{self, IsTerminal, Write};
use std::time::{Duration, Instant};

use oracle::refusals::{CELL_TOO_FAR, CODE_OUTSIDE, NO_MEANING, OUTPUT_LENGTH, OUTSIDE_DOMAIN};
use oracle::rng::Rng;

use crate::lent::{Around, OFFSETS, Place};

/// What a disagreement is: what differs, and the whole input.
pub type Comparison = Result<(), String>;

/// The refusals that the scope adds, and of which the original cannot be asked.
const ADDED: [u8; 5] = [
    NO_MEANING,
    CODE_OUTSIDE,
    CELL_TOO_FAR,
    OUTPUT_LENGTH,
    OUTSIDE_DOMAIN,
];

/// Something that is made wrong after the port's call, so that it is seen whether the comparison
/// notices.
#[derive(Clone, Copy)]
pub enum Wrong {
    /// The number that the call returns.
    Answer,
    /// The buffer that takes the result: a vector, an outcome or a macroblock.
    Result(Place),
    /// The predictors, or a plane of a reference, which is only read.
    Other(Place),
}

impl Display for Wrong {
    fn fmt(&self, f: &mut fmt::Formatter<'_>) -> fmt::Result {
        let (place, buffer) = match self {
            Self::Answer => return f.write_str("the answer"),
            Self::Result(place) => (place, "the result"),
            Self::Other(place) => (place, "the predictors or a plane"),
        };
        let place = match place {
            Place::Before => "before",
            Place::Within => "of",
            Place::Behind => "behind",
        };
        write!(f, "a byte {place} {buffer}")
    }
}

/// The numbers that C passes and that have no meaning for any argument, also such as 1, 8 or 16
/// bits of them would have.
pub const STRAYS: [u32; 12] = [
    4,
    5,
    7,
    255,
    256,
    257,
    258,
    1 << 16,
    (1 << 16) + 1,
    1 << 31,
    (1 << 31) + 1,
    u32::MAX,
];

/// A run of one call's comparison.
pub struct Run {
    pub rng: Rng,
    pub around: Around,
    pub wrong: Option<Wrong>,
    name: &'static str,
    cases: u64,
    added: u64,
    start: Instant,
    shown: Instant,
    terminal: bool,
}

impl Run {
    pub fn new(name: &'static str, seed: u64, around: Around) -> Self {
        let start = Instant::now();
        Self {
            rng: Rng::new(seed),
            around,
            wrong: None,
            name,
            cases: 0,
            added: 0,
            start,
            shown: start,
            terminal: io::stderr().is_terminal(),
        }
    }

    pub fn cases(&self) -> u64 {
        self.cases
    }

    /// Time counts from here.
    pub fn start(&mut self) {
        self.start = Instant::now();
    }

    pub fn added(&self) -> u64 {
        self.added
    }

    /// Counts a case by the answer that is right, and shows how far the run is, where somebody
    /// looks on.
    pub fn count(&mut self, answer: u8) {
        const EACH: Duration = Duration::from_millis(500);
        self.cases += 1;
        self.added += u64::from(ADDED.contains(&answer));
        if self.terminal && self.cases.is_multiple_of(1024) && self.shown.elapsed() >= EACH {
            self.shown = Instant::now();
            eprint!("\r{}: {} cases", self.name, self.cases);
            let _ = io::stderr().flush();
        }
    }

    /// Says how many cases agree, and how long they took.
    pub fn finish(&self) {
        if self.terminal {
            eprint!("\r\x1b[K");
        }
        println!(
            "{}: {} cases agree, {} of them refused by the scope alone; {:.1} s",
            self.name,
            self.cases,
            self.added,
            self.start.elapsed().as_secs_f64(),
        );
    }

    pub fn offset(&mut self) -> usize {
        self.rng.below(OFFSETS)
    }

    /// Whether it is one of so many times.
    pub fn once_in(&mut self, times: usize) -> bool {
        self.rng.below(times) == 0
    }

    pub fn any_i32(&mut self) -> i32 {
        self.rng.next_u64() as i32
    }

    pub fn any_u32(&mut self) -> u32 {
        self.rng.next_u64() as u32
    }

    /// A number that has no meaning where those below `kinds` have one.
    pub fn stray(&mut self, kinds: u32) -> u32 {
        match self.rng.below(3) {
            0 => kinds,
            1 => self.rng.pick(&STRAYS),
            _ => self.any_u32().max(kinds),
        }
    }

    /// A number below `kinds`; once in so many times one without a meaning.
    pub fn kind(&mut self, kinds: u32, stray_in: usize) -> u32 {
        if self.once_in(stray_in) {
            self.stray(kinds)
        } else {
            self.rng.below(kinds as usize) as u32
        }
    }

    /// So many drawn bytes, eight of a draw.
    pub fn bytes(&mut self, length: usize) -> Vec<u8> {
        let mut bytes = Vec::with_capacity(length + 8);
        while bytes.len() < length {
            bytes.extend_from_slice(&self.rng.next_u64().to_le_bytes());
        }
        bytes.truncate(length);
        bytes
    }
}

/// The bytes of a buffer that should hold these and has another length: cut off, or drawn on.
pub fn of_length(run: &mut Run, bytes: &[u8], length: usize) -> Vec<u8> {
    let mut bytes = bytes.to_vec();
    if length > bytes.len() {
        let more = run.bytes(length - bytes.len());
        bytes.extend(more);
    }
    bytes.truncate(length);
    bytes
}

/// The places of those that are false.
pub fn without_meaning(meaning: &[bool]) -> Vec<usize> {
    let places = meaning.iter().enumerate();
    places
        .filter_map(|(place, has)| (!has).then_some(place))
        .collect()
}
