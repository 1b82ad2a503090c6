//! The text of a list, in the format that every replay program reads.

use std::fmt::{self, Display};
use std::iter;

use oracle::rng::Rng;

pub use oracle::refusals::{ACCEPTED, OUTPUT_LENGTH};

/// Where the original's files are from.
pub const ORIGINAL: &str =
    "OxideAV/oxideav-mpeg12video at commit 57648ece95, tests and some items cut";

/// No byte string of a list is longer: the replay programs may rely on it.
const LONGEST: usize = 1024;

/// No list is longer: the replay programs read it into a buffer that holds a byte more.
const LARGEST: usize = (1 << 20) - 1;

/// What every list says of its format.
const NOTATION: &str = "\
One case a line, its fields separated by one blank; lines that start with # are comments.
Byte strings are lower-case hexadecimal, two digits a byte, and - is the empty one.
Numbers are decimal, with a minus if negative.";

/// Which list of a layer is made.
#[derive(Clone, Copy)]
pub enum Edition {
    /// The one that is kept in the repository. Its last group is wrong on purpose.
    Kept,
    /// One that is drawn from another seed, in which nothing is wrong.
    Drawn(u64),
}

impl Edition {
    /// What it is drawn from; `kept` is the seed of the list that is kept.
    pub fn seed(self, kept: u64) -> u64 {
        match self {
            Self::Kept => kept,
            Self::Drawn(seed) => seed,
        }
    }

    pub fn is_kept(self) -> bool {
        matches!(self, Self::Kept)
    }
}

/// A kind of line.
pub struct Kind {
    /// Its first field.
    pub number: &'static str,
    /// What it asks.
    pub call: &'static str,
    /// Where the call may be refused: the field that has the answer, and the answers that it can
    /// have, each of which a list has to have.
    pub answer: Option<(usize, &'static [u8])>,
}

pub const fn kind(number: &'static str, call: &'static str) -> Kind {
    Kind {
        number,
        call,
        answer: None,
    }
}

pub const fn refusing(
    number: &'static str,
    call: &'static str,
    field: usize,
    answers: &'static [u8],
) -> Kind {
    Kind {
        number,
        call,
        answer: Some((field, answers)),
    }
}

/// A list of cases, each with the original's answer.
pub struct List {
    /// What the list is about, in a word.
    pub name: &'static str,
    /// The file it is kept in, below the root of the repository.
    pub place: &'static str,
    pub kinds: &'static [Kind],
    /// How it was made, in a few plain lines.
    pub made: String,
    pub text: String,
    pub cases: usize,
}

impl List {
    /// A list without cases. Its text opens with `made` and with `fields`, the meaning of
    /// the fields.
    pub fn new(
        name: &'static str,
        place: &'static str,
        kinds: &'static [Kind],
        made: &str,
        fields: &str,
    ) -> Self {
        let mut list = Self {
            name,
            place,
            kinds,
            made: made.to_owned(),
            text: String::new(),
            cases: 0,
        };
        list.comment(&format!(
            "The {name} list. Written by differential/, binary `lists`: not to be edited by hand."
        ));
        list.group(made);
        list.group(NOTATION);
        list.group(fields);
        list
    }

    /// Opens a part of the list with a comment that says what it is.
    pub fn group(&mut self, what: &str) {
        self.line("#");
        self.comment(what);
    }

    /// Adds a case. Stops at a line that breaks the format, which is a slip in the maker.
    pub fn case(&mut self, case: impl Display) {
        let line = case.to_string();
        assert!(!line.starts_with('#'), "a case reads as a comment: {line}");
        for field in line.split(' ') {
            assert!(
                (1..=2 * LONGEST).contains(&field.len()),
                "a field is empty or too long: {line}"
            );
        }
        self.line(&line);
        self.cases += 1;
    }

    fn comment(&mut self, text: &str) {
        for line in text.lines() {
            self.line(&format!("# {line}"));
        }
    }

    fn line(&mut self, line: &str) {
        assert!(
            line.bytes().all(|byte| matches!(byte, b' '..=b'~')),
            "a line is not plain ASCII: {line}"
        );
        self.text.push_str(line);
        self.text.push('\n');
        assert!(
            self.text.len() <= LARGEST,
            "the list is longer than {LARGEST} bytes"
        );
    }
}

/// A byte string as the lists write it.
pub struct Hex<'a>(pub &'a [u8]);

impl Display for Hex<'_> {
    fn fmt(&self, f: &mut fmt::Formatter<'_>) -> fmt::Result {
        if self.0.is_empty() {
            return f.write_str("-");
        }
        for byte in self.0 {
            write!(f, "{byte:02x}")?;
        }
        Ok(())
    }
}

/// The samples of planes that a list gives by a seed, which the replay draws too: so simple that
/// both do so alike, and with all values.
pub struct Samples(pub u64);

impl Iterator for Samples {
    type Item = u8;

    fn next(&mut self) -> Option<u8> {
        self.0 = (self.0 % (1 << 31) * 1_103_515_245 + 12_345) % (1 << 31);
        Some((self.0 >> 16) as u8)
    }
}

/// What an output holds before the call.
pub fn ramp(fill: u8, length: usize) -> Vec<u8> {
    (0..=u8::MAX)
        .cycle()
        .skip(fill.into())
        .take(length)
        .collect()
}

/// A first byte of the output with which no sample is what the output holds at its place, where
/// there is one: a sample that should have been written and was not shows, and so does one that
/// should not have been and was.
pub fn telling_fill(rng: &mut Rng, samples: &[u8]) -> u8 {
    let apart = |fill: &u8| {
        iter::zip(samples, ramp(*fill, samples.len())).all(|(sample, held)| *sample != held)
    };
    let first = rng.byte();
    (0..=u8::MAX)
        .map(|step| first.wrapping_add(step))
        .find(apart)
        .unwrap_or(first)
}
