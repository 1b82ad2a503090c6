//! `fozdrik_reconstruct_motion_vector` beside `reconstruct_motion_vector`.

use oracle::macroblock_modes::MvFormat;
use oracle::picture_header::PictureStructure;
use oracle::pmv::{Direction, Pmv, ReconstructedComponent, VectorIndex, vector_range};
use oracle::refusals::{ACCEPTED, NO_MEANING};
use oracle::vectors::{CODES, Coded, Mode, Vector};

use super::{Buffers, Expected, PREDICTORS, PREDICTORS_LENGTHS, Predictors, bytes, pmv as record};
use crate::coverage::Table;
use crate::run::{Comparison, Run, Wrong, without_meaning};
use oracle::port::fozdrik_reconstruct_motion_vector;

/// The right length of the vector's buffer.
const VECTOR: usize = 8;
/// Other lengths than 8.
const VECTOR_LENGTHS: [usize; 7] = [0, 1, 4, 7, 9, 16, 264];

const INDEXES: [VectorIndex; 2] = [VectorIndex::First, VectorIndex::Second];
const DIRECTIONS: [Direction; 2] = [Direction::Forward, Direction::Backward];
const FORMATS: [MvFormat; 2] = [MvFormat::Field, MvFormat::Frame];
const STRUCTURES: [PictureStructure; 3] = [
    PictureStructure::TopField,
    PictureStructure::BottomField,
    PictureStructure::Frame,
];

/// The numbers of the mode that halves the vertical predictor.
const FIELD_VECTOR: u32 = 0;
const FRAME_PICTURE: u32 = 2;

/// Codes far outside, also such as 5, 8 or 16 bits of them would be taken.
const FAR_CODES: [i32; 12] = [
    128,
    -129,
    255,
    256 + 3,
    -65_536 - 16,
    65_536 + 16,
    16_777_201,
    1 << 24,
    i32::MIN,
    i32::MIN + 1,
    i32::MAX - 1,
    i32::MAX,
];

/// What 38 is for, in the order of `Case::meaning`.
const ARGUMENTS: [&str; 8] = [
    "r",
    "s",
    "mv_format",
    "picture_structure",
    "motion_residual_horiz_present",
    "motion_residual_vert_present",
    "predictors_len",
    "vector_len",
];

/// What C passes for a component.
#[derive(Debug, Clone, Copy)]
struct Part {
    code: i32,
    present: u32,
    residual: u8,
    f_code: u8,
}

impl Part {
    /// What it means. A residual beside a presence of 0 is left unread.
    fn coded(self) -> Coded {
        Coded {
            code: self.code,
            residual: (self.present == 1).then_some(self.residual),
            f_code: self.f_code,
        }
    }

    /// The difference, where the scope has one.
    fn delta(self) -> Option<i32> {
        let Self {
            code,
            residual,
            f_code,
            ..
        } = self;
        let f = match f_code {
            1..=9 => 1 << (f_code - 1),
            _ => return None,
        };
        if !CODES.contains(&code) {
            return None;
        }
        if f == 1 || code == 0 {
            return Some(code);
        }
        Some(code.signum() * ((code.abs() - 1) * f + i32::from(residual) + 1))
    }
}

/// What C passes.
#[derive(Debug, Clone, Copy)]
struct Case {
    r: u32,
    s: u32,
    horizontal: Part,
    vertical: Part,
    mv_format: u32,
    picture_structure: u32,
    predictors: Predictors,
    predictors_length: usize,
    vector_length: usize,
}

impl Case {
    /// Whether each of `ARGUMENTS` has a meaning: the scope's refusal 38, which comes before all
    /// else and which the original does not have.
    fn meaning(&self) -> [bool; ARGUMENTS.len()] {
        [
            self.r < 2,
            self.s < 2,
            self.mv_format < 2,
            self.picture_structure < 3,
            self.horizontal.present < 2,
            self.vertical.present < 2,
            self.predictors_length == PREDICTORS,
            self.vector_length == VECTOR,
        ]
    }

    /// What is asked of the original where all has a meaning.
    fn vector(&self) -> Vector {
        Vector {
            r: INDEXES[self.r as usize],
            s: DIRECTIONS[self.s as usize],
            horizontal: self.horizontal.coded(),
            vertical: self.vertical.coded(),
            mode: Mode {
                format: FORMATS[self.mv_format as usize],
                structure: STRUCTURES[self.picture_structure as usize],
            },
        }
    }

    fn halves(&self) -> bool {
        self.mv_format == FIELD_VECTOR && self.picture_structure == FRAME_PICTURE
    }

    /// Where the predictors of this vector are.
    fn place(&self) -> usize {
        4 * self.r as usize + 2 * self.s as usize
    }
}

/// The largest residual of an f_code that the stream can have.
fn bits_below(f_code: u8) -> u8 {
    match f_code {
        1..=8 => (1 << (f_code - 1)) - 1,
        _ => u8::MAX,
    }
}

/// What was met.
struct Coverage {
    no_meaning: Table,
    answers: Table,
    components: Table,
    kept: Table,
}

const HORIZONTAL: usize = 0;
const VERTICAL: usize = 1;
const HALVED: usize = 2;

impl Coverage {
    fn new() -> Self {
        Self {
            no_meaning: Table::new(
                "vectors: 38 for one argument alone",
                &ARGUMENTS,
                &["cases"],
                &[],
            ),
            answers: Table::new(
                "vectors: refusals of each part",
                &["1", "2", "3", "4", "5", "6"],
                &["horizontal", "vertical", "vertical, halved"],
                &[],
            ),
            components: Table::new(
                "vectors: accepted parts",
                &[
                    "the code is the difference",
                    "with a residual",
                    "difference below 0",
                    "difference 0",
                    "difference above 0",
                    "no wrap",
                    "wrapped from below",
                    "wrapped from above",
                    "predictor below 0 and odd",
                ],
                &["horizontal", "vertical", "vertical, halved"],
                &[],
            ),
            kept: Table::new(
                "vectors: a new horizontal predictor stays where the vertical part is refused",
                &["1", "2", "3", "4", "5", "6"],
                &["cases"],
                &[],
            ),
        }
    }

    /// Counts a case whose numbers all have a meaning.
    fn count(&mut self, case: &Case, answer: Result<[ReconstructedComponent; 2], u8>, after: &Pmv) {
        let vertical = if case.halves() { HALVED } else { VERTICAL };
        let place = case.place();
        let number = match answer {
            Ok(parts) => {
                let prior = &case.predictors[place..];
                self.count_part(case.horizontal, prior[0], HORIZONTAL, parts[0]);
                self.count_part(case.vertical, prior[1], vertical, parts[1]);
                return;
            }
            Err(number) => usize::from(number) - 1,
        };
        // The vertical part refused if the horizontal one alone does not.
        let vector = case.vector();
        let alone = Vector {
            vertical: Coded {
                code: 0,
                residual: None,
                f_code: 1,
            },
            ..vector
        };
        let mut before = case.predictors;
        before[place + 1] = 0;
        if alone.ask(record(before)).0.is_err() {
            self.answers.count(number, HORIZONTAL);
            return;
        }
        self.answers.count(number, vertical);
        let values = after.values.as_flattened().as_flattened();
        if values[place] != case.predictors[place] {
            self.kept.count(number, 0);
        }
    }

    fn count_part(&mut self, part: Part, prior: i32, column: usize, made: ReconstructedComponent) {
        let with_residual = usize::from(part.present == 1);
        let sign = match made.delta {
            ..0 => 2,
            0 => 3,
            1.. => 4,
        };
        let prediction = i64::from(if column == HALVED {
            prior.div_euclid(2)
        } else {
            prior
        });
        let sum = prediction + i64::from(made.delta);
        let wrap = match i64::from(made.vector_prime) - sum {
            0 => 5,
            1.. => 6,
            ..0 => 7,
        };
        for row in [with_residual, sign, wrap] {
            self.components.count(row, column);
        }
        if prior < 0 && prior % 2 != 0 {
            self.components.count(8, column);
        }
    }
}

/// The comparison of vectors.
pub struct Vectors {
    run: Run,
    buffers: Buffers,
    coverage: Coverage,
}

impl Vectors {
    pub fn new(run: Run) -> Self {
        Self {
            buffers: Buffers::new(&run),
            run,
            coverage: Coverage::new(),
        }
    }

    /// All cases: those at the limits, and `drawn` drawn ones.
    pub fn compare(&mut self, drawn: u64) -> Comparison {
        self.run.start();
        self.meaningless()?;
        self.codes()?;
        self.edges()?;
        for _ in 0..drawn {
            let case = self.draw();
            self.compare_one(&case)?;
        }
        self.run.finish();
        Ok(())
    }

    pub fn run(&self) -> &Run {
        &self.run
    }

    pub fn tables(&self) -> [&Table; 4] {
        let Coverage {
            no_meaning,
            answers,
            components,
            kept,
        } = &self.coverage;
        [no_meaning, answers, components, kept]
    }

    /// An accepted case and a refused one, for `--wrong`.
    pub fn compare_two(&mut self, wrong: Option<Wrong>) -> [Comparison; 2] {
        self.run.wrong = wrong;
        let accepted = self.draw_accepted();
        let mut refused = accepted;
        refused.vertical.f_code = 0;
        [accepted, refused].map(|case| self.compare_one(&case))
    }

    fn compare_one(&mut self, case: &Case) -> Comparison {
        let lengths = [case.predictors_length, case.vector_length];
        self.buffers.fill(&mut self.run, &case.predictors, lengths);
        let expected = self.expected(case);
        self.run.count(expected.answer);
        let answer = self.call(case);
        self.buffers
            .check(self.run.wrong, answer, &expected)
            .map_err(|what| format!("case {}: {what}\n{case:#?}", self.run.cases()))
    }

    /// What the scope says: 38, and else what the original answers, with its own refusal 2.
    fn expected(&mut self, case: &Case) -> Expected {
        let Buffers { predictors, result } = &self.buffers;
        let strays = without_meaning(&case.meaning());
        if !strays.is_empty() {
            if let [alone] = strays[..] {
                self.coverage.no_meaning.count(alone, 0);
            }
            return Expected {
                answer: NO_MEANING,
                predictors: predictors.bytes().to_vec(),
                result: result.bytes().to_vec(),
            };
        }
        let (answer, after) = case.vector().ask(record(case.predictors));
        self.coverage.count(case, answer, &after);
        let vector = answer.map(|parts| bytes(&parts.map(|part| part.vector_prime)));
        Expected {
            answer: answer.err().unwrap_or(ACCEPTED),
            predictors: bytes(after.values.as_flattened().as_flattened()),
            result: vector.unwrap_or_else(|_| result.bytes().to_vec()),
        }
    }

    fn call(&mut self, case: &Case) -> u32 {
        let Buffers { predictors, result } = &mut self.buffers;
        // SAFETY: there are as many bytes behind each pointer as the length says, and the two do
        // not overlap.
        unsafe {
            fozdrik_reconstruct_motion_vector(
                case.r,
                case.s,
                case.horizontal.code,
                case.horizontal.present,
                case.horizontal.residual,
                case.vertical.code,
                case.vertical.present,
                case.vertical.residual,
                case.horizontal.f_code,
                case.vertical.f_code,
                case.mv_format,
                case.picture_structure,
                predictors.pointer(),
                predictors.length(),
                result.pointer(),
                result.length(),
            )
        }
    }

    /// Each argument that has no meaning, with all else in order; each wrong length.
    fn meaningless(&mut self) -> Comparison {
        const ROUNDS: usize = 200;
        for _ in 0..ROUNDS {
            for argument in 0..ARGUMENTS.len() {
                let mut case = self.draw_accepted();
                let run = &mut self.run;
                match argument {
                    0 => case.r = run.stray(2),
                    1 => case.s = run.stray(2),
                    2 => case.mv_format = run.stray(2),
                    3 => case.picture_structure = run.stray(3),
                    4 => case.horizontal.present = run.stray(2),
                    5 => case.vertical.present = run.stray(2),
                    6 => case.predictors_length = run.rng.pick(&PREDICTORS_LENGTHS),
                    _ => case.vector_length = run.rng.pick(&VECTOR_LENGTHS),
                }
                self.compare_one(&case)?;
            }
        }
        Ok(())
    }

    /// Every f_code by every code of a byte and some far ones, with and without a residual, in
    /// either part.
    fn codes(&mut self) -> Comparison {
        for f_code in 0..=u8::MAX {
            for code in (-128..=127).chain(FAR_CODES) {
                for (present, residual) in [(0, self.run.rng.byte()), (1, 0), (1, u8::MAX)] {
                    let part = Part {
                        code,
                        present,
                        residual,
                        f_code,
                    };
                    let mut case = self.draw_accepted();
                    if self.run.once_in(2) {
                        case.horizontal = part;
                    } else {
                        case.vertical = part;
                    }
                    self.compare_one(&case)?;
                }
            }
        }
        Ok(())
    }

    /// Every f_code, code and residual that is taken, with predictors on both sides of each place
    /// where the answer changes: a wrap, and the end of what one wrap brings back.
    fn edges(&mut self) -> Comparison {
        for f_code in 1..=9 {
            let (low, high, range) = vector_range(f_code).expect("it is taken");
            for code in CODES {
                let with_residual = f_code > 1 && code != 0;
                let residuals = if with_residual { 0..=u8::MAX } else { 0..=0 };
                for residual in residuals {
                    let part = Part {
                        code,
                        present: with_residual.into(),
                        residual,
                        f_code,
                    };
                    let delta = part.delta().expect("it is taken");
                    for sum in [low - range, low, high, high + range] {
                        for near in -1..=1 {
                            self.edge(part, sum + near - delta)?;
                        }
                    }
                }
            }
        }
        Ok(())
    }

    /// A part by a prediction: as the horizontal one, as the vertical one, and halved.
    fn edge(&mut self, part: Part, prediction: i32) -> Comparison {
        for column in [HORIZONTAL, VERTICAL, HALVED] {
            let mut case = self.draw_accepted();
            let place = case.place();
            if column == HORIZONTAL {
                case.horizontal = part;
                case.predictors[place] = prediction;
                self.compare_one(&case)?;
                continue;
            }
            case.vertical = part;
            let halved = column == HALVED;
            if halved != case.halves() {
                let (format, structure) = if halved {
                    (FIELD_VECTOR, FRAME_PICTURE)
                } else {
                    (1, self.run.rng.below(3) as u32)
                };
                case.mv_format = format;
                case.picture_structure = structure;
            }
            case.predictors[place + 1] = if halved {
                2 * prediction + self.run.rng.between(0, 1)
            } else {
                prediction
            };
            self.compare_one(&case)?;
        }
        Ok(())
    }

    /// A case that is accepted: both parts are within the range, and so are their predictors.
    fn draw_accepted(&mut self) -> Case {
        let parts = [(); 2].map(|()| {
            let f_code = self.run.rng.between(1, 9) as u8;
            let code = self.run.rng.between(-15, 15);
            self.residual(code, f_code, bits_below(f_code))
        });
        let mut predictors = [(); 8].map(|()| self.run.any_i32());
        let [r, s] = [(); 2].map(|()| self.run.rng.below(2) as u32);
        let place = 4 * r as usize + 2 * s as usize;
        for (t, part) in parts.iter().enumerate() {
            let (low, high, _) = vector_range(part.f_code).expect("it is taken");
            predictors[place + t] = self.run.rng.between(low, high);
        }
        Case {
            r,
            s,
            horizontal: parts[0],
            vertical: parts[1],
            mv_format: self.run.rng.below(2) as u32,
            picture_structure: self.run.rng.below(3) as u32,
            predictors,
            predictors_length: PREDICTORS,
            vector_length: VECTOR,
        }
    }

    /// A part with the residual that it needs, of the bits `most`; or with a number left unread.
    fn residual(&mut self, code: i32, f_code: u8, most: u8) -> Part {
        let present = u32::from(f_code != 1 && code != 0);
        let residual = self.run.rng.byte();
        let residual = if present == 1 {
            residual & most
        } else {
            residual
        };
        Part {
            code,
            present,
            residual,
            f_code,
        }
    }

    /// Anything, though mostly near what is accepted.
    fn draw(&mut self) -> Case {
        const STRAY_IN: usize = 256;
        let parts = [(); 2].map(|()| self.draw_part());
        let run = &mut self.run;
        let mut predictors = [(); 8].map(|()| run.any_i32());
        let [r, s, mv_format] = [(); 3].map(|()| run.kind(2, STRAY_IN));
        let picture_structure = run.kind(3, STRAY_IN);
        let mut case = Case {
            r,
            s,
            horizontal: parts[0],
            vertical: parts[1],
            mv_format,
            picture_structure,
            predictors,
            predictors_length: PREDICTORS,
            vector_length: VECTOR,
        };
        if run.once_in(STRAY_IN) {
            case.predictors_length = run.rng.pick(&PREDICTORS_LENGTHS);
        }
        if run.once_in(STRAY_IN) {
            case.vector_length = run.rng.pick(&VECTOR_LENGTHS);
        }
        if case.r < 2 && case.s < 2 {
            let place = case.place();
            predictors[place] = self.draw_prior(parts[0], false);
            predictors[place + 1] = self.draw_prior(parts[1], case.halves());
        }
        case.predictors = predictors;
        case
    }

    fn draw_part(&mut self) -> Part {
        let run = &mut self.run;
        let f_code = if run.once_in(16) {
            run.rng.byte()
        } else {
            run.rng.between(1, 9) as u8
        };
        let code = match run.rng.below(32) {
            0 => run.rng.between(-128, 127),
            1 => run.rng.pick(&FAR_CODES),
            2 => run.any_i32(),
            3 => run.rng.pick(&[-17, -16, 0, 16, 17]),
            _ => run.rng.between(-16, 16),
        };
        // Mostly as many bits as the stream has: more of them are mostly refused with 5.
        let most = if run.once_in(4) {
            u8::MAX
        } else {
            bits_below(f_code)
        };
        let mut part = self.residual(code, f_code, most);
        match self.run.rng.below(256) {
            0 => part.present = self.run.stray(2),
            1..12 => part.present = 1 - part.present,
            _ => {}
        }
        part
    }

    /// A predictor: where the answer changes, within the range, near it, or anywhere.
    fn draw_prior(&mut self, part: Part, halved: bool) -> i32 {
        let run = &mut self.run;
        let (low, high, range) = vector_range(part.f_code).unwrap_or((-16, 15, 32));
        let delta = part.delta().unwrap_or(0);
        let prediction = match run.rng.below(8) {
            0 => run.any_i32(),
            1 => {
                let ends = [i32::MIN, i32::MAX, i32::MIN / 2, i32::MAX / 2];
                run.rng.pick(&ends).wrapping_add(run.rng.between(-2, 2))
            }
            2 | 3 => {
                run.rng.pick(&[low - range, low, high, high + range]) - delta
                    + run.rng.between(-2, 2)
            }
            4 => run.rng.between(2 * low, 2 * high + 1),
            _ => run.rng.between(low, high),
        };
        if halved {
            prediction
                .wrapping_mul(2)
                .wrapping_add(run.rng.between(0, 1))
        } else {
            prediction
        }
    }
}
