//! `fozdrik_update_predictors` beside `update_predictors`.

use oracle::macroblock_modes::PredictionType;
use oracle::picture_header::PictureStructure;
use oracle::pmv::PmvUpdateContext;
use oracle::refusals::{ACCEPTED, NO_MEANING};
use oracle::vectors::update;

use super::{Buffers, Expected, PREDICTORS, PREDICTORS_LENGTHS, Predictors, bytes, pmv as record};
use crate::coverage::Table;
use crate::run::{Comparison, Run, Wrong, without_meaning};
use oracle::port::fozdrik_update_predictors;

/// The right length of the outcome's buffer.
const OUTCOME: usize = 1;
/// Other lengths than 1.
const OUTCOME_LENGTHS: [usize; 5] = [0, 2, 4, 8, 257];

const STRUCTURES: [PictureStructure; 3] = [
    PictureStructure::TopField,
    PictureStructure::BottomField,
    PictureStructure::Frame,
];
const TYPES: [PredictionType; 4] = [
    PredictionType::FieldBased,
    PredictionType::FrameBased,
    PredictionType::SixteenByEight,
    PredictionType::DualPrime,
];

/// What 38 is for, in the order of `Case::meaning`.
const ARGUMENTS: [&str; 9] = [
    "picture_structure",
    "prediction_type_present",
    "prediction_type",
    "macroblock_motion_forward",
    "macroblock_motion_backward",
    "macroblock_intra",
    "concealment_motion_vectors",
    "predictors_len",
    "outcome_len",
];

/// What C passes.
#[derive(Debug, Clone, Copy)]
struct Case {
    picture_structure: u32,
    present: u32,
    prediction_type: u32,
    forward: u32,
    backward: u32,
    intra: u32,
    concealment: u32,
    predictors: Predictors,
    predictors_length: usize,
    outcome_length: usize,
}

impl Case {
    /// Whether each of `ARGUMENTS` has a meaning: the scope's refusal 38, which comes before all
    /// else and which the original does not have. A type beside a presence of 0 is left unread.
    fn meaning(&self) -> [bool; ARGUMENTS.len()] {
        [
            self.picture_structure < 3,
            self.present < 2,
            self.present != 1 || self.prediction_type < 4,
            self.forward < 2,
            self.backward < 2,
            self.intra < 2,
            self.concealment < 2,
            self.predictors_length == PREDICTORS,
            self.outcome_length == OUTCOME,
        ]
    }

    /// What is asked of the original where all has a meaning.
    fn context(&self) -> PmvUpdateContext {
        PmvUpdateContext {
            picture_structure: STRUCTURES[self.picture_structure as usize],
            prediction_type: (self.present == 1).then(|| TYPES[self.prediction_type as usize]),
            macroblock_motion_forward: self.forward == 1,
            macroblock_motion_backward: self.backward == 1,
            macroblock_intra: self.intra == 1,
            concealment_motion_vectors: self.concealment == 1,
        }
    }
}

/// What was met.
struct Coverage {
    no_meaning: Table,
    refusals: Table,
    outcomes: Table,
    none_rows: Table,
}

const PICTURES: [&str; 3] = ["top field", "bottom field", "frame"];
const FIRST_REFUSAL: u8 = 7;
const NO_UPDATE: u8 = 6;

impl Coverage {
    fn new() -> Self {
        Self {
            no_meaning: Table::new(
                "updates: 38 for one argument alone",
                &ARGUMENTS,
                &["cases"],
                &[],
            ),
            refusals: Table::new(
                "updates: refusals, by the picture",
                &["7", "8", "9", "10", "11", "12"],
                &PICTURES,
                // Frame-based is refused in field pictures, 16 x 8 in frame pictures.
                &[(2, 2), (3, 0), (3, 1)],
            ),
            outcomes: Table::new(
                "updates: rows of Tables 7-11 and 7-10, by the picture",
                &[
                    "0 intra, concealment: forward copied",
                    "1 intra: all zero",
                    "2 both copied",
                    "3 forward copied",
                    "4 backward copied",
                    "5 no motion: all zero",
                    "6 none",
                    "7 dual prime: forward copied",
                ],
                &PICTURES,
                &[],
            ),
            none_rows: Table::new(
                "updates: the row \"none\", by the flags",
                &["forward", "backward", "both"],
                &PICTURES,
                &[],
            ),
        }
    }

    /// Counts a case whose numbers all have a meaning.
    fn count(&mut self, case: &Case, answer: Result<u8, u8>) {
        let picture = case.picture_structure as usize;
        match answer {
            Err(number) => self
                .refusals
                .count(usize::from(number - FIRST_REFUSAL), picture),
            Ok(outcome) => self.outcomes.count(outcome.into(), picture),
        }
        if answer == Ok(NO_UPDATE) {
            let flags = case.forward + 2 * case.backward;
            self.none_rows.count(flags as usize - 1, picture);
        }
    }
}

/// The comparison of updates.
pub struct Updates {
    run: Run,
    buffers: Buffers,
    coverage: Coverage,
}

impl Updates {
    pub fn new(run: Run) -> Self {
        Self {
            buffers: Buffers::new(&run),
            run,
            coverage: Coverage::new(),
        }
    }

    /// All cases: every context, and `drawn` drawn ones.
    pub fn compare(&mut self, drawn: u64) -> Comparison {
        self.run.start();
        self.all()?;
        for _ in 0..drawn {
            let case = self.draw();
            self.compare_one(&case)?;
        }
        self.run.finish();
        Ok(())
    }

    pub fn run(&self) -> &Run {
        &self.run
    }

    pub fn tables(&self) -> [&Table; 4] {
        let Coverage {
            no_meaning,
            refusals,
            outcomes,
            none_rows,
        } = &self.coverage;
        [no_meaning, refusals, outcomes, none_rows]
    }

    /// An accepted case and a refused one, for `--wrong`.
    pub fn compare_two(&mut self, wrong: Option<Wrong>) -> [Comparison; 2] {
        self.run.wrong = wrong;
        let accepted = Case {
            picture_structure: 2,
            present: 1,
            prediction_type: 1,
            forward: 1,
            backward: 1,
            intra: 0,
            concealment: 0,
            predictors: [1, 2, 3, 4, 5, 6, 7, 8],
            predictors_length: PREDICTORS,
            outcome_length: OUTCOME,
        };
        let refused = Case {
            intra: 1,
            ..accepted
        };
        [accepted, refused].map(|case| self.compare_one(&case))
    }

    fn compare_one(&mut self, case: &Case) -> Comparison {
        let lengths = [case.predictors_length, case.outcome_length];
        self.buffers.fill(&mut self.run, &case.predictors, lengths);
        let expected = self.expected(case);
        self.run.count(expected.answer);
        let answer = self.call(case);
        self.buffers
            .check(self.run.wrong, answer, &expected)
            .map_err(|what| format!("case {}: {what}\n{case:#?}", self.run.cases()))
    }

    /// What the scope says: 38, and else what the original answers.
    fn expected(&mut self, case: &Case) -> Expected {
        let Buffers { predictors, result } = &self.buffers;
        let strays = without_meaning(&case.meaning());
        if !strays.is_empty() {
            if let [alone] = strays[..] {
                self.coverage.no_meaning.count(alone, 0);
            }
            return Expected {
                answer: NO_MEANING,
                predictors: predictors.bytes().to_vec(),
                result: result.bytes().to_vec(),
            };
        }
        let (answer, after) = update(record(case.predictors), case.context());
        let answer = answer.map(|outcome| outcome as u8);
        self.coverage.count(case, answer);
        Expected {
            answer: answer.err().unwrap_or(ACCEPTED),
            predictors: bytes(after.values.as_flattened().as_flattened()),
            result: answer.map_or_else(|_| result.bytes().to_vec(), |outcome| vec![outcome]),
        }
    }

    fn call(&mut self, case: &Case) -> u32 {
        let Buffers { predictors, result } = &mut self.buffers;
        // SAFETY: there are as many bytes behind each pointer as the length says, and the two do
        // not overlap.
        unsafe {
            fozdrik_update_predictors(
                case.picture_structure,
                case.present,
                case.prediction_type,
                case.forward,
                case.backward,
                case.intra,
                case.concealment,
                predictors.pointer(),
                predictors.length(),
                result.pointer(),
                result.length(),
            )
        }
    }

    /// Every context, and every one with numbers that are one too large; each wrong length.
    fn all(&mut self) -> Comparison {
        const ROUNDS: usize = 20;
        for _ in 0..ROUNDS {
            for index in 0..4 * 3 * 5 * 3 * 3 * 3 * 3 {
                let mut rest = index;
                let mut digit = |base: u32| {
                    let digit = rest % base;
                    rest /= base;
                    digit
                };
                let case = Case {
                    picture_structure: digit(4),
                    present: digit(3),
                    prediction_type: digit(5),
                    forward: digit(3),
                    backward: digit(3),
                    intra: digit(3),
                    concealment: digit(3),
                    predictors: self.draw_predictors(),
                    predictors_length: PREDICTORS,
                    outcome_length: OUTCOME,
                };
                self.compare_one(&case)?;
            }
            for length in PREDICTORS_LENGTHS {
                let case = Case {
                    predictors_length: length,
                    ..self.draw_meaning()
                };
                self.compare_one(&case)?;
            }
            for length in OUTCOME_LENGTHS {
                let case = Case {
                    outcome_length: length,
                    ..self.draw_meaning()
                };
                self.compare_one(&case)?;
            }
        }
        Ok(())
    }

    /// A case whose numbers all have a meaning, some of them left unread.
    fn draw_meaning(&mut self) -> Case {
        let predictors = self.draw_predictors();
        let run = &mut self.run;
        let mut flag = || run.rng.below(2) as u32;
        let [present, forward, backward, intra, concealment] = [(); 5].map(|()| flag());
        let prediction_type = if present == 1 {
            run.rng.below(4) as u32
        } else {
            run.stray(0)
        };
        Case {
            picture_structure: run.rng.below(3) as u32,
            present,
            prediction_type,
            forward,
            backward,
            intra,
            concealment,
            predictors,
            predictors_length: PREDICTORS,
            outcome_length: OUTCOME,
        }
    }

    /// Anything, though mostly of a meaning.
    fn draw(&mut self) -> Case {
        let mut case = self.draw_meaning();
        if !self.run.once_in(16) {
            return case;
        }
        let run = &mut self.run;
        for _ in 0..=run.rng.below(2) {
            match run.rng.below(ARGUMENTS.len()) {
                0 => case.picture_structure = run.stray(3),
                1 => case.present = run.stray(2),
                2 => case.prediction_type = run.stray(4),
                3 => case.forward = run.stray(2),
                4 => case.backward = run.stray(2),
                5 => case.intra = run.stray(2),
                6 => case.concealment = run.stray(2),
                7 => case.predictors_length = run.rng.pick(&PREDICTORS_LENGTHS),
                _ => case.outcome_length = run.rng.pick(&OUTCOME_LENGTHS),
            }
        }
        case
    }

    fn draw_predictors(&mut self) -> Predictors {
        let ends = self.run.once_in(16);
        [(); 8].map(|()| {
            if ends {
                self.run.rng.pick(&[i32::MIN, -1, 0, i32::MAX])
            } else {
                self.run.any_i32()
            }
        })
    }
}
