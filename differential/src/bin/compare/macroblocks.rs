//! `fozdrik_predict_frame_macroblock` beside `predict_frame_macroblock_planes`, and
//! `fozdrik_predict_field_macroblock` beside `predict_field_based_macroblock_planes`.

mod case;
mod causes;
mod coverage;
mod draw;
mod scene;

use std::iter;

use oracle::macroblocks::{LARGEST_SIDE, LAST_CELL, Question, macroblock_length};
use oracle::refusals::{ACCEPTED, NO_MEANING};

pub use case::Call;
use case::{Case, Declared, FORMATS};
use coverage::Coverage;
use scene::Scene;

use crate::coverage::Table;
use crate::lent::{Around, Lent};
use crate::run::{Comparison, Run, Wrong, without_meaning};

/// The comparison of one of the two calls.
pub struct Macroblocks {
    call: Call,
    run: Run,
    out: Lent,
    coverage: Coverage,
}

impl Macroblocks {
    pub fn new(call: Call, run: Run) -> Self {
        Self {
            call,
            out: Lent::new(run.around),
            run,
            coverage: Coverage::new(call),
        }
    }

    /// All cases: the scope's own, those at the limits, and `drawn` drawn ones.
    pub fn compare(&mut self, drawn: u64) -> Comparison {
        self.run.start();
        self.scope_cases()?;
        self.causes()?;
        self.meaningless()?;
        self.unfit()?;
        if self.run.around == Around::Guards {
            self.largest()?;
        }
        self.drawn(drawn)?;
        self.run.finish();
        Ok(())
    }

    pub fn run(&self) -> &Run {
        &self.run
    }

    pub fn tables(&self) -> Vec<&Table> {
        self.coverage.tables()
    }

    /// An accepted case and a refused one, for `--wrong`.
    pub fn compare_two(&mut self, wrong: Option<Wrong>) -> [Comparison; 2] {
        self.run.wrong = wrong;
        [1, 0].map(|present| {
            let mut scene = Scene::picture(&mut self.run, 32, 32, 0);
            let mut case = self.request(&scene, [true, true]);
            case.references[1].present = present;
            self.compare_one(&mut scene, &case).map(|_| ())
        })
    }

    /// Compares a case of which the scope gives the number.
    fn compare_for(&mut self, number: u8, scene: &mut Scene, case: &Case) -> Comparison {
        let answer = self.compare_one(scene, case)?;
        if answer != number {
            return Err(format!(
                "case {}: both answer {answer}, and the scope says {number}\n{case:#?}",
                self.run.cases()
            ));
        }
        Ok(())
    }

    /// Compares a case, and gives the answer.
    fn compare_one(&mut self, scene: &mut Scene, case: &Case) -> Result<u8, String> {
        let expected = self.expected(scene, case);
        let number = expected.as_ref().err().copied().unwrap_or(ACCEPTED);
        self.run.count(number);
        // No byte is what it should become, so that each one that is not written shows.
        let before: Vec<u8> = match &expected {
            Ok(formed) => formed.iter().map(|sample| !sample).collect(),
            Err(_) => self.run.bytes(case.length),
        };
        let offset = self.run.offset();
        self.out.fill(offset, &before);
        let after = expected.unwrap_or(before);

        let mut answer = case.ask_port(scene, &mut self.out);
        match self.run.wrong {
            None => {}
            Some(Wrong::Answer) => answer ^= 1,
            Some(Wrong::Result(place)) => self.out.damage(place),
            Some(Wrong::Other(place)) => scene.damage(place),
        }
        let what = if answer != u32::from(number) {
            format!("the port answers {answer}, and {number} is right")
        } else if let Some(fault) = self.out.fault(&after) {
            format!("the output, answer {answer}: {fault}")
        } else if let Some(fault) = scene.fault() {
            format!("answer {answer}: {fault}")
        } else {
            return Ok(number);
        };
        Err(format!(
            "case {}: {what}\n{case:#?}\n{scene}",
            self.run.cases()
        ))
    }

    /// What the scope says. Of its order 38, 13, 18, 16, 17, 15, 14 the original has 16, 17 and
    /// 15, and is asked for these and for the samples alone, with what the references leave of the
    /// motion.
    fn expected(&mut self, scene: &mut Scene, case: &Case) -> Result<Vec<u8>, u8> {
        let strays = without_meaning(&case.meaning());
        if !strays.is_empty() {
            self.coverage.count_meaningless(case, &strays);
            return Err(NO_MEANING);
        }
        let read = case.read();
        let motion = read.remaining();
        let in_domain = scene.in_domain(motion);
        let question = Question {
            dest: read.dest,
            references: scene.declare(read.references),
            column: case.column,
            row: case.row,
            motion,
            length: case.length,
            in_domain,
        };
        let answer = question
            .refused_before()
            .and_then(|()| question.ask_original())
            .and_then(|formed| question.refused_after().map(|()| formed));
        let number = answer.as_ref().err().copied();
        self.coverage.count(case, &read, scene, number);
        answer
    }

    /// The scope's own cases, in each format.
    fn scope_cases(&mut self) -> Comparison {
        for format in FORMATS {
            let mut scene = Scene::picture(&mut self.run, 32, 16, format);

            // Both references absent, bidirectional.
            let mut case = self.request(&scene, [true, true]);
            self.absent(&mut case, [true, true]);
            self.compare_for(16, &mut scene, &case)?;

            // Forward present with wrong geometry, backward absent.
            for other in others(case.dest()) {
                let mut case = self.request(&scene, [true, true]);
                case.references[0] = other;
                self.absent(&mut case, [false, true]);
                self.compare_for(15, &mut scene, &case)?;
            }

            // One of two references: the same as by its direction alone.
            for absent in [[true, false], [false, true]] {
                let mut case = self.request(&scene, [true, true]);
                self.absent(&mut case, absent);
                self.compare_for(ACCEPTED, &mut scene, &case)?;
                let of_both = self.out.bytes().to_vec();
                for (moved, absent) in case.motion.iter_mut().zip(absent) {
                    moved.present = u32::from(!absent);
                }
                self.compare_for(ACCEPTED, &mut scene, &case)?;
                if self.out.bytes() != of_both {
                    return Err("one of two references gives other samples than alone".to_owned());
                }
            }

            // No motion in either direction, with and without the backward reference, and without
            // the forward one.
            for backward in [false, true] {
                let mut case = self.request(&scene, [false, false]);
                case.column = 1;
                self.absent(&mut case, [false, backward]);
                self.compare_for(ACCEPTED, &mut scene, &case)?;
                if format == 0 {
                    let own = scene.crop_luma(16, 0);
                    if self.out.bytes()[..256] != own {
                        return Err("no motion does not give the forward samples".to_owned());
                    }
                }
                self.absent(&mut case, [true, backward]);
                self.compare_for(16, &mut scene, &case)?;
            }

            // A column past the edge, and a row.
            for (column, row) in [
                (2, 0),
                (LAST_CELL, 0),
                (0, 1),
                (1, LAST_CELL),
                (LAST_CELL, LAST_CELL),
            ] {
                let mut case = self.request(&scene, [true, false]);
                (case.column, case.row) = (column, row);
                self.compare_for(ACCEPTED, &mut scene, &case)?;
            }
        }
        Ok(())
    }

    /// Each number that has no meaning, in each argument, with all else in order.
    fn meaningless(&mut self) -> Comparison {
        const ROUNDS: usize = 50;
        for format in iter::repeat_n(FORMATS, ROUNDS).flatten() {
            let mut scene = Scene::picture(&mut self.run, 16, 16, format);
            for argument in 0..self.call.arguments().len() {
                let mut case = self.request(&scene, [true, true]);
                case.make_meaningless(&mut self.run, argument);
                self.compare_for(NO_MEANING, &mut scene, &case)?;
            }
        }
        Ok(())
    }

    /// Each plane of each reference, made such as the scope does not take: 14 where the reference
    /// is used, accepted where it is not.
    fn unfit(&mut self) -> Comparison {
        for reference in 0..2 {
            for place in 0..3 {
                for kind in 0..scene::UNFIT {
                    let format = self.run.rng.pick(&FORMATS);
                    let mut scene = Scene::picture(&mut self.run, 32, 16, format);
                    scene.make_unfit(&mut self.run, reference, place, kind);
                    for directions in [[true, false], [false, true], [true, true]] {
                        let case = self.request(&scene, directions);
                        let number = if directions[reference] { 14 } else { ACCEPTED };
                        self.compare_for(number, &mut scene, &case)?;
                    }
                }
            }
        }
        Ok(())
    }

    /// A plane with the largest sides.
    fn largest(&mut self) -> Comparison {
        const CASES: usize = 24;
        let mut scene = Scene::largest(&mut self.run);
        for _ in 0..CASES {
            let mut case = self.request(&scene, [true, false]);
            if self.run.once_in(2) {
                case.column = LAST_CELL - self.run.rng.below(2);
                case.row = LAST_CELL - self.run.rng.below(2);
            } else {
                case.column = self.run.rng.below(LARGEST_SIDE / 16);
                case.row = self.run.rng.below(LARGEST_SIDE / 16);
            }
            self.compare_for(ACCEPTED, &mut scene, &case)?;
        }
        Ok(())
    }

    fn drawn(&mut self, cases: u64) -> Comparison {
        let mut left = cases;
        while left != 0 {
            let mut scene = Scene::draw(&mut self.run);
            let here = left.min(scene::CASES);
            for _ in 0..here {
                let case = self.draw(&scene);
                self.compare_one(&mut scene, &case)?;
            }
            left -= here;
        }
        Ok(())
    }
}

/// What differs from a geometry in one of its three parts or in all, by little and by what is lost
/// in 8 or in 32 bits.
fn others(dest: Declared) -> [Declared; 9] {
    let Declared {
        width,
        height,
        format,
        ..
    } = dest;
    let of = |width, height, format| Declared {
        width,
        height,
        format,
        ..dest
    };
    [
        of(width.wrapping_add(1), height, format),
        of(width.wrapping_sub(1), height, format),
        of(width ^ 1 << 32, height, format),
        of(width, height.wrapping_add(256), format),
        of(width, height.wrapping_sub(1), format),
        of(width, height ^ 1 << 63, format),
        of(width, height, (format + 1) % 3),
        of(width, height, (format + 2) % 3),
        of(!width, !height, (format + 1) % 3),
    ]
}

/// How many bytes the output of a format has.
fn right_length(format: u32) -> usize {
    macroblock_length(case::CHROMA_FORMATS[format as usize])
}
