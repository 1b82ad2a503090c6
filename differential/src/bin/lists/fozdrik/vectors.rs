//! The groups of the vector call.

use oracle::pmv::Component;
use oracle::refusals::{ACCEPTED, NO_MEANING};

use super::cases::{
    COMPONENTS, DIRECTIONS, ENDS, INDEXES, PREDICTORS, Part, VECTOR, VectorCall, place,
    predictor_bytes,
};
use super::{Maker, strays};

/// The numbers of the mode that halves the vertical predictor: a field vector in a frame picture.
const HALVING: (u32, u32) = (0, 2);
/// Of all modes: the format and the structure.
const MODES: [(u32, u32); 6] = [(0, 0), (0, 1), HALVING, (1, 0), (1, 1), (1, 2)];
/// What a call is about: R and S.
const SLOTS: [(u32, u32); 4] = [(0, 0), (0, 1), (1, 0), (1, 1)];
/// The refusals of a part.
const REFUSALS: [u8; 6] = [1, 2, 3, 4, 5, 6];
/// How many numbers are read for 38.
const NUMBERS: usize = 6;

/// f of an f_code from 1 to 9.
fn f(f_code: u8) -> i32 {
    1 << (f_code - 1)
}

/// A part, and what it is predicted by.
#[derive(Clone, Copy)]
struct Predicted {
    part: Part,
    prediction: i32,
}

/// The part of a difference that is in the range of the f_code.
fn part(f_code: u8, delta: i32) -> Part {
    let f = f(f_code);
    if f == 1 || delta == 0 {
        return Part {
            code: delta,
            present: 0,
            residual: 0,
            f_code,
        };
    }
    let rest = delta.abs() - 1;
    Part {
        code: delta.signum() * (rest / f + 1),
        present: 1,
        residual: (rest % f) as u8,
        f_code,
    }
}

impl Maker {
    /// A part that is accepted, by a difference other than 0; a wrap of 1 is one from below, -1 from
    /// above.
    fn draw_part(&mut self, f_code: u8, wrap: i32) -> Predicted {
        let limit = 16 * f(f_code);
        let mut delta = 0;
        while delta == 0 {
            delta = self.rng.between(-limit, limit - 1);
        }
        let vector = self.rng.between(-limit, limit - 1);
        Predicted {
            part: part(f_code, delta),
            prediction: vector - delta - wrap * 2 * limit,
        }
    }

    fn draw_f_code(&mut self) -> u8 {
        self.rng.between(1, 9) as u8
    }

    fn draw_wrap(&mut self) -> i32 {
        self.rng.between(-1, 1)
    }

    fn draw_predicted(&mut self) -> Predicted {
        let (f_code, wrap) = (self.draw_f_code(), self.draw_wrap());
        self.draw_part(f_code, wrap)
    }

    /// A call with these parts. The other six predictors are drawn.
    fn call_of(
        &mut self,
        (r, s): (u32, u32),
        (format, structure): (u32, u32),
        parts: [Predicted; 2],
    ) -> VectorCall {
        let mut pmv = self.draw_predictors();
        for (t, predicted) in COMPONENTS.into_iter().zip(parts) {
            let halved = t == Component::Vertical && (format, structure) == HALVING;
            let prior = if halved {
                // a half that is lost in rounding down
                2 * predicted.prediction + self.rng.between(0, 1)
            } else {
                predicted.prediction
            };
            pmv.set(INDEXES[r as usize], DIRECTIONS[s as usize], t, prior);
        }
        VectorCall {
            r,
            s,
            horizontal: parts[0].part,
            vertical: parts[1].part,
            format,
            structure,
            predictors: predictor_bytes(&pmv),
            length: VECTOR,
        }
    }

    fn draw_slot(&mut self) -> (u32, u32) {
        self.rng.pick(&SLOTS)
    }

    /// An accepted call, all of it drawn.
    fn draw_accepted(&mut self) -> VectorCall {
        let slot = self.draw_slot();
        let mode = self.rng.pick(&MODES);
        let parts = [self.draw_predicted(), self.draw_predicted()];
        self.call_of(slot, mode, parts)
    }

    /// A part that is refused with this number; if it is not 6, whatever the prediction.
    fn draw_refused(&mut self, number: u8) -> Predicted {
        let mut drawn = self.draw_predicted();
        let Predicted { part, prediction } = &mut drawn;
        match number {
            1 => part.f_code = self.rng.pick(&[0, 10, 128, 255]),
            2 => {
                part.code = self
                    .rng
                    .pick(&[17, -17, 128, -129, 259, 65_520, i32::MIN, i32::MAX])
            }
            3 => {
                if self.rng.below(2) == 0 {
                    part.f_code = 1;
                    part.code = self.rng.between(-16, 16);
                } else {
                    part.code = 0;
                }
                part.present = 1;
                part.residual = self.rng.pick(&[0, 1, 255]);
            }
            4 => {
                part.f_code = self.rng.between(2, 9) as u8;
                part.code = self.rng.pick(&[-16, -1, 1, 16]);
                part.present = 0;
                part.residual = self.rng.byte();
            }
            5 => {
                part.code = 16;
                part.present = u32::from(part.f_code > 1);
                part.residual = (f(part.f_code) - 1) as u8;
            }
            _ => {
                // one too far for a wrap, or a number whose four bytes all differ
                let limit = 16 * f(part.f_code);
                let delta = difference(*part);
                *prediction = match self.rng.below(3) {
                    0 => -3 * limit - 1 - delta,
                    1 => 3 * limit - delta,
                    _ => far(self.four_bytes()),
                };
            }
        }
        drawn
    }
}

/// The difference of a part that is accepted.
fn difference(part: Part) -> i32 {
    if part.present == 0 {
        return part.code;
    }
    let rest = (part.code.abs() - 1) * f(part.f_code) + i32::from(part.residual);
    part.code.signum() * (rest + 1)
}

/// A number that no f_code reaches, and twice which is an i32 too.
fn far(number: i32) -> i32 {
    let half = number / 4;
    if half.abs() < 1 << 16 { 1 << 24 } else { half }
}

pub fn groups(maker: &mut Maker) {
    document_01(maker);
    bytes(maker);
    f_codes(maker);
    refused(maker);
    both_refused(maker);
    no_meaning(maker);
    before_all_else(maker);
    lengths(maker);
    beside_an_absence(maker);
    drawn(maker);
    ends(maker);
}

fn document_01(maker: &mut Maker) {
    /// The f_code, the code, the residual, the prior, the answer.
    const CASES: [(u8, i32, Option<u8>, i32, u8); 8] = [
        (1, 16, None, 0, 5),
        (1, -16, None, 0, ACCEPTED),
        (1, -16, None, -16, ACCEPTED),
        (2, 3, Some(1), 30, ACCEPTED),
        (9, -16, Some(255), 0, ACCEPTED),
        (1, 0, None, 47, ACCEPTED),
        (1, 0, None, 48, 6),
        (1, 0, None, -3, ACCEPTED),
    ];

    maker.list.group(
        "vectors, a. the scope's own: each of its cases for a component, as the horizontal part, as the
vertical one, and as the vertical one of a field vector in a frame picture",
    );
    for (f_code, code, residual, prior, number) in CASES {
        let part = Part {
            code,
            present: residual.is_some().into(),
            residual: residual.unwrap_or(0),
            f_code,
        };
        let other = maker.draw_predicted();
        let it = Predicted {
            part,
            prediction: prior,
        };
        let slot = maker.draw_slot();
        for (mode, parts) in [((1, 2), [it, other]), ((1, 2), [other, it])] {
            let call = maker.call_of(slot, mode, parts);
            maker.vector_for(number, &call);
        }
        let mut halved = maker.call_of(slot, HALVING, [other, it]);
        // the prior itself, and not twice it
        let (r, s) = slot;
        let from = place(
            INDEXES[r as usize],
            DIRECTIONS[s as usize],
            Component::Vertical,
        );
        halved.predictors[from..from + 4].copy_from_slice(&prior.to_le_bytes());
        maker.vector(&halved);
    }
}

fn bytes(maker: &mut Maker) {
    maker.list.group(
        "vectors, b. the bytes: every R, S, FORMAT and STRUCTURE; both predictors read are of two bytes,
negative and positive, and so are both components; the other six have four bytes that all differ",
    );
    for slot in SLOTS {
        for mode in MODES {
            for signs in [[1, -1], [-1, 1]] {
                let parts = signs.map(|sign| {
                    // from far on one side to far on the other, by a wrap or without
                    let prediction = sign * maker.rng.between(300, 3800);
                    let delta = -sign * maker.rng.between(1, 4095);
                    Predicted {
                        part: part(9, delta),
                        prediction,
                    }
                });
                let call = maker.call_of(slot, mode, parts);
                maker.vector_for(ACCEPTED, &call);
            }
        }
    }
}

fn f_codes(maker: &mut Maker) {
    maker.list.group(
        "vectors, c. every f_code of either part, with a wrap from below, without, and from above; and by
the difference 0",
    );
    for f_code in 1..=9 {
        for t in COMPONENTS {
            for wrap in [-1, 0, 1] {
                let mut parts = [maker.draw_predicted(), maker.draw_predicted()];
                parts[t as usize] = maker.draw_part(f_code, wrap);
                let slot = maker.draw_slot();
                let mode = maker.rng.pick(&MODES);
                let call = maker.call_of(slot, mode, parts);
                maker.vector_for(ACCEPTED, &call);
            }
        }
        let parts = [(); 2].map(|()| {
            let limit = 16 * f(f_code);
            Predicted {
                part: part(f_code, 0),
                prediction: maker.rng.between(-limit, limit - 1),
            }
        });
        let slot = maker.draw_slot();
        let mode = maker.rng.pick(&MODES);
        let call = maker.call_of(slot, mode, parts);
        maker.vector_for(ACCEPTED, &call);
    }
}

fn refused(maker: &mut Maker) {
    maker.list.group(
        "vectors, d. the refusals 1 to 6 of the horizontal part: nothing changes; and of the vertical one:
the new horizontal predictor stays, and the vector does not change",
    );
    for number in REFUSALS {
        for (mode, t) in [
            ((1, 2), Component::Horizontal),
            (HALVING, Component::Horizontal),
            ((1, 2), Component::Vertical),
            ((0, 1), Component::Vertical),
            (HALVING, Component::Vertical),
        ] {
            for slot in SLOTS {
                let mut parts = [maker.draw_predicted(), maker.draw_predicted()];
                parts[t as usize] = maker.draw_refused(number);
                let call = maker.call_of(slot, mode, parts);
                let line = call.ask(&mut maker.rng);
                assert_eq!(line.answer, number, "the group says so");
                let changed = line.predictors != call.predictors;
                assert_eq!(changed, t == Component::Vertical, "the group says so");
                maker.list.case(line);
            }
        }
    }
}

fn both_refused(maker: &mut Maker) {
    maker
        .list
        .group("vectors, e. both parts refused: the horizontal one's number, and nothing changes");
    for horizontal in REFUSALS {
        for vertical in REFUSALS {
            let parts = [horizontal, vertical].map(|number| maker.draw_refused(number));
            let slot = maker.draw_slot();
            let mode = maker.rng.pick(&MODES);
            let call = maker.call_of(slot, mode, parts);
            maker.vector_for(horizontal, &call);
        }
    }
}

/// Gives the argument a number without a meaning.
fn stray(call: &mut VectorCall, argument: usize, which: usize) {
    match argument {
        0 => call.r = strays(2)[which],
        1 => call.s = strays(2)[which],
        2 => call.horizontal.present = strays(2)[which],
        3 => call.vertical.present = strays(2)[which],
        4 => call.format = strays(2)[which],
        _ => call.structure = strays(3)[which],
    }
}

fn no_meaning(maker: &mut Maker) {
    maker.list.group(
        "vectors, f. the scope's and not the Rust's: each number without a meaning, all else accepted: 38",
    );
    for argument in 0..NUMBERS {
        for which in 0..strays(0).len() {
            let mut call = maker.draw_accepted();
            stray(&mut call, argument, which);
            maker.vector_for(NO_MEANING, &call);
        }
    }
}

fn before_all_else(maker: &mut Maker) {
    maker.list.group(
        "vectors, g. the scope's and not the Rust's: the same where a part is refused, of each number: 38
before 1 to 6, and the horizontal predictor does not change either",
    );
    for number in REFUSALS {
        for t in COMPONENTS {
            for argument in 0..NUMBERS {
                let mut parts = [maker.draw_predicted(), maker.draw_predicted()];
                parts[t as usize] = maker.draw_refused(number);
                let slot = maker.draw_slot();
                let mode = maker.rng.pick(&MODES);
                let mut call = maker.call_of(slot, mode, parts);
                let which = maker.rng.below(strays(0).len());
                stray(&mut call, argument, which);
                maker.vector_for(NO_MEANING, &call);
            }
        }
    }
}

fn lengths(maker: &mut Maker) {
    maker.list.group(
        "vectors, h. the scope's and not the Rust's: predictors and vector's buffer of the wrong length,
and both: 38, also where the vector would be refused",
    );
    let lengths = [
        (0, VECTOR),
        (1, VECTOR),
        (28, VECTOR),
        (31, VECTOR),
        (33, VECTOR),
        (36, VECTOR),
        (PREDICTORS, 0),
        (PREDICTORS, 1),
        (PREDICTORS, 4),
        (PREDICTORS, 7),
        (PREDICTORS, 9),
        (PREDICTORS, 16),
        (31, 7),
        (33, 9),
        (VECTOR, PREDICTORS),
        (0, 0),
    ];
    for (predictors, length) in lengths {
        let mut call = maker.draw_accepted();
        call.predictors.resize(predictors, 0);
        call.length = length;
        maker.vector_for(NO_MEANING, &call);
        call.horizontal.f_code = 0;
        maker.vector_for(NO_MEANING, &call);
    }
}

fn beside_an_absence(maker: &mut Maker) {
    maker.list.group(
        "vectors, i. the scope's and not the Rust's: any residual beside an absence, which is not read:
what is accepted is the same, and what lacks a residual is refused with 4",
    );
    for t in COMPONENTS {
        for number in [ACCEPTED, 4] {
            let mut parts = [maker.draw_predicted(), maker.draw_predicted()];
            parts[t as usize] = if number == ACCEPTED {
                maker.draw_part(1, 0)
            } else {
                maker.draw_refused(number)
            };
            let slot = maker.draw_slot();
            let mode = maker.rng.pick(&MODES);
            let mut call = maker.call_of(slot, mode, parts);
            for residual in [0, 1, 2, 127, 128, 255] {
                match t {
                    Component::Horizontal => call.horizontal.residual = residual,
                    Component::Vertical => call.vertical.residual = residual,
                }
                maker.vector_for(number, &call);
            }
        }
    }
}

fn drawn(maker: &mut Maker) {
    const ROUNDS: usize = 60;

    maker
        .list
        .group("vectors, j. drawn: one in four refused or without a meaning");
    for _ in 0..ROUNDS {
        let mut call = maker.draw_accepted();
        match maker.rng.below(12) {
            0 => call.horizontal.f_code = maker.rng.byte(),
            1 => call.vertical.code = maker.rng.between(-20, 20),
            2 => {
                let argument = maker.rng.below(NUMBERS);
                let which = maker.rng.below(strays(0).len());
                stray(&mut call, argument, which);
            }
            _ => {}
        }
        maker.vector(&call);
    }
}

fn ends(maker: &mut Maker) {
    maker.list.group(
        "vectors, k. predictors at the ends of 32 bits, and around 0, of either part and halved: no sum
overflows",
    );
    for end in ENDS {
        for (mode, t) in [
            ((1, 2), Component::Horizontal),
            ((1, 2), Component::Vertical),
            (HALVING, Component::Vertical),
        ] {
            let parts = [maker.draw_predicted(), maker.draw_predicted()];
            let (r, s) = maker.draw_slot();
            let mut call = maker.call_of((r, s), mode, parts);
            let from = place(INDEXES[r as usize], DIRECTIONS[s as usize], t);
            call.predictors[from..from + 4].copy_from_slice(&end.to_le_bytes());
            maker.vector(&call);
        }
    }
}

pub fn wrong_on_purpose(maker: &mut Maker) {
    let parts = [maker.draw_part(9, 0), maker.draw_part(9, 0)];
    let call = maker.call_of((1, 0), (1, 2), parts);

    let mut answer = call.ask(&mut maker.rng);
    answer.answer = 6;
    maker.list.case(answer);

    let mut predictor = call.ask(&mut maker.rng);
    predictor.predictors[31] ^= 1;
    maker.list.case(predictor);

    let mut vector = call.ask(&mut maker.rng);
    vector.result[VECTOR - 1] ^= 1;
    maker.list.case(vector);
}

pub fn restored_on_purpose(maker: &mut Maker) {
    let parts = [maker.draw_part(9, 0), maker.draw_refused(5)];
    let call = maker.call_of((0, 1), (1, 2), parts);
    let mut restored = call.ask(&mut maker.rng);
    restored.predictors = call.predictors;
    maker.list.case(restored);
}
