//! The groups of the update call.

use oracle::refusals::{ACCEPTED, NO_MEANING};

use super::cases::{ENDS, OUTCOME, PREDICTORS, UpdateCall, predictor_bytes};
use super::{Maker, strays};

/// How many numbers are read for 38, the type among them.
const NUMBERS: usize = 7;
/// An intra macroblock with concealment vectors, and a frame-based one of a frame picture, forward:
/// the structure, the presence, the type, and forward, backward, intra, concealment.
const INTRA: [u32; NUMBERS] = [2, 1, 1, 0, 0, 1, 1];
const FORWARD: [u32; NUMBERS] = [2, 1, 1, 1, 0, 0, 0];
/// A context for each refusal.
const REFUSED: [(u8, [u32; NUMBERS]); 6] = [
    (7, [2, 1, 1, 1, 0, 1, 0]),
    (8, [2, 0, 1, 1, 0, 0, 0]),
    (9, [0, 1, 1, 1, 0, 0, 0]),
    (10, [2, 1, 2, 1, 0, 0, 0]),
    (11, [1, 1, 3, 1, 1, 0, 0]),
    (12, [2, 1, 0, 0, 0, 0, 0]),
];

impl Maker {
    /// A call with these numbers, on drawn predictors.
    fn update_of(&mut self, numbers: [u32; NUMBERS]) -> UpdateCall {
        let [
            structure,
            present,
            prediction_type,
            forward,
            backward,
            intra,
            concealment,
        ] = numbers;
        UpdateCall {
            structure,
            present,
            prediction_type,
            forward,
            backward,
            intra,
            concealment,
            predictors: predictor_bytes(&self.draw_predictors()),
            length: OUTCOME,
        }
    }
}

pub fn groups(maker: &mut Maker) {
    contexts(maker);
    no_meaning(maker);
    beside_an_absence(maker);
    lengths(maker);
    ends(maker);
}

fn contexts(maker: &mut Maker) {
    maker.list.group(
        "updates, a. every context: each STRUCTURE, TYPE or none, and setting of the four flags; every
outcome, and the refusals 7 to 12, which change nothing",
    );
    for structure in 0..3 {
        for (present, prediction_type) in [(1, 0), (1, 1), (1, 2), (1, 3), (0, 0)] {
            for flags in 0..16 {
                let [forward, backward, intra, concealment] =
                    [0, 1, 2, 3].map(|bit| flags >> bit & 1);
                let call = maker.update_of([
                    structure,
                    present,
                    prediction_type,
                    forward,
                    backward,
                    intra,
                    concealment,
                ]);
                maker.update(&call);
            }
        }
    }
}

/// The numbers with one that has no meaning.
fn stray(mut numbers: [u32; NUMBERS], argument: usize, which: usize) -> [u32; NUMBERS] {
    let limits = [3, 2, 4, 2, 2, 2, 2];
    numbers[argument] = strays(limits[argument])[which];
    numbers
}

fn no_meaning(maker: &mut Maker) {
    maker.list.group(
        "updates, b. the scope's and not the Rust's: each number without a meaning, all else accepted:
38, the type's also where the macroblock is intra",
    );
    for numbers in [INTRA, FORWARD] {
        let call = maker.update_of(numbers);
        maker.update_for(ACCEPTED, &call);
        for argument in 0..NUMBERS {
            for which in 0..strays(0).len() {
                let call = maker.update_of(stray(numbers, argument, which));
                maker.update_for(NO_MEANING, &call);
            }
        }
    }

    maker.list.group(
        "updates, c. the scope's and not the Rust's: the same where the update is refused: 38 before 7 to
12",
    );
    for (number, numbers) in REFUSED {
        let call = maker.update_of(numbers);
        maker.update_for(number, &call);
        for argument in 0..NUMBERS {
            // a type that is absent is not read
            if numbers[1] == 0 && argument == 2 {
                continue;
            }
            let which = maker.rng.below(strays(0).len());
            let call = maker.update_of(stray(numbers, argument, which));
            maker.update_for(NO_MEANING, &call);
        }
    }
}

fn beside_an_absence(maker: &mut Maker) {
    maker.list.group(
        "updates, d. the scope's and not the Rust's: any type beside an absence, which is not read: an
intra macroblock is accepted, any other refused with 8",
    );
    for (intra, number) in [(1, ACCEPTED), (0, 8)] {
        for prediction_type in (0..4).chain(strays(4)) {
            let concealment = maker.rng.below(2) as u32;
            let call = maker.update_of([2, 0, prediction_type, 0, 0, intra, concealment]);
            maker.update_for(number, &call);
        }
    }
}

fn lengths(maker: &mut Maker) {
    maker.list.group(
        "updates, e. the scope's and not the Rust's: predictors and outcome's buffer of the wrong length,
and both: 38, also where the update would be refused",
    );
    let lengths = [
        (0, OUTCOME),
        (1, OUTCOME),
        (28, OUTCOME),
        (31, OUTCOME),
        (33, OUTCOME),
        (36, OUTCOME),
        (PREDICTORS, 0),
        (PREDICTORS, 2),
        (PREDICTORS, 4),
        (PREDICTORS, 32),
        (31, 0),
        (33, 2),
        (OUTCOME, PREDICTORS),
        (0, 0),
    ];
    for (predictors, length) in lengths {
        for numbers in [INTRA, FORWARD, REFUSED[0].1] {
            let mut call = maker.update_of(numbers);
            call.predictors.resize(predictors, 0);
            call.length = length;
            maker.update_for(NO_MEANING, &call);
        }
    }
}

fn ends(maker: &mut Maker) {
    maker.list.group(
        "updates, f. predictors at the ends of 32 bits, and around 0, at every place: copied, and refused",
    );
    for first in 0..ENDS.len() {
        let numbers = ENDS.into_iter().cycle().skip(first).take(8);
        let bytes: Vec<u8> = numbers.flat_map(i32::to_le_bytes).collect();
        for (number, numbers) in [(ACCEPTED, FORWARD), (ACCEPTED, INTRA), REFUSED[5]] {
            let mut call = maker.update_of(numbers);
            call.predictors.clone_from(&bytes);
            maker.update_for(number, &call);
        }
    }
}

pub fn wrong_on_purpose(maker: &mut Maker) {
    let call = maker.update_of(FORWARD);

    let mut answer = call.ask(&mut maker.rng);
    answer.answer = 12;
    maker.list.case(answer);

    let mut predictor = call.ask(&mut maker.rng);
    predictor.predictors[16] ^= 1;
    maker.list.case(predictor);

    let mut outcome = call.ask(&mut maker.rng);
    outcome.result[0] ^= 1;
    maker.list.case(outcome);
}
