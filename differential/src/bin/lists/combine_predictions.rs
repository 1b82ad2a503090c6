//! The averaging layer: `average_predictions`, and `combine_directional_predictions` for
//! the directions that use one side.

use std::fmt::{self, Display};
use std::iter;

use oracle::combine_predictions::{
    PredictionDirection, average_predictions, combine_directional_predictions,
};
use oracle::rng::Rng;

use crate::list::{
    ACCEPTED, Edition, Hex, Kind, List, ORIGINAL, OUTPUT_LENGTH, kind, ramp, refusing, telling_fill,
};

const SEED: u64 = 767;

/// The scope's number for the original's `None`.
const LENGTHS_DIFFER: u8 = 19;

/// The directions of the port's kind.
const ONE_SIDED: [PredictionDirection; 3] = [
    PredictionDirection::Forward,
    PredictionDirection::Backward,
    PredictionDirection::Skipped,
];

const KINDS: &[Kind] = &[
    refusing("1", "average_predictions", 5, &[0, 18, 19]),
    kind("2", "combine_directional_predictions"),
];

const FIELDS: &str = "\
1 FORWARD BACKWARD FILL LENGTH ANSWER AFTER
  average_predictions of FORWARD and BACKWARD into an output that holds LENGTH bytes before
  the call: FILL, FILL + 1 and so on, modulo 256. ANSWER is 0 or the refusal's number, AFTER
  the output after it.
2 DIRECTION FORWARD BACKWARD RESULT
  combine_directional_predictions. DIRECTION is 0 Forward, 1 Backward, 3 Skipped, as the
  original's enum counts them; 2, Bidirectional, is not in the port's kind.";

pub fn list(edition: Edition) -> List {
    let seed = edition.seed(SEED);
    let made = format!(
        "Answers of average_predictions and combine_directional_predictions
(src/combine_predictions.rs of
{ORIGINAL},
release build) to inputs drawn by splitmix64 from the seed {seed}.
The original returns a new vector, or None where the lengths differ. What follows from the
output being lent is the scope's (docs/SCOPE.md): the number 19 for that None, the
number 18 for an output of the wrong length, 19 before 18, and that a refusal changes nothing.
The last group is wrong on purpose."
    );
    let mut list = List::new(
        "averaging",
        "crates/replay_combine_predictions/stdin",
        KINDS,
        &made,
        FIELDS,
    );
    let mut rng = Rng::new(seed);
    scope_cases(&mut list, &mut rng);
    equal_lengths(&mut list, &mut rng);
    every_pair(&mut list, &mut rng);
    wrong_outputs(&mut list, &mut rng);
    differing_lengths(&mut list, &mut rng);
    directions(&mut list, &mut rng);
    if edition.is_kept() {
        wrong_on_purpose(&mut list, &mut rng);
    }
    list
}

/// A line of kind 1.
struct Averaging {
    forward: Vec<u8>,
    backward: Vec<u8>,
    fill: u8,
    length: usize,
    answer: u8,
    after: Vec<u8>,
}

impl Averaging {
    /// Asks the original, and the scope for what comes of the lent output.
    fn ask(rng: &mut Rng, forward: Vec<u8>, backward: Vec<u8>, length: usize) -> Self {
        let both = forward.len().min(backward.len());
        let means = average_predictions(&forward[..both], &backward[..both]).unwrap_or_default();
        let fill = telling_fill(rng, &means);
        let unchanged = ramp(fill, length);
        let (answer, after) = match average_predictions(&forward, &backward) {
            None => (LENGTHS_DIFFER, unchanged),
            Some(_) if length != forward.len() => (OUTPUT_LENGTH, unchanged),
            Some(means) => (ACCEPTED, means),
        };
        Self {
            forward,
            backward,
            fill,
            length,
            answer,
            after,
        }
    }

    /// The same with an output as long as the forward side.
    fn ask_fitting(rng: &mut Rng, forward: Vec<u8>, backward: Vec<u8>) -> Self {
        let length = forward.len();
        Self::ask(rng, forward, backward, length)
    }
}

impl Display for Averaging {
    fn fmt(&self, f: &mut fmt::Formatter<'_>) -> fmt::Result {
        write!(
            f,
            "1 {} {} {} {} {} {}",
            Hex(&self.forward),
            Hex(&self.backward),
            self.fill,
            self.length,
            self.answer,
            Hex(&self.after),
        )
    }
}

/// A line of kind 2.
struct Choice {
    direction: PredictionDirection,
    forward: Vec<u8>,
    backward: Vec<u8>,
    result: Vec<u8>,
}

impl Choice {
    fn ask(direction: PredictionDirection, forward: Vec<u8>, backward: Vec<u8>) -> Self {
        let result = combine_directional_predictions(direction, &forward, &backward)
            .expect("the original always answers a direction that uses one side");
        Self {
            direction,
            forward,
            backward,
            result,
        }
    }
}

impl Display for Choice {
    fn fmt(&self, f: &mut fmt::Formatter<'_>) -> fmt::Result {
        write!(
            f,
            "2 {} {} {} {}",
            self.direction as u8,
            Hex(&self.forward),
            Hex(&self.backward),
            Hex(&self.result),
        )
    }
}

fn scope_cases(list: &mut List, rng: &mut Rng) {
    list.group("a. the scope's own: 0 and 1; 255 and 255; two empty inputs; 3 and 4 bytes");
    list.case(Averaging::ask_fitting(rng, vec![0], vec![1]));
    list.case(Averaging::ask_fitting(rng, vec![255], vec![255]));
    list.case(Averaging::ask_fitting(rng, vec![], vec![]));
    let (three, four) = (rng.bytes(3), rng.bytes(4));
    list.case(Averaging::ask_fitting(rng, three, four));
}

/// How the bytes of two equally long inputs are drawn.
#[derive(Clone, Copy)]
enum Draw {
    Uniform,
    /// Three bytes in four are 0, 1, 254 or 255.
    Extreme,
    /// Every sum is odd: every mean is rounded.
    OddSums,
    /// Every sum is even: no mean is rounded.
    EvenSums,
}

fn draw(rng: &mut Rng, how: Draw, length: usize) -> (Vec<u8>, Vec<u8>) {
    let pair = |_| match how {
        Draw::Uniform => (rng.byte(), rng.byte()),
        Draw::Extreme => (extreme(rng), extreme(rng)),
        Draw::OddSums => {
            let forward = rng.byte();
            (forward, (rng.byte() & !1) | (!forward & 1))
        }
        Draw::EvenSums => {
            let forward = rng.byte();
            (forward, (rng.byte() & !1) | (forward & 1))
        }
    };
    (0..length).map(pair).unzip()
}

fn extreme(rng: &mut Rng) -> u8 {
    if rng.below(4) == 0 {
        rng.byte()
    } else {
        rng.pick(&[0, 1, 254, 255])
    }
}

fn equal_lengths(list: &mut List, rng: &mut Rng) {
    const SHORT: [Draw; 4] = [Draw::Uniform, Draw::Extreme, Draw::OddSums, Draw::EvenSums];
    const LONG: [Draw; 2] = [Draw::Uniform, Draw::Extreme];
    const LONG_LENGTHS: [usize; 15] = [
        63, 64, 65, 127, 128, 129, 255, 256, 257, 383, 384, 511, 512, 1023, 1024,
    ];

    list.group("b. inputs of equal lengths, outputs that fit");
    let short = (1..=40).flat_map(|length| SHORT.map(|how| (length, how)));
    let long = LONG_LENGTHS
        .into_iter()
        .flat_map(|length| LONG.map(|how| (length, how)));
    let empty = iter::once((0, Draw::Uniform));
    for (length, how) in empty.chain(short).chain(long) {
        let (forward, backward) = draw(rng, how, length);
        list.case(Averaging::ask_fitting(rng, forward, backward));
    }
}

fn every_pair(list: &mut List, rng: &mut Rng) {
    list.group("c. every pair of bytes: one value against all 256 in an order of their own");
    let mut all: Vec<u8> = (0..=u8::MAX).collect();
    for value in 0..=u8::MAX {
        rng.shuffle(&mut all);
        list.case(Averaging::ask_fitting(rng, vec![value; 256], all.clone()));
    }
}

fn wrong_outputs(list: &mut List, rng: &mut Rng) {
    list.group(
        "d. inputs of equal lengths n, outputs of n - 1, n + 1, 0, 2n and n + 256 bytes
(the last tells a port that compares one byte of the lengths)",
    );
    for n in [0_usize, 1, 2, 3, 16, 64, 255, 256] {
        let mut lengths = vec![0, n.saturating_sub(1), n + 1, 2 * n, n + 256];
        lengths.sort_unstable();
        lengths.dedup();
        lengths.retain(|length| *length != n);
        for length in lengths {
            let (forward, backward) = draw(rng, Draw::Uniform, n);
            list.case(Averaging::ask(rng, forward, backward, length));
        }
    }
}

fn differing_lengths(list: &mut List, rng: &mut Rng) {
    const DRAWN: usize = 10;
    const BELOW: usize = 200;

    list.group(
        "e. inputs of different lengths, outputs as long as the one, as the other, longer than
both, and empty: 19 comes before 18",
    );
    let mut lengths = vec![
        (0, 1),
        (1, 0),
        (3, 4),
        (4, 3),
        (255, 256),
        (256, 255),
        (0, 256),
        (256, 0),
        (1, 257),
        (257, 1),
    ];
    for _ in 0..DRAWN {
        let forward = rng.below(BELOW);
        let other = 1 + rng.below(BELOW - 1);
        lengths.push((forward, (forward + other) % BELOW));
    }
    for (forward, backward) in lengths {
        let longer = forward.max(backward) + 1 + rng.below(16);
        let mut outputs = vec![forward, backward, longer, 0];
        outputs.sort_unstable();
        outputs.dedup();
        for length in outputs {
            let (forward, backward) = (rng.bytes(forward), rng.bytes(backward));
            list.case(Averaging::ask(rng, forward, backward, length));
        }
    }
}

/// Two inputs that differ at every index that both have.
fn draw_apart(rng: &mut Rng, forward: usize, backward: usize) -> (Vec<u8>, Vec<u8>) {
    let forward = rng.bytes(forward);
    let mut backward = rng.bytes(backward);
    for (there, here) in forward.iter().zip(&mut backward) {
        if here == there {
            *here = !*here;
        }
    }
    (forward, backward)
}

fn directions(list: &mut List, rng: &mut Rng) {
    const LENGTHS: [(usize, usize); 17] = [
        (0, 0),
        (0, 1),
        (1, 0),
        (1, 1),
        (3, 4),
        (4, 3),
        (0, 16),
        (16, 0),
        (16, 16),
        (64, 64),
        (64, 256),
        (256, 64),
        (256, 256),
        (255, 256),
        (256, 255),
        (0, 512),
        (512, 0),
    ];

    list.group("f. the directions that use one side; the sides differ at every index both have");
    for (forward, backward) in LENGTHS {
        for direction in ONE_SIDED {
            let (forward, backward) = draw_apart(rng, forward, backward);
            list.case(Choice::ask(direction, forward, backward));
        }
    }
}

fn wrong_on_purpose(list: &mut List, rng: &mut Rng) {
    list.group(
        "g. wrong on purpose, so that the expected output shows that the comparison can fail:
one byte of AFTER off by one; 18 where 19 is right; an accepted case recorded as refused,
AFTER as accepted; the other side's bytes",
    );
    let (forward, backward) = draw(rng, Draw::Uniform, 16);
    let mut byte = Averaging::ask_fitting(rng, forward, backward);
    byte.after[11] ^= 1;
    list.case(byte);

    let (forward, backward) = (rng.bytes(3), rng.bytes(4));
    let mut number = Averaging::ask(rng, forward, backward, 5);
    number.answer = OUTPUT_LENGTH;
    list.case(number);

    let (forward, backward) = draw(rng, Draw::Uniform, 16);
    let mut refused = Averaging::ask_fitting(rng, forward, backward);
    refused.answer = LENGTHS_DIFFER;
    list.case(refused);

    let (forward, backward) = draw_apart(rng, 16, 16);
    let mut side = Choice::ask(PredictionDirection::Forward, forward, backward);
    side.result.clone_from(&side.backward);
    list.case(side);
}
