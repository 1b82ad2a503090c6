//! The four C entry points, on numbers and bytes: what the layers below answer, in the layout and by
//! the numbers of docs/SCOPE.md and docs/C-INTERFACE.md, and the number 38.

mod cases;
mod macroblocks;
mod updates;
mod vectors;

use oracle::macroblocks::Sides;
use oracle::pmv::Pmv;
use oracle::rng::Rng;

use crate::inter_reconstruction::cases::Planes;
use crate::list::{Edition, Kind, List, ORIGINAL, kind, refusing};
use cases::{DIRECTIONS, PredictionCall, UpdateCall, VectorCall};

const SEED: u64 = 767;

const PREDICTION_ANSWERS: &[u8] = &[0, 13, 14, 15, 16, 17, 18, 38];

const KINDS: &[Kind] = &[
    kind("1", "(sets planes)"),
    refusing(
        "2",
        "fozdrik_reconstruct_motion_vector",
        15,
        &[0, 1, 2, 3, 4, 5, 6, 38],
    ),
    refusing(
        "3",
        "fozdrik_update_predictors",
        10,
        &[0, 7, 8, 9, 10, 11, 12, 38],
    ),
    refusing(
        "4",
        "fozdrik_predict_frame_macroblock",
        22,
        PREDICTION_ANSWERS,
    ),
    refusing(
        "5",
        "fozdrik_predict_field_macroblock",
        30,
        PREDICTION_ANSWERS,
    ),
];

const FIELDS: &str = "\
The numbers of a line are the call's arguments in its order, as C passes them, without the planes:
R, S, FORMAT, STRUCTURE, TYPE, CHROMA, FIELD and all flags may be any of 32 bits, and so may be what
stands beside a PRESENT of 0. ANSWER is 0 or the refusal's number. The buffer that takes a vector, an
outcome or a macroblock holds LENGTH bytes before the call: FILL, FILL + 1 and so on, modulo 256;
VECTOR, OUTCOME and AFTER of a macroblock are what it holds after the call, or - where it is what it
was. BEFORE are the predictors' bytes before the call, and AFTER likewise after it.
1 REFERENCE Y_WIDTH Y_HEIGHT Y_LENGTH CB_WIDTH CB_HEIGHT CB_LENGTH CR_WIDTH CR_HEIGHT CR_LENGTH SEED
  Sets the planes that the cases after it pass for a reference, 0 the forward one, 1 the backward
  one, also where they say that it is absent. A LENGTH need not be width * height; the three are at
  most 32768 together. The samples, of Y, then of Cb, then of Cr, are one run of numbers: from s =
  SEED on, s becomes (s * 1103515245 + 12345) mod 2^31, and the sample is s / 2^16 mod 256. The line
  makes no call, and counts as a case that agrees.
2 R S CODE PRESENT RESIDUAL CODE PRESENT RESIDUAL F_CODE F_CODE FORMAT STRUCTURE
  FILL LENGTH ANSWER BEFORE AFTER VECTOR
  fozdrik_reconstruct_motion_vector: of two, the horizontal part's first.
3 STRUCTURE PRESENT TYPE FORWARD BACKWARD INTRA CONCEALMENT FILL LENGTH ANSWER BEFORE AFTER OUTCOME
  fozdrik_update_predictors.
4 WIDTH HEIGHT CHROMA MB_COL MB_ROW PRESENT WIDTH HEIGHT CHROMA PRESENT WIDTH HEIGHT CHROMA
  PRESENT HORIZONTAL VERTICAL PRESENT HORIZONTAL VERTICAL FILL LENGTH ANSWER AFTER
  fozdrik_predict_frame_macroblock: of two, the forward reference or direction first.
5 WIDTH HEIGHT CHROMA MB_COL MB_ROW PRESENT WIDTH HEIGHT CHROMA PRESENT WIDTH HEIGHT CHROMA
  PRESENT FIELD HORIZONTAL VERTICAL FIELD HORIZONTAL VERTICAL
  PRESENT FIELD HORIZONTAL VERTICAL FIELD HORIZONTAL VERTICAL FILL LENGTH ANSWER AFTER
  fozdrik_predict_field_macroblock: the top field's vector before the bottom field's.";

pub fn list(edition: Edition) -> List {
    cases::see_orders();
    let seed = edition.seed(SEED);
    let made = format!(
        "Answers of reconstruct_motion_vector and update_predictors of src/pmv.rs, and of two calls of
src/inter_reconstruction.rs
({ORIGINAL},
release build) to inputs drawn by splitmix64 from the seed {seed}, in the form of the C entry points.
The original has no such form. The numbers of its kinds are the places in its enums. The layout of
the buffers is that of docs/C-INTERFACE.md. The scope's (docs/SCOPE.md) and not the Rust's are the number 38
for a number that is read and has no meaning, and for predictors, a vector's or an outcome's buffer
of the wrong length, before all else; that what stands beside an absence is not read; the numbers 2,
13, 14 and 18 with their places in the order; and that a refusal changes nothing but, where it is the
vertical part's, the horizontal predictor, which is the original's.
The last group is wrong on purpose."
    );
    let mut maker = Maker {
        list: List::new(
            "entry points",
            "crates/replay_fozdrik/stdin",
            KINDS,
            &made,
            FIELDS,
        ),
        rng: Rng::new(seed),
        planes: DIRECTIONS.map(|reference| Planes {
            reference,
            y: sides(0, 0),
            cb: sides(0, 0),
            cr: sides(0, 0),
            seed: 0,
        }),
    };
    vectors::groups(&mut maker);
    updates::groups(&mut maker);
    macroblocks::groups(&mut maker);
    if edition.is_kept() {
        maker.list.group(
            "wrong on purpose, so that the expected output shows that the comparison can fail; only the lines
that set planes are right: of a vector the answer, a byte of the predictors, a byte of the vector;
of an update the answer, a byte of the predictors, the outcome; of a macroblock by either call the
answer, and a sample; and the horizontal predictor, restored where the vertical part is refused",
        );
        vectors::wrong_on_purpose(&mut maker);
        updates::wrong_on_purpose(&mut maker);
        macroblocks::wrong_on_purpose(&mut maker);
        vectors::restored_on_purpose(&mut maker);
    }
    maker.list
}

/// A plane with as many samples as its sides say.
const fn sides(width: usize, height: usize) -> Sides {
    Sides {
        width,
        height,
        length: width * height,
    }
}

/// Numbers that have no meaning where those below `limit` have one: also such as 1, 8 or 16 bits of
/// them would have.
const fn strays(limit: u32) -> [u32; 6] {
    [limit, limit + 1, 256, (1 << 16) + 1, 1 << 31, u32::MAX]
}

/// The list under way, and the planes that its last lines of kind 1 set.
struct Maker {
    list: List,
    rng: Rng,
    planes: [Planes; 2],
}

impl Maker {
    fn vector(&mut self, call: &VectorCall) -> u8 {
        let line = call.ask(&mut self.rng);
        self.list.case(&line);
        line.answer
    }

    /// Asks where it is known that the number comes.
    fn vector_for(&mut self, number: u8, call: &VectorCall) {
        let answer = self.vector(call);
        assert_eq!(answer, number, "the group says so");
    }

    fn update(&mut self, call: &UpdateCall) -> u8 {
        let line = call.ask(&mut self.rng);
        self.list.case(&line);
        line.answer
    }

    fn update_for(&mut self, number: u8, call: &UpdateCall) {
        let answer = self.update(call);
        assert_eq!(answer, number, "the group says so");
    }

    fn predict(&mut self, call: &PredictionCall) -> u8 {
        let line = call.ask(&mut self.rng, &self.planes);
        self.list.case(&line);
        line.answer
    }

    fn predict_for(&mut self, number: u8, call: &PredictionCall) {
        let answer = self.predict(call);
        assert_eq!(answer, number, "the group says so");
    }

    /// A number whose four bytes all differ, of either sign.
    fn four_bytes(&mut self) -> i32 {
        loop {
            let bytes = [(); 4].map(|()| self.rng.byte());
            let differ = |place: usize| !bytes[place + 1..].contains(&bytes[place]);
            if (0..4).all(differ) {
                return i32::from_le_bytes(bytes);
            }
        }
    }

    /// Predictors of such numbers.
    fn draw_predictors(&mut self) -> Pmv {
        let mut pmv = Pmv::new();
        for r in cases::INDEXES {
            for s in DIRECTIONS {
                for t in cases::COMPONENTS {
                    let number = self.four_bytes();
                    pmv.set(r, s, t, number);
                }
            }
        }
        pmv
    }
}
