//! The tables of updates and of vectors, which both work on the predictors: what they share.

pub mod updates;
pub mod vectors;

use std::fmt::Debug;
use std::hint::black_box;

use oracle::pmv::Pmv;

use crate::marks::Mark;
use crate::table::{Effort, Table, Who};

/// So many that the branches of a row are not learnt.
const CALLS: usize = 1 << 16;

/// The predictors as the layer and C have them: PMV[r][s][t] at 4r + 2s + t.
type Predictors = [i32; 8];

/// The same as the port's entry points have them.
type PredictorBytes = [u8; 32];

/// More than the number of any outcome: stands for a refusal where its text has no number.
const REFUSED: u32 = 16;

const MARK: Mark = Mark::AtLeast(1.0);

fn table(effort: Effort) -> Table {
    Table {
        contestants: vec![Who::Rust, Who::Fozdrik, Who::Layer, Who::C],
        repetitions: match effort {
            Effort::Full => 201,
            Effort::Quick => 41,
        },
        calls: CALLS,
        decimals: 2,
    }
}

/// What precedes either table: what the calls are, what the rows are, and what is not like for like
/// beside what is so in both.
fn paragraph(calls: &str, rows: &str, unlike: &str) -> String {
    format!(
        "{calls}, each on the predictors that the one before it left. With few calls, branch \
         prediction learns their sequence, and the times are the true cost of none. {rows} \
         The original is called as Rust calls Rust, and is not inlined. Fozdrik is called through \
         its C entry points, which test that each number has a meaning, and have the predictors as \
         bytes; the layer is the same below them, through entry points of the benchmark's own that \
         turn numbers into kinds, on predictors that are numbers{unlike}. C is handed structs. The \
         last row is the loop alone: a function that does nothing in place of the call. The \
         libraries have no such call: they read vectors and update predictors within a decoder."
    )
}

fn pmv(predictors: Predictors) -> Pmv {
    let mut pmv = Pmv::new();
    let values = pmv.values.as_flattened_mut().as_flattened_mut();
    values.copy_from_slice(&predictors);
    pmv
}

fn predictors(pmv: &Pmv) -> Predictors {
    let values = pmv.values.as_flattened().as_flattened();
    values.try_into().expect("there are eight")
}

fn bytes(predictors: Predictors) -> PredictorBytes {
    let bytes = predictors.map(i32::to_le_bytes);
    let bytes = bytes.as_flattened();
    bytes.try_into().expect("there are eight of four")
}

fn number(bytes: &[u8; 4]) -> i32 {
    i32::from_le_bytes(*bytes)
}

fn numbers(bytes: &PredictorBytes) -> Predictors {
    let (predictors, _) = bytes.as_chunks();
    let predictors: &[[u8; 4]; 8] = predictors.try_into().expect("there are eight of four");
    predictors.each_ref().map(number)
}

/// Sees that a contestant gave for a call what the original did.
fn same<T: PartialEq + Debug>(
    who: Who,
    call: impl Debug,
    original: &T,
    given: &T,
) -> Result<(), String> {
    if original != given {
        return Err(format!(
            "the original gives {original:?} and {} {given:?}: {call:?}",
            who.name(),
        ));
    }
    Ok(())
}

/// What is timed: all calls on one record, their answers folded into a checksum.
fn batch<C, R>(calls: &[C], mut record: R, mut answer: impl FnMut(&C, &mut R) -> u32) {
    let mut sum = 0;
    for call in black_box(calls) {
        sum = fold(sum, answer(call, &mut record));
    }
    black_box(sum);
}

fn fold(sum: u32, number: u32) -> u32 {
    sum.rotate_left(1) ^ number
}
