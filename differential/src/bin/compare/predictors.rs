//! The two calls on the predictors, and what their comparisons share.

pub mod updates;
pub mod vectors;

use oracle::pmv::Pmv;

use crate::lent::Lent;
use crate::run::{Comparison, Run, Wrong, of_length};

/// The right length of the predictors' buffer.
const PREDICTORS: usize = 32;

/// Other lengths than 32.
const PREDICTORS_LENGTHS: [usize; 8] = [0, 1, 28, 31, 33, 36, 64, 288];

/// PMV[r][s][t] at 4r + 2s + t.
type Predictors = [i32; 8];

fn pmv(predictors: Predictors) -> Pmv {
    let mut pmv = Pmv::new();
    let values = pmv.values.as_flattened_mut().as_flattened_mut();
    values.copy_from_slice(&predictors);
    pmv
}

/// The predictors as the buffer has them.
fn bytes(numbers: &[i32]) -> Vec<u8> {
    numbers
        .iter()
        .flat_map(|number| number.to_le_bytes())
        .collect()
}

/// What either call should do: its answer, and what is in its two buffers afterwards.
struct Expected {
    answer: u8,
    predictors: Vec<u8>,
    result: Vec<u8>,
}

/// The two buffers of either call.
struct Buffers {
    predictors: Lent,
    result: Lent,
}

impl Buffers {
    fn new(run: &Run) -> Self {
        Self {
            predictors: Lent::new(run.around),
            result: Lent::new(run.around),
        }
    }

    /// Fills both. The bytes beyond those of the predictors are drawn, and so is all of the result.
    fn fill(&mut self, run: &mut Run, predictors: &[i32], lengths: [usize; 2]) {
        let predictors = of_length(run, &bytes(predictors), lengths[0]);
        let result = run.bytes(lengths[1]);
        let offsets = [run.offset(), run.offset()];
        self.predictors.fill(offsets[0], &predictors);
        self.result.fill(offsets[1], &result);
    }

    /// Sees that the call did what it should, unless something is made wrong before.
    fn check(&mut self, wrong: Option<Wrong>, mut answer: u32, expected: &Expected) -> Comparison {
        match wrong {
            None => {}
            Some(Wrong::Answer) => answer ^= 1,
            Some(Wrong::Result(place)) => self.result.damage(place),
            Some(Wrong::Other(place)) => self.predictors.damage(place),
        }
        if answer != u32::from(expected.answer) {
            return Err(format!(
                "the port answers {answer}, and {} is right",
                expected.answer
            ));
        }
        if let Some(fault) = self.predictors.fault(&expected.predictors) {
            return Err(format!("the predictors, answer {answer}: {fault}"));
        }
        if let Some(fault) = self.result.fault(&expected.result) {
            return Err(format!("the result, answer {answer}: {fault}"));
        }
        Ok(())
    }
}
