//! The numbers of the scope (docs/SCOPE.md): for the original's refusals of vectors and updates,
//! which are texts, and of macroblocks; and those that the scope adds.

use crate::Error;
use crate::inter_reconstruction::InterError;

/// The number of a call that does not refuse.
pub const ACCEPTED: u8 = 0;
/// Added: a code outside -16..16.
pub const CODE_OUTSIDE: u8 = 2;
/// Added: a column or a row over 1023.
pub const CELL_TOO_FAR: u8 = 13;
/// Added: planes that the scope does not take. The original cannot have those of the wrong
/// length, and takes those with a large side.
pub const OUTSIDE_DOMAIN: u8 = 14;
/// Added: an output of the wrong length.
pub const OUTPUT_LENGTH: u8 = 18;
/// Added: a picture that is ill-formed, or a cell outside it.
pub const ILL_FORMED: u8 = 20;
/// Added: a number from C that has no meaning.
pub const NO_MEANING: u8 = 38;

/// The original's texts, with the numbers.
const NUMBERS: [(&str, u8); 12] = [
    ("compute_delta: f_code outside the §6.3.11 1..=9 range", 1),
    ("vector_range: f_code outside the §6.3.11 1..=9 range", 1),
    (
        "compute_delta: motion_residual present when §6.2.5.2.1 forbids it (f == 1 or motion_code == 0)",
        3,
    ),
    (
        "compute_delta: motion_residual absent when §6.2.5.2.1 requires it (f != 1 && motion_code != 0)",
        4,
    ),
    (
        "reconstruct_component: delta outside [low, high] range (§7.6.3.2)",
        5,
    ),
    (
        "reconstruct_component: vector' still outside [low, high] after wrap (§7.6.3.1)",
        6,
    ),
    (
        "update_predictors: intra macroblock with a motion flag set (excluded by Tables B-2/B-3/B-4)",
        7,
    ),
    (
        "update_predictors: non-intra macroblock with absent motion_type (§6.3.17.1 forbids)",
        8,
    ),
    (
        "update_predictors: Frame-based motion type in a field picture (Table 7-11 has no such row)",
        9,
    ),
    (
        "update_predictors: 16x8 MC motion type in a frame picture (Table 7-10 has no such row)",
        10,
    ),
    (
        "update_predictors: Dual-Prime row only accepts (fwd=1, bwd=0) per Tables 7-10/7-11",
        11,
    ),
    (
        "update_predictors: Field-based/16x8 row with both motion flags zero is not listed in Tables 7-10/7-11",
        12,
    ),
];

/// The text of the test that never fails.
const NEVER: &str = "reconstruct_component: new PMV outside expected range";

/// The number of a refusal, or why it has none.
pub fn number(error: Error) -> Result<u8, String> {
    let Error::InvalidBitstream(text) = error else {
        return Err(format!("the original refuses as a parser does: {error:?}"));
    };
    if text == NEVER {
        return Err("the test that never fails has failed".to_owned());
    }
    match NUMBERS.iter().find(|(known, _)| *known == text) {
        Some((_, number)) => Ok(*number),
        None => Err(format!("the scope has no number for: {text}")),
    }
}

/// The number of a macroblock's refusal, or why it has none.
pub fn inter_number(error: InterError) -> Result<u8, String> {
    match error {
        InterError::ReferenceGeometryMismatch => Ok(15),
        InterError::MissingForwardReference => Ok(16),
        InterError::MissingBackwardReference => Ok(17),
        InterError::UnsupportedPredictionMode | InterError::InvalidBlockIndex => {
            Err(format!("the scope has no number for: {error:?}"))
        }
    }
}
