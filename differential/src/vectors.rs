//! What the comparisons of vectors and of updates share: what is asked of the original, and the
//! number 2 of the scope (docs/SCOPE.md), which the original does not have.

use std::fmt::{self, Display};
use std::ops::RangeInclusive;

use crate::Error;
use crate::macroblock_modes::MvFormat;
use crate::motion_vector::MotionVector;
use crate::picture_header::PictureStructure;
use crate::pmv::{
    Component, Direction, Pmv, PmvUpdateContext, PmvUpdateOutcome, ReconstructedComponent,
    VectorIndex, reconstruct_component, reconstruct_motion_vector, update_predictors, vector_range,
};
use crate::refusals::{self, CODE_OUTSIDE};

/// The scope's codes.
pub const CODES: RangeInclusive<i32> = -16..=16;

/// The scope's number for a refusal of the original. Stops at one that has none.
pub fn refusal(error: Error) -> u8 {
    refusals::number(error).unwrap_or_else(|cause| panic!("{cause}"))
}

/// What is coded of a component, and the f_code that it is read by.
#[derive(Clone, Copy)]
pub struct Coded {
    pub code: i32,
    pub residual: Option<u8>,
    pub f_code: u8,
}

impl Coded {
    /// The scope's refusal 2: after 1, and before all that the original refuses else.
    pub fn within_codes(self) -> Result<(), u8> {
        if vector_range(self.f_code).is_ok() && !CODES.contains(&self.code) {
            return Err(CODE_OUTSIDE);
        }
        Ok(())
    }
}

/// As the lists write it, without the f_code.
impl Display for Coded {
    fn fmt(&self, f: &mut fmt::Formatter<'_>) -> fmt::Result {
        let present = u8::from(self.residual.is_some());
        let residual = self.residual.unwrap_or(0);
        write!(f, "{} {present} {residual}", self.code)
    }
}

/// What the halving depends on beside the component.
#[derive(Debug, Clone, Copy, PartialEq)]
pub struct Mode {
    pub format: MvFormat,
    pub structure: PictureStructure,
}

/// As the lists write it.
impl Display for Mode {
    fn fmt(&self, f: &mut fmt::Formatter<'_>) -> fmt::Result {
        write!(f, "{} {}", self.format as u8, self.structure as u8)
    }
}

/// The original's answer for a component. The refusal 2 is the scope's.
pub fn component(
    coded: Coded,
    prior: i32,
    mode: Mode,
    t: Component,
) -> Result<ReconstructedComponent, u8> {
    coded.within_codes()?;
    let Coded {
        code,
        residual,
        f_code,
    } = coded;
    let Mode { format, structure } = mode;
    let residual = residual.map(u32::from);
    reconstruct_component(code, residual, f_code, prior, format, structure, t).map_err(refusal)
}

/// A vector to reconstruct, and which.
#[derive(Clone, Copy)]
pub struct Vector {
    pub r: VectorIndex,
    pub s: Direction,
    pub horizontal: Coded,
    pub vertical: Coded,
    pub mode: Mode,
}

/// Both components, or the refusal's number.
pub type Components = Result<[ReconstructedComponent; 2], u8>;

impl Vector {
    /// The answer, and the predictors after it.
    pub fn ask(self, before: Pmv) -> (Components, Pmv) {
        let mut after = before;
        let answer = self.compose(&mut after);
        let [horizontal, vertical] = [self.horizontal, self.vertical];
        if !CODES.contains(&horizontal.code) || !CODES.contains(&vertical.code) {
            return (answer, after);
        }
        let mut original = before;
        let whole = (self.reconstruct(&mut original), original);
        assert_eq!((answer, after), whole, "the scope composes otherwise");
        whole
    }

    /// Both components, the predictors updated: the original's call. The codes are the scope's.
    fn reconstruct(self, pmv: &mut Pmv) -> Components {
        let Self { r, s, mode, .. } = self;
        let [horizontal, vertical] = [self.horizontal, self.vertical];
        let byte = |code| i8::try_from(code).expect("the scope's codes are bytes");
        let parsed = MotionVector {
            motion_code_horiz: byte(horizontal.code),
            motion_residual_horiz: horizontal.residual,
            dmvector_horiz: None,
            motion_code_vert: byte(vertical.code),
            motion_residual_vert: vertical.residual,
            dmvector_vert: None,
            bit_position_after: 0,
        };
        let [f_horizontal, f_vertical] = [horizontal.f_code, vertical.f_code];
        let Mode { format, structure } = mode;
        reconstruct_motion_vector(
            pmv,
            &parsed,
            r,
            s,
            f_horizontal,
            f_vertical,
            format,
            structure,
        )
        .map_err(refusal)
    }

    /// The same for all codes, as the scope composes it of the components.
    fn compose(self, pmv: &mut Pmv) -> Components {
        let horizontal = self.store(pmv, self.horizontal, Component::Horizontal)?;
        let vertical = self.store(pmv, self.vertical, Component::Vertical)?;
        Ok([horizontal, vertical])
    }

    fn store(
        self,
        pmv: &mut Pmv,
        coded: Coded,
        t: Component,
    ) -> Result<ReconstructedComponent, u8> {
        let Self { r, s, mode, .. } = self;
        let part = component(coded, pmv.get(r, s, t), mode, t)?;
        pmv.set(r, s, t, part.new_pmv);
        Ok(part)
    }
}

/// The outcome of an update, or the refusal's number; and the predictors after it.
pub fn update(before: Pmv, context: PmvUpdateContext) -> (Result<PmvUpdateOutcome, u8>, Pmv) {
    let mut after = before;
    let answer = update_predictors(&mut after, context).map_err(refusal);
    (answer, after)
}
