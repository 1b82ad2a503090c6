//! The lines of the vector list: each asks the original, and the scope for the number 2.

use std::fmt::{self, Display};

use oracle::macroblock_modes::PredictionType;
use oracle::picture_header::PictureCodingType;
use oracle::pmv::{
    Component, Direction, Pmv, PmvUpdateContext, ReconstructedComponent, VectorIndex,
    apply_spatial_temporal_reset, compute_delta, decode_motion_vector, scale_chroma, vector_range,
};
use oracle::sequence_extension::ChromaFormat;
use oracle::vectors::{Coded, Mode, Vector, component, refusal, update};

use crate::list::ACCEPTED;

/// Numbers as the lists write them.
struct Numbers<'a>(&'a [i32]);

impl Display for Numbers<'_> {
    fn fmt(&self, f: &mut fmt::Formatter<'_>) -> fmt::Result {
        for (place, number) in self.0.iter().enumerate() {
            if place != 0 {
                f.write_str(" ")?;
            }
            write!(f, "{number}")?;
        }
        Ok(())
    }
}

/// The eight predictors, in the order of their places.
fn eight(pmv: &Pmv) -> Numbers<'_> {
    Numbers(pmv.values.as_flattened().as_flattened())
}

/// The values of a call, or the refusal's number.
pub type Answer<const N: usize> = Result<[i32; N], u8>;

/// 0, or the refusal's number.
pub fn number<const N: usize>(answer: &Answer<N>) -> u8 {
    answer.err().unwrap_or(ACCEPTED)
}

/// ANSWER, and the values behind it.
struct Answered<'a, const N: usize>(&'a Answer<N>);

impl<const N: usize> Display for Answered<'_, N> {
    fn fmt(&self, f: &mut fmt::Formatter<'_>) -> fmt::Result {
        let values = self.0.unwrap_or([0; N]);
        write!(f, "{} {}", number(self.0), Numbers(&values))
    }
}

fn values(component: ReconstructedComponent) -> [i32; 4] {
    let ReconstructedComponent {
        vector_prime,
        new_pmv,
        delta,
        range,
    } = component;
    [vector_prime, new_pmv, delta, range]
}

/// A line of kind 1.
pub struct Delta {
    coded: Coded,
    pub answer: Answer<1>,
}

impl Delta {
    pub fn ask(coded: Coded) -> Self {
        let residual = coded.residual.map(u32::from);
        let ask = || compute_delta(coded.code, residual, coded.f_code).map_err(refusal);
        let answer = coded.within_codes().and_then(|()| ask());
        Self {
            coded,
            answer: answer.map(|delta| [delta]),
        }
    }
}

impl Display for Delta {
    fn fmt(&self, f: &mut fmt::Formatter<'_>) -> fmt::Result {
        let Self { coded, answer } = self;
        write!(f, "1 {coded} {} {}", coded.f_code, Answered(answer))
    }
}

/// A line of kind 2.
pub struct Limits {
    f_code: u8,
    pub answer: Answer<3>,
}

impl Limits {
    pub fn ask(f_code: u8) -> Self {
        let answer = vector_range(f_code).map_err(refusal);
        Self {
            f_code,
            answer: answer.map(|(low, high, range)| [low, high, range]),
        }
    }
}

impl Display for Limits {
    fn fmt(&self, f: &mut fmt::Formatter<'_>) -> fmt::Result {
        write!(f, "2 {} {}", self.f_code, Answered(&self.answer))
    }
}

/// A line of kind 3.
pub struct Reconstruction {
    coded: Coded,
    prior: i32,
    mode: Mode,
    t: Component,
    pub answer: Answer<4>,
}

impl Reconstruction {
    pub fn ask(coded: Coded, prior: i32, mode: Mode, t: Component) -> Self {
        Self {
            coded,
            prior,
            mode,
            t,
            answer: component(coded, prior, mode, t).map(values),
        }
    }
}

impl Display for Reconstruction {
    fn fmt(&self, f: &mut fmt::Formatter<'_>) -> fmt::Result {
        write!(
            f,
            "3 {} {} {} {} {} {}",
            self.coded,
            self.coded.f_code,
            self.prior,
            self.mode,
            self.t as u8,
            Answered(&self.answer),
        )
    }
}

/// Which predictor.
#[derive(Clone, Copy, PartialEq)]
pub struct Place {
    pub r: VectorIndex,
    pub s: Direction,
    pub t: Component,
}

impl Display for Place {
    fn fmt(&self, f: &mut fmt::Formatter<'_>) -> fmt::Result {
        write!(f, "{} {} {}", self.r as u8, self.s as u8, self.t as u8)
    }
}

/// A line of a kind and ten: the same, of the record that the replay lends from line to line.
pub struct Lent<T>(pub T);

impl<T: Display> Display for Lent<T> {
    fn fmt(&self, f: &mut fmt::Formatter<'_>) -> fmt::Result {
        let line = self.0.to_string();
        let (kind, fields) = line.split_once(' ').expect("a line has fields");
        let kind: u8 = kind.parse().expect("a line begins with its kind");
        write!(f, "{} {fields}", kind + 10)
    }
}

/// A line of kind 4.
pub struct Decoding {
    before: Pmv,
    place: Place,
    coded: Coded,
    pub answer: Answer<4>,
    pub after: Pmv,
}

impl Decoding {
    pub fn ask(before: Pmv, place: Place, coded: Coded) -> Self {
        let Place { r, s, t } = place;
        let residual = coded.residual.map(u32::from);
        let mut after = before;
        let mut ask = || {
            decode_motion_vector(&mut after, r, s, t, coded.code, residual, coded.f_code)
                .map_err(refusal)
        };
        let answer = coded.within_codes().and_then(|()| ask());
        Self {
            before,
            place,
            coded,
            answer: answer.map(values),
            after,
        }
    }
}

impl Display for Decoding {
    fn fmt(&self, f: &mut fmt::Formatter<'_>) -> fmt::Result {
        write!(
            f,
            "4 {} {} {} {} {} {}",
            eight(&self.before),
            self.place,
            self.coded,
            self.coded.f_code,
            Answered(&self.answer),
            eight(&self.after),
        )
    }
}

/// A line of kind 5.
pub struct VectorReconstruction {
    before: Pmv,
    vector: Vector,
    pub answer: Answer<8>,
    pub after: Pmv,
}

impl VectorReconstruction {
    pub fn ask(before: Pmv, vector: Vector) -> Self {
        let (answer, after) = vector.ask(before);
        let values = answer.map(|[horizontal, vertical]| {
            let [a, b, c, d] = values(horizontal);
            let [e, f, g, h] = values(vertical);
            [a, b, c, d, e, f, g, h]
        });
        Self {
            before,
            vector,
            answer: values,
            after,
        }
    }
}

impl Display for VectorReconstruction {
    fn fmt(&self, f: &mut fmt::Formatter<'_>) -> fmt::Result {
        let Vector {
            r,
            s,
            horizontal,
            vertical,
            mode,
        } = self.vector;
        write!(
            f,
            "5 {} {} {} {horizontal} {vertical} {} {} {mode} {} {}",
            eight(&self.before),
            r as u8,
            s as u8,
            horizontal.f_code,
            vertical.f_code,
            Answered(&self.answer),
            eight(&self.after),
        )
    }
}

/// A line of kind 6.
pub struct ChromaScaling {
    luma: (i32, i32),
    format: ChromaFormat,
    pub chroma: (i32, i32),
}

impl ChromaScaling {
    pub fn ask(horizontal: i32, vertical: i32, format: ChromaFormat) -> Self {
        let luma = (horizontal, vertical);
        let scaled = scale_chroma(horizontal, vertical, format);
        assert_eq!(
            (scaled.luma_horiz, scaled.luma_vert),
            luma,
            "the line says so"
        );
        Self {
            luma,
            format,
            chroma: (scaled.chroma_horiz, scaled.chroma_vert),
        }
    }
}

impl Display for ChromaScaling {
    fn fmt(&self, f: &mut fmt::Formatter<'_>) -> fmt::Result {
        let (luma_horizontal, luma_vertical) = self.luma;
        let (horizontal, vertical) = self.chroma;
        write!(
            f,
            "6 {luma_horizontal} {luma_vertical} {} {horizontal} {vertical}",
            self.format as u8,
        )
    }
}

/// A line of kind 7.
pub struct Update {
    before: Pmv,
    context: PmvUpdateContext,
    pub answer: Answer<1>,
    pub after: Pmv,
}

impl Update {
    pub fn ask(before: Pmv, context: PmvUpdateContext) -> Self {
        let (answer, after) = update(before, context);
        Self {
            before,
            context,
            answer: answer.map(|outcome| [outcome as i32]),
            after,
        }
    }
}

impl Display for Update {
    fn fmt(&self, f: &mut fmt::Formatter<'_>) -> fmt::Result {
        let PmvUpdateContext {
            picture_structure,
            prediction_type,
            macroblock_motion_forward,
            macroblock_motion_backward,
            macroblock_intra,
            concealment_motion_vectors,
        } = self.context;
        write!(
            f,
            "7 {} {} {} {} {} {} {} {} {} {}",
            eight(&self.before),
            picture_structure as u8,
            u8::from(prediction_type.is_some()),
            prediction_type.map_or(0, |kind: PredictionType| kind as u8),
            u8::from(macroblock_motion_forward),
            u8::from(macroblock_motion_backward),
            u8::from(macroblock_intra),
            u8::from(concealment_motion_vectors),
            Answered(&self.answer),
            eight(&self.after),
        )
    }
}

/// A line of kind 8.
pub struct SpatialReset {
    before: Pmv,
    coding_type: PictureCodingType,
    class: u8,
    pub applied: bool,
    pub after: Pmv,
}

impl SpatialReset {
    pub fn ask(before: Pmv, coding_type: PictureCodingType, class: u8) -> Self {
        let mut after = before;
        let applied = apply_spatial_temporal_reset(&mut after, coding_type, class);
        Self {
            before,
            coding_type,
            class,
            applied,
            after,
        }
    }
}

impl Display for SpatialReset {
    fn fmt(&self, f: &mut fmt::Formatter<'_>) -> fmt::Result {
        write!(
            f,
            "8 {} {} {} {} {}",
            eight(&self.before),
            self.coding_type as u8,
            self.class,
            u8::from(self.applied),
            eight(&self.after),
        )
    }
}

/// A line of kind 9.
pub struct GetAndSet {
    pub before: Pmv,
    place: Place,
    value: i32,
    pub got: i32,
    pub after: Pmv,
}

impl GetAndSet {
    pub fn ask(before: Pmv, place: Place, value: i32) -> Self {
        let Place { r, s, t } = place;
        let got = before.get(r, s, t);
        let mut after = before;
        after.set(r, s, t, value);
        Self {
            before,
            place,
            value,
            got,
            after,
        }
    }
}

impl Display for GetAndSet {
    fn fmt(&self, f: &mut fmt::Formatter<'_>) -> fmt::Result {
        write!(
            f,
            "9 {} {} {} {} {}",
            eight(&self.before),
            self.place,
            self.value,
            self.got,
            eight(&self.after),
        )
    }
}

/// A line of kind 10.
pub struct Reset {
    before: Pmv,
    pub after: Pmv,
}

impl Reset {
    pub fn ask(before: Pmv) -> Self {
        let mut after = before;
        after.reset();
        Self { before, after }
    }
}

impl Display for Reset {
    fn fmt(&self, f: &mut fmt::Formatter<'_>) -> fmt::Result {
        write!(f, "10 {} {}", eight(&self.before), eight(&self.after))
    }
}

/// A line of kind 11.
pub struct Fresh {
    pub after: Pmv,
}

impl Fresh {
    pub fn ask() -> Self {
        Self { after: Pmv::new() }
    }
}

impl Display for Fresh {
    fn fmt(&self, f: &mut fmt::Formatter<'_>) -> fmt::Result {
        write!(f, "11 {}", eight(&self.after))
    }
}
