//! The lines of the entry points' list. C passes numbers and bytes: what they mean, where they stand
//! and when the number 38 comes is said here, by docs/SCOPE.md and docs/C-INTERFACE.md. What is left is
//! asked of the original, and of the scope for the refusals that it adds.

use std::fmt::{self, Display};

use oracle::dual_prime::FieldParity;
use oracle::inter_reconstruction::{
    FieldBasedMotion, FieldVector, FrameMotion, MotionVectorPel, ReferenceFrames,
};
use oracle::macroblock_modes::{MvFormat, PredictionType};
use oracle::macroblocks::{Geometry, Motion, Question};
use oracle::picture_header::PictureStructure;
use oracle::pmv::{Component, Direction, Pmv, PmvUpdateContext, VectorIndex};
use oracle::refusals::NO_MEANING;
use oracle::rng::Rng;
use oracle::sequence_extension::ChromaFormat;
use oracle::vectors::{Coded, Mode, Vector, update};

use crate::inter_reconstruction::cases::Planes;
use crate::list::{ACCEPTED, Hex, ramp, telling_fill};

// The kinds, each at the place that is its number.
pub const INDEXES: [VectorIndex; 2] = [VectorIndex::First, VectorIndex::Second];
pub const DIRECTIONS: [Direction; 2] = [Direction::Forward, Direction::Backward];
pub const COMPONENTS: [Component; 2] = [Component::Horizontal, Component::Vertical];
pub const FORMATS: [MvFormat; 2] = [MvFormat::Field, MvFormat::Frame];
pub const STRUCTURES: [PictureStructure; 3] = [
    PictureStructure::TopField,
    PictureStructure::BottomField,
    PictureStructure::Frame,
];
pub const TYPES: [PredictionType; 4] = [
    PredictionType::FieldBased,
    PredictionType::FrameBased,
    PredictionType::SixteenByEight,
    PredictionType::DualPrime,
];
pub const PARITIES: [FieldParity; 2] = [FieldParity::Top, FieldParity::Bottom];
pub const CHROMA_FORMATS: [ChromaFormat; 3] = [
    ChromaFormat::Yuv420,
    ChromaFormat::Yuv422,
    ChromaFormat::Yuv444,
];

/// Numbers at the ends of their 32 bits, and around 0.
pub const ENDS: [i32; 7] = [i32::MIN, i32::MIN + 1, -1, 0, 1, i32::MAX - 1, i32::MAX];

/// The right lengths.
pub const PREDICTORS: usize = 32;
pub const VECTOR: usize = 8;
pub const OUTCOME: usize = 1;

/// The scope counts the kinds from 0 in the order of the original's enums. Stops where a row above
/// has another.
pub fn see_orders() {
    fn in_order<const N: usize>(numbers: [usize; N]) {
        assert!(
            numbers.into_iter().eq(0..N),
            "the original has another order"
        );
    }
    in_order(INDEXES.map(|kind| kind as usize));
    in_order(DIRECTIONS.map(|kind| kind as usize));
    in_order(COMPONENTS.map(|kind| kind as usize));
    in_order(FORMATS.map(|kind| kind as usize));
    in_order(STRUCTURES.map(|kind| kind as usize));
    in_order(TYPES.map(|kind| kind as usize));
    in_order(PARITIES.map(|kind| kind as usize));
    in_order(CHROMA_FORMATS.map(|kind| kind as usize));
}

/// What a number means, if anything.
fn kind_of<T: Copy>(kinds: &[T], number: u32) -> Option<T> {
    kinds.get(usize::try_from(number).ok()?).copied()
}

fn flag(number: u32) -> Option<bool> {
    kind_of(&[false, true], number)
}

/// What stands beside a presence: it is read where that is 1. None where a number has no meaning.
fn beside<T>(present: u32, read: impl FnOnce() -> Option<T>) -> Option<Option<T>> {
    if flag(present)? {
        read().map(Some)
    } else {
        Some(None)
    }
}

// ---- the buffers

/// Where PMV[r][s][t] stands.
pub fn place(r: VectorIndex, s: Direction, t: Component) -> usize {
    4 * (4 * r as usize + 2 * s as usize + t as usize)
}

fn places() -> impl Iterator<Item = (VectorIndex, Direction, Component)> {
    INDEXES.into_iter().flat_map(|r| {
        let of = move |s| COMPONENTS.map(|t| (r, s, t));
        DIRECTIONS.into_iter().flat_map(of)
    })
}

/// The predictors' buffer.
pub fn predictor_bytes(pmv: &Pmv) -> Vec<u8> {
    let mut bytes = vec![0; PREDICTORS];
    for (r, s, t) in places() {
        let from = place(r, s, t);
        bytes[from..from + 4].copy_from_slice(&pmv.get(r, s, t).to_le_bytes());
    }
    bytes
}

/// The predictors in a buffer, unless it has a wrong length.
fn predictors_of(bytes: &[u8]) -> Option<Pmv> {
    if bytes.len() != PREDICTORS {
        return None;
    }
    let mut pmv = Pmv::new();
    for (r, s, t) in places() {
        let from = place(r, s, t);
        let four = [0, 1, 2, 3].map(|byte| bytes[from + byte]);
        pmv.set(r, s, t, i32::from_le_bytes(four));
    }
    Some(pmv)
}

/// A buffer as a list has it after a call: - where it is what it was before.
struct After<'a> {
    before: &'a [u8],
    after: &'a [u8],
}

impl Display for After<'_> {
    fn fmt(&self, f: &mut fmt::Formatter<'_>) -> fmt::Result {
        let changed = self.before != self.after;
        Hex(if changed { self.after } else { &[] }).fmt(f)
    }
}

// ---- vectors and updates

/// A line of kind 2 or 3. The result is a vector or an outcome.
pub struct Line {
    /// The kind, and what C passes for numbers.
    numbers: String,
    fill: u8,
    length: usize,
    before: Vec<u8>,
    pub answer: u8,
    pub predictors: Vec<u8>,
    pub result: Vec<u8>,
}

impl Line {
    /// What a call gives: a number that is 0 or a refusal's, the predictors, and the result where there
    /// is one. None stands for 38.
    fn new(
        rng: &mut Rng,
        numbers: String,
        before: &[u8],
        length: usize,
        given: Option<(Result<Vec<u8>, u8>, Pmv)>,
    ) -> Self {
        let (answer, predictors) = match given {
            None => (Err(NO_MEANING), before.to_vec()),
            Some((answer, after)) => (answer, predictor_bytes(&after)),
        };
        let fill = telling_fill(rng, answer.as_deref().unwrap_or_default());
        Self {
            numbers,
            fill,
            length,
            before: before.to_vec(),
            answer: answer.as_ref().err().copied().unwrap_or(ACCEPTED),
            predictors,
            result: answer.unwrap_or_else(|_| ramp(fill, length)),
        }
    }
}

impl Display for Line {
    fn fmt(&self, f: &mut fmt::Formatter<'_>) -> fmt::Result {
        let Self {
            numbers,
            fill,
            length,
            before,
            answer,
            predictors,
            result,
        } = self;
        let predictors = After {
            before,
            after: predictors,
        };
        let result = After {
            before: &ramp(*fill, *length),
            after: result,
        };
        let before = Hex(before);
        write!(
            f,
            "{numbers} {fill} {length} {answer} {before} {predictors} {result}"
        )
    }
}

/// What C passes for a component.
#[derive(Clone, Copy)]
pub struct Part {
    pub code: i32,
    pub present: u32,
    pub residual: u8,
    pub f_code: u8,
}

impl Part {
    fn meaning(self) -> Option<Coded> {
        Some(Coded {
            code: self.code,
            residual: beside(self.present, || Some(self.residual))?,
            f_code: self.f_code,
        })
    }
}

/// As a list has it, without the f_code.
impl Display for Part {
    fn fmt(&self, f: &mut fmt::Formatter<'_>) -> fmt::Result {
        write!(f, "{} {} {}", self.code, self.present, self.residual)
    }
}

/// What C passes for a vector.
#[derive(Clone)]
pub struct VectorCall {
    pub r: u32,
    pub s: u32,
    pub horizontal: Part,
    pub vertical: Part,
    pub format: u32,
    pub structure: u32,
    pub predictors: Vec<u8>,
    /// Of the vector's buffer.
    pub length: usize,
}

impl VectorCall {
    fn meaning(&self) -> Option<(Vector, Pmv)> {
        let vector = Vector {
            r: kind_of(&INDEXES, self.r)?,
            s: kind_of(&DIRECTIONS, self.s)?,
            horizontal: self.horizontal.meaning()?,
            vertical: self.vertical.meaning()?,
            mode: Mode {
                format: kind_of(&FORMATS, self.format)?,
                structure: kind_of(&STRUCTURES, self.structure)?,
            },
        };
        let predictors = predictors_of(&self.predictors)?;
        (self.length == VECTOR).then_some((vector, predictors))
    }

    pub fn ask(&self, rng: &mut Rng) -> Line {
        let given = self.meaning().map(|(vector, before)| {
            let (answer, after) = vector.ask(before);
            let bytes = |component: i32| component.to_le_bytes();
            let vector =
                answer.map(|[h, v]| [bytes(h.vector_prime), bytes(v.vector_prime)].concat());
            (vector, after)
        });
        let Self {
            r,
            s,
            horizontal,
            vertical,
            format,
            structure,
            ..
        } = self;
        let numbers = format!(
            "2 {r} {s} {horizontal} {vertical} {} {} {format} {structure}",
            horizontal.f_code, vertical.f_code,
        );
        Line::new(rng, numbers, &self.predictors, self.length, given)
    }
}

/// What C passes for an update.
#[derive(Clone)]
pub struct UpdateCall {
    pub structure: u32,
    pub present: u32,
    pub prediction_type: u32,
    pub forward: u32,
    pub backward: u32,
    pub intra: u32,
    pub concealment: u32,
    pub predictors: Vec<u8>,
    /// Of the outcome's buffer.
    pub length: usize,
}

impl UpdateCall {
    fn meaning(&self) -> Option<(PmvUpdateContext, Pmv)> {
        let context = PmvUpdateContext {
            picture_structure: kind_of(&STRUCTURES, self.structure)?,
            prediction_type: beside(self.present, || kind_of(&TYPES, self.prediction_type))?,
            macroblock_motion_forward: flag(self.forward)?,
            macroblock_motion_backward: flag(self.backward)?,
            macroblock_intra: flag(self.intra)?,
            concealment_motion_vectors: flag(self.concealment)?,
        };
        let predictors = predictors_of(&self.predictors)?;
        (self.length == OUTCOME).then_some((context, predictors))
    }

    pub fn ask(&self, rng: &mut Rng) -> Line {
        let given = self.meaning().map(|(context, before)| {
            let (answer, after) = update(before, context);
            (answer.map(|outcome| vec![outcome as u8]), after)
        });
        let Self {
            structure,
            present,
            prediction_type,
            forward,
            backward,
            intra,
            concealment,
            ..
        } = self;
        let numbers = format!(
            "3 {structure} {present} {prediction_type} {forward} {backward} {intra} {concealment}"
        );
        Line::new(rng, numbers, &self.predictors, self.length, given)
    }
}

// ---- prediction

/// What C passes for what a reference declares.
#[derive(Clone, Copy)]
pub struct Declared {
    pub present: u32,
    pub width: usize,
    pub height: usize,
    pub format: u32,
}

impl Declared {
    fn geometry(self) -> Option<Geometry> {
        Some(Geometry {
            width: self.width,
            height: self.height,
            format: kind_of(&CHROMA_FORMATS, self.format)?,
        })
    }

    fn meaning(self) -> Option<Option<Geometry>> {
        beside(self.present, || self.geometry())
    }
}

/// A vector, and the field that it reads, which the field call alone has.
#[derive(Clone, Copy)]
pub struct Moving {
    pub field: u32,
    pub horizontal: i32,
    pub vertical: i32,
}

impl Moving {
    fn vector(self) -> MotionVectorPel {
        MotionVectorPel::new(self.horizontal, self.vertical)
    }

    fn field_vector(self) -> Option<FieldVector> {
        let parity = kind_of(&PARITIES, self.field)?;
        Some(FieldVector::new(self.vector(), parity))
    }
}

/// What C passes for the motion of a direction: of the top field and of the bottom one. The frame call
/// has the first alone.
#[derive(Clone, Copy)]
pub struct Moved {
    pub present: u32,
    pub vectors: [Moving; 2],
}

impl Moved {
    fn frame(self) -> Option<Option<MotionVectorPel>> {
        let [vector, _] = self.vectors;
        beside(self.present, || Some(vector.vector()))
    }

    fn field(self) -> Option<Option<(FieldVector, FieldVector)>> {
        let [top, bottom] = self.vectors;
        beside(self.present, || {
            Some((top.field_vector()?, bottom.field_vector()?))
        })
    }
}

/// Which of the two calls.
#[derive(Clone, Copy, PartialEq)]
pub enum Call {
    Frame,
    Field,
}

/// What C passes for a macroblock, beside the planes. Of two, the first is forward.
#[derive(Clone, Copy)]
pub struct PredictionCall {
    pub call: Call,
    pub width: usize,
    pub height: usize,
    pub format: u32,
    pub column: usize,
    pub row: usize,
    pub references: [Declared; 2],
    pub motion: [Moved; 2],
    /// Of the output.
    pub length: usize,
}

/// What it means.
struct Meaning {
    dest: Geometry,
    references: [Option<Geometry>; 2],
    motion: Motion,
}

impl PredictionCall {
    /// What the picture declares, as a reference would.
    pub fn dest(&self) -> Declared {
        Declared {
            present: 1,
            width: self.width,
            height: self.height,
            format: self.format,
        }
    }

    fn meaning(&self) -> Option<Meaning> {
        let [forward, backward] = self.references;
        let [forward_motion, backward_motion] = self.motion;
        let motion = match self.call {
            Call::Frame => Motion::Frame(FrameMotion {
                forward: forward_motion.frame()?,
                backward: backward_motion.frame()?,
            }),
            Call::Field => Motion::Field(FieldBasedMotion {
                forward: forward_motion.field()?,
                backward: backward_motion.field()?,
            }),
        };
        Some(Meaning {
            dest: self.dest().geometry()?,
            references: [forward.meaning()?, backward.meaning()?],
            motion,
        })
    }

    /// What is right, and what the original forms, also where the scope refuses: it must not show.
    fn given(&self, planes: &[Planes; 2]) -> (Result<Vec<u8>, u8>, Vec<u8>) {
        let Some(meaning) = self.meaning() else {
            return (Err(NO_MEANING), Vec::new());
        };
        let [forward, backward] = meaning.references;
        let forward = forward.map(|declared| planes[0].frame(declared));
        let backward = backward.map(|declared| planes[1].frame(declared));
        let motion = meaning
            .motion
            .remaining([forward.is_some(), backward.is_some()]);
        let used = |planes: &&Planes| motion.uses(planes.reference);
        let question = Question {
            dest: meaning.dest,
            references: ReferenceFrames {
                forward: forward.as_ref(),
                backward: backward.as_ref(),
            },
            column: self.column,
            row: self.row,
            motion,
            length: self.length,
            in_domain: planes.iter().filter(used).all(Planes::in_domain),
        };
        let original = question.ask_original();
        let formed = original.clone().unwrap_or_default();
        let answer = question.refused_before().and(original);
        let answer = answer.and_then(|formed| question.refused_after().map(|()| formed));
        (answer, formed)
    }

    pub fn ask(&self, rng: &mut Rng, planes: &[Planes; 2]) -> PredictionLine {
        let (answer, formed) = self.given(planes);
        let fill = telling_fill(rng, &formed);
        PredictionLine {
            call: *self,
            fill,
            answer: answer.as_ref().err().copied().unwrap_or(ACCEPTED),
            after: answer.unwrap_or_else(|_| ramp(fill, self.length)),
        }
    }
}

/// A line of kind 4 or 5.
pub struct PredictionLine {
    call: PredictionCall,
    fill: u8,
    pub answer: u8,
    pub after: Vec<u8>,
}

impl Display for PredictionLine {
    fn fmt(&self, f: &mut fmt::Formatter<'_>) -> fmt::Result {
        let PredictionCall {
            call,
            width,
            height,
            format,
            column,
            row,
            references,
            motion,
            length,
        } = self.call;
        let kind = match call {
            Call::Frame => 4,
            Call::Field => 5,
        };
        write!(f, "{kind} {width} {height} {format} {column} {row}")?;
        for declared in references {
            let Declared {
                present,
                width,
                height,
                format,
            } = declared;
            write!(f, " {present} {width} {height} {format}")?;
        }
        for Moved { present, vectors } in motion {
            write!(f, " {present}")?;
            let vectors = match call {
                Call::Frame => &vectors[..1],
                Call::Field => &vectors[..],
            };
            for vector in vectors {
                if call == Call::Field {
                    write!(f, " {}", vector.field)?;
                }
                write!(f, " {} {}", vector.horizontal, vector.vertical)?;
            }
        }
        let after = After {
            before: &ramp(self.fill, length),
            after: &self.after,
        };
        write!(f, " {} {length} {} {after}", self.fill, self.answer)
    }
}
