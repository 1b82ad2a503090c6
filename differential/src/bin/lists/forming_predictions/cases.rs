//! The lines of the forming list: each asks the original, and the scope for what is refused.

use std::fmt::{self, Display};
use std::ops::RangeInclusive;

use oracle::forming_predictions::{
    BlockSize, BoundaryMode, FieldReference, HalfPattern, ReferencePlane, SplitVector,
    predict_block, predict_field_block, predict_field_sample, predict_sample, split_component,
    split_vector,
};
use oracle::rng::Rng;

use crate::list::{ACCEPTED, Hex, OUTPUT_LENGTH, ramp, telling_fill};

/// The scope's number for the original's `None`, a plane of another length or a block
/// without samples, and for what else is outside the domain.
pub const OUTSIDE_DOMAIN: u8 = 14;

pub const LARGEST_SIDE: usize = 16_384;
pub const BLOCK_SIDES: RangeInclusive<usize> = 1..=16;
pub const BLOCK_POSITIONS: RangeInclusive<i32> = -32_768..=32_767;
/// A block at the last position has its last sample at the last of these.
pub const SAMPLE_POSITIONS: RangeInclusive<i32> = -32_768..=32_782;

/// A line of kind 1.
pub struct ComponentSplitting {
    component: i32,
    pub int_vec: i32,
    half_flag: bool,
}

impl ComponentSplitting {
    pub fn ask(component: i32) -> Self {
        let split = split_component(component);
        Self {
            component,
            int_vec: split.int_vec,
            half_flag: split.half_flag,
        }
    }
}

impl Display for ComponentSplitting {
    fn fmt(&self, f: &mut fmt::Formatter<'_>) -> fmt::Result {
        let half_flag = u8::from(self.half_flag);
        write!(f, "1 {} {} {half_flag}", self.component, self.int_vec)
    }
}

/// A motion vector, in half samples.
#[derive(Clone, Copy)]
pub struct Vector {
    pub horizontal: i32,
    pub vertical: i32,
}

impl Display for Vector {
    fn fmt(&self, f: &mut fmt::Formatter<'_>) -> fmt::Result {
        write!(f, "{} {}", self.horizontal, self.vertical)
    }
}

/// A line of kind 2.
pub struct VectorSplitting {
    vector: Vector,
    split: SplitVector,
    pub pattern: HalfPattern,
}

impl VectorSplitting {
    pub fn ask(vector: Vector) -> Self {
        let split = split_vector(vector.horizontal, vector.vertical);
        Self {
            vector,
            split,
            pattern: split.pattern(),
        }
    }
}

impl Display for VectorSplitting {
    fn fmt(&self, f: &mut fmt::Formatter<'_>) -> fmt::Result {
        let SplitVector {
            horizontal,
            vertical,
        } = self.split;
        write!(
            f,
            "2 {} {} {} {} {} {}",
            self.vector,
            horizontal.int_vec,
            u8::from(horizontal.half_flag),
            vertical.int_vec,
            u8::from(vertical.half_flag),
            self.pattern as u8,
        )
    }
}

/// A line of kind 3.
pub struct Flags {
    half_x: bool,
    half_y: bool,
    pattern: HalfPattern,
    pub is_half_pel: bool,
}

impl Flags {
    pub fn ask(half_x: bool, half_y: bool) -> Self {
        let pattern = HalfPattern::from_flags(half_x, half_y);
        assert_eq!(pattern.flags(), (half_x, half_y), "the line says so");
        Self {
            half_x,
            half_y,
            pattern,
            is_half_pel: pattern.is_half_pel(),
        }
    }
}

impl Display for Flags {
    fn fmt(&self, f: &mut fmt::Formatter<'_>) -> fmt::Result {
        write!(
            f,
            "3 {} {} {} {}",
            u8::from(self.half_x),
            u8::from(self.half_y),
            self.pattern as u8,
            u8::from(self.is_half_pel),
        )
    }
}

/// A line of kind 4.
pub struct FieldHeights {
    height: usize,
    top: usize,
    pub bottom: usize,
}

impl FieldHeights {
    pub fn ask(height: usize) -> Self {
        // The heights follow from the rows alone, so that a plane without samples serves.
        let plane = ReferencePlane {
            data: &[],
            width: 0,
            height,
            boundary: BoundaryMode::PadEdge,
        };
        let [top, bottom] = [0, 1].map(|parity| field(plane, parity).height());
        Self {
            height,
            top,
            bottom,
        }
    }
}

impl Display for FieldHeights {
    fn fmt(&self, f: &mut fmt::Formatter<'_>) -> fmt::Result {
        write!(f, "4 {} {} {}", self.height, self.top, self.bottom)
    }
}

fn field(plane: ReferencePlane<'_>, parity: usize) -> FieldReference<'_> {
    FieldReference::new(plane, parity).expect("the original has both parities")
}

/// What of a plane is read, in the order of FROM.
#[derive(Clone, Copy)]
pub enum Reference {
    TopField,
    BottomField,
    Frame,
}

pub const REFERENCES: [Reference; 3] = [
    Reference::TopField,
    Reference::BottomField,
    Reference::Frame,
];

/// The same as the original has it.
enum View<'a> {
    Field(FieldReference<'a>),
    Frame(ReferencePlane<'a>),
}

impl View<'_> {
    fn sample(self, position: Position) -> u8 {
        let Position { x, y } = position;
        match self {
            Self::Field(field) => field.sample(x, y),
            Self::Frame(plane) => plane.sample(x, y),
        }
    }

    fn predict_sample(self, position: Position, vector: Vector) -> u8 {
        let Position { x, y } = position;
        let split = split_vector(vector.horizontal, vector.vertical);
        match self {
            Self::Field(field) => predict_field_sample(field, x, y, split),
            Self::Frame(plane) => predict_sample(plane, x, y, split),
        }
    }

    fn predict_block(self, position: Position, size: BlockSize, vector: Vector) -> Vec<u8> {
        let Position { x, y } = position;
        let Vector {
            horizontal,
            vertical,
        } = vector;
        match self {
            Self::Field(field) => predict_field_block(field, x, y, size, horizontal, vertical),
            Self::Frame(plane) => predict_block(plane, x, y, size, horizontal, vertical),
        }
    }
}

/// A line of kind 5, or of kind 6 where the bytes are a run from `first` on.
pub struct Plane {
    pub width: usize,
    pub height: usize,
    data: Vec<u8>,
    first: Option<u8>,
}

impl Plane {
    pub fn new(width: usize, height: usize, data: Vec<u8>) -> Self {
        Self {
            width,
            height,
            data,
            first: None,
        }
    }

    pub fn run(width: usize, height: usize, length: usize, first: u8) -> Self {
        Self {
            width,
            height,
            data: ramp(first, length),
            first: Some(first),
        }
    }

    /// How many rows of the frame, or lines of the field, there are.
    pub fn lines(&self, reference: Reference) -> usize {
        let heights = FieldHeights::ask(self.height);
        match reference {
            Reference::TopField => heights.top,
            Reference::BottomField => heights.bottom,
            Reference::Frame => self.height,
        }
    }

    /// What the original reads, where it takes the plane.
    fn view(&self, reference: Reference) -> Option<View<'_>> {
        let plane = ReferencePlane::new(&self.data, self.width, self.height)?;
        Some(match reference {
            Reference::TopField => View::Field(field(plane, 0)),
            Reference::BottomField => View::Field(field(plane, 1)),
            Reference::Frame => View::Frame(plane),
        })
    }

    /// The same, where the scope takes the plane too.
    fn view_in_domain(&self, reference: Reference) -> Option<View<'_>> {
        let sides = [self.width, self.height];
        let small = sides.into_iter().all(|side| side <= LARGEST_SIDE);
        self.view(reference).filter(|_| small)
    }
}

impl Display for Plane {
    fn fmt(&self, f: &mut fmt::Formatter<'_>) -> fmt::Result {
        let Self { width, height, .. } = self;
        match self.first {
            None => write!(f, "5 {width} {height} {}", Hex(&self.data)),
            Some(first) => write!(f, "6 {width} {height} {} {first}", self.data.len()),
        }
    }
}

/// A place of the frame or of the field.
#[derive(Clone, Copy)]
pub struct Position {
    pub x: i32,
    pub y: i32,
}

impl Position {
    fn within(self, range: RangeInclusive<i32>) -> bool {
        range.contains(&self.x) && range.contains(&self.y)
    }
}

impl Display for Position {
    fn fmt(&self, f: &mut fmt::Formatter<'_>) -> fmt::Result {
        write!(f, "{} {}", self.x, self.y)
    }
}

/// The ANSWER and the SAMPLE of a call that refuses where there is none.
fn answer(sample: Option<u8>) -> (u8, u8) {
    match sample {
        Some(sample) => (ACCEPTED, sample),
        None => (OUTSIDE_DOMAIN, 0),
    }
}

/// A line of kind 7.
pub struct Sample {
    reference: Reference,
    position: Position,
    answer: u8,
    pub sample: u8,
}

impl Sample {
    pub fn ask(plane: &Plane, reference: Reference, position: Position) -> Self {
        let view = plane.view_in_domain(reference);
        let (answer, sample) = answer(view.map(|view| view.sample(position)));
        Self {
            reference,
            position,
            answer,
            sample,
        }
    }
}

impl Display for Sample {
    fn fmt(&self, f: &mut fmt::Formatter<'_>) -> fmt::Result {
        write!(
            f,
            "7 {} {} {} {}",
            self.reference as u8, self.position, self.answer, self.sample,
        )
    }
}

/// A line of kind 8.
pub struct PredictedSample {
    reference: Reference,
    position: Position,
    vector: Vector,
    pub answer: u8,
    pub sample: u8,
}

impl PredictedSample {
    pub fn ask(plane: &Plane, reference: Reference, position: Position, vector: Vector) -> Self {
        let view = plane
            .view_in_domain(reference)
            .filter(|_| position.within(SAMPLE_POSITIONS));
        let (answer, sample) = answer(view.map(|view| view.predict_sample(position, vector)));
        Self {
            reference,
            position,
            vector,
            answer,
            sample,
        }
    }
}

impl Display for PredictedSample {
    fn fmt(&self, f: &mut fmt::Formatter<'_>) -> fmt::Result {
        write!(
            f,
            "8 {} {} {} {} {}",
            self.reference as u8, self.position, self.vector, self.answer, self.sample,
        )
    }
}

/// A line of kind 9.
pub struct PredictedBlock {
    reference: Reference,
    position: Position,
    size: BlockSize,
    vector: Vector,
    fill: u8,
    length: usize,
    answer: u8,
    pub after: Vec<u8>,
}

impl PredictedBlock {
    pub fn ask(
        rng: &mut Rng,
        plane: &Plane,
        reference: Reference,
        position: Position,
        size: BlockSize,
        vector: Vector,
        length: usize,
    ) -> Self {
        let in_domain = plane.view_in_domain(reference).is_some()
            && [size.width, size.height]
                .into_iter()
                .all(|side| BLOCK_SIDES.contains(&side))
            && position.within(BLOCK_POSITIONS);
        // The original forms some blocks that the scope refuses: the output tells these too.
        let formed = plane
            .view(reference)
            .filter(|_| size.width.max(size.height) <= 2 * BLOCK_SIDES.end())
            .zip(BlockSize::new(size.width, size.height))
            .map(|(view, size)| view.predict_block(position, size, vector))
            .unwrap_or_default();
        let fill = telling_fill(rng, &formed);
        let (answer, after) = if !in_domain {
            (OUTSIDE_DOMAIN, ramp(fill, length))
        } else if formed.len() != length {
            (OUTPUT_LENGTH, ramp(fill, length))
        } else {
            (ACCEPTED, formed)
        };
        Self {
            reference,
            position,
            size,
            vector,
            fill,
            length,
            answer,
            after,
        }
    }
}

impl Display for PredictedBlock {
    fn fmt(&self, f: &mut fmt::Formatter<'_>) -> fmt::Result {
        write!(
            f,
            "9 {} {} {} {} {} {} {} {} {}",
            self.reference as u8,
            self.position,
            self.size.width,
            self.size.height,
            self.vector,
            self.fill,
            self.length,
            self.answer,
            Hex(&self.after),
        )
    }
}
