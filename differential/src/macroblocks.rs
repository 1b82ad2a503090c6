//! What the comparisons of macroblocks share: what is asked of the original, and the
//! numbers 13, 18 and 14 of the scope (docs/SCOPE.md), which the original does not have.

use std::fmt::{self, Display};

use crate::dual_prime::FieldParity;
use crate::frame_assembly::{FrameBuffer, Plane};
use crate::inter_reconstruction::{
    FieldBasedMotion, FieldVector, FrameMotion, InterResult, MotionVectorPel, ReferenceFrames,
    predict_field_based_macroblock_planes, predict_frame_macroblock_planes,
};
use crate::pmv::Direction;
use crate::refusals::{self, CELL_TOO_FAR, OUTPUT_LENGTH, OUTSIDE_DOMAIN};
use crate::sequence_extension::ChromaFormat;

pub const LAST_CELL: usize = 1023;
pub const LARGEST_SIDE: usize = 16_384;

/// The sides of a plane, and how many samples the port is lent for it.
#[derive(Debug, Clone, Copy)]
pub struct Sides {
    pub width: usize,
    pub height: usize,
    pub length: usize,
}

impl Sides {
    pub fn has_its_length(self) -> bool {
        self.width.checked_mul(self.height) == Some(self.length)
    }

    /// Whether the scope takes the plane.
    pub fn in_domain(self) -> bool {
        self.has_its_length() && self.width.max(self.height) <= LARGEST_SIDE
    }

    /// The original's plane of these samples. It has as many as its sides say: an empty one stands
    /// for a plane of another length, which no call gets to read.
    pub fn plane(self, samples: &[u8]) -> Plane {
        if !self.has_its_length() {
            return Plane::new(0, 0);
        }
        let mut plane = Plane::new(self.width, self.height);
        for (y, row) in samples.chunks(self.width.max(1)).enumerate() {
            for (x, sample) in row.iter().enumerate() {
                plane.put_sample(x, y, *sample);
            }
        }
        plane
    }
}

/// As the lists write it.
impl Display for Sides {
    fn fmt(&self, f: &mut fmt::Formatter<'_>) -> fmt::Result {
        write!(f, "{} {} {}", self.width, self.height, self.length)
    }
}

/// What a frame declares.
#[derive(Debug, Clone, Copy, PartialEq)]
pub struct Geometry {
    pub width: usize,
    pub height: usize,
    pub format: ChromaFormat,
}

impl Geometry {
    /// A frame that declares this, with empty planes.
    pub fn frame(self) -> FrameBuffer {
        FrameBuffer::new(0, 0, self.format)
            .with_width(self.width)
            .with_height(self.height)
    }
}

/// As the lists write it.
impl Display for Geometry {
    fn fmt(&self, f: &mut fmt::Formatter<'_>) -> fmt::Result {
        write!(f, "{} {} {}", self.width, self.height, self.format as u8)
    }
}

/// How many bytes a macroblock has.
pub fn macroblock_length(format: ChromaFormat) -> usize {
    match format {
        ChromaFormat::Yuv420 => 384,
        ChromaFormat::Yuv422 => 512,
        ChromaFormat::Yuv444 => 768,
    }
}

/// What a macroblock is predicted by, which tells the call too.
#[derive(Debug, Clone, Copy)]
pub enum Motion {
    Frame(FrameMotion),
    Field(FieldBasedMotion),
}

impl Motion {
    /// What the scope's rule leaves of it, by whether the forward and the backward reference are
    /// there: of two directions the one whose reference is there, where the other's is absent. The
    /// original has no such rule, and is asked with what is left.
    pub fn remaining(self, there: [bool; 2]) -> Self {
        let moves = self.moves();
        let left_out =
            |direction: usize| moves == [true; 2] && !there[direction] && there[1 - direction];
        match self {
            Self::Frame(motion) => Self::Frame(FrameMotion {
                forward: motion.forward.filter(|_| !left_out(0)),
                backward: motion.backward.filter(|_| !left_out(1)),
            }),
            Self::Field(motion) => Self::Field(FieldBasedMotion {
                forward: motion.forward.filter(|_| !left_out(0)),
                backward: motion.backward.filter(|_| !left_out(1)),
            }),
        }
    }

    /// Which directions have motion.
    fn moves(self) -> [bool; 2] {
        match self {
            Self::Frame(motion) => [motion.forward.is_some(), motion.backward.is_some()],
            Self::Field(motion) => [motion.forward.is_some(), motion.backward.is_some()],
        }
    }

    /// Whether a direction is used, of what is left, by the scope's rule: only of these it asks
    /// about 14.
    pub fn uses(self, direction: Direction) -> bool {
        let [forward, backward] = self.moves();
        match direction {
            Direction::Forward => forward || !backward,
            Direction::Backward => backward,
        }
    }
}

/// As the lists write it.
impl Display for Motion {
    fn fmt(&self, f: &mut fmt::Formatter<'_>) -> fmt::Result {
        match self {
            Self::Frame(motion) => {
                let [forward, backward] = [motion.forward, motion.backward].map(FrameDirection);
                write!(f, "{forward} {backward}")
            }
            Self::Field(motion) => {
                let [forward, backward] = [motion.forward, motion.backward].map(FieldDirection);
                write!(f, "{forward} {backward}")
            }
        }
    }
}

struct FrameDirection(Option<MotionVectorPel>);

impl Display for FrameDirection {
    fn fmt(&self, f: &mut fmt::Formatter<'_>) -> fmt::Result {
        match self.0 {
            None => f.write_str("0 0 0"),
            Some(vector) => write!(f, "1 {} {}", vector.horizontal, vector.vertical),
        }
    }
}

struct FieldDirection(Option<(FieldVector, FieldVector)>);

impl Display for FieldDirection {
    fn fmt(&self, f: &mut fmt::Formatter<'_>) -> fmt::Result {
        let Some((top, bottom)) = self.0 else {
            return f.write_str("0 0 0 0 0 0 0");
        };
        f.write_str("1")?;
        for FieldVector {
            vector,
            reference_field,
        } in [top, bottom]
        {
            let field = match reference_field {
                FieldParity::Top => 0,
                FieldParity::Bottom => 1,
            };
            write!(f, " {} {} {field}", vector.horizontal, vector.vertical)?;
        }
        Ok(())
    }
}

/// What is asked. The references are the original's frames.
#[derive(Clone, Copy)]
pub struct Question<'a> {
    pub dest: Geometry,
    pub references: ReferenceFrames<'a>,
    pub column: usize,
    pub row: usize,
    /// What is left of it by the references (`Motion::remaining`).
    pub motion: Motion,
    /// Of the output.
    pub length: usize,
    /// Whether the scope takes the planes of all references that are used.
    pub in_domain: bool,
}

impl<'a> Question<'a> {
    /// The original's answer: its three planes one after the other.
    pub fn ask_original(&self) -> Result<Vec<u8>, u8> {
        self.ask_with(self.references)
    }

    /// The references that an accepted answer was formed from: 1 for the forward one, 2 for the
    /// backward one, and both added. The original tells it by what it refuses without them.
    pub fn used(&self) -> u8 {
        let ReferenceFrames { forward, backward } = self.references;
        let without = |references| u8::from(self.ask_with(references).is_err());
        let without_forward = without(ReferenceFrames {
            forward: None,
            backward,
        });
        let without_backward = without(ReferenceFrames {
            forward,
            backward: None,
        });
        without_forward + 2 * without_backward
    }

    fn ask_with(&self, references: ReferenceFrames<'a>) -> Result<Vec<u8>, u8> {
        let dest = self.dest.frame();
        let Self { column, row, .. } = *self;
        let answer: InterResult<_> = match self.motion {
            Motion::Frame(motion) => {
                predict_frame_macroblock_planes(&dest, references, column, row, motion)
            }
            Motion::Field(motion) => {
                predict_field_based_macroblock_planes(&dest, references, column, row, motion)
            }
        };
        match answer {
            Ok((y, cb, cr)) => {
                let formed = [y, cb, cr].concat();
                assert_eq!(
                    formed.len(),
                    macroblock_length(self.dest.format),
                    "the original's macroblock has another length"
                );
                Ok(formed)
            }
            Err(error) => {
                Err(refusals::inter_number(error).unwrap_or_else(|cause| panic!("{cause}")))
            }
        }
    }

    /// What the scope refuses before all that the original does.
    pub fn refused_before(&self) -> Result<(), u8> {
        if self.column.max(self.row) > LAST_CELL {
            return Err(CELL_TOO_FAR);
        }
        if self.length != macroblock_length(self.dest.format) {
            return Err(OUTPUT_LENGTH);
        }
        Ok(())
    }

    /// What the scope refuses after all that the original does.
    pub fn refused_after(&self) -> Result<(), u8> {
        if self.in_domain {
            Ok(())
        } else {
            Err(OUTSIDE_DOMAIN)
        }
    }
}
