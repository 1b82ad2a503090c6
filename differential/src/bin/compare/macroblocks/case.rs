//! What C passes to predict a macroblock, and what it means.

use oracle::dual_prime::FieldParity;
use oracle::inter_reconstruction::{FieldBasedMotion, FieldVector, FrameMotion, MotionVectorPel};
use oracle::macroblocks::{Geometry, Motion};
use oracle::port::{fozdrik_predict_field_macroblock, fozdrik_predict_frame_macroblock};
use oracle::sequence_extension::ChromaFormat;

use super::scene::Scene;
use crate::lent::Lent;
use crate::port::Reference;
use crate::run::Run;

pub const CHROMA_FORMATS: [ChromaFormat; 3] = [
    ChromaFormat::Yuv420,
    ChromaFormat::Yuv422,
    ChromaFormat::Yuv444,
];
/// The same as numbers.
pub const FORMATS: [u32; 3] = [0, 1, 2];
const PARITIES: [FieldParity; 2] = [FieldParity::Top, FieldParity::Bottom];

/// What 38 is for, in the order of `Case::meaning`; the last four of field-based prediction alone.
const ARGUMENTS: [&str; 11] = [
    "chroma_format",
    "forward_present",
    "forward_format",
    "backward_present",
    "backward_format",
    "forward_motion",
    "backward_motion",
    "forward_top_field",
    "forward_bottom_field",
    "backward_top_field",
    "backward_bottom_field",
];
static FRAME_ARGUMENTS: &[&str] = ARGUMENTS.split_at(7).0;

/// Which of the two calls.
#[derive(Debug, Clone, Copy, PartialEq)]
pub enum Call {
    Frame,
    Field,
}

impl Call {
    pub fn arguments(self) -> &'static [&'static str] {
        match self {
            Self::Frame => FRAME_ARGUMENTS,
            Self::Field => &ARGUMENTS,
        }
    }
}

/// Whether there is a reference, and what it declares.
#[derive(Debug, Clone, Copy)]
pub struct Declared {
    pub present: u32,
    pub width: usize,
    pub height: usize,
    pub format: u32,
}

/// A vector, and the field that it reads, which only field-based prediction has.
#[derive(Debug, Clone, Copy)]
pub struct Vector {
    pub field: u32,
    pub horizontal: i32,
    pub vertical: i32,
}

/// Whether a direction has motion, and its vectors: of the top and of the bottom field. Frame-based
/// prediction has the first one alone.
#[derive(Debug, Clone, Copy)]
pub struct Moved {
    pub present: u32,
    pub vectors: [Vector; 2],
}

/// What C passes, beside the planes. Of two, the first is forward.
#[derive(Debug, Clone, Copy)]
pub struct Case {
    pub call: Call,
    pub width: usize,
    pub height: usize,
    pub format: u32,
    pub column: usize,
    pub row: usize,
    pub references: [Declared; 2],
    pub motion: [Moved; 2],
    /// Of the output.
    pub length: usize,
}

/// What a case means where all its numbers have a meaning.
#[derive(Clone, Copy)]
pub struct Read {
    pub dest: Geometry,
    pub references: [Option<Geometry>; 2],
    pub motion: Motion,
}

impl Read {
    /// What the references leave of the motion.
    pub fn remaining(&self) -> Motion {
        self.motion
            .remaining(self.references.map(|reference| reference.is_some()))
    }
}

impl Case {
    /// Whether each of the call's arguments has a meaning: the scope's refusal 38, which comes
    /// before all else and which the original does not have. What stands beside a presence of 0 is
    /// left unread; that a reference is there and not used is no matter.
    pub fn meaning(&self) -> Vec<bool> {
        let [forward, backward] = self.references;
        let format = |reference: Declared| reference.present != 1 || reference.format < 3;
        let mut meaning = vec![
            self.format < 3,
            forward.present < 2,
            format(forward),
            backward.present < 2,
            format(backward),
            self.motion[0].present < 2,
            self.motion[1].present < 2,
        ];
        if self.call == Call::Field {
            for moved in self.motion {
                let fields = moved.vectors.map(|vector| vector.field);
                meaning.extend(fields.map(|field| moved.present != 1 || field < 2));
            }
        }
        meaning
    }

    /// Makes an argument one without a meaning.
    pub fn make_meaningless(&mut self, run: &mut Run, argument: usize) {
        let [forward, backward] = &mut self.references;
        let [forward_motion, backward_motion] = &mut self.motion;
        match argument {
            0 => self.format = run.stray(3),
            1 => forward.present = run.stray(2),
            2 => forward.format = run.stray(3),
            3 => backward.present = run.stray(2),
            4 => backward.format = run.stray(3),
            5 => forward_motion.present = run.stray(2),
            6 => backward_motion.present = run.stray(2),
            7 => forward_motion.vectors[0].field = run.stray(2),
            8 => forward_motion.vectors[1].field = run.stray(2),
            9 => backward_motion.vectors[0].field = run.stray(2),
            _ => backward_motion.vectors[1].field = run.stray(2),
        }
    }

    /// What the destination declares, as a reference would.
    pub fn dest(&self) -> Declared {
        Declared {
            present: 1,
            width: self.width,
            height: self.height,
            format: self.format,
        }
    }

    /// What is asked of the original where all has a meaning.
    pub fn read(&self) -> Read {
        let geometry = |declared: Declared| Geometry {
            width: declared.width,
            height: declared.height,
            format: CHROMA_FORMATS[declared.format as usize],
        };
        let [forward, backward] = self.motion;
        let motion = match self.call {
            Call::Frame => Motion::Frame(FrameMotion {
                forward: frame_vector(forward),
                backward: frame_vector(backward),
            }),
            Call::Field => Motion::Field(FieldBasedMotion {
                forward: field_vectors(forward),
                backward: field_vectors(backward),
            }),
        };
        Read {
            dest: geometry(self.dest()),
            references: self
                .references
                .map(|declared| (declared.present == 1).then(|| geometry(declared))),
            motion,
        }
    }

    pub fn ask_port(&self, scene: &mut Scene, out: &mut Lent) -> u32 {
        let [f, b] = scene.lend(self.references);
        let [fm, bm] = self.motion;
        match self.call {
            Call::Frame => self.ask_frame(&f, &b, fm, bm, out),
            Call::Field => self.ask_field(&f, &b, fm, bm, out),
        }
    }

    fn ask_frame(&self, f: &Reference, b: &Reference, fm: Moved, bm: Moved, out: &mut Lent) -> u32 {
        let [fy, fcb, fcr] = f.planes;
        let [by, bcb, bcr] = b.planes;
        // SAFETY: there are as many bytes behind each pointer as the length says, and the output
        // overlaps no plane.
        unsafe {
            fozdrik_predict_frame_macroblock(
                self.width,
                self.height,
                self.format,
                self.column,
                self.row,
                f.present,
                f.width,
                f.height,
                f.format,
                fy.width,
                fy.height,
                fcb.width,
                fcb.height,
                fcr.width,
                fcr.height,
                fy.samples,
                fy.length,
                fcb.samples,
                fcb.length,
                fcr.samples,
                fcr.length,
                b.present,
                b.width,
                b.height,
                b.format,
                by.width,
                by.height,
                bcb.width,
                bcb.height,
                bcr.width,
                bcr.height,
                by.samples,
                by.length,
                bcb.samples,
                bcb.length,
                bcr.samples,
                bcr.length,
                fm.present,
                fm.vectors[0].horizontal,
                fm.vectors[0].vertical,
                bm.present,
                bm.vectors[0].horizontal,
                bm.vectors[0].vertical,
                out.pointer(),
                out.length(),
            )
        }
    }

    fn ask_field(&self, f: &Reference, b: &Reference, fm: Moved, bm: Moved, out: &mut Lent) -> u32 {
        let [fy, fcb, fcr] = f.planes;
        let [by, bcb, bcr] = b.planes;
        // SAFETY: as above.
        unsafe {
            fozdrik_predict_field_macroblock(
                self.width,
                self.height,
                self.format,
                self.column,
                self.row,
                f.present,
                f.width,
                f.height,
                f.format,
                fy.width,
                fy.height,
                fcb.width,
                fcb.height,
                fcr.width,
                fcr.height,
                fy.samples,
                fy.length,
                fcb.samples,
                fcb.length,
                fcr.samples,
                fcr.length,
                b.present,
                b.width,
                b.height,
                b.format,
                by.width,
                by.height,
                bcb.width,
                bcb.height,
                bcr.width,
                bcr.height,
                by.samples,
                by.length,
                bcb.samples,
                bcb.length,
                bcr.samples,
                bcr.length,
                fm.present,
                fm.vectors[0].field,
                fm.vectors[0].horizontal,
                fm.vectors[0].vertical,
                fm.vectors[1].field,
                fm.vectors[1].horizontal,
                fm.vectors[1].vertical,
                bm.present,
                bm.vectors[0].field,
                bm.vectors[0].horizontal,
                bm.vectors[0].vertical,
                bm.vectors[1].field,
                bm.vectors[1].horizontal,
                bm.vectors[1].vertical,
                out.pointer(),
                out.length(),
            )
        }
    }
}

fn frame_vector(moved: Moved) -> Option<MotionVectorPel> {
    let [vector, _] = moved.vectors;
    (moved.present == 1).then(|| MotionVectorPel::new(vector.horizontal, vector.vertical))
}

fn field_vectors(moved: Moved) -> Option<(FieldVector, FieldVector)> {
    let vector = |vector: Vector| {
        let parity = PARITIES[vector.field as usize];
        FieldVector::new(
            MotionVectorPel::new(vector.horizontal, vector.vertical),
            parity,
        )
    };
    let [top, bottom] = moved.vectors;
    (moved.present == 1).then(|| (vector(top), vector(bottom)))
}
