//! The calls that are measured: the original's and the port's, and what the contestants in C are
//! handed.

use oracle::frame_assembly::FrameBuffer;
use oracle::inter_reconstruction::{
    FieldBasedMotion, FieldVector, FrameMotion, InterResult, MotionVectorPel, ReferenceFrames,
    predict_field_based_macroblock_planes, predict_frame_macroblock_planes,
};
use oracle::port::{fozdrik_predict_field_macroblock, fozdrik_predict_frame_macroblock};

use crate::c::{self, Macroblock};

/// What a macroblock is predicted by, which tells the call too.
#[derive(Debug, Clone, Copy)]
pub enum Motion {
    Frame(FrameMotion),
    Field(FieldBasedMotion),
}

/// The macroblock to predict, in the original's form.
#[derive(Debug, Clone, Copy)]
pub struct Call {
    pub column: usize,
    pub row: usize,
    pub motion: Motion,
}

/// The picture that is decoded, of which only the sides and the format are read, and the two
/// references.
#[derive(Clone, Copy)]
pub struct Pictures<'a> {
    pub dest: &'a FrameBuffer,
    pub forward: &'a FrameBuffer,
    pub backward: &'a FrameBuffer,
}

/// Luminance, Cb and Cr.
pub type Planes = (Vec<u8>, Vec<u8>, Vec<u8>);

pub fn original(pictures: Pictures<'_>, call: &Call) -> InterResult<Planes> {
    let Pictures {
        dest,
        forward,
        backward,
    } = pictures;
    let references = ReferenceFrames::bidirectional(forward, backward);
    let Call { column, row, .. } = *call;
    match call.motion {
        Motion::Frame(motion) => {
            predict_frame_macroblock_planes(dest, references, column, row, motion)
        }
        Motion::Field(motion) => {
            predict_field_based_macroblock_planes(dest, references, column, row, motion)
        }
    }
}

/// In the numbers of the port and of C.
impl From<&Call> for Macroblock {
    fn from(call: &Call) -> Self {
        Self {
            column: call.column as u32,
            row: call.row as u32,
            by_fields: matches!(call.motion, Motion::Field(_)).into(),
            motions: match call.motion {
                Motion::Frame(FrameMotion { forward, backward }) => {
                    [forward, backward].map(frame_numbers)
                }
                Motion::Field(FieldBasedMotion { forward, backward }) => {
                    [forward, backward].map(field_numbers)
                }
            },
        }
    }
}

/// One direction of a macroblock with frame vectors. An absent one has zeros.
fn frame_numbers(vector: Option<MotionVectorPel>) -> c::Motion {
    let Some(vector) = vector else {
        return c::Motion::default();
    };
    c::Motion {
        present: 1,
        vectors: [vector.into(), c::Vector::default()],
        ..c::Motion::default()
    }
}

/// The same with field vectors.
fn field_numbers(vectors: Option<(FieldVector, FieldVector)>) -> c::Motion {
    let Some((top, bottom)) = vectors else {
        return c::Motion::default();
    };
    c::Motion {
        present: 1,
        fields: [top, bottom].map(|field| field.reference_field.index() as u32),
        vectors: [top, bottom].map(|field| field.vector.into()),
    }
}

/// 0, or the refusal's number.
pub fn port(pictures: Pictures<'_>, numbers: &Macroblock, out: &mut [u8]) -> u32 {
    match numbers.by_fields {
        0 => port_frame(pictures, numbers, out),
        _ => port_field(pictures, numbers, out),
    }
}

fn port_frame(pictures: Pictures<'_>, numbers: &Macroblock, out: &mut [u8]) -> u32 {
    const PRESENT: u32 = 1;
    let Pictures {
        dest,
        forward,
        backward,
    } = pictures;
    let [forward_motion, backward_motion] = &numbers.motions;
    // SAFETY: the library reads and writes no more than the lengths that go with the pointers,
    // and keeps none.
    unsafe {
        fozdrik_predict_frame_macroblock(
            dest.width,
            dest.height,
            dest.chroma_format as u32,
            numbers.column as usize,
            numbers.row as usize,
            PRESENT,
            forward.width,
            forward.height,
            forward.chroma_format as u32,
            forward.y.width(),
            forward.y.height(),
            forward.cb.width(),
            forward.cb.height(),
            forward.cr.width(),
            forward.cr.height(),
            forward.y.samples().as_ptr(),
            forward.y.samples().len(),
            forward.cb.samples().as_ptr(),
            forward.cb.samples().len(),
            forward.cr.samples().as_ptr(),
            forward.cr.samples().len(),
            PRESENT,
            backward.width,
            backward.height,
            backward.chroma_format as u32,
            backward.y.width(),
            backward.y.height(),
            backward.cb.width(),
            backward.cb.height(),
            backward.cr.width(),
            backward.cr.height(),
            backward.y.samples().as_ptr(),
            backward.y.samples().len(),
            backward.cb.samples().as_ptr(),
            backward.cb.samples().len(),
            backward.cr.samples().as_ptr(),
            backward.cr.samples().len(),
            forward_motion.present,
            forward_motion.vectors[0].horizontal,
            forward_motion.vectors[0].vertical,
            backward_motion.present,
            backward_motion.vectors[0].horizontal,
            backward_motion.vectors[0].vertical,
            out.as_mut_ptr(),
            out.len(),
        )
    }
}

fn port_field(pictures: Pictures<'_>, numbers: &Macroblock, out: &mut [u8]) -> u32 {
    const PRESENT: u32 = 1;
    let Pictures {
        dest,
        forward,
        backward,
    } = pictures;
    let [forward_motion, backward_motion] = &numbers.motions;
    // SAFETY: as above.
    unsafe {
        fozdrik_predict_field_macroblock(
            dest.width,
            dest.height,
            dest.chroma_format as u32,
            numbers.column as usize,
            numbers.row as usize,
            PRESENT,
            forward.width,
            forward.height,
            forward.chroma_format as u32,
            forward.y.width(),
            forward.y.height(),
            forward.cb.width(),
            forward.cb.height(),
            forward.cr.width(),
            forward.cr.height(),
            forward.y.samples().as_ptr(),
            forward.y.samples().len(),
            forward.cb.samples().as_ptr(),
            forward.cb.samples().len(),
            forward.cr.samples().as_ptr(),
            forward.cr.samples().len(),
            PRESENT,
            backward.width,
            backward.height,
            backward.chroma_format as u32,
            backward.y.width(),
            backward.y.height(),
            backward.cb.width(),
            backward.cb.height(),
            backward.cr.width(),
            backward.cr.height(),
            backward.y.samples().as_ptr(),
            backward.y.samples().len(),
            backward.cb.samples().as_ptr(),
            backward.cb.samples().len(),
            backward.cr.samples().as_ptr(),
            backward.cr.samples().len(),
            forward_motion.present,
            forward_motion.fields[0],
            forward_motion.vectors[0].horizontal,
            forward_motion.vectors[0].vertical,
            forward_motion.fields[1],
            forward_motion.vectors[1].horizontal,
            forward_motion.vectors[1].vertical,
            backward_motion.present,
            backward_motion.fields[0],
            backward_motion.vectors[0].horizontal,
            backward_motion.vectors[0].vertical,
            backward_motion.fields[1],
            backward_motion.vectors[1].horizontal,
            backward_motion.vectors[1].vertical,
            out.as_mut_ptr(),
            out.len(),
        )
    }
}
