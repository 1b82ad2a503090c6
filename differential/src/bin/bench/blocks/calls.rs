//! The calls that are measured: the original's and the port's, and what the contestants in C are
//! handed.

use std::fmt::{self, Display};

use oracle::forming_predictions::{
    BlockSize, FieldReference, ReferencePlane, predict_block, predict_field_block,
};

use crate::c;

/// What is read, in the numbers of the port and of C.
#[derive(Debug, Clone, Copy)]
pub enum Reference {
    TopField,
    BottomField,
    Frame,
}

/// The block to predict.
#[derive(Clone, Copy)]
pub struct Call {
    pub reference: Reference,
    pub x: i32,
    pub y: i32,
    pub size: BlockSize,
    pub horizontal: i32,
    pub vertical: i32,
}

impl Display for Call {
    fn fmt(&self, f: &mut fmt::Formatter<'_>) -> fmt::Result {
        let Self { reference, .. } = self;
        let BlockSize { width, height } = self.size;
        write!(
            f,
            "{width} x {height} of {reference:?} at ({}, {}) by ({}, {})",
            self.x, self.y, self.horizontal, self.vertical,
        )
    }
}

impl From<&Call> for c::Block {
    fn from(call: &Call) -> Self {
        Self {
            from: call.reference as u32,
            x: call.x,
            y: call.y,
            width: call.size.width as i32,
            height: call.size.height as i32,
            vector: c::Vector {
                horizontal: call.horizontal,
                vertical: call.vertical,
            },
        }
    }
}

pub fn original(plane: ReferencePlane<'_>, call: Call) -> Vec<u8> {
    let Call {
        x,
        y,
        size,
        horizontal,
        vertical,
        ..
    } = call;
    let field = |parity| {
        let field = FieldReference::new(plane, parity).expect("the original has both parities");
        predict_field_block(field, x, y, size, horizontal, vertical)
    };
    match call.reference {
        Reference::TopField => field(0),
        Reference::BottomField => field(1),
        Reference::Frame => predict_block(plane, x, y, size, horizontal, vertical),
    }
}

unsafe extern "C" {
    fn fozdrik_bench_block(
        from: u32,
        data: *const u8,
        data_length: usize,
        width: usize,
        height: usize,
        x: i32,
        y: i32,
        block_width: usize,
        block_height: usize,
        horizontal: i32,
        vertical: i32,
        out: *mut u8,
        out_length: usize,
    ) -> u32;
}

/// 0, or the refusal's number.
pub fn port(plane: ReferencePlane<'_>, call: Call, out: &mut [u8]) -> u32 {
    // SAFETY: the library reads and writes no more than the lengths that go with the pointers,
    // and keeps neither.
    unsafe {
        fozdrik_bench_block(
            call.reference as u32,
            plane.data.as_ptr(),
            plane.data.len(),
            plane.width,
            plane.height,
            call.x,
            call.y,
            call.size.width,
            call.size.height,
            call.horizontal,
            call.vertical,
            out.as_mut_ptr(),
            out.len(),
        )
    }
}
