//! The contestants in C, as `c/bench.h` declares them: plain C, and the half-sample functions of
//! libavcodec and libmpeg2 where these were linked.

use std::marker::PhantomData;

use oracle::inter_reconstruction::MotionVectorPel;

use crate::table::Who;

/// Samples row after row.
#[repr(C)]
#[derive(Clone, Copy)]
pub struct Plane<'a> {
    samples: *const u8,
    width: i32,
    height: i32,
    lent: PhantomData<&'a [u8]>,
}

impl<'a> Plane<'a> {
    pub fn new(samples: &'a [u8], width: usize, height: usize) -> Self {
        assert_eq!(
            samples.len(),
            width * height,
            "the length is not that of the sides"
        );
        Self {
            samples: samples.as_ptr(),
            width: width as i32,
            height: height as i32,
            lent: PhantomData,
        }
    }
}

/// In half samples.
#[repr(C)]
#[derive(Clone, Copy, Default)]
pub struct Vector {
    pub horizontal: i32,
    pub vertical: i32,
}

impl From<MotionVectorPel> for Vector {
    fn from(vector: MotionVectorPel) -> Self {
        Self {
            horizontal: vector.horizontal,
            vertical: vector.vertical,
        }
    }
}

/// A block to predict.
#[repr(C)]
#[derive(Clone, Copy)]
pub struct Block {
    /// 0 is the top field, 1 the bottom field, 2 the frame.
    pub from: u32,
    pub x: i32,
    pub y: i32,
    pub width: i32,
    pub height: i32,
    pub vector: Vector,
}

/// The two references, and the picture that is being decoded.
#[repr(C)]
#[derive(Clone, Copy)]
pub struct Pictures<'a> {
    pub format: u32,
    pub references: [[Plane<'a>; 3]; 2],
    pub decoded: [*mut u8; 3],
}

/// One direction of a macroblock. By frames the first vector is read alone.
#[repr(C)]
#[derive(Clone, Copy, Default)]
pub struct Motion {
    pub present: u32,
    pub fields: [u32; 2],
    pub vectors: [Vector; 2],
}

/// A macroblock to predict. One direction or both are present.
#[repr(C)]
#[derive(Clone, Copy)]
pub struct Macroblock {
    pub column: u32,
    pub row: u32,
    pub by_fields: u32,
    /// Forward, backward.
    pub motions: [Motion; 2],
}

/// Of a vector, one component as the stream has it.
#[repr(C)]
#[derive(Clone, Copy)]
pub struct Coded {
    pub code: i32,
    pub residual_present: u32,
    pub residual: u32,
    pub f_code: u32,
}

/// A vector to reconstruct, in the numbers of the port's entry points.
#[repr(C)]
#[derive(Clone, Copy)]
pub struct CodedVector {
    pub r: u32,
    pub s: u32,
    pub mv_format: u32,
    pub picture_structure: u32,
    /// Horizontal, vertical.
    pub components: [Coded; 2],
}

/// What the predictors are updated by, in the numbers of the port's entry points.
#[repr(C)]
#[derive(Clone, Copy)]
pub struct Update {
    pub picture_structure: u32,
    pub prediction_type_present: u32,
    pub prediction_type: u32,
    pub forward: u32,
    pub backward: u32,
    pub intra: u32,
    pub concealment: u32,
}

/// Writes a block, packed or in lines that are as far apart as the plane's.
///
/// # Safety
///
/// There is room for it. What it reads lies inside the plane, unless it is plain C's.
pub type BlockFunction = unsafe extern "C" fn(&Plane<'_>, &Block, *mut u8);

/// Writes a macroblock at its place in the decoded picture.
///
/// # Safety
///
/// What it reads lies inside the planes of the references, and its place in those of the decoded
/// picture, which have the same sides and start at multiples of 16.
pub type MacroblockFunction = unsafe extern "C" fn(&Pictures<'_>, &Macroblock);

unsafe extern "C" {
    pub fn bench_plain_block(plane: &Plane<'_>, block: &Block, out: *mut u8);
    pub fn bench_plain_macroblock(pictures: &Pictures<'_>, macroblock: &Macroblock, out: *mut u8);
    /// 0, or the refusal's number.
    pub fn bench_plain_vector(
        predictors: &mut [i32; 8],
        coded: &CodedVector,
        vector: &mut [i32; 2],
    ) -> u32;
    /// The outcome's number, or 16 and the refusal's.
    pub fn bench_plain_update(predictors: &mut [i32; 8], update: &Update) -> u32;
}

/// A library of half-sample functions.
#[derive(Clone, Copy)]
pub struct Library {
    pub who: Who,
    pub block: BlockFunction,
    pub macroblock: MacroblockFunction,
    /// Called after a batch: the functions may leave the processor in the state of MMX.
    done: unsafe extern "C" fn(),
}

impl Library {
    pub fn done(self) {
        // SAFETY: it is one instruction, which touches no memory.
        unsafe { (self.done)() }
    }
}

/// Those that were linked.
pub fn libraries() -> Vec<Library> {
    [avcodec(), mpeg2()].into_iter().flatten().collect()
}

/// Those that were not.
pub fn absent() -> Vec<Who> {
    let linked: Vec<_> = libraries().iter().map(|library| library.who).collect();
    let mut absent = vec![Who::Avcodec, Who::Mpeg2];
    absent.retain(|who| !linked.contains(who));
    absent
}

#[cfg(not(avcodec))]
fn avcodec() -> Option<Library> {
    None
}

#[cfg(avcodec)]
fn avcodec() -> Option<Library> {
    unsafe extern "C" {
        fn bench_avcodec_init();
        fn bench_avcodec_block(plane: &Plane<'_>, block: &Block, out: *mut u8);
        fn bench_avcodec_macroblock(pictures: &Pictures<'_>, macroblock: &Macroblock);
        fn bench_avcodec_done();
    }
    // SAFETY: it fills a table, and nothing else runs.
    unsafe { bench_avcodec_init() };
    Some(Library {
        who: Who::Avcodec,
        block: bench_avcodec_block,
        macroblock: bench_avcodec_macroblock,
        done: bench_avcodec_done,
    })
}

#[cfg(not(mpeg2))]
fn mpeg2() -> Option<Library> {
    None
}

#[cfg(mpeg2)]
fn mpeg2() -> Option<Library> {
    unsafe extern "C" {
        fn bench_mpeg2_init();
        fn bench_mpeg2_block(plane: &Plane<'_>, block: &Block, out: *mut u8);
        fn bench_mpeg2_macroblock(pictures: &Pictures<'_>, macroblock: &Macroblock);
        fn bench_mpeg2_done();
    }
    // SAFETY: it fills a table, and nothing else runs.
    unsafe { bench_mpeg2_init() };
    Some(Library {
        who: Who::Mpeg2,
        block: bench_mpeg2_block,
        macroblock: bench_mpeg2_macroblock,
        done: bench_mpeg2_done,
    })
}
