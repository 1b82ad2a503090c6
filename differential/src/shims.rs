//! What the ten files name of the original's other files, and of the crate
//! `oxideav_core`, as far as the compiler asks for it.
//!
//! The comparisons call `average_predictions`, `combine_directional_predictions`, what is
//! public in `forming_predictions` and `pmv`, `predict_frame_macroblock_planes`,
//! `predict_field_based_macroblock_planes`, and methods of `FrameBuffer` and `Plane`. Of
//! what is below, `Error`, `Result` and `ChromaFormat` take part in those calls. The rest
//! never runs, and its functions stop the program: a guess at what they answer could pass
//! for the original's answer.

fn never_runs(item: &str) -> ! {
    unreachable!("{item} is a shim that no comparison may reach")
}

/// The crate's error. Used by `pmv`, `dual_prime`, `frame_assembly`, the parsers. Runs: in `pmv`.
#[derive(Debug)]
pub enum Error {
    /// Runs: `pmv`'s refusals, each with its text.
    InvalidBitstream(&'static str),
    /// Never runs: the parsers', at the end of their input.
    ShortHeader,
}

/// The crate's result. Used as `Error` is. Runs: in `pmv`.
pub type Result<T> = core::result::Result<T, Error>;

pub mod sequence_extension {
    /// The chroma formats. Used by `scale_chroma`, `FrameBuffer` and all that takes one. Runs.
    #[derive(Debug, Clone, Copy, PartialEq, Eq)]
    pub enum ChromaFormat {
        Yuv420,
        Yuv422,
        Yuv444,
    }
}

pub mod add_coefficients {
    /// Clips to a byte. Used by `place_intra_block` and `write_inter_block`. Never runs.
    pub fn saturate(_value: i32) -> u8 {
        super::never_runs("saturate")
    }
}

pub mod mpeg2_macroblock_blocks {
    use crate::mpeg2_block_dc::ColourComponent;
    use crate::sequence_extension::ChromaFormat;

    /// How many blocks. Used by `block_placement` and the `reconstruct_` functions. Never runs.
    pub fn block_count(_format: ChromaFormat) -> usize {
        super::never_runs("block_count")
    }

    /// A block's component. Used by `block_placement`, `block_component_and_mb_width`. Never runs.
    pub fn block_component(_block: usize, _format: ChromaFormat) -> Option<ColourComponent> {
        super::never_runs("block_component")
    }
}

pub mod mpeg1_reconstruct {
    /// An MPEG-1 vector. Used by the two `from_mpeg1` of `inter_reconstruction`. Never runs.
    pub struct Mpeg1ReconstructedMv {
        pub recon_right: i32,
        pub recon_down: i32,
    }
}

pub mod macroblock_type {
    /// A type's flags. Used by `MacroblockModes::parse`, `place_intra_macroblock`. Never runs.
    pub struct MacroblockType {
        pub macroblock_motion_forward: bool,
        pub macroblock_motion_backward: bool,
        pub macroblock_pattern: bool,
        pub macroblock_intra: bool,
        pub spatial_temporal_weight_code_flag: bool,
    }
}

pub mod quant_matrix_extension {
    /// The weighting matrices. Used by the `decode_intra_picture` calls. Never runs.
    #[derive(Clone, Copy)]
    pub struct QuantiserMatrixState;

    impl Default for QuantiserMatrixState {
        fn default() -> Self {
            super::never_runs("QuantiserMatrixState::default")
        }
    }
}

pub mod slice_header {
    /// The slice parser's context. Used by `decode_intra_picture_with_context`. Never runs.
    #[derive(Clone, Copy)]
    pub struct SliceContext;

    impl SliceContext {
        pub fn non_scalable(_vertical_size: u32) -> Self {
            super::never_runs("SliceContext::non_scalable")
        }
    }

    /// A parsed slice header. Used by `decode_intra_picture_with_context`. Never runs.
    pub struct SliceHeader {
        pub quantiser_scale_code: u8,
        pub body_bit_position: u64,
    }

    impl SliceHeader {
        pub fn parse(_slice: &[u8], _context: SliceContext) -> crate::Result<Self> {
            super::never_runs("SliceHeader::parse")
        }

        pub fn mb_row(&self) -> u32 {
            super::never_runs("SliceHeader::mb_row")
        }
    }
}

pub mod slice_macroblock_walk {
    use crate::macroblock_type::MacroblockType;
    use crate::picture_header::{PictureCodingType, PictureStructure};
    use crate::quant_matrix_extension::QuantiserMatrixState;
    use crate::sequence_extension::ChromaFormat;

    /// The slice walk's context. Used by `decode_intra_picture_with_context`. Never runs.
    pub struct SliceWalkContext;

    impl SliceWalkContext {
        #[allow(clippy::too_many_arguments)]
        pub fn first_slice_with_block_decoding(
            _mb_width: u32,
            _mb_row: u32,
            _coding_type: PictureCodingType,
            _quantiser_scale_code: u8,
            _structure: PictureStructure,
            _frame_pred_frame_dct: bool,
            _f_code_fwd_horiz: u8,
            _f_code_fwd_vert: u8,
            _f_code_bwd_horiz: u8,
            _f_code_bwd_vert: u8,
            _concealment_motion_vectors: bool,
            _chroma_format: ChromaFormat,
            _intra_vlc_format: bool,
            _alternate_scan: bool,
            _intra_dc_precision: u8,
            _q_scale_type: bool,
        ) -> Self {
            super::never_runs("SliceWalkContext::first_slice_with_block_decoding")
        }

        pub fn with_quantiser_matrices(self, _matrices: QuantiserMatrixState) -> Self {
            super::never_runs("SliceWalkContext::with_quantiser_matrices")
        }
    }

    /// The slice walk's result. Used by `decode_intra_picture_with_context`. Never runs.
    pub struct SliceWalk {
        pub macroblocks: Vec<MacroblockRecord>,
    }

    /// One macroblock of a slice. Used by `place_intra_macroblock`. Never runs.
    pub struct MacroblockRecord {
        pub macroblock_address: u32,
        pub macroblock_type: MacroblockType,
        pub dct_type: Option<bool>,
        pub decoded_blocks: Option<Vec<DecodedBlock>>,
    }

    /// One coded block of a macroblock. Used by `place_intra_macroblock`. Never runs.
    pub struct DecodedBlock {
        pub block_index: u8,
        pub decoded: DecodedSamples,
    }

    /// A coded block's samples. Used by `place_intra_macroblock`. Never runs.
    pub struct DecodedSamples {
        pub f_pel: [[i16; 8]; 8],
    }
}

/// Walks a slice's macroblocks. Used by `decode_intra_picture_with_context`. Never runs.
pub fn walk_slice_at(
    _slice: &[u8],
    _bit_position: u64,
    _context: slice_macroblock_walk::SliceWalkContext,
) -> Result<slice_macroblock_walk::SliceWalk> {
    never_runs("walk_slice_at")
}

pub mod bits {
    use super::never_runs;
    // For `oxideav_core`'s own: the files drop its error for one of the crate's.
    use crate::Result;

    /// `oxideav_core`'s bit reader. Used by the parsers and `decode_dc_block`. Never runs.
    pub struct BitReader<'a>(core::marker::PhantomData<&'a [u8]>);

    impl<'a> BitReader<'a> {
        pub fn new(_bytes: &'a [u8]) -> Self {
            never_runs("BitReader::new")
        }

        pub fn read_u32(&mut self, _bits: u32) -> Result<u32> {
            never_runs("BitReader::read_u32")
        }

        pub fn read_bit(&mut self) -> Result<bool> {
            never_runs("BitReader::read_bit")
        }

        pub fn peek_u32(&mut self, _bits: u32) -> Result<u32> {
            never_runs("BitReader::peek_u32")
        }

        pub fn consume(&mut self, _bits: u32) -> Result<()> {
            never_runs("BitReader::consume")
        }

        pub fn skip(&mut self, _bits: u32) -> Result<()> {
            never_runs("BitReader::skip")
        }

        pub fn bits_remaining(&self) -> u64 {
            never_runs("BitReader::bits_remaining")
        }

        pub fn bit_position(&self) -> u64 {
            never_runs("BitReader::bit_position")
        }

        pub fn byte_position(&self) -> usize {
            never_runs("BitReader::byte_position")
        }

        pub fn is_byte_aligned(&self) -> bool {
            never_runs("BitReader::is_byte_aligned")
        }
    }

    /// `oxideav_core`'s bit writer. Used by the `encode_` functions. Never runs.
    pub struct BitWriter;

    impl BitWriter {
        pub fn write_u32(&mut self, _value: u32, _bits: u32) {
            never_runs("BitWriter::write_u32")
        }

        pub fn write_bit(&mut self, _bit: bool) {
            never_runs("BitWriter::write_bit")
        }
    }
}
