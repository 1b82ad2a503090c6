//! The table of vectors.

use std::hint::black_box;
use std::iter;

use oracle::macroblock_modes::MvFormat;
use oracle::motion_vector::MotionVector;
use oracle::picture_header::PictureStructure;
use oracle::pmv::{
    Direction, Pmv, ReconstructedComponent, VectorIndex, compute_delta, reconstruct_motion_vector,
    vector_range,
};
use oracle::port::fozdrik_reconstruct_motion_vector;
use oracle::refusals;
use oracle::rng::Rng;

use super::{
    CALLS, MARK, PredictorBytes, Predictors, REFUSED, batch, bytes, fold, number, numbers,
    paragraph, pmv, predictors, same, table,
};
use crate::c::{Coded, CodedVector, bench_plain_vector};
use crate::marks::Marks;
use crate::table::{Effort, Who};

const SEED: u64 = 769;

type Original = fn(
    &mut Pmv,
    &MotionVector,
    VectorIndex,
    Direction,
    u8,
    u8,
    MvFormat,
    PictureStructure,
) -> oracle::Result<[ReconstructedComponent; 2]>;

type Port = unsafe extern "C" fn(
    u32,
    u32,
    i32,
    u32,
    u8,
    i32,
    u32,
    u8,
    u8,
    u8,
    u32,
    u32,
    *mut u8,
    usize,
    *mut u8,
    usize,
) -> u32;

type Layer = extern "C" fn(
    u32,
    u32,
    i32,
    u32,
    i32,
    u32,
    u8,
    u8,
    u32,
    u32,
    &mut Predictors,
    &mut Components,
) -> u32;

type Plain = unsafe extern "C" fn(&mut Predictors, &CodedVector, &mut Components) -> u32;

/// Both components of a vector, the horizontal one first.
type Components = [i32; 2];

/// The same as the port's entry point has them.
type ComponentBytes = [[u8; 4]; 2];

// SAFETY: the library reads and writes the two arrays that it is lent and no more, and keeps neither.
unsafe extern "C" {
    /// 0, or the refusal's number.
    safe fn fozdrik_bench_vector(
        r: u32,
        s: u32,
        code_h: i32,
        residual_h: u32,
        code_v: i32,
        residual_v: u32,
        f_code_h: u8,
        f_code_v: u8,
        format: u32,
        structure: u32,
        predictors: &mut Predictors,
        vector: &mut Components,
    ) -> u32;
}

/// A call in the original's form.
#[derive(Debug, Clone, Copy)]
struct Vector {
    coded: MotionVector,
    r: VectorIndex,
    s: Direction,
    f_codes: [u8; 2],
    format: MvFormat,
    structure: PictureStructure,
}

/// A call in the layer's numbers.
#[derive(Clone, Copy)]
struct LayerNumbers {
    r: u32,
    s: u32,
    codes: [i32; 2],
    residuals: [u32; 2],
    f_codes: [u8; 2],
    format: u32,
    structure: u32,
}

impl From<Vector> for LayerNumbers {
    fn from(vector: Vector) -> Self {
        const ABSENT: u32 = 256;
        let MotionVector {
            motion_code_horiz,
            motion_residual_horiz,
            motion_code_vert,
            motion_residual_vert,
            ..
        } = vector.coded;
        Self {
            r: vector.r as u32,
            s: vector.s as u32,
            codes: [motion_code_horiz, motion_code_vert].map(i32::from),
            residuals: [motion_residual_horiz, motion_residual_vert]
                .map(|residual| residual.map_or(ABSENT, u32::from)),
            f_codes: vector.f_codes,
            format: vector.format as u32,
            structure: vector.structure as u32,
        }
    }
}

/// In the numbers of the port's entry point.
impl From<Vector> for CodedVector {
    fn from(vector: Vector) -> Self {
        let MotionVector {
            motion_code_horiz,
            motion_residual_horiz,
            motion_code_vert,
            motion_residual_vert,
            ..
        } = vector.coded;
        let coded = |code: i8, residual: Option<u8>, f_code: u8| Coded {
            code: code.into(),
            residual_present: residual.is_some().into(),
            residual: residual.map_or(0, u32::from),
            f_code: f_code.into(),
        };
        let [f_code_horiz, f_code_vert] = vector.f_codes;
        Self {
            r: vector.r as u32,
            s: vector.s as u32,
            mv_format: vector.format as u32,
            picture_structure: vector.structure as u32,
            components: [
                coded(motion_code_horiz, motion_residual_horiz, f_code_horiz),
                coded(motion_code_vert, motion_residual_vert, f_code_vert),
            ],
        }
    }
}

/// The f_codes of a picture, by direction and component.
type FCodes = [[u8; 2]; 2];

/// What the halving depends on beside the component.
type Mode = (MvFormat, PictureStructure);

const MODES: [Mode; 6] = [
    (MvFormat::Field, PictureStructure::TopField),
    (MvFormat::Field, PictureStructure::BottomField),
    HALVING,
    (MvFormat::Frame, PictureStructure::TopField),
    (MvFormat::Frame, PictureStructure::BottomField),
    (MvFormat::Frame, PictureStructure::Frame),
];
const HALVING: Mode = (MvFormat::Field, PictureStructure::Frame);

/// A row of the table: the same calls in the form of each contestant, and the predictors before the
/// first.
struct Row {
    what: String,
    start: Predictors,
    vectors: Vec<Vector>,
    coded: Vec<CodedVector>,
    layer_numbers: Vec<LayerNumbers>,
}

pub struct Vectors {
    rows: Vec<Row>,
}

impl Vectors {
    /// Draws the calls, and sees that all contestants answer them alike.
    pub fn prepare() -> Result<Self, String> {
        const SOME: FCodes = [[3, 2], [5, 4]];
        const ONES: FCodes = [[1; 2]; 2];
        const ANY: &str = "f_codes 3 2 5 4, any mode";
        const HALVED: &str = "f_codes 3 2 5 4, field vectors in frame pictures";

        let mut rng = Rng::new(SEED);
        let mut rows = Vec::new();
        for (what, f_codes, modes, vertical) in [
            (ANY, SOME, &MODES[..], accepted as Draw),
            (HALVED, SOME, &[HALVING], accepted),
            ("f_codes 1, any mode", ONES, &MODES, accepted),
            (ANY, SOME, &MODES, sometimes_refused),
        ] {
            let vectors: Vec<_> = (0..CALLS)
                .map(|_| draw_vector(&mut rng, f_codes, modes, vertical))
                .collect();
            let mut row = Row {
                what: what.to_owned(),
                start: draw_predictors(&mut rng, f_codes),
                coded: vectors.iter().copied().map(CodedVector::from).collect(),
                layer_numbers: vectors.iter().copied().map(LayerNumbers::from).collect(),
                vectors,
            };
            let refused = compare(&row).map_err(|cause| format!("{what}: {cause}"))?;
            if refused != 0 {
                row.what += &format!(", {refused} refused in the vertical part");
            }
            rows.push(row);
        }
        Ok(Self { rows })
    }

    pub fn print(&self, effort: Effort) {
        let table = table(effort);
        table.print_head(
            "Vectors",
            &paragraph(
                "`reconstruct_motion_vector` with drawn codes and residuals",
                "The f_codes are the two forward ones, then the two backward ones, horizontal \
                 before vertical.",
                "; the original gives four numbers for each component, the others the component",
            ),
        );
        let mut marks = Marks::default();
        for row in &self.rows {
            let times = table.print_row(
                &row.what,
                &mut [
                    (Who::Rust, &mut || {
                        original_batch(row, reconstruct_motion_vector)
                    }),
                    (Who::Fozdrik, &mut || {
                        port_batch(row, fozdrik_reconstruct_motion_vector)
                    }),
                    (Who::Layer, &mut || layer_batch(row, fozdrik_bench_vector)),
                    (Who::C, &mut || plain_batch(row, bench_plain_vector)),
                ],
            );
            marks.see(&row.what, MARK, &times);
        }
        let row = &self.rows[0];
        let original = black_box(no_original as Original);
        let port = black_box(no_port as Port);
        let layer = black_box(no_layer as Layer);
        let plain = black_box(no_plain as Plain);
        table.print_overhead(
            "the loop alone",
            &mut [
                (Who::Rust, &mut || original_batch(row, original)),
                (Who::Fozdrik, &mut || port_batch(row, port)),
                (Who::Layer, &mut || layer_batch(row, layer)),
                (Who::C, &mut || plain_batch(row, plain)),
            ],
        );
        marks.print();
    }
}

/// A code, and its residual.
type Drawn = (i8, Option<u8>);
/// How a component is drawn for an f_code.
type Draw = fn(&mut Rng, u8) -> Drawn;

fn draw_vector(rng: &mut Rng, f_codes: FCodes, modes: &[Mode], vertical: Draw) -> Vector {
    let r = rng.pick(&[VectorIndex::First, VectorIndex::Second]);
    let s = rng.pick(&[Direction::Forward, Direction::Backward]);
    let (format, structure) = rng.pick(modes);
    let f_codes = f_codes[s.index()];
    let (motion_code_horiz, motion_residual_horiz) = accepted(rng, f_codes[0]);
    let (motion_code_vert, motion_residual_vert) = vertical(rng, f_codes[1]);
    let coded = MotionVector {
        motion_code_horiz,
        motion_residual_horiz,
        dmvector_horiz: None,
        motion_code_vert,
        motion_residual_vert,
        dmvector_vert: None,
        bit_position_after: 0,
    };
    Vector {
        coded,
        r,
        s,
        f_codes,
        format,
        structure,
    }
}

/// Any code and residual but those of the delta 16f: it is refused, and with all others the
/// predictors stay in range.
fn accepted(rng: &mut Rng, f_code: u8) -> Drawn {
    let f = 1 << (f_code - 1);
    loop {
        let code = rng.between(-16, 16) as i8;
        let residual = (f != 1 && code != 0).then(|| rng.below(f) as u8);
        let delta = compute_delta(code.into(), residual.map(u32::from), f_code);
        if delta.expect("the residual is there where it belongs") != 16 * f as i32 {
            return (code, residual);
        }
    }
}

/// One in 16 is refused: for a residual where none belongs, for none where one does, or for the
/// delta 16f. The f_code is not 1.
fn sometimes_refused(rng: &mut Rng, f_code: u8) -> Drawn {
    let largest = (1 << (f_code - 1)) - 1;
    match rng.below(16) {
        0 => rng.pick(&[(0, Some(0)), (1, None), (16, Some(largest))]),
        _ => accepted(rng, f_code),
    }
}

fn draw_predictors(rng: &mut Rng, f_codes: FCodes) -> Predictors {
    let mut pmv = Pmv::new();
    for of_index in &mut pmv.values {
        for (place, f_code) in iter::zip(of_index.as_flattened_mut(), f_codes.as_flattened()) {
            let (low, high, _) = vector_range(*f_code).expect("the f_code is in range");
            *place = rng.between(low, high);
        }
    }
    predictors(&pmv)
}

/// Sees that all give the same for every call of the row, and counts the refused ones.
fn compare(row: &Row) -> Result<usize, String> {
    // No component is so large: what a refusal leaves is seen.
    const BEFORE: Components = [i32::MIN; 2];

    let mut refused = 0;
    let mut original_record = pmv(row.start);
    let mut port_record = bytes(row.start);
    let (mut layer_record, mut plain_record) = (row.start, row.start);
    for (place, vector) in row.vectors.iter().enumerate() {
        let (answer, components) =
            match original_call(vector, reconstruct_motion_vector, &mut original_record) {
                Ok(components) => (0, components.map(|component| component.vector_prime)),
                Err(error) => (u32::from(refusals::number(error)?), BEFORE),
            };
        let expected = (answer, components, predictors(&original_record));
        refused += usize::from(answer != 0);

        let mut written = BEFORE.map(i32::to_le_bytes);
        let answer = port_call(
            &row.coded[place],
            fozdrik_reconstruct_motion_vector,
            &mut port_record,
            &mut written,
        );
        let written = written.each_ref().map(number);
        let given = (answer, written, numbers(&port_record));
        same(Who::Fozdrik, vector, &expected, &given)?;

        let mut written = BEFORE;
        let answer = layer_call(
            &row.layer_numbers[place],
            fozdrik_bench_vector,
            &mut layer_record,
            &mut written,
        );
        let given = (answer, written, layer_record);
        same(Who::Layer, vector, &expected, &given)?;

        let mut written = BEFORE;
        let answer = plain_call(
            &row.coded[place],
            bench_plain_vector,
            &mut plain_record,
            &mut written,
        );
        let given = (answer, written, plain_record);
        same(Who::C, vector, &expected, &given)?;
    }
    Ok(refused)
}

// Inlined, so that the call is direct.
#[inline(always)]
fn original_batch(row: &Row, original: Original) {
    let answer = |vector: &_, pmv: &mut _| match original_call(vector, original, pmv) {
        Ok([horizontal, vertical]) => {
            fold(horizontal.vector_prime as u32, vertical.vector_prime as u32)
        }
        Err(_) => REFUSED,
    };
    batch(&row.vectors, pmv(row.start), answer);
}

#[inline(always)]
fn port_batch(row: &Row, port: Port) {
    let mut vector = [[0; 4]; 2];
    let answer =
        |coded: &_, predictors: &mut _| match port_call(coded, port, predictors, &mut vector) {
            0 => fold(number(&vector[0]) as u32, number(&vector[1]) as u32),
            refusal => refusal,
        };
    batch(&row.coded, bytes(row.start), answer);
}

#[inline(always)]
fn layer_batch(row: &Row, layer: Layer) {
    let mut vector = [0; 2];
    let answer =
        |numbers: &_, predictors: &mut _| match layer_call(numbers, layer, predictors, &mut vector)
        {
            0 => fold(vector[0] as u32, vector[1] as u32),
            refusal => refusal,
        };
    batch(&row.layer_numbers, row.start, answer);
}

#[inline(always)]
fn plain_batch(row: &Row, plain: Plain) {
    let mut vector = [0; 2];
    let answer =
        |coded: &_, predictors: &mut _| match plain_call(coded, plain, predictors, &mut vector) {
            0 => fold(vector[0] as u32, vector[1] as u32),
            refusal => refusal,
        };
    batch(&row.coded, row.start, answer);
}

#[inline(always)]
fn original_call(
    vector: &Vector,
    original: Original,
    pmv: &mut Pmv,
) -> oracle::Result<[ReconstructedComponent; 2]> {
    let Vector {
        ref coded,
        r,
        s,
        f_codes,
        format,
        structure,
    } = *vector;
    original(pmv, coded, r, s, f_codes[0], f_codes[1], format, structure)
}

#[inline(always)]
fn port_call(
    coded: &CodedVector,
    port: Port,
    predictors: &mut PredictorBytes,
    vector: &mut ComponentBytes,
) -> u32 {
    let [horizontal, vertical] = &coded.components;
    let vector = vector.as_flattened_mut();
    // SAFETY: the library reads and writes no more than the lengths that go with the pointers,
    // and keeps neither.
    unsafe {
        port(
            coded.r,
            coded.s,
            horizontal.code,
            horizontal.residual_present,
            horizontal.residual as u8,
            vertical.code,
            vertical.residual_present,
            vertical.residual as u8,
            horizontal.f_code as u8,
            vertical.f_code as u8,
            coded.mv_format,
            coded.picture_structure,
            predictors.as_mut_ptr(),
            predictors.len(),
            vector.as_mut_ptr(),
            vector.len(),
        )
    }
}

#[inline(always)]
fn layer_call(
    numbers: &LayerNumbers,
    layer: Layer,
    predictors: &mut Predictors,
    vector: &mut Components,
) -> u32 {
    layer(
        numbers.r,
        numbers.s,
        numbers.codes[0],
        numbers.residuals[0],
        numbers.codes[1],
        numbers.residuals[1],
        numbers.f_codes[0],
        numbers.f_codes[1],
        numbers.format,
        numbers.structure,
        predictors,
        vector,
    )
}

#[inline(always)]
fn plain_call(
    coded: &CodedVector,
    plain: Plain,
    predictors: &mut Predictors,
    vector: &mut Components,
) -> u32 {
    // SAFETY: it reads and writes what it is lent.
    unsafe { plain(predictors, coded, vector) }
}

#[allow(clippy::too_many_arguments)]
fn no_original(
    _: &mut Pmv,
    _: &MotionVector,
    _: VectorIndex,
    _: Direction,
    _: u8,
    _: u8,
    _: MvFormat,
    _: PictureStructure,
) -> oracle::Result<[ReconstructedComponent; 2]> {
    const NOTHING: ReconstructedComponent = ReconstructedComponent {
        vector_prime: 0,
        new_pmv: 0,
        delta: 0,
        range: 0,
    };
    Ok([NOTHING; 2])
}

#[allow(clippy::too_many_arguments)]
extern "C" fn no_port(
    _: u32,
    _: u32,
    _: i32,
    _: u32,
    _: u8,
    _: i32,
    _: u32,
    _: u8,
    _: u8,
    _: u8,
    _: u32,
    _: u32,
    _: *mut u8,
    _: usize,
    _: *mut u8,
    _: usize,
) -> u32 {
    0
}

#[allow(clippy::too_many_arguments)]
extern "C" fn no_layer(
    _: u32,
    _: u32,
    _: i32,
    _: u32,
    _: i32,
    _: u32,
    _: u8,
    _: u8,
    _: u32,
    _: u32,
    _: &mut Predictors,
    _: &mut Components,
) -> u32 {
    0
}

extern "C" fn no_plain(_: &mut Predictors, _: &CodedVector, _: &mut Components) -> u32 {
    0
}
