//! The table of updates.

use std::hint::black_box;
use std::iter;

use oracle::macroblock_modes::PredictionType;
use oracle::picture_header::PictureStructure;
use oracle::pmv::{Pmv, PmvUpdateContext, PmvUpdateOutcome, update_predictors};
use oracle::port::fozdrik_update_predictors;
use oracle::refusals;
use oracle::rng::Rng;

use super::{
    CALLS, MARK, PredictorBytes, Predictors, REFUSED, batch, bytes, numbers, paragraph, pmv,
    predictors, same, table,
};
use crate::c::{Update, bench_plain_update};
use crate::marks::Marks;
use crate::table::{Effort, Who};

const SEED: u64 = 768;

type Original = fn(&mut Pmv, PmvUpdateContext) -> oracle::Result<PmvUpdateOutcome>;
type Port =
    unsafe extern "C" fn(u32, u32, u32, u32, u32, u32, u32, *mut u8, usize, *mut u8, usize) -> u32;
type Layer = extern "C" fn(u32, u32, u32, u32, u32, u32, &mut Predictors) -> u32;
type Plain = unsafe extern "C" fn(&mut Predictors, &Update) -> u32;

// SAFETY: the library reads and writes the record that it is lent and no more, and does not keep it.
unsafe extern "C" {
    /// The outcome's number, or 16 and the refusal's.
    safe fn fozdrik_bench_update(
        structure: u32,
        prediction_type: u32,
        forward: u32,
        backward: u32,
        intra: u32,
        concealment: u32,
        predictors: &mut Predictors,
    ) -> u32;
}

/// A context in the layer's numbers.
#[derive(Clone, Copy)]
struct LayerNumbers {
    structure: u32,
    prediction_type: u32,
    forward: u32,
    backward: u32,
    intra: u32,
    concealment: u32,
}

impl From<PmvUpdateContext> for LayerNumbers {
    fn from(context: PmvUpdateContext) -> Self {
        const ABSENT: u32 = 4;
        Self {
            structure: context.picture_structure as u32,
            prediction_type: context.prediction_type.map_or(ABSENT, |kind| kind as u32),
            forward: context.macroblock_motion_forward.into(),
            backward: context.macroblock_motion_backward.into(),
            intra: context.macroblock_intra.into(),
            concealment: context.concealment_motion_vectors.into(),
        }
    }
}

/// In the numbers of the port's entry points.
impl From<PmvUpdateContext> for Update {
    fn from(context: PmvUpdateContext) -> Self {
        Self {
            picture_structure: context.picture_structure as u32,
            prediction_type_present: context.prediction_type.is_some().into(),
            prediction_type: context.prediction_type.map_or(0, |kind| kind as u32),
            forward: context.macroblock_motion_forward.into(),
            backward: context.macroblock_motion_backward.into(),
            intra: context.macroblock_intra.into(),
            concealment: context.concealment_motion_vectors.into(),
        }
    }
}

/// A row of the table: the same calls in the form of each contestant, and the predictors before the
/// first.
struct Row {
    what: String,
    start: Predictors,
    contexts: Vec<PmvUpdateContext>,
    updates: Vec<Update>,
    layer_numbers: Vec<LayerNumbers>,
}

pub struct Updates {
    rows: Vec<Row>,
}

impl Updates {
    /// Draws the calls, and sees that all contestants answer them alike.
    pub fn prepare() -> Result<Self, String> {
        let mut rng = Rng::new(SEED);
        let mut rows = Vec::new();
        for (what, of) in [
            ("all contexts, evenly", all()),
            ("accepted contexts, evenly", accepted()),
            ("as in a stream, frame picture", frame_picture()),
            ("as in a stream, field picture", field_picture()),
        ] {
            let contexts: Vec<_> = (0..CALLS).map(|_| rng.pick(&of)).collect();
            let mut row = Row {
                what: what.to_owned(),
                start: draw_predictors(&mut rng),
                updates: contexts.iter().copied().map(Update::from).collect(),
                layer_numbers: contexts.iter().copied().map(LayerNumbers::from).collect(),
                contexts,
            };
            let refused = compare(&mut rng, &row).map_err(|cause| format!("{what}: {cause}"))?;
            if refused != 0 {
                row.what += &format!(", {refused} refused");
            }
            rows.push(row);
        }
        Ok(Self { rows })
    }

    pub fn print(&self, effort: Effort) {
        let table = table(effort);
        table.print_head(
            "Updates",
            &paragraph(
                "`update_predictors` with drawn contexts",
                "As in a stream is a made-up mix: of 16 macroblocks 2 intra, 1 without motion, 10 \
                 with motion that copies predictors, 3 with motion that does not.",
                ", of which it reads and writes all eight",
            ),
        );
        let mut marks = Marks::default();
        for row in &self.rows {
            let times = table.print_row(
                &row.what,
                &mut [
                    (Who::Rust, &mut || original_batch(row, update_predictors)),
                    (Who::Fozdrik, &mut || {
                        port_batch(row, fozdrik_update_predictors)
                    }),
                    (Who::Layer, &mut || layer_batch(row, fozdrik_bench_update)),
                    (Who::C, &mut || plain_batch(row, bench_plain_update)),
                ],
            );
            marks.see(&row.what, MARK, &times);
        }
        let row = &self.rows[0];
        let original = black_box(no_original as Original);
        let port = black_box(no_port as Port);
        let layer = black_box(no_layer as Layer);
        let plain = black_box(no_plain as Plain);
        table.print_overhead(
            "the loop alone",
            &mut [
                (Who::Rust, &mut || original_batch(row, original)),
                (Who::Fozdrik, &mut || port_batch(row, port)),
                (Who::Layer, &mut || layer_batch(row, layer)),
                (Who::C, &mut || plain_batch(row, plain)),
            ],
        );
        marks.print();
    }
}

/// All 240.
fn all() -> Vec<PmvUpdateContext> {
    const STRUCTURES: [PictureStructure; 3] = [
        PictureStructure::TopField,
        PictureStructure::BottomField,
        PictureStructure::Frame,
    ];
    const TYPES: [Option<PredictionType>; 5] = [
        None,
        Some(PredictionType::FieldBased),
        Some(PredictionType::FrameBased),
        Some(PredictionType::SixteenByEight),
        Some(PredictionType::DualPrime),
    ];
    let mut all = Vec::new();
    for picture_structure in STRUCTURES {
        for prediction_type in TYPES {
            for flags in 0..16 {
                all.push(PmvUpdateContext {
                    picture_structure,
                    prediction_type,
                    macroblock_motion_forward: flags & 1 != 0,
                    macroblock_motion_backward: flags & 2 != 0,
                    macroblock_intra: flags & 4 != 0,
                    concealment_motion_vectors: flags & 8 != 0,
                });
            }
        }
    }
    all
}

fn accepted() -> Vec<PmvUpdateContext> {
    let is_accepted = |context: &_| update_predictors(&mut Pmv::new(), *context).is_ok();
    all().into_iter().filter(is_accepted).collect()
}

fn frame_picture() -> Vec<PmvUpdateContext> {
    let (copying, keeping) = (PredictionType::FrameBased, PredictionType::FieldBased);
    stream(PictureStructure::Frame, copying, keeping)
}

fn field_picture() -> Vec<PmvUpdateContext> {
    let (copying, keeping) = (PredictionType::FieldBased, PredictionType::SixteenByEight);
    stream(PictureStructure::TopField, copying, keeping)
}

/// Sixteen macroblocks of a stream without concealment vectors: a made-up mix. One type copies
/// predictors, the other keeps them.
fn stream(
    picture_structure: PictureStructure,
    copying: PredictionType,
    keeping: PredictionType,
) -> Vec<PmvUpdateContext> {
    let of = |count, prediction_type: Option<_>, forward, backward| {
        let context = PmvUpdateContext {
            picture_structure,
            prediction_type,
            macroblock_motion_forward: forward,
            macroblock_motion_backward: backward,
            macroblock_intra: prediction_type.is_none(),
            concealment_motion_vectors: false,
        };
        iter::repeat_n(context, count)
    };
    [
        of(2, None, false, false),
        of(1, Some(copying), false, false),
        of(5, Some(copying), true, false),
        of(2, Some(copying), false, true),
        of(3, Some(copying), true, true),
        of(1, Some(keeping), true, false),
        of(1, Some(keeping), false, true),
        of(1, Some(keeping), true, true),
    ]
    .into_iter()
    .flatten()
    .collect()
}

fn draw_predictors(rng: &mut Rng) -> Predictors {
    [(); 8].map(|()| rng.between(-2048, 2047))
}

/// The predictors of each contestant.
struct Records {
    original: Pmv,
    port: PredictorBytes,
    layer: Predictors,
    plain: Predictors,
}

impl Records {
    fn new(predictors: Predictors) -> Self {
        Self {
            original: pmv(predictors),
            port: bytes(predictors),
            layer: predictors,
            plain: predictors,
        }
    }
}

/// Sees that all give the same for every call of the row, and counts the refused ones. Beside
/// the carried predictors, which are soon zeros, each call gets drawn ones.
fn compare(rng: &mut Rng, row: &Row) -> Result<usize, String> {
    let mut refused = 0;
    let mut carried = Records::new(row.start);
    for (place, context) in row.contexts.iter().enumerate() {
        let (update, layer_numbers) = (&row.updates[place], &row.layer_numbers[place]);
        let accepted = compare_one(*context, update, layer_numbers, &mut carried)?;
        refused += usize::from(!accepted);
        let mut drawn = Records::new(draw_predictors(rng));
        compare_one(*context, update, layer_numbers, &mut drawn)?;
    }
    Ok(refused)
}

/// Whether all accept.
fn compare_one(
    context: PmvUpdateContext,
    update: &Update,
    layer_numbers: &LayerNumbers,
    records: &mut Records,
) -> Result<bool, String> {
    let answer = match update_predictors(&mut records.original, context) {
        Ok(outcome) => outcome as u32,
        Err(error) => REFUSED + u32::from(refusals::number(error)?),
    };
    let expected = (answer, predictors(&records.original));

    let answer = port_call(update, fozdrik_update_predictors, &mut records.port);
    let given = (answer, numbers(&records.port));
    same(Who::Fozdrik, context, &expected, &given)?;

    let answer = layer_call(layer_numbers, fozdrik_bench_update, &mut records.layer);
    same(Who::Layer, context, &expected, &(answer, records.layer))?;

    let answer = plain_call(update, bench_plain_update, &mut records.plain);
    same(Who::C, context, &expected, &(answer, records.plain))?;
    Ok(expected.0 < REFUSED)
}

/// The outcome's number, or 16 and the refusal's.
#[inline(always)]
fn port_call(update: &Update, port: Port, predictors: &mut PredictorBytes) -> u32 {
    let mut outcome = 0;
    // SAFETY: the library reads and writes no more than the lengths that go with the pointers,
    // and keeps neither.
    let refusal = unsafe {
        port(
            update.picture_structure,
            update.prediction_type_present,
            update.prediction_type,
            update.forward,
            update.backward,
            update.intra,
            update.concealment,
            predictors.as_mut_ptr(),
            predictors.len(),
            &raw mut outcome,
            1,
        )
    };
    match refusal {
        0 => u32::from(outcome),
        refusal => REFUSED + refusal,
    }
}

#[inline(always)]
fn layer_call(numbers: &LayerNumbers, layer: Layer, predictors: &mut Predictors) -> u32 {
    layer(
        numbers.structure,
        numbers.prediction_type,
        numbers.forward,
        numbers.backward,
        numbers.intra,
        numbers.concealment,
        predictors,
    )
}

#[inline(always)]
fn plain_call(update: &Update, plain: Plain, predictors: &mut Predictors) -> u32 {
    // SAFETY: it reads and writes what it is lent.
    unsafe { plain(predictors, update) }
}

// Inlined, so that the call is direct.
#[inline(always)]
fn original_batch(row: &Row, original: Original) {
    let answer = |context: &PmvUpdateContext, pmv: &mut _| match original(pmv, *context) {
        Ok(outcome) => outcome as u32,
        Err(_) => REFUSED,
    };
    batch(&row.contexts, pmv(row.start), answer);
}

#[inline(always)]
fn port_batch(row: &Row, port: Port) {
    let answer = |update: &_, predictors: &mut _| port_call(update, port, predictors);
    batch(&row.updates, bytes(row.start), answer);
}

#[inline(always)]
fn layer_batch(row: &Row, layer: Layer) {
    let answer = |numbers: &_, predictors: &mut _| layer_call(numbers, layer, predictors);
    batch(&row.layer_numbers, row.start, answer);
}

#[inline(always)]
fn plain_batch(row: &Row, plain: Plain) {
    let answer = |update: &_, predictors: &mut _| plain_call(update, plain, predictors);
    batch(&row.updates, row.start, answer);
}

fn no_original(_: &mut Pmv, _: PmvUpdateContext) -> oracle::Result<PmvUpdateOutcome> {
    Ok(PmvUpdateOutcome::NoUpdate)
}

#[allow(clippy::too_many_arguments)]
extern "C" fn no_port(
    _: u32,
    _: u32,
    _: u32,
    _: u32,
    _: u32,
    _: u32,
    _: u32,
    _: *mut u8,
    _: usize,
    _: *mut u8,
    _: usize,
) -> u32 {
    0
}

extern "C" fn no_layer(_: u32, _: u32, _: u32, _: u32, _: u32, _: u32, _: &mut Predictors) -> u32 {
    0
}

extern "C" fn no_plain(_: &mut Predictors, _: &Update) -> u32 {
    0
}
