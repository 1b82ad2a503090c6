//! The rows of the table of blocks: which are predicted.

use oracle::forming_predictions::{BlockSize, HalfPattern};
use oracle::rng::Rng;

use super::calls::{Call, Reference};
use crate::c::Block;
use crate::marks::Mark;

pub const WIDTH: usize = 720;
pub const HEIGHT: usize = 576;

/// So many that the branches of one block are not learnt, and that to read the clock and to start
/// takes little beside the fastest.
pub const CALLS: usize = 1024;

/// How far the whole part of a vector goes.
const REACH: i32 = 64;

/// A row of the table, and the calls that it measures, also in the form for C.
pub struct Row {
    pub what: String,
    pub calls: Vec<Call>,
    pub blocks: Vec<Block>,
    /// Whether the libraries have a function for it: they have the widths of macroblocks, and read
    /// inside alone.
    pub in_libraries: bool,
    pub mark: Option<Mark>,
}

#[derive(Clone, Copy)]
enum Structure {
    Frame,
    /// Either field, as drawn.
    Field,
}

/// Where the samples lie that a block reads.
#[derive(Clone, Copy, PartialEq)]
enum Place {
    Inside,
    /// Across an edge or a corner, with 1 to 15 columns or lines beyond it.
    Edges,
    /// Wholly beyond an edge or a corner.
    Outside,
}

/// The same along one axis.
#[derive(Clone, Copy)]
enum Side {
    Before,
    Within,
    After,
}

pub fn rows(rng: &mut Rng) -> Vec<Row> {
    use Place::{Edges, Inside, Outside};
    use Structure::{Field, Frame};
    const LUMA: BlockSize = size(16, 16);
    const CHROMA: BlockSize = size(8, 8);
    const FIELD_LUMA: BlockSize = size(16, 8);
    // Of no macroblock: the port forms them by another path.
    const NARROW: BlockSize = size(4, 4);
    const WIDE: BlockSize = size(12, 12);
    const PATTERNS: [HalfPattern; 4] = [
        HalfPattern::Integer,
        HalfPattern::HalfHorizontal,
        HalfPattern::HalfVertical,
        HalfPattern::HalfBoth,
    ];

    let mut rows = Vec::new();
    for (structure, size, place) in [
        (Frame, LUMA, Inside),
        (Frame, CHROMA, Inside),
        (Frame, LUMA, Edges),
        (Frame, CHROMA, Edges),
        (Frame, LUMA, Outside),
        (Frame, CHROMA, Outside),
        (Field, FIELD_LUMA, Inside),
        (Field, FIELD_LUMA, Edges),
        (Frame, NARROW, Inside),
        (Frame, WIDE, Inside),
        (Frame, NARROW, Edges),
        (Frame, WIDE, Edges),
    ] {
        for pattern in PATTERNS {
            let what = format!(
                "{}, {} × {}, {}, {}",
                match structure {
                    Frame => "frame",
                    Field => "field",
                },
                size.width,
                size.height,
                match place {
                    Inside => "inside",
                    Edges => "at the edges",
                    Outside => "outside",
                },
                match pattern {
                    HalfPattern::Integer => "no half",
                    HalfPattern::HalfHorizontal => "half horizontally",
                    HalfPattern::HalfVertical => "half vertically",
                    HalfPattern::HalfBoth => "both halves",
                },
            );
            let calls: Vec<_> = (0..CALLS)
                .map(|_| draw(rng, structure, size, place, pattern))
                .collect();
            let of_macroblocks = size.width == 16 || size.width == 8;
            rows.push(Row {
                what,
                blocks: calls.iter().map(Block::from).collect(),
                calls,
                in_libraries: of_macroblocks && place == Inside,
                mark: (of_macroblocks && place == Edges).then_some(Mark::AtLeast(5.0)),
            });
        }
    }
    rows
}

const fn size(width: usize, height: usize) -> BlockSize {
    BlockSize { width, height }
}

fn draw(
    rng: &mut Rng,
    structure: Structure,
    size: BlockSize,
    place: Place,
    pattern: HalfPattern,
) -> Call {
    use Side::{After, Before, Within};
    const BEYOND: [(Side, Side); 8] = [
        (Before, Before),
        (Before, Within),
        (Before, After),
        (Within, Before),
        (Within, After),
        (After, Before),
        (After, Within),
        (After, After),
    ];

    let (reference, lines) = match structure {
        Structure::Frame => (Reference::Frame, HEIGHT),
        Structure::Field => (
            rng.pick(&[Reference::TopField, Reference::BottomField]),
            HEIGHT / 2,
        ),
    };
    let (column_side, line_side) = match place {
        Place::Inside => (Within, Within),
        Place::Edges | Place::Outside => rng.pick(&BEYOND),
    };
    let (half_x, half_y) = pattern.flags();
    let (x, horizontal) = draw_axis(rng, place, column_side, WIDTH, size.width, half_x);
    let (y, vertical) = draw_axis(rng, place, line_side, lines, size.height, half_y);
    Call {
        reference,
        x,
        y,
        size,
        horizontal,
        vertical,
    }
}

/// A position and a component of a vector that together read there.
fn draw_axis(
    rng: &mut Rng,
    place: Place,
    side: Side,
    extent: usize,
    block_side: usize,
    half: bool,
) -> (i32, i32) {
    let extent = extent as i32;
    let read = block_side as i32 + i32::from(half);
    let target = match (side, place) {
        (Side::Within, _) | (_, Place::Inside) => rng.between(0, extent - read),
        (Side::Before, Place::Edges) => -rng.between(1, 15.min(read - 1)),
        (Side::After, Place::Edges) => extent - read + rng.between(1, 15.min(read - 1)),
        (Side::Before, Place::Outside) => -read - rng.between(0, REACH),
        (Side::After, Place::Outside) => extent + rng.between(0, REACH),
    };
    let whole = rng.between(-REACH, REACH - 1);
    (target - whole, 2 * whole + i32::from(half))
}
