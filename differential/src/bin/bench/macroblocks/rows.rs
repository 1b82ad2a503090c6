//! The rows of the table of macroblocks: which are predicted.

use oracle::dual_prime::FieldParity;
use oracle::forming_predictions::{HalfPattern, split_component};
use oracle::frame_assembly::chroma_shift;
use oracle::inter_reconstruction::{FieldBasedMotion, FieldVector, FrameMotion, MotionVectorPel};
use oracle::pmv::scale_chroma;
use oracle::rng::Rng;
use oracle::sequence_extension::ChromaFormat;

use super::calls::{Call, Motion};
use crate::c::Macroblock;
use crate::marks::Mark;

pub const WIDTH: usize = 720;
pub const HEIGHT: usize = 576;

/// So many that the sequence of half patterns is not learnt.
pub const CALLS: usize = 1024;

/// How far the whole part of a vector goes, in samples of luminance.
const REACH: i32 = 64;

/// The side of a macroblock.
const SIDE: usize = 16;

/// A row of the table: the same calls in the original's form and in numbers.
pub struct Row {
    pub what: String,
    pub calls: Vec<Call>,
    pub numbers: Vec<Macroblock>,
    /// Whether all that is read lies inside, as the libraries' functions ask.
    pub inside: bool,
    pub mark: Option<Mark>,
}

#[derive(Clone, Copy)]
enum Structure {
    Frame,
    Field,
}

#[derive(Clone, Copy)]
enum Directions {
    /// Forward or backward, as drawn.
    One,
    Two,
}

/// Where the samples lie that the blocks of a macroblock read.
#[derive(Clone, Copy, PartialEq)]
enum Place {
    Inside,
    /// Across an edge or a corner, the same one for each vector and component.
    Edges,
}

/// The same along one axis.
#[derive(Debug, Clone, Copy, PartialEq)]
enum Side {
    Before,
    Within,
    After,
}

/// Along one axis: the lines of a plane, or its columns, and what the macroblock has of them.
#[derive(Clone, Copy)]
struct Axis {
    extent: i32,
    block: i32,
}

impl Axis {
    fn columns() -> Self {
        Self {
            extent: WIDTH as i32,
            block: SIDE as i32,
        }
    }

    /// Of the frame or of a field.
    fn lines(structure: Structure) -> Self {
        let divisor = match structure {
            Structure::Frame => 1,
            Structure::Field => 2,
        };
        Self {
            extent: HEIGHT as i32 / divisor,
            block: SIDE as i32 / divisor,
        }
    }

    /// The same of chrominance.
    fn chroma(self, shift: u32) -> Self {
        Self {
            extent: self.extent >> shift,
            block: self.block >> shift,
        }
    }

    /// How many samples are read along it.
    fn read(self, half: bool) -> i32 {
        self.block + i32::from(half)
    }

    /// A component of a vector by which the block of a cell reads there.
    fn draw(self, rng: &mut Rng, cell: usize, side: Side, half: bool) -> i32 {
        let base = cell as i32 * self.block;
        let last = self.extent - self.read(half);
        // Of two samples of luminance there is always one of chrominance, and some stay inside.
        let beyond = rng.between(2, (SIDE as i32).min(self.read(half)) - 1);
        let target = match side {
            Side::Before => -beyond,
            Side::Within => rng.between(0.max(base - REACH), last.min(base + REACH)),
            Side::After => last + beyond,
        };
        2 * (target - base) + i32::from(half)
    }

    /// Where the block of a cell reads by a component of a vector; none where it is wholly beyond.
    fn side(self, cell: usize, component: i32) -> Option<Side> {
        let split = split_component(component);
        let first = cell as i32 * self.block + split.int_vec;
        let last = first + self.read(split.half_flag) - 1;
        let inside = 0..self.extent;
        match (inside.contains(&first), inside.contains(&last)) {
            (true, true) => Some(Side::Within),
            (false, true) => Some(Side::Before),
            (true, false) => Some(Side::After),
            (false, false) => None,
        }
    }
}

/// The rows of a format.
pub fn rows(rng: &mut Rng, name: &str, format: ChromaFormat) -> Vec<Row> {
    let mut rows = Vec::new();
    for (structure, structure_name, mark) in [
        (Structure::Frame, "frame", Mark::AtMost(1.2)),
        (Structure::Field, "field", Mark::AtMost(1.5)),
    ] {
        for (directions, directions_name) in [
            (Directions::One, "one direction"),
            (Directions::Two, "two directions"),
        ] {
            for (place, place_name) in [(Place::Inside, "inside"), (Place::Edges, "at the edges")] {
                let calls = draw_calls(rng, format, structure, directions, place);
                rows.push(Row {
                    what: format!("{name}, {structure_name}, {directions_name}, {place_name}"),
                    numbers: calls.iter().map(Macroblock::from).collect(),
                    calls,
                    inside: place == Place::Inside,
                    mark: (place == Place::Inside).then_some(mark),
                });
            }
        }
    }
    rows
}

fn draw_calls(
    rng: &mut Rng,
    format: ChromaFormat,
    structure: Structure,
    directions: Directions,
    place: Place,
) -> Vec<Call> {
    // Each of a macroblock's vectors has every pattern equally often.
    let patterns = [(); 4].map(|()| draw_patterns(rng));
    (0..CALLS)
        .map(|place_in_row| {
            let cell = Cell::draw(rng, structure, place);
            let patterns = [0, 1, 2, 3].map(|vector| patterns[vector][place_in_row]);
            Call {
                column: cell.column,
                row: cell.row,
                motion: cell.draw_motion(rng, format, structure, directions, patterns),
            }
        })
        .collect()
}

fn draw_patterns(rng: &mut Rng) -> Vec<HalfPattern> {
    const ALL: [HalfPattern; 4] = [
        HalfPattern::Integer,
        HalfPattern::HalfHorizontal,
        HalfPattern::HalfVertical,
        HalfPattern::HalfBoth,
    ];
    let mut patterns: Vec<_> = ALL.into_iter().cycle().take(CALLS).collect();
    rng.shuffle(&mut patterns);
    patterns
}

/// A macroblock, and past which edges it is to read.
#[derive(Clone, Copy)]
struct Cell {
    column: usize,
    row: usize,
    columns: Axis,
    lines: Axis,
    column_side: Side,
    line_side: Side,
}

impl Cell {
    fn draw(rng: &mut Rng, structure: Structure, place: Place) -> Self {
        use Side::{After, Before, Within};
        const BEYOND: [(Side, Side); 8] = [
            (Before, Before),
            (Before, Within),
            (Before, After),
            (Within, Before),
            (Within, After),
            (After, Before),
            (After, Within),
            (After, After),
        ];

        let (column_side, line_side) = match place {
            Place::Inside => (Within, Within),
            Place::Edges => rng.pick(&BEYOND),
        };
        Self {
            column: draw_index(rng, WIDTH / SIDE, column_side),
            row: draw_index(rng, HEIGHT / SIDE, line_side),
            columns: Axis::columns(),
            lines: Axis::lines(structure),
            column_side,
            line_side,
        }
    }

    fn draw_motion(
        self,
        rng: &mut Rng,
        format: ChromaFormat,
        structure: Structure,
        directions: Directions,
        patterns: [HalfPattern; 4],
    ) -> Motion {
        let [a, b, c, d] = patterns.map(|pattern| self.draw_vector(rng, format, pattern));
        let forward = rng.below(2) == 0;
        match (structure, directions) {
            (Structure::Frame, Directions::One) if forward => {
                Motion::Frame(FrameMotion::forward(a))
            }
            (Structure::Frame, Directions::One) => Motion::Frame(FrameMotion::backward(a)),
            (Structure::Frame, Directions::Two) => Motion::Frame(FrameMotion::bidirectional(a, b)),
            (Structure::Field, _) => {
                let [a, b, c, d] = [a, b, c, d].map(|vector| draw_field(rng, vector));
                Motion::Field(match directions {
                    Directions::One if forward => FieldBasedMotion::forward(a, b),
                    Directions::One => FieldBasedMotion::backward(a, b),
                    Directions::Two => FieldBasedMotion::bidirectional(a, b, c, d),
                })
            }
        }
    }

    /// A vector by which luminance and chrominance read past the cell's edges and no others.
    fn draw_vector(
        self,
        rng: &mut Rng,
        format: ChromaFormat,
        pattern: HalfPattern,
    ) -> MotionVectorPel {
        let Self {
            column,
            row,
            columns,
            lines,
            column_side,
            line_side,
        } = self;
        let (half_x, half_y) = pattern.flags();
        let horizontal = columns.draw(rng, column, column_side, half_x);
        let vertical = lines.draw(rng, row, line_side, half_y);

        let chroma = scale_chroma(horizontal, vertical, format);
        let (shift_x, shift_y) = chroma_shift(format);
        let chroma_columns = columns.chroma(shift_x);
        let chroma_lines = lines.chroma(shift_y);
        for (side, wanted) in [
            (columns.side(column, horizontal), column_side),
            (lines.side(row, vertical), line_side),
            (
                chroma_columns.side(column, chroma.chroma_horiz),
                column_side,
            ),
            (chroma_lines.side(row, chroma.chroma_vert), line_side),
        ] {
            assert_eq!(side, Some(wanted), "a block reads elsewhere than was drawn");
        }
        MotionVectorPel::new(horizontal, vertical)
    }
}

/// A column or row of macroblocks from which a vector reaches past that edge.
fn draw_index(rng: &mut Rng, count: usize, side: Side) -> usize {
    let near = REACH as usize / SIDE;
    match side {
        Side::Before => rng.below(near),
        Side::Within => rng.below(count),
        Side::After => count - near + rng.below(near),
    }
}

fn draw_field(rng: &mut Rng, vector: MotionVectorPel) -> FieldVector {
    FieldVector::new(vector, rng.pick(&[FieldParity::Top, FieldParity::Bottom]))
}
