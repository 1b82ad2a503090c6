//! Drawing what C passes to predict a macroblock.

use oracle::macroblocks::LAST_CELL;

use super::case::{Call, Case, Declared, Moved, Vector};
use super::scene::Scene;
use super::{FORMATS, Macroblocks, others, right_length};
use crate::run::Run;

/// Columns and rows over the last, also such that 10, 16, 28, 32 or 60 bits of them would be taken.
const TOO_FAR: [usize; 10] = [
    LAST_CELL + 1,
    LAST_CELL + 2,
    2048,
    1 << 16,
    1 << 28,
    1 << 32,
    1 << 59,
    1 << 60,
    usize::MAX / 2 + 1,
    usize::MAX,
];

const ENDS: [i32; 6] = [
    i32::MIN,
    i32::MIN + 1,
    i32::MIN + 2,
    i32::MAX - 2,
    i32::MAX - 1,
    i32::MAX,
];

/// Something is made wrong once in so many cases.
const OTHER_IN: usize = 24;
const STRAY_IN: usize = 24;

impl Macroblocks {
    /// A macroblock near the first one, with both references there, the declarations alike and a
    /// fitting output. What stands beside a direction without motion is drawn too.
    pub fn request(&mut self, scene: &Scene, directions: [bool; 2]) -> Case {
        let run = &mut self.run;
        let dest = scene.dest;
        let motion = directions.map(|present| Moved {
            present: present.into(),
            vectors: [(); 2].map(|()| {
                let mut near = || run.rng.between(-40, 40);
                let (horizontal, vertical) = (near(), near());
                let field = if present {
                    run.rng.below(2) as u32
                } else {
                    run.any_u32()
                };
                Vector {
                    field,
                    horizontal,
                    vertical,
                }
            }),
        });
        Case {
            call: self.call,
            width: dest.width,
            height: dest.height,
            format: dest.format,
            column: 0,
            row: 0,
            references: [dest; 2],
            motion,
            length: right_length(dest.format),
        }
    }

    /// Takes references away, and draws what stands beside their absence.
    pub fn absent(&mut self, case: &mut Case, absent: [bool; 2]) {
        for (reference, absent) in case.references.iter_mut().zip(absent) {
            if absent {
                *reference = Declared {
                    present: 0,
                    width: self.run.rng.next_u64() as usize,
                    height: self.run.rng.next_u64() as usize,
                    format: self.run.any_u32(),
                };
            }
        }
    }

    /// Anything, though mostly what is accepted.
    pub fn draw(&mut self, scene: &Scene) -> Case {
        let directions = match self.run.rng.below(8) {
            0 => [false, false],
            1..4 => [true, false],
            4..6 => [false, true],
            _ => [true, true],
        };
        let mut case = self.request(scene, directions);
        self.draw_cell(scene, &mut case);
        self.draw_vectors(scene, &mut case);
        self.draw_references(&mut case);
        let run = &mut self.run;
        if run.once_in(OTHER_IN) {
            case.length = draw_length(run, case.length);
        }
        if run.once_in(STRAY_IN) {
            let argument = run.rng.below(case.call.arguments().len());
            case.make_meaningless(run, argument);
        }
        case
    }

    fn draw_cell(&mut self, scene: &Scene, case: &mut Case) {
        let run = &mut self.run;
        let [luma, ..] = scene.sides(0);
        let mut cell = |side: usize| {
            // Up to two past the edge.
            let near = side.min(4096) / 16 + 2;
            match run.rng.below(32) {
                0 => LAST_CELL - run.rng.below(2),
                1 => run.rng.below(LAST_CELL + 1),
                _ => run.rng.below(near).min(LAST_CELL),
            }
        };
        (case.column, case.row) = (cell(luma.width), cell(luma.height));
        if run.once_in(OTHER_IN) {
            case.column = run.rng.pick(&TOO_FAR);
        }
        if run.once_in(OTHER_IN) {
            case.row = run.rng.pick(&TOO_FAR);
        }
    }

    fn draw_vectors(&mut self, scene: &Scene, case: &mut Case) {
        let run = &mut self.run;
        let (column, row) = (case.column.min(LAST_CELL), case.row.min(LAST_CELL));
        for (reference, moved) in case.motion.iter_mut().enumerate() {
            let [luma, ..] = scene.sides(reference);
            for vector in &mut moved.vectors {
                // A field has half the lines.
                let lines = match case.call {
                    Call::Frame => 1,
                    Call::Field => 2,
                };
                let draw = if run.once_in(2) {
                    draw_inside
                } else {
                    draw_component
                };
                vector.horizontal = draw(run, 16 * column, 16, luma.width);
                vector.vertical = draw(run, 16 * row / lines, 16 / lines, luma.height / lines);
            }
        }
    }

    fn draw_references(&mut self, case: &mut Case) {
        let others = others(case.dest());
        let mut absent = [false; 2];
        for (reference, absent) in case.references.iter_mut().zip(&mut absent) {
            let run = &mut self.run;
            if run.once_in(OTHER_IN) {
                *reference = run.rng.pick(&others);
            }
            *absent = run.once_in(OTHER_IN);
        }
        self.absent(case, absent);
    }
}

/// Another length than the right one.
fn draw_length(run: &mut Run, right: usize) -> usize {
    let format = run.rng.pick(&FORMATS);
    let other = right_length(format);
    let lengths = [
        right - 1,
        right + 1,
        0,
        1,
        if other == right { right + 256 } else { other },
    ];
    run.rng.pick(&lengths)
}

/// A component that moves a block of this size, at this position, into a plane of this side, where
/// the block has room there.
fn draw_inside(run: &mut Run, position: usize, size: usize, side: usize) -> i32 {
    let Some(room) = side.checked_sub(size + 1) else {
        return draw_component(run, position, size, side);
    };
    let place = run.rng.below(room.min(1 << 20) + 1) as i32;
    2 * (place - position as i32) + run.rng.between(0, 1)
}

/// A component that moves a block of this size, at this position, over a plane of this side: by
/// little, to where it is clamped, back from far outside, and by anything.
fn draw_component(run: &mut Run, position: usize, size: usize, side: usize) -> i32 {
    // No position is more than 16384; nor is a side, where the plane is taken.
    let [position, size, side] = [position, size, side.min(1 << 20)].map(|length| length as i32);
    match run.rng.below(16) {
        0 => 0,
        1..5 => run.rng.between(-4, 4),
        5..8 => run.rng.between(-50, 50),
        8..11 => 2 * (run.rng.between(-20, side + 4) - position) + run.rng.between(0, 1),
        11 => 2 * -position + run.rng.between(-3, 3),
        12 => 2 * (side - size - position) + run.rng.between(-3, 3),
        13 => run.rng.between(-70_000, 70_000),
        14 => run.rng.pick(&ENDS),
        _ => run.any_i32(),
    }
}
