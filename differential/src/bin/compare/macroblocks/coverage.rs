//! What the cases of a macroblock call met.

use oracle::inter_reconstruction::{FieldVector, MotionVectorPel};
use oracle::macroblocks::{Geometry, LAST_CELL, Motion, Sides, macroblock_length};
use oracle::pmv::{Direction, scale_chroma};
use oracle::sequence_extension::ChromaFormat;

use super::case::{CHROMA_FORMATS, Call, Case, Read};
use super::scene::Scene;
use crate::coverage::Table;

const NUMBERS: [u8; 7] = [38, 13, 18, 16, 17, 15, 14];
const REFERENCES: [&str; 2] = ["forward", "backward"];
const FORMATS: [&str; 3] = ["4:2:0", "4:2:2", "4:4:4"];

/// What is read of: a frame, or one of its fields.
#[derive(Clone, Copy, PartialEq)]
enum Source {
    Frame,
    TopField,
    BottomField,
}

/// A block that is predicted: from where, how large, by which vector.
struct Block {
    source: Source,
    chroma: bool,
    x: usize,
    y: usize,
    width: usize,
    height: usize,
    vector: MotionVectorPel,
    plane: Sides,
}

pub struct Coverage {
    call: Call,
    no_meaning: Table,
    refusals: Table,
    details: Table,
    geometries: Table,
    unfit: Table,
    directions: Table,
    halves: Table,
    clamped: Table,
    parities: Option<Table>,
    situations: Table,
}

impl Coverage {
    pub fn new(call: Call) -> Self {
        let of = |frame, field| match call {
            Call::Frame => frame,
            Call::Field => field,
        };
        Self {
            call,
            no_meaning: Table::new(
                of(
                    "frame-based: 38 for one argument alone",
                    "field-based: 38 for one argument alone",
                ),
                call.arguments(),
                &["cases"],
                &[],
            ),
            refusals: Table::new(
                of("frame-based: refusals", "field-based: refusals"),
                &["38", "13", "18", "16", "17", "15", "14"],
                &["one cause", "several"],
                // All other causes come before the last.
                &[(6, 1)],
            ),
            details: Table::new(
                of(
                    "frame-based: refusals 13 and 18",
                    "field-based: refusals 13 and 18",
                ),
                &[
                    "13, the column",
                    "13, the row",
                    "13, both",
                    "18, a byte less",
                    "18, a byte more",
                    "18, no byte",
                    "18, another format's",
                ],
                &["cases"],
                &[],
            ),
            geometries: Table::new(
                of(
                    "frame-based: refusal 15, by what differs alone",
                    "field-based: refusal 15, by what differs alone",
                ),
                &["width", "height", "format"],
                &REFERENCES,
                &[],
            ),
            unfit: Table::new(
                of(
                    "frame-based: refusal 14, by the plane",
                    "field-based: refusal 14, by the plane",
                ),
                &["Y", "Cb", "Cr"],
                &[
                    "forward, length",
                    "forward, side",
                    "backward, length",
                    "backward, side",
                ],
                &[],
            ),
            directions: Table::new(
                of(
                    "frame-based: accepted, by the directions",
                    "field-based: accepted, by the directions",
                ),
                &[
                    "no motion",
                    "forward",
                    "backward",
                    "both",
                    "both, one reference: forward",
                    "both, one reference: backward",
                ],
                &FORMATS,
                &[],
            ),
            halves: Table::new(
                of("frame-based: halves", "field-based: halves"),
                &[
                    "none, inside",
                    "horizontal, inside",
                    "vertical, inside",
                    "both, inside",
                    "none, clamped",
                    "horizontal, clamped",
                    "vertical, clamped",
                    "both, clamped",
                ],
                &[
                    "luminance",
                    "4:2:0 chrominance",
                    "4:2:2 chrominance",
                    "4:4:4 chrominance",
                ],
                &[],
            ),
            clamped: match call {
                Call::Frame => Table::new(
                    "frame-based: where blocks are read",
                    &CLAMPED[..6],
                    &["luminance", "chrominance"],
                    &[],
                ),
                Call::Field => Table::new(
                    "field-based: where blocks are read",
                    &CLAMPED,
                    &[
                        "top luminance",
                        "top chrominance",
                        "bottom luminance",
                        "bottom chrominance",
                    ],
                    // A plane of one row has a top field.
                    &[(6, 0), (6, 1)],
                ),
            },
            parities: (call == Call::Field).then(|| {
                Table::new(
                    "field-based: which field is read for which",
                    &[
                        "top for top",
                        "bottom for top",
                        "top for bottom",
                        "bottom for bottom",
                    ],
                    &["forward", "backward", "no motion"],
                    // Without motion each field is its own.
                    &[(1, 2), (2, 2)],
                )
            }),
            situations: Table::new(
                of("frame-based: accepted with", "field-based: accepted with"),
                &[
                    "a column past the edge",
                    "a row past the edge",
                    "column 1023",
                    "row 1023",
                    "an unused reference that is absent",
                    "an unused reference of another geometry",
                    "an unused reference with unfit planes",
                    "one picture as both references",
                    "planes that fit no picture of the format",
                    "a component at an end of i32",
                    "a negative odd component, halved for chrominance",
                ],
                &["cases"],
                &[],
            ),
        }
    }

    pub fn tables(&self) -> Vec<&Table> {
        let mut tables = vec![
            &self.no_meaning,
            &self.refusals,
            &self.details,
            &self.geometries,
            &self.unfit,
            &self.directions,
            &self.halves,
            &self.clamped,
        ];
        tables.extend(&self.parities);
        tables.push(&self.situations);
        tables
    }

    /// Counts a case with arguments that have no meaning.
    pub fn count_meaningless(&mut self, case: &Case, strays: &[usize]) {
        if let [alone] = strays {
            self.no_meaning.count(*alone, 0);
        }
        let lengths = CHROMA_FORMATS.map(macroblock_length);
        let others = too_far(case) || !lengths.contains(&case.length);
        let several = strays.len() > 1 || others;
        self.refusals.count(0, several.into());
    }

    /// Counts a case whose numbers all have a meaning, by its refusal if there is one.
    pub fn count(&mut self, case: &Case, read: &Read, scene: &Scene, refusal: Option<u8>) {
        let Some(number) = refusal else {
            self.count_accepted(case, read, scene);
            return;
        };
        let causes = causes(case, read, scene);
        let row = NUMBERS.iter().position(|known| *known == number);
        let row = row.expect("there is no other number");
        self.refusals.count(row, (causes.len() > 1).into());
        match number {
            13 => {
                let over = [case.column > LAST_CELL, case.row > LAST_CELL];
                let row = match over {
                    [true, false] => 0,
                    [false, _] => 1,
                    [true, true] => 2,
                };
                self.details.count(row, 0);
            }
            18 => self.count_length(case.length, macroblock_length(read.dest.format)),
            15 => self.count_geometry(read),
            14 => self.count_unfit(read.remaining(), scene),
            _ => {}
        }
    }

    fn count_length(&mut self, length: usize, right: usize) {
        let row = match length {
            0 => 5,
            length if length + 1 == right => 3,
            length if length == right + 1 => 4,
            length if CHROMA_FORMATS.map(macroblock_length).contains(&length) => 6,
            _ => return,
        };
        self.details.count(row, 0);
    }

    fn count_geometry(&mut self, read: &Read) {
        let Geometry {
            width,
            height,
            format,
        } = read.dest;
        let used = used(read.remaining());
        for (column, reference) in read.references.into_iter().enumerate() {
            let Some(declared) = reference.filter(|_| used[column]) else {
                continue;
            };
            let differs = [
                declared.width != width,
                declared.height != height,
                declared.format != format,
            ];
            for row in 0..3 {
                if (0..3).all(|place| differs[place] == (place == row)) {
                    self.geometries.count(row, column);
                }
            }
        }
    }

    fn count_unfit(&mut self, motion: Motion, scene: &Scene) {
        for (reference, used) in used(motion).into_iter().enumerate() {
            if !used {
                continue;
            }
            for (row, sides) in scene.sides(reference).into_iter().enumerate() {
                if !sides.in_domain() {
                    let column = 2 * reference + usize::from(sides.has_its_length());
                    self.unfit.count(row, column);
                }
            }
        }
    }

    fn count_accepted(&mut self, case: &Case, read: &Read, scene: &Scene) {
        let [forward, backward] = case.motion.map(|moved| moved.present == 1);
        let directions = match (forward && backward, read.references) {
            (true, [Some(_), None]) => 4,
            (true, [None, Some(_)]) => 5,
            _ => usize::from(forward) + 2 * usize::from(backward),
        };
        self.directions.count(directions, read.dest.format as usize);
        self.count_situations(case, read, scene);
        for (reference, used) in used(read.remaining()).into_iter().enumerate() {
            if !used {
                continue;
            }
            let vectors = vectors(read.remaining(), reference);
            if let Some(parities) = &mut self.parities {
                let column = if case.motion[reference].present == 1 {
                    reference
                } else {
                    2
                };
                for (destination, (source, _)) in vectors.iter().enumerate() {
                    let bottom = usize::from(*source == Source::BottomField);
                    parities.count(2 * destination + bottom, column);
                }
            }
            for (source, vector) in vectors {
                for block in blocks(
                    case,
                    read.dest.format,
                    source,
                    vector,
                    scene.sides(reference),
                ) {
                    self.count_block(&block, read.dest.format);
                }
            }
        }
    }

    fn count_block(&mut self, block: &Block, format: ChromaFormat) {
        let Block { chroma, vector, .. } = *block;
        let clamped = self.count_place(block);
        let odd = |component: i32| usize::from(component % 2 != 0);
        let halves = odd(vector.horizontal) + 2 * odd(vector.vertical);
        let column = if chroma { 1 + format as usize } else { 0 };
        self.halves.count(halves + 4 * usize::from(clamped), column);
    }

    /// Counts where a block is read; whether it is clamped.
    fn count_place(&mut self, block: &Block) -> bool {
        let Block {
            source,
            chroma,
            vector,
            plane,
            ..
        } = *block;
        let column = usize::from(chroma)
            + match source {
                Source::Frame | Source::TopField => 0,
                Source::BottomField => 2,
            };
        let lines = match source {
            Source::Frame => plane.height,
            Source::TopField => plane.height.div_ceil(2),
            Source::BottomField => plane.height / 2,
        };
        if plane.length == 0 {
            self.clamped.count(EMPTY_PLANE, column);
            return true;
        }
        if lines == 0 {
            self.clamped.count(EMPTY_FIELD, column);
            return true;
        }
        let (left, right) = outside(block.x, block.width, vector.horizontal, plane.width);
        let (top, bottom) = outside(block.y, block.height, vector.vertical, lines);
        let inside = !(left || right || top || bottom);
        for (row, met) in [inside, left, right, top, bottom].into_iter().enumerate() {
            if met {
                self.clamped.count(row, column);
            }
        }
        !inside
    }

    fn count_situations(&mut self, case: &Case, read: &Read, scene: &Scene) {
        let used = used(read.remaining());
        let unused = |met: &dyn Fn(usize) -> bool| (0..2).any(|place| !used[place] && met(place));
        let any = |met: &dyn Fn(usize) -> bool| (0..2).any(|place| used[place] && met(place));
        let unfit = |place: usize| !scene.sides(place).into_iter().all(Sides::in_domain);
        let components = || {
            let moved = case.motion.iter().filter(|moved| moved.present == 1);
            let vectors = moved.flat_map(|moved| match self.call {
                Call::Frame => &moved.vectors[..1],
                Call::Field => &moved.vectors[..],
            });
            vectors.map(|vector| [vector.horizontal, vector.vertical])
        };
        // Those of the components that the format halves.
        let halved = match read.dest.format {
            ChromaFormat::Yuv420 => 2,
            ChromaFormat::Yuv422 => 1,
            ChromaFormat::Yuv444 => 0,
        };
        let met = [
            any(&|place| 16 * case.column >= scene.sides(place)[0].width),
            any(&|place| 16 * case.row >= scene.sides(place)[0].height),
            case.column == LAST_CELL,
            case.row == LAST_CELL,
            unused(&|place| read.references[place].is_none()),
            unused(&|place| read.references[place].is_some_and(|other| other != read.dest)),
            unused(&|place| read.references[place].is_some() && unfit(place)),
            used == [true, true] && scene.one_for_both,
            any(&|place| fits_no_picture(scene.sides(place), read.dest.format)),
            components()
                .flatten()
                .any(|component| component == i32::MIN || component == i32::MAX),
            components()
                .flat_map(|both| both.into_iter().take(halved))
                .any(|component| component < 0 && component % 2 != 0),
        ];
        for (row, met) in met.into_iter().enumerate() {
            if met {
                self.situations.count(row, 0);
            }
        }
    }
}

const CLAMPED: [&str; 7] = [
    "inside",
    "past the left edge",
    "past the right edge",
    "above the first line",
    "below the last line",
    "a plane without samples",
    "a field without lines",
];
const EMPTY_PLANE: usize = 5;
const EMPTY_FIELD: usize = 6;

fn too_far(case: &Case) -> bool {
    case.column.max(case.row) > LAST_CELL
}

/// Whether the forward reference is used, and the backward one.
fn used(motion: Motion) -> [bool; 2] {
    [Direction::Forward, Direction::Backward].map(|direction| motion.uses(direction))
}

/// All causes of refusal that hold: the scope's table, one row after the other.
fn causes(case: &Case, read: &Read, scene: &Scene) -> Vec<u8> {
    let used = used(read.remaining());
    let [forward, backward] = read.references;
    let other = |place: usize| {
        used[place] && read.references[place].is_some_and(|declared| declared != read.dest)
    };
    let holds = [
        (13, too_far(case)),
        (18, case.length != macroblock_length(read.dest.format)),
        (16, used[0] && forward.is_none()),
        (17, used[1] && backward.is_none()),
        (15, other(0)),
        (15, other(1)),
        (14, !scene.in_domain(read.remaining())),
    ];
    let causes = holds.into_iter().filter(|(_, holds)| *holds);
    causes.map(|(number, _)| number).collect()
}

/// The vectors of a used direction, and what each reads.
fn vectors(motion: Motion, reference: usize) -> Vec<(Source, MotionVectorPel)> {
    let zero = MotionVectorPel::new(0, 0);
    match motion {
        Motion::Frame(motion) => {
            let vector = [motion.forward, motion.backward][reference];
            vec![(Source::Frame, vector.unwrap_or(zero))]
        }
        Motion::Field(motion) => {
            let source = |vector: FieldVector| match vector.reference_field.index() {
                0 => (Source::TopField, vector.vector),
                _ => (Source::BottomField, vector.vector),
            };
            match [motion.forward, motion.backward][reference] {
                None => vec![(Source::TopField, zero), (Source::BottomField, zero)],
                Some((top, bottom)) => vec![source(top), source(bottom)],
            }
        }
    }
}

/// The three blocks that a vector predicts.
fn blocks(
    case: &Case,
    format: ChromaFormat,
    source: Source,
    vector: MotionVectorPel,
    planes: [Sides; 3],
) -> [Block; 3] {
    let (width, height) = match format {
        ChromaFormat::Yuv420 => (8, 8),
        ChromaFormat::Yuv422 => (8, 16),
        ChromaFormat::Yuv444 => (16, 16),
    };
    let scaled = scale_chroma(vector.horizontal, vector.vertical, format);
    let scaled = MotionVectorPel::new(scaled.chroma_horiz, scaled.chroma_vert);
    // A field has half the lines.
    let lines = if source == Source::Frame { 1 } else { 2 };
    [0, 1, 2].map(|place| {
        let chroma = place != 0;
        let (width, height, vector) = if chroma {
            (width, height, scaled)
        } else {
            (16, 16, vector)
        };
        Block {
            source,
            chroma,
            x: width * case.column,
            y: height * case.row / lines,
            width,
            height: height / lines,
            vector,
            plane: planes[place],
        }
    })
}

/// Whether samples are read before the first one of a line or a column, and behind the last.
fn outside(base: usize, size: usize, component: i32, side: usize) -> (bool, bool) {
    let first = base as i64 + i64::from(component.div_euclid(2));
    let last = first + size as i64 - 1 + i64::from(component.rem_euclid(2));
    (first < 0, last >= side as i64)
}

/// Whether the chroma planes are not those of the luminance plane's sides, or these are no
/// multiples of 16.
fn fits_no_picture([y, cb, cr]: [Sides; 3], format: ChromaFormat) -> bool {
    let (x, lines) = match format {
        ChromaFormat::Yuv420 => (2, 2),
        ChromaFormat::Yuv422 => (2, 1),
        ChromaFormat::Yuv444 => (1, 1),
    };
    let fits = |chroma: Sides| chroma.width * x == y.width && chroma.height * lines == y.height;
    !y.width.is_multiple_of(16) || !y.height.is_multiple_of(16) || !fits(cb) || !fits(cr)
}
