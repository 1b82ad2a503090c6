//! The macroblock layer: frame-based and field-based prediction of a macroblock from one reference
//! or two, with all that is refused.

pub mod cases;

use std::iter;

use oracle::dual_prime::FieldParity;
use oracle::inter_reconstruction::{FieldBasedMotion, FieldVector, FrameMotion, MotionVectorPel};
use oracle::macroblocks::{Geometry, LARGEST_SIDE, LAST_CELL, Motion, Sides, macroblock_length};
use oracle::pmv::Direction;
use oracle::rng::Rng;
use oracle::sequence_extension::ChromaFormat;

use crate::list::{ACCEPTED, Edition, Kind, List, ORIGINAL, kind, refusing};
use cases::{Planes, Prediction, Request};

const SEED: u64 = 766;

const FORMATS: [ChromaFormat; 3] = [
    ChromaFormat::Yuv420,
    ChromaFormat::Yuv422,
    ChromaFormat::Yuv444,
];
const CALLS: [Call; 2] = [Call::Frame, Call::Field];
const PARITIES: [FieldParity; 2] = [FieldParity::Top, FieldParity::Bottom];
const REFERENCES: [Direction; 2] = [Direction::Forward, Direction::Backward];
const FLAGS: [bool; 2] = [false, true];

/// The directions that have motion.
const NEITHER: Directions = Directions {
    forward: false,
    backward: false,
};
const FORWARD: Directions = Directions {
    forward: true,
    backward: false,
};
const BACKWARD: Directions = Directions {
    forward: false,
    backward: true,
};
const BOTH: Directions = Directions {
    forward: true,
    backward: true,
};
const DIRECTIONS: [Directions; 4] = [NEITHER, FORWARD, BACKWARD, BOTH];

/// No number of the list has more digits.
const HUGE: usize = 100_000_000_000_000_000;
/// A port that keeps 32 bits takes this for 0.
const TWO_TO_32: usize = 1 << 32;

const ANSWERS: &[u8] = &[0, 13, 14, 15, 16, 17, 18];

const KINDS: &[Kind] = &[
    kind("1", "(sets planes)"),
    refusing("2", "predict_frame_macroblock_planes", 22, ANSWERS),
    refusing("3", "predict_field_based_macroblock_planes", 30, ANSWERS),
];

const FIELDS: &str = "\
Flags are 0 or 1. What is absent is a 0 with zeros behind it; PRESENT is 1 where it is there.
CHROMA is 0 Yuv420, 1 Yuv422, 2 Yuv444; FIELD is the field that a vector reads, 0 Top, 1 Bottom: as
the original's enums count them. ANSWER is 0 or the refusal's number. The output holds LENGTH bytes,
at most 1024, before the call: FILL, FILL + 1 and so on, modulo 256. USED tells what an accepted
macroblock was predicted from: 1 the forward reference, 2 the backward one, 3 both; 0 where it is
refused. AFTER is the output after it: Y, then Cb, then Cr; or - where it is what it was before.
1 REFERENCE Y_WIDTH Y_HEIGHT Y_LENGTH CB_WIDTH CB_HEIGHT CB_LENGTH CR_WIDTH CR_HEIGHT CR_LENGTH SEED
  Sets the planes that the cases after it pass for a reference, 0 the forward one, 1 the backward
  one, also where they say that it is absent. A LENGTH need not be width * height; the three are at
  most 65536 together. The samples, of Y, then of Cb, then of Cr, are one run of numbers: from s =
  SEED on, s becomes (s * 1103515245 + 12345) mod 2^31, and the sample is s / 2^16 mod 256. The line
  makes no call, and counts as a case that agrees.
2 WIDTH HEIGHT CHROMA PRESENT WIDTH HEIGHT CHROMA PRESENT WIDTH HEIGHT CHROMA MB_COL MB_ROW
  PRESENT HORIZONTAL VERTICAL PRESENT HORIZONTAL VERTICAL FILL LENGTH ANSWER USED AFTER
  predict_frame_macroblock_planes: what the destination, the forward and the backward reference
  declare, the macroblock's place, the forward and the backward vector.
3 WIDTH HEIGHT CHROMA PRESENT WIDTH HEIGHT CHROMA PRESENT WIDTH HEIGHT CHROMA MB_COL MB_ROW
  PRESENT HORIZONTAL VERTICAL FIELD HORIZONTAL VERTICAL FIELD
  PRESENT HORIZONTAL VERTICAL FIELD HORIZONTAL VERTICAL FIELD FILL LENGTH ANSWER USED AFTER
  predict_field_based_macroblock_planes: the same with the vectors of the top and of the bottom
  field, forward and backward.";

pub fn list(edition: Edition) -> List {
    let seed = edition.seed(SEED);
    let made = format!(
        "Answers of two calls of src/inter_reconstruction.rs
({ORIGINAL},
release build) to inputs drawn by splitmix64 from the seed {seed}.
The original refuses with values of InterError: their numbers 15, 16 and 17 are the scope's
(docs/SCOPE.md). The original returns three new vectors. The scope's alone are the number 13 for a
column or a row over 1023; the number 18 for an output that is not as long as the three together;
the number 14 for a plane of a used reference with a side over 16384, or of another length than
its width times its height, which the original cannot have; the order 13, 18, 16, 17, 15, 14; and
that a refusal changes nothing. Whether 15, 16 or 17 is due is always asked of the original, with an
empty plane in place of one of the wrong length: these refusals do not depend on planes.
The scope's alone is also that of two directions with motion the one whose reference is there is
used where the other's is absent, where the original refuses with 16 or 17: it is asked there with
the motion of that one alone. USED is told by what it refuses without each reference.
The last group is wrong on purpose."
    );
    let mut maker = Maker {
        list: List::new(
            "macroblocks",
            "crates/replay_inter_reconstruction/stdin",
            KINDS,
            &made,
            FIELDS,
        ),
        rng: Rng::new(seed),
        planes: REFERENCES.map(|reference| Planes {
            reference,
            y: sides(0, 0),
            cb: sides(0, 0),
            cr: sides(0, 0),
            seed: 0,
        }),
        dest: Geometry {
            width: 0,
            height: 0,
            format: ChromaFormat::Yuv420,
        },
    };
    scope_cases(&mut maker);
    directions(&mut maker);
    vectors(&mut maker);
    fields(&mut maker);
    cells(&mut maker);
    own_sides(&mut maker);
    far_vectors(&mut maker);
    declared(&mut maker);
    other_geometry(&mut maker);
    large_planes(&mut maker);
    drawn(&mut maker);
    refused_cells(&mut maker);
    refused_outputs(&mut maker);
    refused_planes(&mut maker);
    orders(&mut maker);
    orders_of_two(&mut maker);
    one_of_two(&mut maker);
    if edition.is_kept() {
        wrong_on_purpose(&mut maker);
    }
    maker.list
}

/// Which of the two calls.
#[derive(Clone, Copy)]
enum Call {
    Frame,
    Field,
}

/// Something for each direction: whether it has motion, or whether its reference is there.
#[derive(Clone, Copy)]
struct Directions {
    forward: bool,
    backward: bool,
}

/// The list under way, the planes that its last lines of kind 1 set, and what the destination
/// declares.
struct Maker {
    list: List,
    rng: Rng,
    planes: [Planes; 2],
    dest: Geometry,
}

impl Maker {
    /// Sets a reference's planes, of drawn samples.
    fn set(&mut self, reference: Direction, [y, cb, cr]: [Sides; 3]) {
        let planes = Planes {
            reference,
            y,
            cb,
            cr,
            seed: self.rng.below(1 << 31) as u64,
        };
        self.list.case(planes);
        self.planes[reference as usize] = planes;
    }

    /// Both references, as a picture of these sides and this format has them.
    fn picture(&mut self, width: usize, height: usize, format: ChromaFormat) {
        self.dest = Geometry {
            width,
            height,
            format,
        };
        for reference in REFERENCES {
            self.set(reference, picture_planes(width, height, format));
        }
    }

    /// A macroblock with both references there, the declarations alike and a fitting output.
    fn request(&self, motion: Motion, (column, row): (usize, usize)) -> Request {
        Request {
            dest: self.dest,
            forward: Some(self.dest),
            backward: Some(self.dest),
            column,
            row,
            motion,
            length: macroblock_length(self.dest.format),
        }
    }

    fn ask(&mut self, request: Request) -> u8 {
        let case = Prediction::ask(&mut self.rng, &self.planes, request);
        self.list.case(&case);
        case.answer
    }

    /// Asks where it is known that the number comes.
    fn ask_for(&mut self, number: u8, request: Request) {
        let answer = self.ask(request);
        assert_eq!(answer, number, "the group says so");
    }

    /// Predicts a macroblock, which is accepted.
    fn predict(&mut self, motion: Motion, cell: (usize, usize)) {
        let request = self.request(motion, cell);
        self.ask_for(ACCEPTED, request);
    }

    fn draw_vector(&mut self, reach: i32) -> MotionVectorPel {
        vector(
            self.rng.between(-reach, reach),
            self.rng.between(-reach, reach),
        )
    }

    /// A motion in these directions by drawn vectors.
    fn draw_motion(&mut self, call: Call, directions: Directions, reach: i32) -> Motion {
        let mut vectors = [(); 4].map(|()| self.draw_vector(reach)).into_iter();
        self.motion_by(call, directions, &mut vectors)
    }

    /// A motion in these directions by the next vectors, as many as it needs, of drawn fields.
    fn motion_by(
        &mut self,
        call: Call,
        directions: Directions,
        vectors: &mut impl Iterator<Item = MotionVectorPel>,
    ) -> Motion {
        let mut next = || vectors.next().expect("there are vectors enough");
        let Directions { forward, backward } = directions;
        match call {
            Call::Frame => Motion::Frame(FrameMotion {
                forward: forward.then(&mut next),
                backward: backward.then(&mut next),
            }),
            Call::Field => {
                let rng = &mut self.rng;
                let mut field = || FieldVector::new(next(), rng.pick(&PARITIES));
                let mut pair = || (field(), field());
                Motion::Field(FieldBasedMotion {
                    forward: forward.then(&mut pair),
                    backward: backward.then(&mut pair),
                })
            }
        }
    }
}

const fn vector(horizontal: i32, vertical: i32) -> MotionVectorPel {
    MotionVectorPel::new(horizontal, vertical)
}

/// A plane with as many samples as its sides say.
const fn sides(width: usize, height: usize) -> Sides {
    Sides {
        width,
        height,
        length: width * height,
    }
}

/// The planes of a picture: its sides are multiples of 16 here.
fn picture_planes(width: usize, height: usize, format: ChromaFormat) -> [Sides; 3] {
    let chroma = match format {
        ChromaFormat::Yuv420 => sides(width / 2, height / 2),
        ChromaFormat::Yuv422 => sides(width / 2, height),
        ChromaFormat::Yuv444 => sides(width, height),
    };
    [sides(width, height), chroma, chroma]
}

/// Both calls by all formats.
fn calls_and_formats() -> impl Iterator<Item = (Call, ChromaFormat)> {
    FORMATS
        .into_iter()
        .flat_map(|format| CALLS.map(|call| (call, format)))
}

fn other_format(format: ChromaFormat) -> ChromaFormat {
    match format {
        ChromaFormat::Yuv420 => ChromaFormat::Yuv422,
        ChromaFormat::Yuv422 => ChromaFormat::Yuv444,
        ChromaFormat::Yuv444 => ChromaFormat::Yuv420,
    }
}

/// What differs from a geometry in one of its three parts, by little and by what is lost in 8 or in
/// 32 bits.
fn other_geometries(g: Geometry) -> [Geometry; 10] {
    let format = other_format(g.format);
    let width = |width| Geometry { width, ..g };
    let height = |height| Geometry { height, ..g };
    [
        width(g.width + 1),
        width(g.width - 1),
        width(g.width + 256),
        width(g.width + TWO_TO_32),
        height(g.height + 1),
        height(g.height - 1),
        height(g.height + 256),
        height(g.height + TWO_TO_32),
        Geometry { format, ..g },
        Geometry {
            format: other_format(format),
            ..g
        },
    ]
}

fn scope_cases(maker: &mut Maker) {
    maker
        .list
        .group("a. the scope's own: both references absent, bidirectional: 16");
    for (call, format) in calls_and_formats() {
        maker.picture(16, 16, format);
        let motion = maker.draw_motion(call, BOTH, 9);
        let request = Request {
            forward: None,
            backward: None,
            ..maker.request(motion, (0, 0))
        };
        maker.ask_for(16, request);
    }

    maker
        .list
        .group("b. the scope's own: forward present with wrong geometry, backward absent: 15");
    for (call, format) in calls_and_formats() {
        maker.picture(16, 16, format);
        for other in other_geometries(maker.dest) {
            let motion = maker.draw_motion(call, BOTH, 9);
            let request = Request {
                forward: Some(other),
                backward: None,
                ..maker.request(motion, (0, 0))
            };
            maker.ask_for(15, request);
        }
    }

    maker.list.group(
        "c. the scope's own: no motion in either direction: zero vectors from the forward reference; for
field motion each field reads its own parity; with and without the backward reference, and without
the forward one, which is 16",
    );
    for (call, format) in calls_and_formats() {
        maker.picture(32, 16, format);
        let motion = maker.draw_motion(call, NEITHER, 9);
        let request = maker.request(motion, (1, 0));
        let alone = Request {
            backward: None,
            ..request
        };
        maker.ask_for(ACCEPTED, request);
        maker.ask_for(ACCEPTED, alone);
        for request in [request, alone] {
            let missing = Request {
                forward: None,
                ..request
            };
            maker.ask_for(16, missing);
        }
    }

    maker.list.group(
        "d. the scope's own: a column past the picture's edge but at most 1023 is answered by clamping;
so is a row",
    );
    for (call, format) in calls_and_formats() {
        maker.picture(32, 16, format);
        for cell in [(2, 0), (LAST_CELL, 0), (0, 1), (1, LAST_CELL)] {
            let motion = maker.draw_motion(call, FORWARD, 40);
            maker.predict(motion, cell);
        }
    }
}

fn directions(maker: &mut Maker) {
    maker.list.group(
        "e. each direction with and without motion, each reference there and absent, each call and format:
16, 17 or the macroblock; of both directions and one reference the macroblock from that one",
    );
    for (call, format) in calls_and_formats() {
        maker.picture(32, 32, format);
        for directions in DIRECTIONS {
            for there in DIRECTIONS {
                let motion = maker.draw_motion(call, directions, 30);
                let request = Request {
                    forward: there.forward.then_some(maker.dest),
                    backward: there.backward.then_some(maker.dest),
                    ..maker.request(motion, (1, 0))
                };
                maker.ask(request);
            }
        }
    }
}

fn vectors(maker: &mut Maker) {
    maker.list.group(
        "f. small vectors: every pair of remainders by four, so that luminance and chrominance have every
pattern of halves, of both signs; from one reference and from two",
    );
    for (call, format) in calls_and_formats() {
        maker.picture(32, 48, format);
        let mut vectors: Vec<MotionVectorPel> = (0..16)
            .map(|pair| {
                let mut near = |remainder| remainder + 4 * maker.rng.between(-4, 3);
                vector(near(pair % 4), near(pair / 4))
            })
            .collect();
        let one_direction = match call {
            Call::Frame => 12,
            Call::Field => 6,
        };
        // All vectors come, in one direction or in two; some come twice.
        maker.rng.shuffle(&mut vectors);
        let mut vectors = vectors.into_iter().cycle();
        for turn in 0..one_direction + 4 {
            let directions = match turn {
                turn if turn >= one_direction => BOTH,
                turn if turn % 3 == 2 => BACKWARD,
                _ => FORWARD,
            };
            let motion = maker.motion_by(call, directions, &mut vectors);
            let cell = (maker.rng.below(2), maker.rng.below(3));
            maker.predict(motion, cell);
        }
    }
}

fn fields(maker: &mut Maker) {
    maker.list.group(
        "g. field vectors that name either field for either field, forward, backward and both, from
pictures whose fields have nothing in common (this tells a port that reads the destination's
parity)",
    );
    let pairs = PARITIES.map(|top| PARITIES.map(|bottom| (top, bottom)));
    let pairs = pairs.as_flattened();
    for format in FORMATS {
        maker.picture(16, 32, format);
        let mut field = |parity| FieldVector::new(maker.draw_vector(12), parity);
        let mut pair = |(top, bottom)| Some((field(top), field(bottom)));
        let mut motions = vec![];
        for parities in pairs {
            motions.push(FieldBasedMotion {
                forward: pair(*parities),
                backward: None,
            });
            motions.push(FieldBasedMotion {
                forward: None,
                backward: pair(*parities),
            });
        }
        for forward in pairs {
            for backward in pairs {
                // All pairs of pairs for one format only, so that the list stays small.
                let all = format == ChromaFormat::Yuv420;
                if all || forward.0 != backward.0 && forward.1 == backward.1 {
                    motions.push(FieldBasedMotion {
                        forward: pair(*forward),
                        backward: pair(*backward),
                    });
                }
            }
        }
        for motion in motions {
            let cell = (0, maker.rng.below(2));
            maker.predict(Motion::Field(motion), cell);
        }
    }
}

fn cells(maker: &mut Maker) {
    maker.list.group(
        "h. all macroblocks of small pictures, those next to the edges, and some further out; vectors
that cross the edges",
    );
    let mut formats = FORMATS.into_iter().cycle();
    for call in CALLS {
        for (width, height) in [(16, 16), (32, 48)] {
            let format = formats.next().expect("a cycle has no end");
            maker.picture(width, height, format);
            let columns = width / 16;
            let rows = height / 16;
            for row in 0..=rows {
                for column in 0..=columns {
                    let directions = maker.rng.pick(&[FORWARD, BACKWARD, BOTH]);
                    let motion = maker.draw_motion(call, directions, 36);
                    maker.predict(motion, (column, row));
                }
            }
            let motion = maker.draw_motion(call, BOTH, 70);
            maker.predict(motion, (columns + 1, rows + 2));
        }
    }

    maker.list.group(
        "i. the last column and the last row, with vectors back into the picture, of every parity",
    );
    for (call, format) in calls_and_formats() {
        maker.picture(32, 32, format);
        // A field has half the lines.
        let lines = match call {
            Call::Frame => 16,
            Call::Field => 8,
        };
        for cell in [(LAST_CELL, 1), (0, LAST_CELL), (LAST_CELL, LAST_CELL)] {
            let (column, row) = (cell.0 as i32, cell.1 as i32);
            let vectors = [(); 2].map(|()| {
                let near = maker.draw_vector(10);
                vector(
                    near.horizontal - 2 * 16 * (column - 1),
                    near.vertical - 2 * lines * (row - 1),
                )
            });
            let directions = maker.rng.pick(&[FORWARD, BACKWARD]);
            let motion = maker.motion_by(call, directions, &mut vectors.into_iter());
            maker.predict(motion, cell);
        }
    }
}

fn own_sides(maker: &mut Maker) {
    /// Widths and heights of Y, Cb and Cr.
    const PLANES: [[(usize, usize); 3]; 12] = [
        [(17, 5), (3, 5), (5, 3)],
        [(3, 5), (17, 5), (1, 1)],
        [(1, 1), (1, 2), (2, 1)],
        [(20, 1), (9, 1), (1, 9)],
        [(1, 20), (1, 9), (9, 1)],
        [(0, 0), (0, 5), (5, 0)],
        [(5, 0), (8, 8), (0, 3)],
        [(16, 16), (0, 0), (8, 7)],
        [(16, 15), (7, 9), (9, 7)],
        [(33, 31), (15, 17), (17, 15)],
        [(2, 3), (3, 2), (2, 2)],
        [(16, 17), (8, 9), (16, 1)],
    ];

    maker.list.group(
        "j. planes with sides of their own, each of the six another: odd sides, one row, one column, one
sample, no sample; the declarations are alike, and fit none of the planes",
    );
    let mut formats = FORMATS.into_iter().cycle();
    let backwards = PLANES.into_iter().cycle().skip(1);
    for (forward, backward) in iter::zip(PLANES, backwards) {
        maker.dest = Geometry {
            width: 32,
            height: 16,
            format: ChromaFormat::Yuv420,
        };
        let planes =
            |planes: [(usize, usize); 3]| planes.map(|(width, height)| sides(width, height));
        maker.set(Direction::Forward, planes(forward));
        maker.set(Direction::Backward, planes(backward));
        for call in CALLS {
            for directions in [FORWARD, BOTH] {
                maker.dest.format = formats.next().expect("a cycle has no end");
                let motion = maker.draw_motion(call, directions, 24);
                let cell = (maker.rng.below(2), maker.rng.below(2));
                maker.predict(motion, cell);
            }
        }
    }
}

fn far_vectors(maker: &mut Maker) {
    const COMPONENTS: [i32; 8] = [
        i32::MIN,
        i32::MIN + 1,
        -70_001,
        -97,
        98,
        70_002,
        i32::MAX - 1,
        i32::MAX,
    ];

    maker.list.group(
        "k. vectors far outside and at the ends of i32, from the first column and row and from the last",
    );
    for (call, format) in calls_and_formats() {
        maker.picture(16, 32, format);
        let [mut horizontals, mut verticals] = [COMPONENTS; 2];
        maker.rng.shuffle(&mut horizontals);
        maker.rng.shuffle(&mut verticals);
        let mut vectors = iter::zip(horizontals, verticals)
            .map(|(horizontal, vertical)| vector(horizontal, vertical))
            .cycle();
        for cell in [(0, 1), (0, 0), (LAST_CELL, 0), (0, LAST_CELL)] {
            let directions = maker.rng.pick(&[FORWARD, BACKWARD, BOTH]);
            let motion = maker.motion_by(call, directions, &mut vectors);
            maker.predict(motion, cell);
        }
        // The rest of the vectors, one for each component of a direction.
        let motion = maker.motion_by(call, BOTH, &mut vectors);
        maker.predict(motion, (0, 0));
    }
}

fn declared(maker: &mut Maker) {
    maker.list.group(
        "l. declarations that no plane has, alike in all three frames: they decide nothing else",
    );
    for (call, (width, height)) in
        iter::zip(CALLS.into_iter().cycle(), [(0, 0), (720, 576), (1, HUGE)])
    {
        let format = maker.rng.pick(&FORMATS);
        maker.picture(16, 16, format);
        maker.dest = Geometry {
            width,
            height,
            format,
        };
        let motion = maker.draw_motion(call, BOTH, 20);
        maker.predict(motion, (0, 0));
    }
}

fn other_geometry(maker: &mut Maker) {
    maker.list.group(
        "m. a used reference that declares another width, height or format, the forward one, the backward
one, both: 15",
    );
    for (call, format) in calls_and_formats() {
        maker.picture(16, 32, format);
        let dest = maker.dest;
        for other in other_geometries(dest) {
            for (directions, forward, backward) in [
                (NEITHER, other, dest),
                (FORWARD, other, dest),
                (BACKWARD, dest, other),
                (BOTH, other, dest),
                (BOTH, dest, other),
                (BOTH, other, other),
            ] {
                let motion = maker.draw_motion(call, directions, 9);
                let request = Request {
                    forward: Some(forward),
                    backward: Some(backward),
                    ..maker.request(motion, (0, 1))
                };
                maker.ask_for(15, request);
            }
        }
        // Alike in the references, and not the destination's.
        let motion = maker.draw_motion(call, BOTH, 9);
        let other = Geometry {
            width: dest.height,
            height: dest.width,
            ..dest
        };
        let request = Request {
            forward: Some(other),
            backward: Some(other),
            ..maker.request(motion, (0, 0))
        };
        maker.ask_for(15, request);
    }

    maker.list.group(
        "n. a reference that is not used and declares another width, height or format: accepted; one
that is used and absent beside it: 16 or 17",
    );
    let mut formats = FORMATS.into_iter().cycle();
    for call in CALLS {
        for (place, directions) in iter::zip([0, 4, 8], [NEITHER, FORWARD, BACKWARD]) {
            let format = formats.next().expect("a cycle has no end");
            maker.picture(16, 16, format);
            let other = Some(other_geometries(maker.dest)[place]);
            let motion = maker.draw_motion(call, directions, 9);
            let request = maker.request(motion, (0, 0));
            let (unused, missing, number) = if directions.backward {
                let unused = Request {
                    forward: other,
                    ..request
                };
                let missing = Request {
                    backward: None,
                    ..unused
                };
                (unused, missing, 17)
            } else {
                let unused = Request {
                    backward: other,
                    ..request
                };
                let missing = Request {
                    forward: None,
                    ..unused
                };
                (unused, missing, 16)
            };
            maker.ask_for(ACCEPTED, unused);
            maker.ask_for(number, missing);
        }
    }
}

fn large_planes(maker: &mut Maker) {
    const LARGE: [[(usize, usize); 3]; 3] = [
        [(LARGEST_SIDE, 2), (1, LARGEST_SIDE), (2, 5000)],
        [(3, LARGEST_SIDE), (LARGEST_SIDE, 1), (0, 0)],
        [(181, 181), (LARGEST_SIDE, 0), (0, LARGEST_SIDE)],
    ];

    maker.list.group(
        "o. planes with a side of 16384, and of 181 x 181: at the last column and row, and where they
are read inside",
    );
    let mut formats = FORMATS.into_iter().cycle();
    for call in CALLS {
        for planes in LARGE {
            let format = formats.next().expect("a cycle has no end");
            maker.dest = Geometry {
                width: LARGEST_SIDE,
                height: LARGEST_SIDE,
                format,
            };
            for reference in REFERENCES {
                maker.set(
                    reference,
                    planes.map(|(width, height)| sides(width, height)),
                );
            }
            for cell in [(LAST_CELL, 0), (0, LAST_CELL), (5, 9)] {
                let directions = maker.rng.pick(&[FORWARD, BACKWARD]);
                let motion = maker.draw_motion(call, directions, 12);
                maker.predict(motion, cell);
            }
        }
    }
}

fn drawn(maker: &mut Maker) {
    const PICTURES: usize = 10;
    const ROUNDS: usize = 3;

    maker
        .list
        .group("p. drawn pictures, places, motions and references");
    for _ in 0..PICTURES {
        let format = maker.rng.pick(&FORMATS);
        let width = 16 * (1 + maker.rng.below(4));
        let height = 16 * (1 + maker.rng.below(4));
        maker.picture(width, height, format);
        for _ in 0..ROUNDS {
            let call = maker.rng.pick(&CALLS);
            let directions = maker.rng.pick(&DIRECTIONS);
            let reach = maker.rng.pick(&[3, 40, 200]);
            let motion = maker.draw_motion(call, directions, reach);
            let cell = (maker.rng.below(width / 16), maker.rng.below(height / 16));
            let mut request = maker.request(motion, cell);
            if maker.rng.below(8) == 0 {
                request.forward = None;
            }
            if maker.rng.below(8) == 0 {
                request.backward = None;
            }
            maker.ask(request);
        }
    }
}

fn refused_cells(maker: &mut Maker) {
    /// Over the limit, also such that 10, 16, 28 or 32 bits of them would be taken, and such that 16
    /// times them is lost in 64 bits.
    const OVER: [usize; 8] = [
        LAST_CELL + 1,
        LAST_CELL + 2,
        2048,
        1 << 16,
        1 << 28,
        TWO_TO_32,
        HUGE,
        1 << 59,
    ];

    maker.list.group(
        "q. the scope's and not the Rust's: columns and rows over 1023: 13; those of 1023 are answered",
    );
    for (call, format) in calls_and_formats() {
        maker.picture(16, 16, format);
        if format == ChromaFormat::Yuv420 {
            let motion = maker.draw_motion(call, BOTH, 9);
            maker.predict(motion, (LAST_CELL, LAST_CELL));
        }
        for over in OVER {
            for cell in [(over, 0), (0, over), (over, over), (LAST_CELL, over)] {
                let directions = maker.rng.pick(&DIRECTIONS);
                let motion = maker.draw_motion(call, directions, 9);
                let request = maker.request(motion, cell);
                maker.ask_for(13, request);
            }
        }
    }
}

fn refused_outputs(maker: &mut Maker) {
    maker.list.group(
        "r. the scope's and not the Rust's: outputs of the wrong length: 18; one byte short and long,
none, those of the other formats, and 256 more (this tells a port that compares one byte of the
lengths)",
    );
    for (call, format) in calls_and_formats() {
        maker.picture(16, 16, format);
        let fitting = macroblock_length(format);
        let mut lengths = vec![0, 1, 256, fitting - 1, fitting + 1, fitting + 256, 1024];
        lengths.extend(FORMATS.map(macroblock_length));
        lengths.sort_unstable();
        lengths.dedup();
        lengths.retain(|length| *length != fitting);
        for length in lengths {
            let directions = maker.rng.pick(&DIRECTIONS);
            let motion = maker.draw_motion(call, directions, 9);
            let request = Request {
                length,
                ..maker.request(motion, (0, 0))
            };
            maker.ask_for(18, request);
        }
    }
}

fn refused_planes(maker: &mut Maker) {
    const OVER: usize = LARGEST_SIDE + 1;

    maker.list.group(
        "s. the scope's and not the Rust's: a plane of a used reference with a sample less or more, with
none, with the wrong sides, with a side over 16384, with a product lost in 64 bits: 14, whichever
plane it is",
    );
    let wrong = |fitting: Sides| {
        let Sides {
            width,
            height,
            length,
        } = fitting;
        let plane = |width, height, length| Sides {
            width,
            height,
            length,
        };
        [
            plane(width, height, length - 1),
            plane(width, height, length + 1),
            plane(width, height, 0),
            plane(width, height, length + 256),
            plane(width + 1, height, length),
            plane(width, height - 1, length),
            plane(0, 0, 1),
            plane(OVER, 0, 0),
            plane(0, OVER, 0),
            plane(OVER, 1, OVER),
            plane(1, OVER, OVER),
            plane(LARGEST_SIDE, LARGEST_SIDE, 0),
            plane(TWO_TO_32, TWO_TO_32, 0),
            plane(width + TWO_TO_32, height, length),
            plane(HUGE, 0, 0),
        ]
    };
    let mut calls = CALLS.into_iter().cycle();
    for reference in REFERENCES {
        for place in 0..3 {
            let format = FORMATS[(place + reference as usize) % 3];
            maker.picture(16, 32, format);
            let fitting = picture_planes(16, 32, format);
            for plane in wrong(fitting[place]) {
                let mut planes = fitting;
                planes[place] = plane;
                maker.set(reference, planes);
                let alone = match reference {
                    Direction::Forward => maker.rng.pick(&[NEITHER, FORWARD]),
                    Direction::Backward => BACKWARD,
                };
                // Two directions and then two calls: the calls change places with each plane.
                for directions in [alone, BOTH] {
                    let call = calls.next().expect("a cycle has no end");
                    let motion = maker.draw_motion(call, directions, 9);
                    let request = maker.request(motion, (0, 0));
                    maker.ask_for(14, request);
                }
                calls.next();
            }
        }
    }

    maker.list.group(
        "t. the scope's and not the Rust's: such planes of a reference that is not used, there or absent:
accepted; planes without samples and with a side of 16384 too",
    );
    let mut formats = FORMATS.into_iter().cycle();
    for call in CALLS {
        for (reference, unused) in [
            (Direction::Backward, [NEITHER, FORWARD]),
            (Direction::Forward, [BACKWARD, BACKWARD]),
        ] {
            let format = formats.next().expect("a cycle has no end");
            maker.picture(16, 16, format);
            let [y, cb, cr] = picture_planes(16, 16, format).map(wrong);
            maker.set(reference, [y[0], cb[1], cr[7]]);
            for (directions, there) in iter::zip(unused, FLAGS) {
                let motion = maker.draw_motion(call, directions, 9);
                let mut request = maker.request(motion, (0, 0));
                if !there {
                    match reference {
                        Direction::Forward => request.forward = None,
                        Direction::Backward => request.backward = None,
                    }
                }
                maker.ask_for(ACCEPTED, request);
            }
        }
        let format = formats.next().expect("a cycle has no end");
        maker.picture(16, 16, format);
        let empty = [sides(LARGEST_SIDE, 0), sides(0, LARGEST_SIDE), sides(0, 0)];
        maker.set(Direction::Forward, empty);
        let motion = maker.draw_motion(call, BOTH, 9);
        maker.predict(motion, (0, 0));
    }
}

fn orders(maker: &mut Maker) {
    const CAUSES: [u8; 6] = [13, 18, 16, 17, 15, 14];

    maker.list.group(
        "u. every set of causes of refusal at once, by the call and the directions: the first in the order
13, 18, 16, 17, 15, 14 of those that a used direction has; of two directions whose references
are not both absent only those that are there are used. Without 13, 18 and 14 it is the Rust's,
but for this",
    );
    let mut formats = FORMATS.into_iter().cycle();
    for unfit in FLAGS {
        let format = formats.next().expect("a cycle has no end");
        maker.picture(16, 16, format);
        if unfit {
            for reference in REFERENCES {
                let mut planes = picture_planes(16, 16, format);
                planes[maker.rng.below(3)].length -= 1;
                maker.set(reference, planes);
            }
        }
        for call in CALLS {
            for directions in DIRECTIONS {
                for set in 0..1 << CAUSES.len() {
                    let holds = |cause| {
                        let place = CAUSES.iter().position(|known| *known == cause);
                        set >> place.expect("it is one of them") & 1 == 1
                    };
                    if holds(14) == unfit {
                        cause(maker, call, directions, holds);
                    }
                }
            }
        }
    }
}

/// Asks with the causes that hold. What is accepted is left out: other groups have it.
fn cause(maker: &mut Maker, call: Call, directions: Directions, holds: impl Fn(u8) -> bool) {
    let motion = maker.draw_motion(call, directions, 9);
    let mut request = maker.request(motion, (0, 0));
    if holds(13) {
        request.column = LAST_CELL + 1;
    }
    if holds(18) {
        request.length -= 1;
    }
    if holds(15) {
        let others = other_geometries(request.dest);
        request.forward = Some(maker.rng.pick(&others));
        request.backward = Some(maker.rng.pick(&others));
    }
    if holds(16) {
        request.forward = None;
    }
    if holds(17) {
        request.backward = None;
    }
    // Of two directions the one whose reference is there is left.
    let alone = directions.forward && directions.backward && holds(16) != holds(17);
    let (forward, backward) = if alone {
        (!holds(16), !holds(17))
    } else {
        (
            directions.forward || !directions.backward,
            directions.backward,
        )
    };
    let due = [
        (13, true),
        (18, true),
        (16, forward),
        (17, backward),
        (15, true),
        (14, true),
    ];
    if let Some((number, _)) = due
        .into_iter()
        .find(|(number, used)| *used && holds(*number))
    {
        maker.ask_for(number, request);
    }
}

/// 15 of either reference comes before 14 of either, though one of the two has no other geometry.
fn orders_of_two(maker: &mut Maker) {
    maker.list.group(
        "v. the scope's and not the Rust's: both directions, and one reference alone that declares another
width, height or format, beside a plane of it or of the other that does not fit: 15 before 14
(this tells a port that looks at one reference after the other)",
    );
    for (call, format) in calls_and_formats() {
        for other in REFERENCES {
            for unfit in REFERENCES {
                maker.picture(16, 16, format);
                let mut planes = picture_planes(16, 16, format);
                planes[maker.rng.below(3)].length -= 1;
                maker.set(unfit, planes);
                let motion = maker.draw_motion(call, BOTH, 9);
                let mut request = maker.request(motion, (0, 0));
                let geometry = Some(maker.rng.pick(&other_geometries(request.dest)));
                match other {
                    Direction::Forward => request.forward = geometry,
                    Direction::Backward => request.backward = geometry,
                }
                maker.ask_for(15, request);
            }
        }
    }
}

/// Both directions have motion, and one reference is there.
fn one_of_two(maker: &mut Maker) {
    maker.list.group(
        "w. the scope's and not the Rust's: both directions, and one reference alone: the macroblock that
this one gives by its own vectors, whatever planes are set for the absent one; 15 where it declares
another width, height or format; 14 where a plane of it does not fit; 15 where both hold",
    );
    const OVER: usize = LARGEST_SIDE + 1;
    for (call, format) in calls_and_formats() {
        for there in REFERENCES {
            let absent = REFERENCES[1 - there as usize];
            let fitting = picture_planes(32, 32, format);
            let with = |request: Request, reference, geometry| match reference {
                Direction::Forward => Request {
                    forward: geometry,
                    ..request
                },
                Direction::Backward => Request {
                    backward: geometry,
                    ..request
                },
            };
            let alone = |request| with(request, absent, None);
            let declares = |request, other| with(request, there, other);
            maker.picture(32, 32, format);
            let unread = [sides(OVER, 1), sides(3, 5), sides(0, 0)];
            maker.set(absent, unread);
            for cell in [(0, 0), (1, 1), (LAST_CELL, 2)] {
                let motion = maker.draw_motion(call, BOTH, 40);
                let request = alone(maker.request(motion, cell));
                maker.ask_for(ACCEPTED, request);
            }
            for place in [0, 5, 8] {
                let motion = maker.draw_motion(call, BOTH, 9);
                let request = alone(maker.request(motion, (0, 0)));
                let other = Some(other_geometries(request.dest)[place]);
                maker.ask_for(15, declares(request, other));
            }
            for place in 0..3 {
                let mut planes = fitting;
                match place {
                    2 => planes[place] = sides(0, OVER),
                    _ => planes[place].length -= 1,
                }
                maker.set(there, planes);
                let motion = maker.draw_motion(call, BOTH, 9);
                let request = alone(maker.request(motion, (0, 0)));
                maker.ask_for(14, request);
                let other = Some(other_geometries(request.dest)[place]);
                maker.ask_for(15, declares(request, other));
            }
        }
    }
}

fn wrong_on_purpose(maker: &mut Maker) {
    maker.list.group(
        "x. wrong on purpose, so that the expected output shows that the comparison can fail; only the
lines that set planes are right: the last byte of a macroblock off by one, of each call; a refusal
for an answer; 17 where 16 is right; an answer for a refusal; a byte of a refused macroblock's
output off by one; a macroblock from the other field; of two references one the other one, and
both; from one of two references, the macroblock of both",
    );
    maker.picture(16, 16, ChromaFormat::Yuv420);
    for call in CALLS {
        let motion = maker.draw_motion(call, BOTH, 9);
        let request = maker.request(motion, (0, 0));
        let mut last = Prediction::ask(&mut maker.rng, &maker.planes, request);
        let end = last.after.len() - 1;
        last.after[end] ^= 1;
        maker.list.case(last);
    }
    let motion = maker.draw_motion(Call::Frame, BOTH, 9);
    let accepted = maker.request(motion, (0, 0));
    let missing = Request {
        forward: None,
        backward: None,
        ..accepted
    };
    let mut ask = |request| Prediction::ask(&mut maker.rng, &maker.planes, request);

    let mut refused = ask(accepted);
    refused.answer = 14;
    maker.list.case(refused);

    let mut number = ask(missing);
    number.answer = 17;
    maker.list.case(number);

    let mut answered = ask(missing);
    answered.answer = ACCEPTED;
    maker.list.case(answered);

    let mut written = ask(missing);
    written.after[300] ^= 1;
    maker.list.case(written);

    let field = |parity| {
        let field = FieldVector::new(vector(1, 0), parity);
        Motion::Field(FieldBasedMotion::forward(field, field))
    };
    let [top, bottom] = PARITIES.map(|parity| Request {
        motion: field(parity),
        ..accepted
    });
    let mut other = ask(top);
    other.after = ask(bottom).after;
    maker.list.case(other);

    let alone = Request {
        backward: None,
        ..accepted
    };
    for used in [2, 3] {
        let mut told = ask(alone);
        told.used = used;
        maker.list.case(told);
    }
    let mut joined = ask(alone);
    joined.after = ask(accepted).after;
    maker.list.case(joined);
}
