//! The groups of the two calls that predict.

use oracle::macroblocks::{LARGEST_SIDE, LAST_CELL, Sides, macroblock_length};
use oracle::refusals::{ACCEPTED, CELL_TOO_FAR, NO_MEANING, OUTPUT_LENGTH, OUTSIDE_DOMAIN};
use oracle::sequence_extension::ChromaFormat;

use super::cases::{CHROMA_FORMATS, Call, DIRECTIONS, Declared, Moved, Moving, PredictionCall};
use super::{Maker, sides, strays};
use crate::inter_reconstruction::cases::Planes;

const CALLS: [Call; 2] = [Call::Frame, Call::Field];
/// Whether each direction has motion, forward first.
const NEITHER: [u32; 2] = [0, 0];
const FORWARD: [u32; 2] = [1, 0];
const BACKWARD: [u32; 2] = [0, 1];
const BOTH: [u32; 2] = [1, 1];
const PRESENCES: [[u32; 2]; 4] = [NEITHER, FORWARD, BACKWARD, BOTH];

const OTHER_GEOMETRY: u8 = 15;
const NO_FORWARD: u8 = 16;
const NO_BACKWARD: u8 = 17;

/// The planes of a picture: its sides are multiples of 16 here.
fn picture_planes(width: usize, height: usize, format: u32) -> [Sides; 3] {
    let chroma = match CHROMA_FORMATS[format as usize] {
        ChromaFormat::Yuv420 => sides(width / 2, height / 2),
        ChromaFormat::Yuv422 => sides(width / 2, height),
        ChromaFormat::Yuv444 => sides(width, height),
    };
    [sides(width, height), chroma, chroma]
}

/// Both calls by all formats.
fn calls_and_formats() -> impl Iterator<Item = (Call, u32)> {
    (0..3).flat_map(|format| CALLS.map(|call| (call, format)))
}

impl Maker {
    /// Sets a reference's planes, of drawn samples: 0 is the forward one.
    fn set(&mut self, reference: usize, [y, cb, cr]: [Sides; 3]) {
        let planes = Planes {
            reference: DIRECTIONS[reference],
            y,
            cb,
            cr,
            seed: self.rng.below(1 << 31) as u64,
        };
        self.list.case(planes);
        self.planes[reference] = planes;
    }

    /// Both references, as a picture of these sides and this format has them.
    fn picture(&mut self, (width, height): (usize, usize), format: u32) {
        for reference in 0..2 {
            self.set(reference, picture_planes(width, height, format));
        }
    }

    fn draw_moving(&mut self, reach: i32) -> Moving {
        Moving {
            field: self.rng.below(2) as u32,
            horizontal: self.rng.between(-reach, reach),
            vertical: self.rng.between(-reach, reach),
        }
    }

    /// A macroblock with both references there, alike, and an output that fits; motion in these
    /// directions by drawn vectors.
    fn request(
        &mut self,
        call: Call,
        (width, height): (usize, usize),
        format: u32,
        motion: [u32; 2],
    ) -> PredictionCall {
        let declared = Declared {
            present: 1,
            width,
            height,
            format,
        };
        PredictionCall {
            call,
            width,
            height,
            format,
            column: self.rng.below(2),
            row: self.rng.below(2),
            references: [declared; 2],
            motion: motion.map(|present| Moved {
                present,
                vectors: [(); 2].map(|()| self.draw_moving(25)),
            }),
            length: macroblock_length(CHROMA_FORMATS[format as usize]),
        }
    }
}

/// A declaration other in each of its parts, by little and by what is lost in 32 bits.
fn others(declared: Declared) -> [Declared; 8] {
    let Declared {
        width,
        height,
        format,
        ..
    } = declared;
    let width_of = |width| Declared { width, ..declared };
    let height_of = |height| Declared { height, ..declared };
    let format_of = |format| Declared { format, ..declared };
    [
        width_of(width + 1),
        width_of(width - 1),
        width_of(width + (1 << 32)),
        height_of(height + 1),
        height_of(height - 1),
        height_of(height + (1 << 32)),
        format_of((format + 1) % 3),
        format_of((format + 2) % 3),
    ]
}

pub fn groups(maker: &mut Maker) {
    directions(maker);
    fields(maker);
    own_sides(maker);
    references(maker);
    geometry(maker);
    cells_and_outputs(maker);
    planes(maker);
    no_meaning(maker);
    before_all_else(maker);
    beside_an_absence(maker);
    not_used(maker);
    orders(maker);
    drawn(maker);
    one_of_two(maker);
}

fn directions(maker: &mut Maker) {
    maker.list.group(
        "macroblocks, a. each call and format, no motion, forward, backward, both; in a picture whose sides
differ",
    );
    for (call, format) in calls_and_formats() {
        for side in [(32, 32), (48, 16)] {
            maker.picture(side, format);
            for motion in PRESENCES {
                let request = maker.request(call, side, format, motion);
                maker.predict_for(ACCEPTED, &request);
            }
        }
    }
}

fn fields(maker: &mut Maker) {
    maker.list.group(
        "macroblocks, b. field-based, every setting of the four fields that vectors read; each vector apart",
    );
    maker.picture((32, 32), 0);
    for setting in 0..16 {
        let mut request = maker.request(Call::Field, (32, 32), 0, BOTH);
        for (direction, moved) in request.motion.iter_mut().enumerate() {
            for (field, vector) in moved.vectors.iter_mut().enumerate() {
                vector.field = setting >> (2 * direction + field) & 1;
            }
        }
        maker.predict_for(ACCEPTED, &request);
    }
}

fn own_sides(maker: &mut Maker) {
    maker.list.group(
        "macroblocks, c. from planes that have sides of their own, each other than all others: which number
is a side of which plane",
    );
    let forward = [sides(21, 34), sides(13, 18), sides(10, 23)];
    let backward = [sides(35, 20), sides(17, 12), sides(24, 11)];
    for (call, format) in calls_and_formats() {
        maker.set(0, forward);
        maker.set(1, backward);
        for motion in [FORWARD, BACKWARD] {
            let request = maker.request(call, (32, 48), format, motion);
            maker.predict_for(ACCEPTED, &request);
        }
    }

    maker.list.group(
        "macroblocks, d. from planes without samples, which read as 0, and of one sample, in either
reference",
    );
    for call in CALLS {
        for reference in 0..2 {
            maker.picture((32, 32), 0);
            maker.set(reference, [sides(0, 9), sides(7, 0), sides(1, 1)]);
            let motion = if reference == 0 { FORWARD } else { BACKWARD };
            let request = maker.request(call, (32, 32), 0, motion);
            maker.predict_for(ACCEPTED, &request);
        }
    }
}

fn references(maker: &mut Maker) {
    maker.list.group(
        "macroblocks, e. each reference there or absent, by the directions that have motion: 16, 17, or the
macroblock",
    );
    for call in CALLS {
        maker.picture((32, 32), 0);
        for motion in PRESENCES {
            for there in [NEITHER, FORWARD, BACKWARD] {
                let mut request = maker.request(call, (32, 32), 0, motion);
                for (declared, present) in request.references.iter_mut().zip(there) {
                    declared.present = present;
                }
                let number = match (motion, there) {
                    (NEITHER | FORWARD, NEITHER | BACKWARD) | (BOTH, NEITHER) => NO_FORWARD,
                    (BACKWARD, NEITHER | FORWARD) => NO_BACKWARD,
                    _ => ACCEPTED,
                };
                maker.predict_for(number, &request);
            }
        }
    }
}

fn geometry(maker: &mut Maker) {
    maker.list.group(
        "macroblocks, f. a reference that declares another width, height or format than the picture: 15
where it is used",
    );
    for (call, format) in calls_and_formats() {
        maker.picture((32, 16), format);
        for reference in 0..2 {
            let request = maker.request(call, (32, 16), format, BOTH);
            for other in others(request.dest()) {
                let mut request = request;
                request.references[reference] = other;
                maker.predict_for(OTHER_GEOMETRY, &request);
            }
        }
    }
}

fn cells_and_outputs(maker: &mut Maker) {
    maker.list.group(
        "macroblocks, g. the scope's and not the Rust's: columns and rows over 1023: 13; those of 1023
are answered",
    );
    for call in CALLS {
        maker.picture((32, 16), 0);
        for (column, row, number) in [
            (LAST_CELL, 0, ACCEPTED),
            (0, LAST_CELL, ACCEPTED),
            (LAST_CELL + 1, 0, CELL_TOO_FAR),
            (0, LAST_CELL + 1, CELL_TOO_FAR),
            (1 << 32, 0, CELL_TOO_FAR),
            (0, 1 << 32, CELL_TOO_FAR),
            (1 << 59, 1 << 59, CELL_TOO_FAR),
        ] {
            let mut request = maker.request(call, (32, 16), 0, BOTH);
            request.column = column;
            request.row = row;
            maker.predict_for(number, &request);
        }
    }

    maker.list.group(
        "macroblocks, h. the scope's and not the Rust's: outputs of the wrong length: 18, and not 38",
    );
    for (call, format) in calls_and_formats() {
        maker.picture((32, 32), format);
        let fitting = macroblock_length(CHROMA_FORMATS[format as usize]);
        for length in [0, 1, fitting - 1, fitting + 1, 384, 512, 768, 1024] {
            if length != fitting {
                let mut request = maker.request(call, (32, 32), format, FORWARD);
                request.length = length;
                maker.predict_for(OUTPUT_LENGTH, &request);
            }
        }
    }
}

fn planes(maker: &mut Maker) {
    maker.list.group(
        "macroblocks, i. the scope's and not the Rust's: each plane of either reference with a sample
less or more, with a side one off, or with a side over 16384: 14 where the reference
is used",
    );
    let wrong = |fitting: Sides| {
        let Sides {
            width,
            height,
            length,
        } = fitting;
        let plane = |width, height, length| Sides {
            width,
            height,
            length,
        };
        [
            plane(width, height, length - 1),
            plane(width, height, length + 1),
            plane(width - 1, height, length),
            plane(width, height + 1, length),
            plane(LARGEST_SIDE + 1, 0, 0),
            plane(0, LARGEST_SIDE + 1, 0),
            plane(1, LARGEST_SIDE + 1, LARGEST_SIDE + 1),
        ]
    };
    let mut calls = CALLS.into_iter().cycle();
    for reference in 0..2 {
        for place in 0..3 {
            let format = (place + reference) as u32 % 3;
            let fitting = picture_planes(32, 16, format);
            maker.picture((32, 16), format);
            for plane in wrong(fitting[place]) {
                let mut planes = fitting;
                planes[place] = plane;
                maker.set(reference, planes);
                let call = calls.next().expect("a cycle has no end");
                let used = [[FORWARD, BACKWARD][reference], BOTH];
                for motion in used {
                    let request = maker.request(call, (32, 16), format, motion);
                    maker.predict_for(OUTSIDE_DOMAIN, &request);
                }
            }
            calls.next();
        }
    }
}

/// How many numbers a call reads for 38.
fn numbers(call: Call) -> usize {
    match call {
        Call::Frame => 7,
        Call::Field => 11,
    }
}

/// Gives an argument a number without a meaning.
fn stray(request: &mut PredictionCall, argument: usize, which: usize) {
    let flag = strays(2)[which];
    let format = strays(3)[which];
    let [forward, backward] = &mut request.references;
    let [forward_motion, backward_motion] = &mut request.motion;
    match argument {
        0 => request.format = format,
        1 => forward.present = flag,
        2 => forward.format = format,
        3 => backward.present = flag,
        4 => backward.format = format,
        5 => forward_motion.present = flag,
        6 => backward_motion.present = flag,
        7 => forward_motion.vectors[0].field = flag,
        8 => forward_motion.vectors[1].field = flag,
        9 => backward_motion.vectors[0].field = flag,
        _ => backward_motion.vectors[1].field = flag,
    }
}

fn no_meaning(maker: &mut Maker) {
    maker.list.group(
        "macroblocks, j. the scope's and not the Rust's: each number without a meaning, all else
accepted: 38",
    );
    for (call, format) in CALLS.into_iter().zip([0, 1]) {
        maker.picture((32, 32), format);
        for argument in 0..numbers(call) {
            for which in 0..strays(0).len() {
                let mut request = maker.request(call, (32, 32), format, BOTH);
                stray(&mut request, argument, which);
                maker.predict_for(NO_MEANING, &request);
            }
        }
    }
}

fn before_all_else(maker: &mut Maker) {
    maker.list.group(
        "macroblocks, k. the scope's and not the Rust's: the same with a column over 1023, an output of
the wrong length, a reference that declares another height, and planes that do not fit: 38 before
all else; and beside an absent reference",
    );
    for (call, format) in CALLS.into_iter().zip([2, 0]) {
        maker.picture((32, 32), format);
        let mut unfit = picture_planes(32, 32, format);
        unfit[0].length -= 1;
        for cause in 0..4 {
            if cause == 3 {
                maker.set(0, unfit);
            }
            for argument in 0..numbers(call) {
                let mut request = maker.request(call, (32, 32), format, BOTH);
                match cause {
                    0 => request.column = LAST_CELL + 1,
                    1 => request.length -= 1,
                    2 => request.references[0].height += 1,
                    _ => {}
                }
                let which = maker.rng.below(strays(0).len());
                stray(&mut request, argument, which);
                maker.predict_for(NO_MEANING, &request);
            }
        }
        maker.picture((32, 32), format);
        for argument in [0, 3, 4, 5, 6] {
            let mut request = maker.request(call, (32, 32), format, BOTH);
            request.references[0].present = 0;
            let which = maker.rng.below(strays(0).len());
            stray(&mut request, argument, which);
            maker.predict_for(NO_MEANING, &request);
        }
    }
}

fn beside_an_absence(maker: &mut Maker) {
    maker.list.group(
        "macroblocks, l. the scope's and not the Rust's: what stands beside an absence is not read: the
format and the sides of an absent reference, the fields and the vector of a direction without
motion, each of any number",
    );
    for call in CALLS {
        for absent in 0..2 {
            maker.picture((32, 32), 0);
            let used = [BACKWARD, FORWARD][absent];
            for which in 0..strays(0).len() {
                // the reference of the other direction is used alone
                let mut request = maker.request(call, (32, 32), 0, used);
                request.references[absent] = Declared {
                    present: 0,
                    width: 7,
                    height: 1 << 40,
                    format: strays(3)[which],
                };
                if which % 3 == 0 {
                    maker.predict_for(ACCEPTED, &request);
                }
                for vector in &mut request.motion[absent].vectors {
                    vector.field = strays(2)[which];
                    vector.horizontal = i32::MIN;
                    vector.vertical = i32::MAX;
                }
                if which % 3 == 1 {
                    maker.predict_for(ACCEPTED, &request);
                }
                request.motion[absent].present = 1;
                if call == Call::Frame {
                    // the motion is read now, but the reference's numbers are not, and the other one is used alone
                    maker.predict_for(ACCEPTED, &request);
                } else {
                    maker.predict_for(NO_MEANING, &request);
                }
            }
        }
        let mut request = maker.request(call, (32, 32), 0, NEITHER);
        for moved in &mut request.motion {
            for vector in &mut moved.vectors {
                vector.field = u32::MAX;
            }
        }
        maker.predict_for(ACCEPTED, &request);
    }
}

fn not_used(maker: &mut Maker) {
    maker.list.group(
        "macroblocks, m. a reference that is there and not used: its format has to have a meaning, and
nothing else of it counts, its planes neither",
    );
    for call in CALLS {
        for unused in 0..2 {
            maker.picture((32, 32), 0);
            maker.set(
                unused,
                [sides(3, 3), sides(LARGEST_SIDE + 1, 0), sides(2, 5)],
            );
            let used = [BACKWARD, FORWARD][unused];
            for format in [2, 3] {
                let mut request = maker.request(call, (32, 32), 0, used);
                request.references[unused] = Declared {
                    present: 1,
                    width: 1 << 40,
                    height: 0,
                    format,
                };
                let number = if format == 2 { ACCEPTED } else { NO_MEANING };
                maker.predict_for(number, &request);
            }
        }
    }
}

fn orders(maker: &mut Maker) {
    const CAUSES: [u8; 6] = [13, 18, 16, 17, 15, 14];

    maker.list.group(
        "macroblocks, n. both directions and two causes of refusal at once: the first in the order 13, 18,
16, 17, 15, 14; but where one reference is absent, what the other refuses",
    );
    for (call, format) in CALLS.into_iter().zip([1, 2]) {
        for unfit in [false, true] {
            maker.picture((32, 32), format);
            if unfit {
                let mut planes = picture_planes(32, 32, format);
                planes[2].length += 1;
                for reference in 0..2 {
                    maker.set(reference, planes);
                }
            }
            for (place, first) in CAUSES.into_iter().enumerate() {
                for second in CAUSES.into_iter().skip(place + 1) {
                    if (second == 14) != unfit {
                        continue;
                    }
                    let mut request = maker.request(call, (32, 32), format, BOTH);
                    for cause in [first, second] {
                        match cause {
                            13 => request.row = LAST_CELL + 1,
                            18 => request.length += 1,
                            16 => request.references[0].present = 0,
                            17 => request.references[1].present = 0,
                            // of the other reference where one is absent
                            15 if first == 16 => request.references[1].width += 1,
                            15 => request.references[0].width += 1,
                            _ => {}
                        }
                    }
                    let alone = matches!(first, 16 | 17) && second != 17;
                    maker.predict_for(if alone { second } else { first }, &request);
                }
            }
        }
    }
}

fn drawn(maker: &mut Maker) {
    const PICTURES: usize = 8;
    const ROUNDS: usize = 4;

    maker
        .list
        .group("macroblocks, o. drawn pictures, places, motions and references");
    for _ in 0..PICTURES {
        let format = maker.rng.below(3) as u32;
        let side = (16 * (1 + maker.rng.below(3)), 16 * (1 + maker.rng.below(3)));
        maker.picture(side, format);
        for _ in 0..ROUNDS {
            let call = maker.rng.pick(&CALLS);
            let motion = maker.rng.pick(&PRESENCES);
            let mut request = maker.request(call, side, format, motion);
            request.column = maker.rng.below(side.0 / 16);
            request.row = maker.rng.below(side.1 / 16);
            for declared in &mut request.references {
                declared.present = u32::from(maker.rng.below(8) != 0);
            }
            if maker.rng.below(8) == 0 {
                let argument = maker.rng.below(numbers(call));
                let which = maker.rng.below(strays(0).len());
                stray(&mut request, argument, which);
            }
            maker.predict(&request);
        }
    }
}

/// Both directions have motion, and one reference is there.
fn one_of_two(maker: &mut Maker) {
    maker.list.group(
        "macroblocks, p. the scope's and not the Rust's: both directions, and one reference alone, beside an
absence whose numbers are not read: the macroblock of that one; 15 where it declares another
width, height or format, 14 where a plane of it does not fit, 15 where both hold",
    );
    for (call, format) in calls_and_formats() {
        for there in 0..2 {
            let absent = 1 - there;
            let ask = |maker: &mut Maker, number, change: fn(&mut Declared)| {
                let mut request = maker.request(call, (32, 32), format, BOTH);
                request.references[absent] = Declared {
                    present: 0,
                    width: 7,
                    height: 1 << 40,
                    format: 3,
                };
                change(&mut request.references[there]);
                maker.predict_for(number, &request);
            };
            maker.picture((32, 32), format);
            maker.set(
                absent,
                [sides(LARGEST_SIDE + 1, 1), sides(3, 5), sides(0, 0)],
            );
            ask(maker, ACCEPTED, |_| {});
            ask(maker, OTHER_GEOMETRY, |declared| declared.width += 16);
            ask(maker, OTHER_GEOMETRY, |declared| {
                declared.format = (declared.format + 1) % 3;
            });
            let mut planes = picture_planes(32, 32, format);
            planes[there] = sides(LARGEST_SIDE + 1, 0);
            maker.set(there, planes);
            ask(maker, OUTSIDE_DOMAIN, |_| {});
            ask(maker, OTHER_GEOMETRY, |declared| declared.height += 1);
        }
    }
}

pub fn wrong_on_purpose(maker: &mut Maker) {
    maker.picture((32, 32), 0);
    for call in CALLS {
        let request = maker.request(call, (32, 32), 0, BOTH);

        let mut answer = request.ask(&mut maker.rng, &maker.planes);
        answer.answer = OUTSIDE_DOMAIN;
        maker.list.case(answer);

        let mut sample = request.ask(&mut maker.rng, &maker.planes);
        let end = sample.after.len() - 1;
        sample.after[end] ^= 1;
        maker.list.case(sample);
    }
}
