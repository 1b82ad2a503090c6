//! The forming layer: the split of a vector, the heights of a plane's fields, and the samples
//! and blocks that are read from a frame or from one of its fields.

mod cases;

use std::iter;
use std::mem;

use oracle::forming_predictions::{BlockSize, HalfPattern};
use oracle::rng::Rng;

use crate::list::{Edition, Kind, List, ORIGINAL, OUTPUT_LENGTH, kind, refusing};
use cases::{
    BLOCK_POSITIONS, BLOCK_SIDES, ComponentSplitting, FieldHeights, Flags, LARGEST_SIDE, Plane,
    Position, PredictedBlock, PredictedSample, REFERENCES, Reference, SAMPLE_POSITIONS, Sample,
    Vector, VectorSplitting,
};

const SEED: u64 = 764;

const PATTERNS: [HalfPattern; 4] = [
    HalfPattern::Integer,
    HalfPattern::HalfHorizontal,
    HalfPattern::HalfVertical,
    HalfPattern::HalfBoth,
];

/// The blocks that macroblocks are predicted by: luma and chroma, of frames and of fields.
const COMMON_SIZES: [BlockSize; 6] = [
    size(16, 16),
    size(8, 16),
    size(16, 8),
    size(8, 8),
    size(16, 4),
    size(8, 4),
];

/// No number of the list has more digits.
const HUGE: usize = 100_000_000_000_000_000;
/// A port that keeps 32 bits takes this for 0; its square is lost in 64.
const TWO_TO_32: usize = 1 << 32;

const KINDS: &[Kind] = &[
    kind("1", "split_component"),
    kind("2", "split_vector, pattern"),
    kind("3", "from_flags, is_half_pel"),
    kind("4", "FieldReference::height"),
    kind("5", "(sets a plane)"),
    kind("6", "(sets a plane)"),
    refusing("7", "sample, of a plane or a field", 4, &[0, 14]),
    refusing("8", "predict_sample, predict_field_sample", 6, &[0, 14]),
    refusing("9", "predict_block, predict_field_block", 10, &[0, 14, 18]),
];

const FIELDS: &str = "\
Flags are 0 or 1. PATTERN is 0 Integer, 1 HalfHorizontal, 2 HalfVertical, 3 HalfBoth, as the
original's enum counts them. FROM is what is read: 0 the top field, 1 the bottom field, 2 the
frame. ANSWER is 0 or the refusal's number; SAMPLE is 0 where refused.
1 VECTOR INT_VEC HALF_FLAG
  split_component.
2 HORIZONTAL VERTICAL INT_X HALF_X INT_Y HALF_Y PATTERN
  split_vector, and the pattern of what it gives.
3 HALF_X HALF_Y PATTERN IS_HALF_PEL
  HalfPattern::from_flags; its flags, which are HALF_X and HALF_Y again; its is_half_pel.
4 HEIGHT TOP BOTTOM
  FieldReference::height of both fields of a plane with HEIGHT rows.
5 WIDTH HEIGHT BYTES
  Sets the plane that the cases after it read; BYTES need not be WIDTH * HEIGHT of them. It makes
  no call, and counts as a case that agrees.
6 WIDTH HEIGHT LENGTH FIRST
  The same with LENGTH bytes, at most 32768: FIRST, FIRST + 1 and so on, modulo 256.
7 FROM X Y ANSWER SAMPLE
  sample.
8 FROM X Y HORIZONTAL VERTICAL ANSWER SAMPLE
  predict_sample or predict_field_sample by this vector.
9 FROM X Y BLOCK_WIDTH BLOCK_HEIGHT HORIZONTAL VERTICAL FILL LENGTH ANSWER AFTER
  predict_block or predict_field_block into an output that holds LENGTH bytes, at most 1024,
  before the call: FILL, FILL + 1 and so on, modulo 256. AFTER is the output after it.";

pub fn list(edition: Edition) -> List {
    let seed = edition.seed(SEED);
    let made = format!(
        "Answers of the calls of src/forming_predictions.rs
({ORIGINAL},
release build) to inputs drawn by splitmix64 from the seed {seed}.
The original returns a new vector, and None for a plane whose length is not its width times its
height and for a block with a side of 0. The scope's (docs/SCOPE.md) are the number 14 for
those; the same number for a plane with a side over 16384, a block with a side over 16, and a
position outside -32768..32767 for a block and outside -32768..32782 for a predicted sample; the
number 18 for an output of the wrong length; 14 before 18; and that a refusal changes nothing.
The last group is wrong on purpose."
    );
    let mut maker = Maker {
        list: List::new(
            "forming",
            "crates/replay_forming_predictions/stdin",
            KINDS,
            &made,
            FIELDS,
        ),
        rng: Rng::new(seed),
        plane: Plane::new(0, 0, vec![]),
    };
    scope_cases(&mut maker);
    components(&mut maker);
    vectors(&mut maker);
    field_heights(&mut maker);
    means(&mut maker);
    planes(&mut maker);
    block_sizes(&mut maker);
    block_limits(&mut maker);
    outside(&mut maker);
    ends(&mut maker);
    large_planes(&mut maker);
    refused_planes(&mut maker);
    refused_blocks(&mut maker);
    refused_positions(&mut maker);
    refused_outputs(&mut maker);
    drawn(&mut maker);
    nine_rows(&mut maker, seed);
    if edition.is_kept() {
        wrong_on_purpose(&mut maker);
    }
    maker.list
}

/// The list under way, and the plane that its last line of kind 5 or 6 sets.
struct Maker {
    list: List,
    rng: Rng,
    plane: Plane,
}

impl Maker {
    fn set(&mut self, plane: Plane) {
        self.list.case(&plane);
        self.plane = plane;
    }

    /// Sets a plane of drawn bytes.
    fn draw_plane(&mut self, width: usize, height: usize) {
        let data = self.rng.bytes(width * height);
        self.set(Plane::new(width, height, data));
    }

    fn sample(&mut self, reference: Reference, position: Position) {
        self.list
            .case(Sample::ask(&self.plane, reference, position));
    }

    fn predict_sample(&mut self, reference: Reference, position: Position, vector: Vector) {
        let case = PredictedSample::ask(&self.plane, reference, position, vector);
        self.list.case(case);
    }

    /// Predicts a block into an output of this length.
    fn predict_block(
        &mut self,
        reference: Reference,
        position: Position,
        size: BlockSize,
        vector: Vector,
        length: usize,
    ) {
        let (rng, plane) = (&mut self.rng, &self.plane);
        let case = PredictedBlock::ask(rng, plane, reference, position, size, vector, length);
        self.list.case(case);
    }

    /// Predicts a sample from what is read at `target` and after it.
    fn predict_sample_from(
        &mut self,
        reference: Reference,
        target: Position,
        pattern: HalfPattern,
    ) {
        let position = self.draw_position(target);
        self.predict_sample(reference, position, between(position, target, pattern));
    }

    /// Predicts a block, into an output that fits, from what is read at `target` and after it.
    fn predict_block_from(
        &mut self,
        reference: Reference,
        target: Position,
        size: BlockSize,
        pattern: HalfPattern,
    ) {
        let position = self.draw_position(target);
        let vector = between(position, target, pattern);
        self.predict_block(reference, position, size, vector, area(size));
    }

    /// Draws where a vector to `target` starts: vectors of both signs, short and long.
    fn draw_position(&mut self, target: Position) -> Position {
        let reach = self.rng.pick(&[2, 40, 16_000]);
        at(
            target.x - self.rng.between(-reach, reach),
            target.y - self.rng.between(-reach, reach),
        )
    }

    /// Draws a target at which a block covers, crosses or just misses the frame or the field.
    fn draw_target(&mut self, reference: Reference, size: BlockSize) -> Position {
        let Extent { width, lines } = self.extent(reference);
        at(
            self.rng.between(-signed(size.width) - 1, width),
            self.rng.between(-signed(size.height) - 1, lines),
        )
    }

    fn extent(&self, reference: Reference) -> Extent {
        Extent {
            width: signed(self.plane.width),
            lines: signed(self.plane.lines(reference)),
        }
    }

    /// The last target from which a block of this pattern reads nothing beyond the frame or the
    /// field; where it is negative there is none.
    fn last_inside(&self, reference: Reference, size: BlockSize, pattern: HalfPattern) -> Position {
        let Extent { width, lines } = self.extent(reference);
        let (half_x, half_y) = pattern.flags();
        at(
            width - signed(size.width) - i32::from(half_x),
            lines - signed(size.height) - i32::from(half_y),
        )
    }
}

/// How many columns and rows the frame has, or columns and lines the field.
struct Extent {
    width: i32,
    lines: i32,
}

const fn size(width: usize, height: usize) -> BlockSize {
    BlockSize { width, height }
}

fn area(size: BlockSize) -> usize {
    size.width * size.height
}

const fn at(x: i32, y: i32) -> Position {
    Position { x, y }
}

const fn by(horizontal: i32, vertical: i32) -> Vector {
    Vector {
        horizontal,
        vertical,
    }
}

/// The vector of this pattern by which a prediction at `position` reads at `target`.
fn between(position: Position, target: Position, pattern: HalfPattern) -> Vector {
    let (half_x, half_y) = pattern.flags();
    by(
        2 * (target.x - position.x) + i32::from(half_x),
        2 * (target.y - position.y) + i32::from(half_y),
    )
}

fn signed(side: usize) -> i32 {
    i32::try_from(side).expect("places are computed from small sides only")
}

/// Every pair of one of these and one of those.
fn pairs(these: &[i32], those: &[i32]) -> Vec<(i32, i32)> {
    these
        .iter()
        .flat_map(|this| those.iter().map(|that| (*this, *that)))
        .collect()
}

/// Each of these and each of those in as few pairs as there can be, in a drawn order.
fn matched(rng: &mut Rng, mut these: Vec<i32>, mut those: Vec<i32>) -> Vec<(i32, i32)> {
    let count = these.len().max(those.len());
    rng.shuffle(&mut these);
    rng.shuffle(&mut those);
    iter::zip(these.into_iter().cycle(), those.into_iter().cycle())
        .take(count)
        .collect()
}

/// Places so far from the first and so far from the last of an extent, each once.
fn places(extent: i32, from_first: &[i32], from_last: &[i32]) -> Vec<i32> {
    let mut places = from_first.to_vec();
    places.extend(from_last.iter().map(|step| extent - 1 + step));
    places.sort_unstable();
    places.dedup();
    places
}

fn scope_cases(maker: &mut Maker) {
    maker.list.group(
        "a. the scope's own: -3 and -4; the means of 0, 0, 0, 1 and of 0, 0, 1, 1; rows 10 20 and
30 41, both halves at (0, 0) and at (1, 1); planes of zero width or height; a plane of one
sample 7; 17 rows",
    );
    maker.list.case(ComponentSplitting::ask(-3));
    maker.list.case(ComponentSplitting::ask(-4));
    for data in [[0, 0, 0, 1], [0, 0, 1, 1], [10, 20, 30, 41]] {
        maker.set(Plane::new(2, 2, data.to_vec()));
        for position in [at(0, 0), at(1, 1)] {
            maker.predict_sample(Reference::Frame, position, by(1, 1));
        }
        maker.predict_block(Reference::Frame, at(0, 0), size(2, 2), by(1, 1), 4);
    }
    for (width, height) in [(0, 0), (0, 5), (5, 0)] {
        maker.set(Plane::new(width, height, vec![]));
        read_once(maker);
    }
    maker.list.case(FieldHeights::ask(1));
    maker.set(Plane::new(1, 1, vec![7]));
    read_once(maker);
    maker.list.case(FieldHeights::ask(17));
}

/// A sample, a predicted sample and a predicted block of both fields and of the frame.
fn read_once(maker: &mut Maker) {
    for reference in REFERENCES {
        maker.sample(reference, at(0, 0));
        maker.predict_sample(reference, at(0, 0), by(1, 1));
        maker.predict_block(reference, at(-1, -1), size(3, 2), by(1, 1), 6);
    }
}

fn components(maker: &mut Maker) {
    const DRAWN: usize = 40;

    maker
        .list
        .group("b. components: around 0, around powers of two, at the ends of i32, drawn");
    let around_zero = -20..=20;
    let around_powers = (5..31)
        .map(|exponent| 1 << exponent)
        .flat_map(|power| power - 1..=power + 1)
        .flat_map(|component| [component, -component]);
    let ends = (i32::MIN..=i32::MIN + 4).chain(i32::MAX - 4..=i32::MAX);
    for component in around_zero.chain(around_powers).chain(ends) {
        maker.list.case(ComponentSplitting::ask(component));
    }
    for _ in 0..DRAWN {
        let component = maker.rng.next_u64() as i32;
        maker.list.case(ComponentSplitting::ask(component));
    }
}

fn vectors(maker: &mut Maker) {
    const ENDS: [i32; 4] = [i32::MIN, i32::MIN + 1, i32::MAX - 1, i32::MAX];
    const DRAWN: usize = 40;

    maker
        .list
        .group("c. vectors: every sign and parity, the ends of i32, drawn; every pair of flags");
    let components: Vec<i32> = (-4..=4).chain(ENDS).collect();
    for (horizontal, vertical) in pairs(&components, &components) {
        maker
            .list
            .case(VectorSplitting::ask(by(horizontal, vertical)));
    }
    for _ in 0..DRAWN {
        let vector = by(maker.rng.next_u64() as i32, maker.rng.next_u64() as i32);
        maker.list.case(VectorSplitting::ask(vector));
    }
    for (half_x, half_y) in PATTERNS.map(HalfPattern::flags) {
        maker.list.case(Flags::ask(half_x, half_y));
    }
}

fn field_heights(maker: &mut Maker) {
    const LARGE: [usize; 7] = [
        256,
        LARGEST_SIDE,
        1 << 15,
        1 << 16,
        1 << 31,
        TWO_TO_32,
        HUGE,
    ];
    const DRAWN: usize = 20;

    maker
        .list
        .group("d. heights of fields: of 0 to 40 rows, around large numbers of rows, drawn");
    let around_large = LARGE.into_iter().flat_map(|rows| rows - 2..=rows + 2);
    for height in (0..=40).chain(around_large) {
        maker.list.case(FieldHeights::ask(height));
    }
    for _ in 0..DRAWN {
        let height = maker.rng.below(HUGE);
        maker.list.case(FieldHeights::ask(height));
    }
}

fn means(maker: &mut Maker) {
    maker.list.group(
        "e. means: every 2 x 2 plane of 0 and 1, and of 254 and 255, each pattern at (0, 0)
(this tells a port that makes the mean of four from means of two)",
    );
    for low in [0, 254] {
        for bits in 0..16 {
            let data = (0..4).map(|place| low + (bits >> place & 1)).collect();
            maker.set(Plane::new(2, 2, data));
            for pattern in PATTERNS {
                let vector = between(at(0, 0), at(0, 0), pattern);
                maker.predict_sample(Reference::Frame, at(0, 0), vector);
            }
        }
    }
}

fn planes(maker: &mut Maker) {
    const SIDES: [usize; 6] = [0, 1, 2, 3, 16, 17];
    const LARGER: [(usize, usize); 3] = [(31, 20), (20, 31), (32, 32)];

    maker.list.group(
        "f. planes of drawn bytes whose sides are 0, 1, 2, 3, 16 or 17, larger ones, and planes of
extreme bytes: samples at, just inside and just beyond edges and corners and at the ends of
i32; predicted samples of each pattern there; blocks that cover, cross or just miss the frame
or the field",
    );
    let small = SIDES
        .into_iter()
        .flat_map(|width| SIDES.map(|height| (width, height)));
    for (width, height) in small.chain(LARGER) {
        maker.draw_plane(width, height);
        read_around(maker);
    }

    /// The byte at a column and a row.
    type Byte = fn(usize, usize) -> usize;
    let extreme: [(usize, usize, Byte); 6] = [
        (17, 17, |x, y| 255 * ((x + y) % 2)),
        (16, 16, |x, y| 255 * ((x + y) % 2)),
        (5, 7, |_, y| 255 * (y % 2)),
        (6, 8, |_, y| 255 * (y % 2)),
        (3, 4, |_, _| 0),
        (4, 3, |_, _| 255),
    ];
    for (width, height, byte) in extreme {
        let data = (0..width * height)
            .map(|place| byte(place % width, place / width) as u8)
            .collect();
        maker.set(Plane::new(width, height, data));
        read_around(maker);
    }
}

fn read_around(maker: &mut Maker) {
    for reference in REFERENCES {
        samples_around(maker, reference);
        for pattern in PATTERNS {
            let Extent { width, lines } = maker.extent(reference);
            let near = |extent| places(extent, &[-2, -1, 0], &[-1, 0, 1]);
            for (x, y) in matched(&mut maker.rng, near(width), near(lines)) {
                maker.predict_sample_from(reference, at(x, y), pattern);
            }
            for _ in 0..2 {
                let size = size(1 + maker.rng.below(6), 1 + maker.rng.below(6));
                let target = maker.draw_target(reference, size);
                maker.predict_block_from(reference, target, size, pattern);
            }
        }
        let size = maker.rng.pick(&COMMON_SIZES);
        let pattern = maker.rng.pick(&PATTERNS);
        let target = maker.draw_target(reference, size);
        maker.predict_block_from(reference, target, size, pattern);
    }
}

fn samples_around(maker: &mut Maker, reference: Reference) {
    let Extent { width, lines } = maker.extent(reference);
    let near = |extent| places(extent, &[-1, 0], &[0, 1]);
    let far = |extent| {
        let mut far = places(extent, &[i32::MIN, -2, 1], &[-1, 2]);
        far.push(i32::MAX);
        far
    };
    let far = matched(&mut maker.rng, far(width), far(lines));
    for (x, y) in pairs(&near(width), &near(lines)).into_iter().chain(far) {
        maker.sample(reference, at(x, y));
    }
}

fn block_sizes(maker: &mut Maker) {
    maker.list.group(
        "g. every block width with four heights and every height with four widths, each pattern,
inside the frame or the field",
    );
    // The fields have a line more than the tallest block that reads between lines.
    maker.draw_plane(28, 36);
    // Three references to four patterns: every pair of them comes.
    let mut references = REFERENCES.into_iter().cycle();
    for width in BLOCK_SIDES {
        // Modulo the prime 17 each factor gives all heights, in an order of its own.
        for height in [1, 3, 6, 11].map(|factor| factor * width % 17) {
            for (pattern, reference) in iter::zip(PATTERNS, &mut references) {
                let size = size(width, height);
                let last = maker.last_inside(reference, size, pattern);
                let target = at(maker.rng.between(0, last.x), maker.rng.between(0, last.y));
                maker.predict_block_from(reference, target, size, pattern);
            }
        }
    }
}

fn block_limits(maker: &mut Maker) {
    const SMALL: usize = 64;

    maker.list.group(
        "h. blocks that read just up to an edge, and one column or line beyond it, at every corner,
each pattern; an even and an odd number of rows",
    );
    for (width, height, sizes) in [
        (28, 36, [size(16, 16), size(8, 8), size(8, 4), size(5, 3)]),
        (27, 37, [size(8, 16), size(16, 8), size(16, 4), size(1, 1)]),
    ] {
        maker.draw_plane(width, height);
        for size in sizes {
            for reference in REFERENCES {
                for pattern in PATTERNS {
                    let last = maker.last_inside(reference, size, pattern);
                    // By turns inside and beyond, at the first two and at the last two.
                    let columns = [0, -1, last.x, last.x + 1];
                    let lines = [0, -1, last.y, last.y + 1];
                    let targets = if area(size) <= SMALL {
                        pairs(&columns, &lines)
                    } else {
                        // Each with one of the others inside and with one beyond.
                        (0..4)
                            .flat_map(|turn| [(turn, turn), (turn, (turn + 1) % 4)])
                            .map(|(column, line)| (columns[column], lines[line]))
                            .collect()
                    };
                    for (x, y) in targets {
                        maker.predict_block_from(reference, at(x, y), size, pattern);
                    }
                }
            }
        }
    }
}

fn outside(maker: &mut Maker) {
    const INSIDE: i32 = 3;

    maker.list.group(
        "i. blocks wholly outside, beyond every edge and corner, next to it and further away, each
pattern",
    );
    for (width, height) in [(19, 22), (18, 23)] {
        maker.draw_plane(width, height);
        for reference in REFERENCES {
            for pattern in PATTERNS {
                let size = size(6, 5);
                let Extent { width, lines } = maker.extent(reference);
                let last = maker.last_inside(reference, size, pattern);
                let away = maker.rng.pick(&[0, 1, 9]);
                let columns = [last.x - width - away, INSIDE, width + away];
                let lines = [last.y - lines - away, INSIDE, lines + away];
                for (x, y) in pairs(&columns, &lines) {
                    if (x, y) != (INSIDE, INSIDE) {
                        maker.predict_block_from(reference, at(x, y), size, pattern);
                    }
                }
            }
        }
    }
}

fn ends(maker: &mut Maker) {
    const COMPONENTS: [i32; 6] = [i32::MIN, i32::MIN + 1, -3, 6, i32::MAX - 1, i32::MAX];

    maker.list.group(
        "j. the first and the last positions, with vectors back to the frame or the field, each
pattern; vectors at the ends of i32, from there and from inside",
    );
    let [samples, blocks] =
        [SAMPLE_POSITIONS, BLOCK_POSITIONS].map(|all| [*all.start(), *all.end()]);
    let size = size(4, 3);
    for (width, height) in [(13, 14), (14, 11)] {
        maker.draw_plane(width, height);
        for reference in REFERENCES {
            for pattern in PATTERNS {
                for (x, y) in pairs(&samples, &samples) {
                    let target = maker.draw_target(reference, size);
                    let vector = between(at(x, y), target, pattern);
                    maker.predict_sample(reference, at(x, y), vector);
                }
                for (x, y) in pairs(&blocks, &blocks) {
                    let target = maker.draw_target(reference, size);
                    let vector = between(at(x, y), target, pattern);
                    maker.predict_block(reference, at(x, y), size, vector, area(size));
                }
            }
            for (horizontal, vertical) in pairs(&COMPONENTS, &COMPONENTS) {
                let vector = by(horizontal, vertical);
                let mut draw = |[first, last]: [i32; 2]| maker.rng.pick(&[first, 0, 5, last]);
                let sample = at(draw(samples), draw(samples));
                let block = at(draw(blocks), draw(blocks));
                maker.predict_sample(reference, sample, vector);
                maker.predict_block(reference, block, size, vector, area(size));
            }
        }
    }
}

fn large_planes(maker: &mut Maker) {
    const SIDES: [(usize, usize); 5] = [
        (LARGEST_SIDE, 1),
        (1, LARGEST_SIDE),
        (LARGEST_SIDE, 2),
        (2, LARGEST_SIDE),
        (181, 181),
    ];

    maker
        .list
        .group("k. planes with a side of 16384, and of 181 x 181: around them, and blocks inside");
    for (width, height) in SIDES {
        let first = maker.rng.byte();
        maker.set(Plane::run(width, height, width * height, first));
        for reference in REFERENCES {
            samples_around(maker, reference);
            let Extent { width, lines } = maker.extent(reference);
            for pattern in PATTERNS {
                for step in [1, 2] {
                    maker.predict_sample_from(reference, at(width - step, lines - step), pattern);
                }
                let far = at(
                    width - maker.rng.between(3, 7),
                    lines - maker.rng.between(1, 3),
                );
                let anywhere = at(maker.rng.between(0, width), maker.rng.between(0, lines));
                for target in [far, anywhere] {
                    maker.predict_block_from(reference, target, size(8, 4), pattern);
                }
            }
        }
    }
}

fn refused_planes(maker: &mut Maker) {
    const OVER: usize = LARGEST_SIDE + 1;
    /// Width, height and length.
    const BYTES: [(usize, usize, usize); 13] = [
        (4, 3, 12),
        (4, 3, 11),
        (4, 3, 13),
        (4, 3, 0),
        (4, 3, 12 + 256),
        (1, 1, 0),
        (1, 1, 2),
        (0, 0, 1),
        (0, 5, 0),
        (0, 5, 1),
        (5, 0, 5),
        (2, TWO_TO_32 + 2, 4),
        (TWO_TO_32 + 2, 2, 4),
    ];
    const RUNS: [(usize, usize, usize); 18] = [
        (OVER, 1, OVER),
        (1, OVER, OVER),
        (LARGEST_SIDE, 0, 0),
        (0, LARGEST_SIDE, 0),
        (OVER, 0, 0),
        (0, OVER, 0),
        (0, 20_000, 0),
        (20_000, 0, 0),
        (0, HUGE, 0),
        (HUGE, 0, 0),
        (LARGEST_SIDE, 1, OVER),
        (LARGEST_SIDE, 2, 2 * LARGEST_SIDE - 1),
        (2, LARGEST_SIDE, 2 * LARGEST_SIDE - 1),
        (LARGEST_SIDE, LARGEST_SIDE, 0),
        (TWO_TO_32 / 2, 2, 0),
        (TWO_TO_32, TWO_TO_32, 0),
        (HUGE, HUGE, 0),
        (HUGE, HUGE, 2 * LARGEST_SIDE),
    ];

    maker.list.group(
        "l. planes that are refused with 14, and planes next to them that are not: bytes one less, one
more, 256 more, none; a side over 16384, with and without bytes; products lost in 32 and in 64
bits",
    );
    for (width, height, length) in BYTES {
        let data = maker.rng.bytes(length);
        maker.set(Plane::new(width, height, data));
        read_once(maker);
    }
    for (width, height, length) in RUNS {
        let first = maker.rng.byte();
        maker.set(Plane::run(width, height, length, first));
        read_once(maker);
    }

    maker
        .list
        .group("m. refused planes with a side, a position or an output refused as well: 14");
    for (width, height, length) in [(3, 3, 8), (OVER, 0, 0)] {
        let data = maker.rng.bytes(length);
        maker.set(Plane::new(width, height, data));
        for reference in REFERENCES {
            maker.predict_block(reference, at(0, 0), size(2, 2), by(1, 0), 3);
            maker.predict_block(reference, at(0, 0), size(17, 2), by(1, 0), 34);
            maker.predict_block(reference, at(0, 0), size(0, 2), by(1, 0), 0);
            maker.predict_block(reference, at(40_000, 0), size(2, 2), by(1, 0), 4);
            maker.predict_block(reference, at(0, -40_000), size(2, 17), by(1, 0), 5);
            maker.predict_sample(reference, at(0, 40_000), by(1, 0));
        }
    }
}

fn refused_blocks(maker: &mut Maker) {
    const SIDES: [usize; 4] = [0, 1, 16, 17];
    /// Width, height and length of the output.
    const LARGER: [(usize, usize, usize); 15] = [
        (18, 14, 252),
        (256, 1, 256),
        (1, 256, 256),
        (256 + 8, 8, 64),
        (8, 256 + 8, 64),
        ((1 << 16) + 8, 8, 64),
        (TWO_TO_32 + 8, 8, 64),
        (8, TWO_TO_32 + 8, 64),
        (TWO_TO_32, TWO_TO_32, 0),
        (TWO_TO_32 + 1, TWO_TO_32 + 1, 1),
        (HUGE, 0, 0),
        (0, HUGE, 0),
        (HUGE, 1, 1),
        (1, HUGE, 1),
        (HUGE, HUGE, 1),
    ];

    maker.list.group(
        "n. block sides at their limits and beyond: 0 and 17 are refused with 14, larger ones too, also
where 8, 16 or 32 bits of them are acceptable",
    );
    maker.draw_plane(9, 8);
    for reference in REFERENCES {
        for width in SIDES {
            for height in SIDES {
                let length = width * height;
                maker.predict_block(reference, at(1, 1), size(width, height), by(-1, 1), length);
            }
        }
        for (width, height, length) in LARGER {
            maker.predict_block(reference, at(0, 0), size(width, height), by(0, 0), length);
        }
    }
}

fn refused_positions(maker: &mut Maker) {
    const COMPONENTS: [i32; 6] = [-65_538, -65_536, -1, 0, 65_536, 65_537];

    maker.list.group(
        "o. positions at their limits and beyond, also with vectors that lead back: 14 for blocks and
predicted samples, none for samples",
    );
    let [samples, blocks] = [SAMPLE_POSITIONS, BLOCK_POSITIONS].map(|all| {
        let (first, last) = (*all.start(), *all.end());
        [i32::MIN, first - 1, first, 0, last, last + 1, i32::MAX]
    });
    maker.draw_plane(7, 10);
    for reference in REFERENCES {
        for (x, y) in matched(&mut maker.rng, samples.to_vec(), blocks.to_vec()) {
            maker.sample(reference, at(x, y));
        }
        for (x, y) in pairs(&samples, &samples) {
            let vector = by(maker.rng.pick(&COMPONENTS), maker.rng.pick(&COMPONENTS));
            maker.predict_sample(reference, at(x, y), vector);
        }
        for (x, y) in pairs(&blocks, &blocks) {
            let vector = by(maker.rng.pick(&COMPONENTS), maker.rng.pick(&COMPONENTS));
            maker.predict_block(reference, at(x, y), size(3, 2), vector, 6);
        }
    }
}

fn refused_outputs(maker: &mut Maker) {
    maker.list.group(
        "p. blocks of n samples into outputs of n - 1, n + 1, 0, 2n and n + 256 bytes: 18 (the last tells
a port that compares one byte of the lengths)",
    );
    maker.draw_plane(20, 18);
    for size in [
        size(1, 1),
        size(3, 2),
        size(16, 1),
        size(8, 8),
        size(16, 16),
    ] {
        let n = area(size);
        let mut lengths = vec![0, n - 1, n + 1, 2 * n, n + 256];
        lengths.sort_unstable();
        lengths.dedup();
        for length in lengths {
            for reference in REFERENCES {
                let pattern = maker.rng.pick(&PATTERNS);
                let target = maker.draw_target(reference, size);
                let position = maker.draw_position(target);
                let vector = between(position, target, pattern);
                maker.predict_block(reference, position, size, vector, length);
            }
        }
    }

    maker
        .list
        .group("q. sides or positions refused, and outputs of the wrong length: 14 before 18");
    for reference in REFERENCES {
        for (position, size, length) in [
            (at(0, 0), size(17, 4), 64),
            (at(0, 0), size(4, 17), 64),
            (at(0, 0), size(0, 4), 4),
            (at(0, 0), size(4, 0), 4),
            (at(0, 0), size(HUGE, HUGE), 16),
            (at(32_768, 0), size(4, 4), 15),
            (at(0, 32_768), size(4, 4), 17),
            (at(-32_769, 0), size(4, 4), 0),
            (at(0, -32_769), size(4, 4), 32),
            (at(32_768, -32_769), size(17, 0), 1),
        ] {
            maker.predict_block(reference, position, size, by(1, 1), length);
        }
    }
}

fn drawn(maker: &mut Maker) {
    const PLANES: usize = 30;
    const LARGEST_AREA: usize = 500;
    const ROUNDS: usize = 12;

    maker
        .list
        .group("r. drawn planes, each with drawn samples, predicted samples and blocks");
    for _ in 0..PLANES {
        let width = 1 + maker.rng.below(40);
        let height = 1 + maker.rng.below(LARGEST_AREA / width);
        maker.draw_plane(width, height);
        for _ in 0..ROUNDS {
            let reference = maker.rng.pick(&REFERENCES);
            let target = maker.draw_target(reference, size(4, 4));
            maker.sample(reference, target);

            let reference = maker.rng.pick(&REFERENCES);
            let target = maker.draw_target(reference, size(4, 4));
            let pattern = maker.rng.pick(&PATTERNS);
            maker.predict_sample_from(reference, target, pattern);

            let reference = maker.rng.pick(&REFERENCES);
            let size = size(1 + maker.rng.below(16), 1 + maker.rng.below(16));
            let target = maker.draw_target(reference, size);
            let pattern = maker.rng.pick(&PATTERNS);
            maker.predict_block_from(reference, target, size, pattern);
        }
    }
}

/// Blocks of 8 x 9, of which there is no other one inside with at most one half.
fn nine_rows(maker: &mut Maker, seed: u64) {
    maker.list.group(
        "s. blocks of 8 x 9 inside the frame or the field, each pattern (this tells a port that takes
them for 8 x 8); drawn from the complement of the seed, so that the last group is as without it",
    );
    let kept = mem::replace(&mut maker.rng, Rng::new(!seed));
    let size = size(8, 9);
    maker.draw_plane(19, 24);
    for reference in REFERENCES {
        for pattern in PATTERNS {
            let last = maker.last_inside(reference, size, pattern);
            for target in [at(0, 0), at(last.x / 2, last.y / 2), last] {
                maker.predict_block_from(reference, target, size, pattern);
            }
        }
    }
    maker.rng = kept;
}

fn wrong_on_purpose(maker: &mut Maker) {
    maker.list.group(
        "t. wrong on purpose, so that the expected output shows that the comparison can fail; only the
lines that set planes are right: -3 truncated; a pattern for the other; a half taken for none;
the other field's height; the other field's sample; a mean of means; 18 where 14 is right; the
last byte of a block off by one; a byte of a refused block's output off by one",
    );
    let mut truncated = ComponentSplitting::ask(-3);
    truncated.int_vec = -1;
    maker.list.case(truncated);

    let mut other = VectorSplitting::ask(by(1, 2));
    other.pattern = HalfPattern::HalfVertical;
    maker.list.case(other);

    let mut whole = Flags::ask(false, true);
    whole.is_half_pel = false;
    maker.list.case(whole);

    let mut heights = FieldHeights::ask(17);
    heights.bottom = 9;
    maker.list.case(heights);

    maker.set(Plane::new(2, 2, vec![0, 0, 0, 1]));
    let mut field = Sample::ask(&maker.plane, Reference::BottomField, at(1, 0));
    field.sample = 0;
    maker.list.case(field);

    let mut mean = PredictedSample::ask(&maker.plane, Reference::Frame, at(0, 0), by(1, 1));
    mean.sample = 1;
    maker.list.case(mean);

    let beyond = at(SAMPLE_POSITIONS.end() + 1, 0);
    let mut number = PredictedSample::ask(&maker.plane, Reference::Frame, beyond, by(0, 0));
    number.answer = OUTPUT_LENGTH;
    maker.list.case(number);

    maker.draw_plane(20, 21);
    let size = size(16, 16);
    let (rng, plane) = (&mut maker.rng, &maker.plane);
    let mut ask = |length| {
        let reference = Reference::TopField;
        PredictedBlock::ask(rng, plane, reference, at(1, 2), size, by(3, -3), length)
    };
    let (mut last, mut refused) = (ask(256), ask(255));
    last.after[255] ^= 1;
    refused.after[100] ^= 1;
    maker.list.case(last);
    maker.list.case(refused);
}
