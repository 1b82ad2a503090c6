//! Placing a macroblock in a picture. The original has no such call: the answers are those of an
//! account of it here, written from the scope's words. The account goes through the positions of
//! a plane, and asks of each which macroblock has it, and which of its bytes.

use std::array;
use std::fmt::{self, Display};

use oracle::macroblocks::{Geometry, LARGEST_SIDE, Sides, macroblock_length};
use oracle::refusals::{ILL_FORMED, OUTSIDE_DOMAIN};
use oracle::rng::Rng;
use oracle::sequence_extension::ChromaFormat;

use crate::list::{ACCEPTED, Edition, Kind, List, OUTPUT_LENGTH, Samples, refusing};

const SEED: u64 = 767;

const FORMATS: [ChromaFormat; 3] = [
    ChromaFormat::Yuv420,
    ChromaFormat::Yuv422,
    ChromaFormat::Yuv444,
];

/// The components, as they stand in a macroblock's bytes.
const Y: usize = 0;
const CB: usize = 1;
const CR: usize = 2;
const COMPONENTS: [usize; 3] = [Y, CB, CR];

/// The sides of a macroblock, in luminance samples.
const CELL: usize = 16;

/// How many bytes the replay draws and compares behind those of each plane.
const BEHIND: usize = 64;
/// No plane of the list has more samples, and no call more bytes to place: the replay relies on it.
const MOST_SAMPLES: usize = 262_400;
const MOST_BYTES: usize = 1024;

/// Of the number that tells a plane.
const MODULUS: u64 = 4_294_967_291;
const FACTOR: u64 = 1_103_515_245;

/// No number of the list has more digits.
const HUGE: usize = 100_000_000_000_000_000;
/// A port that keeps 32 bits takes this for 0.
const TWO_TO_32: usize = 1 << 32;

const KINDS: &[Kind] = &[refusing("1", "place_macroblock", 17, &[0, 14, 20, 18])];

const FIELDS: &str = "\
1 WIDTH HEIGHT CHROMA Y_WIDTH Y_HEIGHT Y_LENGTH CB_WIDTH CB_HEIGHT CB_LENGTH CR_WIDTH CR_HEIGHT
  CR_LENGTH MB_COL MB_ROW BYTES SEED ANSWER Y_AFTER CB_AFTER CR_AFTER
  place_macroblock: what the picture declares, the sides of its planes and how many samples each
  has, the cell, and how many bytes there are to place. CHROMA is 0 Yuv420, 1 Yuv422, 2 Yuv444. A
  plane has at most 262400 samples, and BYTES is at most 1024. ANSWER is 0 or the refusal's number.
  The bytes to place, and what Y, Cb and Cr hold before the call, each with 64 bytes behind it that
  the call is not lent, are one run of numbers in this order: from s = SEED on, s becomes
  (s * 1103515245 + 12345) mod 2^31, and the byte is s / 2^16 mod 256.
  Y_AFTER, CB_AFTER and CR_AFTER tell all bytes of the planes after the call, with the 64 behind
  them, in their order: from h = 0 on, h becomes (h * 1103515245 + byte) mod 4294967291. That is a
  prime, and the factor one of its primitive roots: one other byte, or two that are exchanged, always
  give another number.";

pub fn list(edition: Edition) -> List {
    let seed = edition.seed(SEED);
    let made = format!(
        "Answers of an account of placing in differential/src/bin/lists/placing.rs, written from document
01's words: the Rust original has no such call. The inputs are drawn by splitmix64 from the seed
{seed}. The order is 14, 20, 18. 14 is for a declared side or a plane's side over 16384, and for a
plane with another number of samples than its width times its height; 20 for a declared side of 0
or one that is no multiple of 16, for a plane whose sides do not fit the declared ones and the
format, and for a column or a row not below side / 16; 18 for another number of bytes than a
macroblock has. A refusal changes nothing. The last group is wrong on purpose."
    );
    let mut maker = Maker {
        list: List::new(
            "placing",
            "crates/replay_placing/stdin",
            KINDS,
            &made,
            FIELDS,
        ),
        rng: Rng::new(seed),
    };
    cells(&mut maker);
    // Large planes take more time than all others together: other cells of them tell little more.
    if edition.is_kept() {
        large_pictures(&mut maker);
    }
    drawn(&mut maker);
    declared_over(&mut maker);
    if edition.is_kept() {
        large_declared(&mut maker);
    }
    plane_sides_over(&mut maker);
    lengths(&mut maker);
    declared_ill_formed(&mut maker);
    planes_unfit(&mut maker);
    cells_outside(&mut maker);
    byte_counts(&mut maker);
    orders(&mut maker);
    mixed(&mut maker);
    if edition.is_kept() {
        wrong_on_purpose(&mut maker);
    }
    maker.list
}

// ---- the account by docs/SCOPE.md

/// What the call is given.
#[derive(Clone, Copy)]
struct Request {
    declared: Geometry,
    planes: [Sides; 3],
    column: usize,
    row: usize,
    /// How many there are to place.
    bytes: usize,
}

/// How many columns and lines of luminance a sample of a component stands for.
fn steps(component: usize, format: ChromaFormat) -> (usize, usize) {
    match (component, format) {
        (Y, _) | (_, ChromaFormat::Yuv444) => (1, 1),
        (_, ChromaFormat::Yuv422) => (2, 1),
        (_, ChromaFormat::Yuv420) => (2, 2),
    }
}

impl Request {
    fn refusal(&self) -> u8 {
        let Geometry {
            width,
            height,
            format,
        } = self.declared;
        let small = width.max(height) <= LARGEST_SIDE;
        if !small || !self.planes.into_iter().all(Sides::in_domain) {
            return OUTSIDE_DOMAIN;
        }
        // From here on no side is over 16,384, and nothing overflows.
        let whole = |side| (1..=LARGEST_SIDE / CELL).any(|cells| cells * CELL == side);
        let fits = |component: usize| {
            let (across, down) = steps(component, format);
            let plane = self.planes[component];
            (plane.width * across, plane.height * down) == (width, height)
        };
        let inside = |cell, side| (0..side / CELL).contains(&cell);
        let well_formed = whole(width) && whole(height) && COMPONENTS.into_iter().all(fits);
        if !well_formed || !inside(self.column, width) || !inside(self.row, height) {
            return ILL_FORMED;
        }
        if self.bytes != macroblock_length(format) {
            return OUTPUT_LENGTH;
        }
        ACCEPTED
    }

    /// Which byte of the macroblock stands at a position of a plane after the call: none where the
    /// position is another macroblock's.
    fn byte_at(&self, component: usize, position: usize) -> Option<usize> {
        let (across, down) = steps(component, self.declared.format);
        let width = self.planes[component].width;
        // the place of the sample in the picture, in luminance samples
        let (x, y) = (position % width * across, position / width * down);
        if (x / CELL, y / CELL) != (self.column, self.row) {
            return None;
        }
        let before: usize = COMPONENTS[..component]
            .iter()
            .map(|component| {
                let (across, down) = steps(*component, self.declared.format);
                CELL / across * (CELL / down)
            })
            .sum();
        Some(before + y % CELL / down * (CELL / across) + x % CELL / across)
    }
}

/// A line: what is asked, the answer, and what the planes hold then, with what is behind them.
struct Placement {
    request: Request,
    seed: u64,
    answer: u8,
    after: [Vec<u8>; 3],
}

impl Placement {
    fn ask(request: Request, seed: u64) -> Self {
        assert!(
            request.bytes <= MOST_BYTES,
            "more bytes than the replay has"
        );
        let mut samples = Samples(seed);
        let bytes: Vec<u8> = samples.by_ref().take(request.bytes).collect();
        let mut after = request.planes.map(|plane| {
            assert!(plane.length <= MOST_SAMPLES, "more than the replay has");
            let held = samples.by_ref().take(plane.length + BEHIND);
            held.collect::<Vec<u8>>()
        });
        let answer = request.refusal();
        if answer == ACCEPTED {
            for component in COMPONENTS {
                let length = request.planes[component].length;
                for (position, sample) in after[component][..length].iter_mut().enumerate() {
                    if let Some(place) = request.byte_at(component, position) {
                        *sample = bytes[place];
                    }
                }
            }
        }
        Self {
            request,
            seed,
            answer,
            after,
        }
    }
}

/// The number that tells bytes in their order.
fn told(bytes: &[u8]) -> u64 {
    bytes
        .iter()
        .fold(0, |h, byte| (h * FACTOR + u64::from(*byte)) % MODULUS)
}

impl Display for Placement {
    fn fmt(&self, f: &mut fmt::Formatter<'_>) -> fmt::Result {
        let Request {
            declared,
            planes: [y, cb, cr],
            column,
            row,
            bytes,
        } = self.request;
        let [y_after, cb_after, cr_after] = array::from_fn(|c| told(&self.after[c]));
        write!(
            f,
            "1 {declared} {y} {cb} {cr} {column} {row} {bytes} {} {} {y_after} {cb_after} {cr_after}",
            self.seed, self.answer,
        )
    }
}

// ---- the cases

/// The list under way.
struct Maker {
    list: List,
    rng: Rng,
}

impl Maker {
    fn case(&mut self, request: Request) -> Placement {
        Placement::ask(request, self.rng.below(1 << 31) as u64)
    }

    fn ask(&mut self, request: Request) -> u8 {
        let case = self.case(request);
        self.list.case(&case);
        case.answer
    }

    /// Asks where it is known that the number comes.
    fn ask_for(&mut self, number: u8, request: Request) {
        let answer = self.ask(request);
        assert_eq!(answer, number, "the group says so");
    }

    fn pick_format(&mut self) -> ChromaFormat {
        self.rng.pick(&FORMATS)
    }
}

/// A plane with as many samples as its sides say.
const fn sides(width: usize, height: usize) -> Sides {
    Sides {
        width,
        height,
        length: width * height,
    }
}

/// The planes that fit a picture. Halves of odd sides are rounded down: such a picture is refused.
fn planes(width: usize, height: usize, format: ChromaFormat) -> [Sides; 3] {
    COMPONENTS.map(|component| {
        let (across, down) = steps(component, format);
        sides(width / across, height / down)
    })
}

/// A request that fits, unless the sides or the cell do not.
fn request(width: usize, height: usize, format: ChromaFormat, cell: (usize, usize)) -> Request {
    Request {
        declared: Geometry {
            width,
            height,
            format,
        },
        planes: planes(width, height, format),
        column: cell.0,
        row: cell.1,
        bytes: macroblock_length(format),
    }
}

/// The request with another plane.
fn with_plane(request: Request, component: usize, plane: Sides) -> Request {
    let mut changed = request;
    changed.planes[component] = plane;
    changed
}

/// A plane with its width changed, or its height, and the samples that it then has.
fn with_side(plane: Sides, wide: bool, side: usize) -> Sides {
    if wide {
        sides(side, plane.height)
    } else {
        sides(plane.width, side)
    }
}

fn with_declared(request: Request, wide: bool, side: usize) -> Request {
    let mut changed = request;
    if wide {
        changed.declared.width = side;
    } else {
        changed.declared.height = side;
    }
    changed
}

/// Width, then height.
const BOTH_SIDES: [bool; 2] = [true, false];

fn cells(maker: &mut Maker) {
    maker.list.group(
        "a. every cell of small pictures, whose columns and rows of macroblocks are as many and not, in
each format",
    );
    for format in FORMATS {
        for (columns, rows) in [(1, 1), (2, 1), (1, 2), (3, 2), (4, 3), (2, 4)] {
            for row in 0..rows {
                for column in 0..columns {
                    let (width, height) = (columns * CELL, rows * CELL);
                    let request = request(width, height, format, (column, row));
                    maker.ask_for(ACCEPTED, request);
                }
            }
        }
    }
}

fn large_pictures(maker: &mut Maker) {
    maker.list.group(
        "b. pictures with a side of 16384, and others with as many samples: the first and the last cell, and
a drawn one",
    );
    for format in FORMATS {
        for (width, height) in [(LARGEST_SIDE, CELL), (CELL, LARGEST_SIDE), (512, 512)] {
            let (columns, rows) = (width / CELL, height / CELL);
            let between = (maker.rng.below(columns), maker.rng.below(rows));
            for cell in [(0, 0), (columns - 1, rows - 1), between] {
                maker.ask_for(ACCEPTED, request(width, height, format, cell));
            }
        }
    }
}

/// A cell of a drawn picture, with sides of at most so many macroblocks.
fn draw_request(maker: &mut Maker, most: usize) -> Request {
    let format = maker.pick_format();
    let (columns, rows) = (1 + maker.rng.below(most), 1 + maker.rng.below(most));
    let cell = (maker.rng.below(columns), maker.rng.below(rows));
    request(columns * CELL, rows * CELL, format, cell)
}

fn drawn(maker: &mut Maker) {
    maker
        .list
        .group("c. drawn cells of drawn pictures, up to 8 macroblocks wide and high");
    for _ in 0..120 {
        let request = draw_request(maker, 8);
        maker.ask_for(ACCEPTED, request);
    }
}

fn declared_over(maker: &mut Maker) {
    maker
        .list
        .group("d. a declared side over 16384, beside planes of a small picture: 14");
    for format in FORMATS {
        let fitting = request(32, 48, format, (0, 0));
        for wide in BOTH_SIDES {
            for side in [
                LARGEST_SIDE + 1,
                LARGEST_SIDE + CELL,
                2 * LARGEST_SIDE,
                TWO_TO_32 + if wide { 32 } else { 48 },
                HUGE,
            ] {
                maker.ask_for(OUTSIDE_DOMAIN, with_declared(fitting, wide, side));
            }
        }
    }
}

fn large_declared(maker: &mut Maker) {
    maker
        .list
        .group("e. the same with planes that fit, and all their samples: 14");
    for format in FORMATS {
        for side in [LARGEST_SIDE + 1, LARGEST_SIDE + CELL] {
            for (width, height) in [(side, CELL), (CELL, side)] {
                maker.ask_for(OUTSIDE_DOMAIN, request(width, height, format, (0, 0)));
            }
        }
    }
}

fn plane_sides_over(maker: &mut Maker) {
    maker.list.group(
        "f. a side of one plane over 16384: with the other side 0 and no samples, which are as many as its
sides say, and with the other side and the samples of a plane that fits: 14",
    );
    for format in FORMATS {
        let fitting = request(32, 48, format, (1, 2));
        for component in COMPONENTS {
            let plane = fitting.planes[component];
            for wide in BOTH_SIDES {
                let right = if wide { plane.width } else { plane.height };
                for side in [
                    LARGEST_SIDE + 1,
                    LARGEST_SIDE + CELL,
                    TWO_TO_32 + right,
                    HUGE,
                ] {
                    let empty = with_side(sides(0, 0), wide, side);
                    let mut kept = plane;
                    if wide {
                        kept.width = side;
                    } else {
                        kept.height = side;
                    }
                    for plane in [empty, kept] {
                        let request = with_plane(fitting, component, plane);
                        maker.ask_for(OUTSIDE_DOMAIN, request);
                    }
                }
            }
            // the product is 2^64, which 64 bits take for 0
            let wrapping = Sides {
                width: TWO_TO_32,
                height: TWO_TO_32,
                length: 0,
            };
            maker.ask_for(OUTSIDE_DOMAIN, with_plane(fitting, component, wrapping));
        }
    }
}

fn lengths(maker: &mut Maker) {
    maker.list.group(
        "g. one plane with another number of samples than its sides say: one fewer or more, a row fewer or
more, none, twice as many; one fewer beside a plane with one more: 14",
    );
    for format in FORMATS {
        let fitting = request(48, 32, format, (2, 1));
        for component in COMPONENTS {
            let plane = fitting.planes[component];
            let right = plane.length;
            for length in [
                right - 1,
                right + 1,
                right - plane.width,
                right + plane.width,
                0,
                2 * right,
            ] {
                let plane = Sides { length, ..plane };
                maker.ask_for(OUTSIDE_DOMAIN, with_plane(fitting, component, plane));
            }
        }
        for [first, second] in [[Y, CB], [CB, CR], [CR, Y]] {
            let mut changed = fitting;
            changed.planes[first].length -= 1;
            changed.planes[second].length += 1;
            maker.ask_for(OUTSIDE_DOMAIN, changed);
        }
    }
}

fn declared_ill_formed(maker: &mut Maker) {
    maker.list.group(
        "h. a declared side of 0, or one that is no multiple of 16, with planes that fit it, halves of odd
sides rounded down and up, and with planes of the pictures that would do: 20",
    );
    for format in FORMATS {
        for (width, height) in [
            (0, 16),
            (16, 0),
            (0, 0),
            (8, 16),
            (16, 8),
            (24, 16),
            (16, 24),
            (17, 32),
            (32, 17),
            (31, 32),
            (32, 31),
            (1, 1),
            (40, 56),
        ] {
            let fitting = request(width, height, format, (0, 0));
            maker.ask_for(ILL_FORMED, fitting);
            let up = |side: usize| side.next_multiple_of(2);
            if (up(width), up(height)) != (width, height) {
                let mut rounded = fitting;
                let [_, cb, cr] = planes(up(width), up(height), format);
                rounded.planes[CB] = cb;
                rounded.planes[CR] = cr;
                maker.ask_for(ILL_FORMED, rounded);
            }
            for cells in [
                (width / CELL, height / CELL),
                (width.div_ceil(CELL), height.div_ceil(CELL)),
            ] {
                let mut whole = fitting;
                whole.planes = planes(cells.0 * CELL, cells.1 * CELL, format);
                maker.ask_for(ILL_FORMED, whole);
            }
        }
    }
}

fn planes_unfit(maker: &mut Maker) {
    maker.list.group(
        "i. one side of one plane that does not fit the picture, with the samples that the plane then has;
sides exchanged; a chrominance plane, or both, of another format: 20",
    );
    for format in FORMATS {
        let fitting = request(32, 48, format, (1, 1));
        for component in COMPONENTS {
            let plane = fitting.planes[component];
            for wide in BOTH_SIDES {
                let right = if wide { plane.width } else { plane.height };
                for side in [
                    right - 1,
                    right + 1,
                    right - 8,
                    right + 8,
                    right + 16,
                    right / 2,
                    right * 2,
                    0,
                ] {
                    let request = with_plane(fitting, component, with_side(plane, wide, side));
                    maker.ask_for(ILL_FORMED, request);
                }
            }
            let exchanged = sides(plane.height, plane.width);
            maker.ask_for(ILL_FORMED, with_plane(fitting, component, exchanged));
            let empty = with_plane(fitting, component, sides(0, 0));
            maker.ask_for(ILL_FORMED, empty);
        }
        for other in FORMATS.into_iter().filter(|other| *other != format) {
            let [_, cb, cr] = planes(32, 48, other);
            let changed = with_plane(fitting, CB, cb);
            for request in [
                changed,
                with_plane(changed, CR, cr),
                with_plane(fitting, CR, cr),
            ] {
                maker.ask_for(ILL_FORMED, request);
            }
        }
    }

    maker.list.group(
        "j. three planes that fit one another, but not what is declared: those of a picture with one side
of another length, and with the sides exchanged: 20",
    );
    for format in FORMATS {
        let fitting = request(32, 48, format, (1, 1));
        for (width, height) in [(48, 48), (16, 48), (32, 64), (32, 32), (48, 32)] {
            let mut other = fitting;
            other.planes = planes(width, height, format);
            maker.ask_for(ILL_FORMED, other);
        }
    }
}

fn cells_outside(maker: &mut Maker) {
    maker.list.group(
        "k. a column or a row not below side / 16, in pictures whose columns and rows are as many and not:
20; and beside them the last column and the last row, which are accepted",
    );
    for format in FORMATS {
        for (width, height) in [(16, 16), (48, 32), (32, 64), (240, 16), (16, 240)] {
            let (columns, rows) = (width / CELL, height / CELL);
            for past in [0, 1, columns.max(rows), 1023, TWO_TO_32, HUGE, 1 << 59] {
                let (column, row) = (columns + past, rows + past);
                for cell in [
                    (column, 0),
                    (column, rows - 1),
                    (0, row),
                    (columns - 1, row),
                ] {
                    maker.ask_for(ILL_FORMED, request(width, height, format, cell));
                }
            }
            maker.ask_for(ILL_FORMED, request(width, height, format, (columns, rows)));
            for cell in [(columns - 1, 0), (0, rows - 1), (columns - 1, rows - 1)] {
                maker.ask_for(ACCEPTED, request(width, height, format, cell));
            }
        }
    }
}

fn byte_counts(maker: &mut Maker) {
    maker.list.group(
        "l. another number of bytes to place than a macroblock has: one fewer or more, none, luminance
alone, another format's, and more: 18",
    );
    for format in FORMATS {
        let right = macroblock_length(format);
        for cell in [(0, 0), (2, 1)] {
            for bytes in [0, 1, right - 1, right + 1, 256, 384, 512, 768, MOST_BYTES] {
                let changed = Request {
                    bytes,
                    ..request(48, 32, format, cell)
                };
                if bytes != right {
                    maker.ask_for(OUTPUT_LENGTH, changed);
                }
            }
        }
    }
}

fn orders(maker: &mut Maker) {
    maker.list.group(
        "m. causes of refusal at once: for 14 a declared side, a plane's side or a plane's length, or none;
for 20 a declared side, a plane's side, a column or a row, or none; for 18 a byte fewer or more, or
none: the first in the order 14, 20, 18",
    );
    for format in FORMATS {
        for outside in 0..4 {
            for ill in 0..5 {
                for bytes in 0..3 {
                    let mut request = request(32, 48, format, (1, 2));
                    let [first, second] = two_planes(maker);
                    match ill {
                        0 => (),
                        1 => {
                            request.declared.height = 40;
                            request.planes = planes(32, 40, format);
                        }
                        2 => {
                            let plane = request.planes[second];
                            request.planes[second] = sides(plane.width, plane.height + 16);
                        }
                        3 => request.column = 2,
                        _ => request.row = 3,
                    }
                    match outside {
                        0 => (),
                        1 => request.declared.width = LARGEST_SIDE + CELL,
                        2 => request.planes[first] = sides(LARGEST_SIDE + 1, 0),
                        _ => request.planes[first].length -= 1,
                    }
                    match bytes {
                        0 => (),
                        1 => request.bytes -= 1,
                        _ => request.bytes += 1,
                    }
                    let number = match (outside, ill, bytes) {
                        (0, 0, 0) => ACCEPTED,
                        (0, 0, _) => OUTPUT_LENGTH,
                        (0, _, _) => ILL_FORMED,
                        _ => OUTSIDE_DOMAIN,
                    };
                    maker.ask_for(number, request);
                }
            }
        }
    }
}

/// Two components, of which the second is another one.
fn two_planes(maker: &mut Maker) -> [usize; 2] {
    let mut components = COMPONENTS;
    maker.rng.shuffle(&mut components);
    [components[0], components[1]]
}

fn mixed(maker: &mut Maker) {
    maker.list.group(
        "n. drawn pictures with up to three drawn changes of sides, lengths, cell, format and number of
bytes, after which some fit again: 14, 20, 18 or accepted",
    );
    for _ in 0..240 {
        let mut request = draw_request(maker, 4);
        for _ in 0..maker.rng.below(4) {
            change(maker, &mut request);
        }
        maker.ask(request);
    }
}

fn change(maker: &mut Maker, request: &mut Request) {
    let step = maker.rng.pick(&[1, 2, 8, 16]);
    let by = if maker.rng.below(2) == 0 {
        |n: usize, step: usize| n + step
    } else {
        |n: usize, step: usize| n.saturating_sub(step)
    };
    let component = maker.rng.below(3);
    let plane = request.planes[component];
    match maker.rng.below(10) {
        0 => request.declared.width = by(request.declared.width, step),
        1 => request.declared.height = by(request.declared.height, step),
        2 => {
            let Geometry { width, height, .. } = request.declared;
            let format = maker.pick_format();
            request.declared.format = format;
            request.planes = planes(width, height, format);
        }
        3 => request.planes[component] = with_side(plane, true, by(plane.width, step)),
        4 => request.planes[component] = with_side(plane, false, by(plane.height, step)),
        5 => request.planes[component].length = by(plane.length, step),
        6 => request.column = by(request.column, step),
        7 => request.row = by(request.row, step),
        8 => request.bytes = by(request.bytes, step),
        _ => request.bytes = macroblock_length(maker.pick_format()),
    }
}

fn wrong_on_purpose(maker: &mut Maker) {
    maker.list.group(
        "o. wrong on purpose, so that the expected output shows that the comparison can fail: a refusal for
an answer; 20 where 14 is right; an answer for a refusal; two bytes of the macroblock exchanged in
Y; its last byte in Cb off by one; a byte outside the cell off by one in Cr; a byte behind Y off by
one; a byte of Cb off by one where the call refuses",
    );
    let accepted = request(48, 32, ChromaFormat::Yuv422, (1, 0));
    let mut outside = accepted;
    outside.planes[Y].length -= 1;
    outside.column = 3;
    let short = Request {
        bytes: 511,
        ..accepted
    };

    let mut refused = maker.case(accepted);
    refused.answer = OUTPUT_LENGTH;
    maker.list.case(refused);

    let mut number = maker.case(outside);
    number.answer = ILL_FORMED;
    maker.list.case(number);

    let mut answered = maker.case(short);
    answered.answer = ACCEPTED;
    maker.list.case(answered);

    let mut exchanged = maker.case(accepted);
    let luminance = &mut exchanged.after[Y];
    // in the first row of the cell, which starts in column 16
    let place = (16..31).find(|place| luminance[*place] != luminance[place + 1]);
    let place = place.expect("not all bytes of the row are alike");
    luminance.swap(place, place + 1);
    maker.list.case(exchanged);

    let off_by_one = |case: &mut Placement, component: usize, place: usize| {
        case.after[component][place] ^= 1;
    };
    let place_of = |component: usize, byte: usize| {
        let length = accepted.planes[component].length;
        let mut positions = 0..length;
        let place = positions.find(|place| accepted.byte_at(component, *place) == Some(byte));
        place.expect("each byte of a component has its place")
    };

    let mut last = maker.case(accepted);
    off_by_one(&mut last, CB, place_of(CB, 383));
    maker.list.case(last);

    let mut elsewhere = maker.case(accepted);
    off_by_one(&mut elsewhere, CR, place_of(CR, 384) - 1);
    maker.list.case(elsewhere);

    let mut behind = maker.case(accepted);
    off_by_one(&mut behind, Y, accepted.planes[Y].length);
    maker.list.case(behind);

    let mut written = maker.case(short);
    off_by_one(&mut written, CB, place_of(CB, 256));
    maker.list.case(written);
}
