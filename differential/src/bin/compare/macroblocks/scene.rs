//! The two references of some cases: their planes as the port is lent them, and the original's
//! frames of the same samples.

use std::fmt::{self, Display};

use oracle::frame_assembly::{FrameBuffer, Plane};
use oracle::inter_reconstruction::ReferenceFrames;
use oracle::macroblocks::{Geometry, LARGEST_SIDE, Motion, Sides};
use oracle::pmv::Direction;
use oracle::sequence_extension::ChromaFormat;

use super::case::{CHROMA_FORMATS, Declared, FORMATS};
use crate::lent::{Lent, Place};
use crate::port;
use crate::run::Run;

/// How many cases are drawn on the same planes.
pub const CASES: u64 = 16;

/// The kinds of planes that the scope does not take.
pub const UNFIT: usize = 14;

const NAMES: [&str; 3] = ["Y", "Cb", "Cr"];
const REFERENCES: [&str; 2] = ["forward", "backward"];

/// Longer planes are not printed: the seed draws them again.
const PRINTED: usize = 1 << 16;

const SMALL_SIDES: [usize; 20] = [
    0, 1, 1, 2, 2, 3, 4, 5, 7, 8, 9, 15, 16, 17, 18, 24, 31, 32, 33, 48,
];

/// A plane that is lent.
struct LentPlane {
    sides: Sides,
    samples: Lent,
    /// What is in it, where the original is not given a plane of its sides.
    unfit: Vec<u8>,
}

pub struct Scene {
    /// What the picture declares, mostly.
    pub dest: Declared,
    /// Those of the second reference are not lent where one picture is both.
    planes: [[LentPlane; 3]; 2],
    originals: [FrameBuffer; 2],
    pub one_for_both: bool,
}

fn sides(width: usize, height: usize) -> Sides {
    Sides {
        width,
        height,
        length: width * height,
    }
}

/// The sides of a picture's planes.
fn picture_sides(width: usize, height: usize, format: u32) -> [Sides; 3] {
    let chroma = match CHROMA_FORMATS[format as usize] {
        ChromaFormat::Yuv420 => sides(width.div_ceil(2), height.div_ceil(2)),
        ChromaFormat::Yuv422 => sides(width.div_ceil(2), height),
        ChromaFormat::Yuv444 => sides(width, height),
    };
    [sides(width, height), chroma, chroma]
}

impl Scene {
    /// Two pictures of these sides, whose planes fit the format.
    pub fn picture(run: &mut Run, width: usize, height: usize, format: u32) -> Self {
        let planes = picture_sides(width, height, format);
        Self::new(run, declared(width, height, format), [planes; 2], false)
    }

    /// One picture for both references, with the largest plane that the scope takes.
    pub fn largest(run: &mut Run) -> Self {
        let planes = [
            sides(LARGEST_SIDE, LARGEST_SIDE),
            sides(LARGEST_SIDE, 3),
            sides(2, LARGEST_SIDE),
        ];
        let format = run.rng.pick(&FORMATS);
        let none = [sides(0, 0); 3];
        Self::new(
            run,
            declared(LARGEST_SIDE, LARGEST_SIDE, format),
            [planes, none],
            true,
        )
    }

    pub fn draw(run: &mut Run) -> Self {
        let format = run.rng.pick(&FORMATS);
        let multiple = |run: &mut Run| 16 * (1 + run.rng.below(5));
        let (width, height) = (multiple(run), multiple(run));
        let mut dest = declared(width, height, format);
        let planes = match run.rng.below(16) {
            0..10 => [picture_sides(width, height, format); 2],
            10..14 => [(); 2].map(|()| [(); 3].map(|()| draw_sides(run))),
            14 => {
                let one = draw_sides(run);
                [picture_sides(one.width, one.height, format); 2]
            }
            _ => [(); 2].map(|()| draw_long(run, format)),
        };
        // What is declared is compared, and nothing else.
        if run.once_in(8) {
            dest.width = run.rng.pick(&[0, 1, 720, usize::MAX]);
            dest.height = run.rng.pick(&[0, 1, 576, usize::MAX]);
        }
        let one_for_both = run.once_in(8);
        let mut scene = Self::new(run, dest, planes, one_for_both);
        if run.once_in(8) {
            let reference = if one_for_both { 0 } else { run.rng.below(2) };
            let (place, kind) = (run.rng.below(3), run.rng.below(UNFIT));
            scene.make_unfit(run, reference, place, kind);
        }
        scene
    }

    fn new(run: &mut Run, dest: Declared, planes: [[Sides; 3]; 2], one_for_both: bool) -> Self {
        let geometry = Geometry {
            width: 0,
            height: 0,
            format: ChromaFormat::Yuv420,
        };
        let planes = planes.map(|planes| planes.map(|sides| LentPlane::draw(run, sides)));
        let mut scene = Self {
            dest,
            planes: planes.map(|planes| planes.map(|(lent, _)| lent)),
            originals: [(); 2].map(|()| geometry.frame()),
            one_for_both,
        };
        for reference in 0..2 {
            for place in 0..3 {
                scene.copy_to_original(reference, place);
            }
        }
        scene
    }

    /// Gives the original the plane of the same samples; an empty one, where the scope does not
    /// take the plane. There the original is asked for 16, 17 and 15 alone, which depend on no
    /// plane. It cannot have a plane of another length, and stops at the fields of one with no
    /// columns and 4294967297 rows.
    fn copy_to_original(&mut self, reference: usize, place: usize) {
        let lent = &self.planes[self.source(reference)][place];
        let plane = if lent.sides.in_domain() {
            lent.sides.plane(lent.samples.bytes())
        } else {
            Plane::new(0, 0)
        };
        let original = &mut self.originals[reference];
        match place {
            0 => original.y = plane,
            1 => original.cb = plane,
            _ => original.cr = plane,
        }
    }

    /// Whose planes are lent for a reference.
    fn source(&self, reference: usize) -> usize {
        if self.one_for_both { 0 } else { reference }
    }

    /// Gives a plane another length than its sides say, or a side over 16384.
    pub fn make_unfit(&mut self, run: &mut Run, reference: usize, place: usize, kind: usize) {
        const OVER: usize = LARGEST_SIDE + 1;
        const TWO_TO_32: usize = 1 << 32;
        let Sides {
            width,
            height,
            length,
        } = self.planes[reference][place].sides;
        // The kinds up to here change a plane with samples, and make an empty one too long.
        let (width, height, length) = match kind {
            0 if length != 0 => (width, height, length - 1),
            0 | 1 => (width, height, length + 1),
            2 if length != 0 => (width, height, 0),
            2 => (width, height, 256),
            3 if length != 0 => (width + 1, height, length),
            3 => (width, height, length + 2),
            4 if length != 0 => (width, height - 1, length),
            4 => (width, height, length + 3),
            5 => (OVER, 0, 0),
            6 => (0, OVER, 0),
            7 => (OVER, 1, OVER),
            8 => (1, OVER, OVER),
            // The product is lost in 64 bits: 0, and 1.
            9 => (TWO_TO_32, TWO_TO_32, 0),
            10 => (usize::MAX, usize::MAX, 1),
            11 => (usize::MAX, 0, 0),
            12 => (0, usize::MAX, 0),
            _ => (LARGEST_SIDE, LARGEST_SIDE, 1),
        };
        let sides = Sides {
            width,
            height,
            length,
        };
        let (lent, samples) = LentPlane::draw(run, sides);
        self.planes[reference][place] = lent;
        self.planes[reference][place].unfit = samples;
        for reference in 0..2 {
            self.copy_to_original(reference, place);
        }
    }

    /// The original's frames of the references that are there, with what they declare.
    pub fn declare(&mut self, references: [Option<Geometry>; 2]) -> ReferenceFrames<'_> {
        for (original, declared) in self.originals.iter_mut().zip(references) {
            if let Some(declared) = declared {
                original.width = declared.width;
                original.height = declared.height;
                original.chroma_format = declared.format;
            }
        }
        let [forward, backward] = &self.originals;
        ReferenceFrames {
            forward: references[0].map(|_| forward),
            backward: references[1].map(|_| backward),
        }
    }

    /// What the port is lent, also for a reference that is absent.
    pub fn lend(&mut self, references: [Declared; 2]) -> [port::Reference; 2] {
        [0, 1].map(|reference| {
            let Declared {
                present,
                width,
                height,
                format,
            } = references[reference];
            let source = self.source(reference);
            port::Reference {
                present,
                width,
                height,
                format,
                planes: self.planes[source].each_mut().map(|plane| port::Plane {
                    width: plane.sides.width,
                    height: plane.sides.height,
                    samples: plane.samples.pointer(),
                    length: plane.samples.length(),
                }),
            }
        })
    }

    /// The sides of a reference's planes.
    pub fn sides(&self, reference: usize) -> [Sides; 3] {
        self.planes[self.source(reference)]
            .each_ref()
            .map(|plane| plane.sides)
    }

    /// Whether the scope takes all planes of the references that are used.
    pub fn in_domain(&self, motion: Motion) -> bool {
        let directions = [Direction::Forward, Direction::Backward];
        directions.into_iter().all(|direction| {
            !motion.uses(direction)
                || self
                    .sides(direction.index())
                    .into_iter()
                    .all(Sides::in_domain)
        })
    }

    /// What is wrong with the planes, which no call may write.
    pub fn fault(&self) -> Option<String> {
        for (reference, planes) in self.planes.iter().enumerate() {
            if reference == 1 && self.one_for_both {
                continue;
            }
            for (place, plane) in planes.iter().enumerate() {
                if let Some(fault) = plane.samples.fault(self.drawn(reference, place)) {
                    let (of, name) = (REFERENCES[reference], NAMES[place]);
                    return Some(format!("the {of} {name} plane: {fault}"));
                }
            }
        }
        None
    }

    /// What was drawn for a plane: the original's samples, where it has such a plane.
    fn drawn(&self, reference: usize, place: usize) -> &[u8] {
        let plane = &self.planes[reference][place];
        if !plane.sides.in_domain() {
            return &plane.unfit;
        }
        self.original(reference, place).samples()
    }

    fn original(&self, reference: usize, place: usize) -> &Plane {
        let FrameBuffer { y, cb, cr, .. } = &self.originals[reference];
        [y, cb, cr][place]
    }

    /// The forward luminance samples of a macroblock whose first sample is at this place.
    pub fn crop_luma(&self, x: usize, y: usize) -> Vec<u8> {
        let plane = self.original(0, 0);
        let rows = (y..y + 16).map(|row| &plane.samples()[row * plane.width() + x..][..16]);
        rows.flatten().copied().collect()
    }

    pub fn damage(&mut self, place: Place) {
        self.planes[0][0].samples.damage(place);
    }
}

/// All planes, as hexadecimal digits.
impl Display for Scene {
    fn fmt(&self, f: &mut fmt::Formatter<'_>) -> fmt::Result {
        if self.one_for_both {
            writeln!(f, "the forward planes are lent for both references")?;
        }
        for (reference, planes) in self.planes.iter().enumerate() {
            for (place, plane) in planes.iter().enumerate() {
                let (of, name) = (REFERENCES[reference], NAMES[place]);
                write!(f, "{of} {name}: {:?} ", plane.sides)?;
                let samples = self.drawn(reference, place);
                if samples.len() > PRINTED {
                    writeln!(f, "too long to print")?;
                    continue;
                }
                for sample in samples {
                    write!(f, "{sample:02x}")?;
                }
                writeln!(f)?;
            }
        }
        Ok(())
    }
}

impl LentPlane {
    /// A plane of drawn samples, and these.
    fn draw(run: &mut Run, sides: Sides) -> (Self, Vec<u8>) {
        let mut drawn = run.bytes(sides.length);
        // Some planes of two neighbouring values, or of the ends, where a mean's rounding shows.
        let few: Option<[u8; 2]> = match run.rng.below(8) {
            0 => Some([0, 1]),
            1 => Some([0, u8::MAX]),
            2 => Some([u8::MAX - 1, u8::MAX]),
            _ => None,
        };
        if let Some(few) = few {
            for sample in &mut drawn {
                *sample = few[usize::from(*sample & 1)];
            }
        }
        let mut samples = Lent::new(run.around);
        samples.fill(run.offset(), &drawn);
        let plane = Self {
            sides,
            samples,
            unfit: Vec::new(),
        };
        (plane, drawn)
    }
}

fn declared(width: usize, height: usize, format: u32) -> Declared {
    Declared {
        present: 1,
        width,
        height,
        format,
    }
}

fn draw_sides(run: &mut Run) -> Sides {
    sides(run.rng.pick(&SMALL_SIDES), run.rng.pick(&SMALL_SIDES))
}

/// Planes with a long side, or of a larger picture.
fn draw_long(run: &mut Run, format: u32) -> [Sides; 3] {
    if run.once_in(4) {
        return picture_sides(176, 144, format);
    }
    [(); 3].map(|()| {
        let long = run.rng.pick(&[LARGEST_SIDE, 1000, 257]);
        let short = run.rng.below(3);
        if run.once_in(2) {
            sides(long, short)
        } else {
            sides(short, long)
        }
    })
}
