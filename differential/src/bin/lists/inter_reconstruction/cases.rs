//! The lines of the macroblocks list: each asks the original, and the scope for what it alone
//! refuses.

use std::fmt::{self, Display};

use oracle::frame_assembly::FrameBuffer;
use oracle::inter_reconstruction::ReferenceFrames;
use oracle::macroblocks::{Geometry, Motion, Question, Sides};
use oracle::pmv::Direction;
use oracle::rng::Rng;

use crate::list::{ACCEPTED, Hex, Samples, ramp, telling_fill};

/// A line of kind 1.
#[derive(Clone, Copy)]
pub struct Planes {
    pub reference: Direction,
    pub y: Sides,
    pub cb: Sides,
    pub cr: Sides,
    pub seed: u64,
}

impl Planes {
    pub fn in_domain(&self) -> bool {
        [self.y, self.cb, self.cr].into_iter().all(Sides::in_domain)
    }

    /// The original's frame of these planes.
    pub fn frame(&self, declared: Geometry) -> FrameBuffer {
        let mut samples = Samples(self.seed);
        let [y, cb, cr] = [self.y, self.cb, self.cr].map(|sides| {
            let run: Vec<u8> = samples.by_ref().take(sides.length).collect();
            sides.plane(&run)
        });
        declared.frame().with_y(y).with_cb(cb).with_cr(cr)
    }
}

impl Display for Planes {
    fn fmt(&self, f: &mut fmt::Formatter<'_>) -> fmt::Result {
        write!(
            f,
            "1 {} {} {} {} {}",
            self.reference as u8, self.y, self.cb, self.cr, self.seed,
        )
    }
}

/// PRESENT, and zeros where there is none.
struct Reference(Option<Geometry>);

impl Display for Reference {
    fn fmt(&self, f: &mut fmt::Formatter<'_>) -> fmt::Result {
        match self.0 {
            None => f.write_str("0 0 0 0"),
            Some(declared) => write!(f, "1 {declared}"),
        }
    }
}

/// What is asked, beside the planes.
#[derive(Clone, Copy)]
pub struct Request {
    pub dest: Geometry,
    pub forward: Option<Geometry>,
    pub backward: Option<Geometry>,
    pub column: usize,
    pub row: usize,
    pub motion: Motion,
    /// Of the output.
    pub length: usize,
}

/// A line of kind 2 or 3.
pub struct Prediction {
    request: Request,
    fill: u8,
    pub answer: u8,
    /// Of an accepted answer: 1 for the forward reference, 2 for the backward one, both added.
    pub used: u8,
    pub after: Vec<u8>,
}

impl Prediction {
    pub fn ask(rng: &mut Rng, planes: &[Planes; 2], request: Request) -> Self {
        let Request {
            dest,
            column,
            row,
            motion,
            length,
            ..
        } = request;
        let [forward, backward] = planes;
        let forward = request.forward.map(|declared| forward.frame(declared));
        let backward = request.backward.map(|declared| backward.frame(declared));
        let motion = motion.remaining([forward.is_some(), backward.is_some()]);
        let in_domain = planes
            .iter()
            .all(|planes| planes.in_domain() || !motion.uses(planes.reference));
        let question = Question {
            dest,
            references: ReferenceFrames {
                forward: forward.as_ref(),
                backward: backward.as_ref(),
            },
            column,
            row,
            motion,
            length,
            in_domain,
        };
        // The original is asked also where the scope refuses: what it forms there must not show.
        let original = question.ask_original();
        let fill = telling_fill(rng, original.as_deref().unwrap_or_default());
        let answer = question.refused_before().and(original);
        let answer = answer.and_then(|formed| question.refused_after().map(|()| formed));
        let number = answer.as_ref().err().copied().unwrap_or(ACCEPTED);
        let used = answer.as_ref().map_or(0, |_| question.used());
        Self {
            request,
            fill,
            answer: number,
            used,
            after: answer.unwrap_or_else(|_| ramp(fill, length)),
        }
    }
}

/// The number of the kind.
fn kind(motion: Motion) -> u8 {
    match motion {
        Motion::Frame(_) => 2,
        Motion::Field(_) => 3,
    }
}

impl Display for Prediction {
    fn fmt(&self, f: &mut fmt::Formatter<'_>) -> fmt::Result {
        let Request {
            dest,
            forward,
            backward,
            column,
            row,
            motion,
            length,
        } = self.request;
        let [forward, backward] = [forward, backward].map(Reference);
        let unchanged = self.after == ramp(self.fill, length);
        let after = if unchanged { &[][..] } else { &self.after };
        write!(
            f,
            "{} {dest} {forward} {backward} {column} {row} {motion} {} {length} {} {} {}",
            kind(motion),
            self.fill,
            self.answer,
            self.used,
            Hex(after),
        )
    }
}
