//! Cases with several causes of refusal at once.

use super::case::FORMATS;
use super::scene::Scene;
use super::{Macroblocks, others};
use crate::run::Comparison;
use oracle::macroblocks::LAST_CELL;
use oracle::refusals::ACCEPTED;

/// In the scope's order.
const CAUSES: [u8; 7] = [38, 13, 18, 16, 17, 15, 14];

const DIRECTIONS: [[bool; 2]; 4] = [[false, false], [true, false], [false, true], [true, true]];

impl Macroblocks {
    /// Every set of causes, by the format and the directions.
    pub fn causes(&mut self) -> Comparison {
        for format in FORMATS {
            for directions in DIRECTIONS {
                for set in 0..1 << CAUSES.len() {
                    let holds = |cause| {
                        let place = CAUSES.iter().position(|known| *known == cause);
                        set >> place.expect("it is one of them") & 1 == 1
                    };
                    self.cause(format, directions, holds)?;
                }
            }
        }
        Ok(())
    }

    /// The first in the order of those that hold, and that a used direction has.
    fn cause(
        &mut self,
        format: u32,
        directions: [bool; 2],
        holds: impl Fn(u8) -> bool,
    ) -> Comparison {
        let mut scene = Scene::picture(&mut self.run, 16, 16, format);
        if holds(14) {
            for reference in 0..2 {
                let place = self.run.rng.below(3);
                scene.make_unfit(&mut self.run, reference, place, 0);
            }
        }
        let mut case = self.request(&scene, directions);
        if holds(13) {
            case.row = LAST_CELL + 1;
        }
        if holds(18) {
            case.length -= 1;
        }
        if holds(15) {
            let others = others(case.dest());
            case.references = [(); 2].map(|()| self.run.rng.pick(&others));
        }
        self.absent(&mut case, [holds(16), holds(17)]);
        if holds(38) {
            // One that is read, whatever is absent.
            let argument = self.run.rng.pick(&[0, 1, 3, 5, 6]);
            case.make_meaningless(&mut self.run, argument);
        }
        // Of two directions the one whose reference is there is left.
        let alone = directions == [true, true] && holds(16) != holds(17);
        let [forward, backward] = if alone {
            [!holds(16), !holds(17)]
        } else {
            directions
        };
        let due = CAUSES.into_iter().find(|cause| {
            let used = match cause {
                16 => forward || !backward,
                17 => backward,
                _ => true,
            };
            used && holds(*cause)
        });
        self.compare_for(due.unwrap_or(ACCEPTED), &mut scene, &case)
    }
}
