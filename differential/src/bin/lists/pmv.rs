//! The vector layer: deltas and ranges, the reconstruction of components and of vectors, their
//! scaling for chroma, and the predictors with all that updates them.

mod cases;

use std::iter;
use std::mem;
use std::ops::RangeInclusive;

use oracle::macroblock_modes::{MvFormat, PredictionType};
use oracle::picture_header::{PictureCodingType, PictureStructure};
use oracle::pmv::{Component, Direction, Pmv, PmvUpdateContext, VectorIndex, vector_range};
use oracle::refusals::CODE_OUTSIDE;
use oracle::rng::Rng;
use oracle::sequence_extension::ChromaFormat;
use oracle::vectors::{CODES, Coded, Mode, Vector};

use crate::list::{ACCEPTED, Edition, Kind, List, ORIGINAL, kind, refusing};
use cases::{
    Answer, ChromaScaling, Decoding, Delta, Fresh, GetAndSet, Lent, Limits, Place, Reconstruction,
    Reset, SpatialReset, Update, VectorReconstruction, number,
};

const SEED: u64 = 765;

const COMPONENTS: [Component; 2] = [Component::Horizontal, Component::Vertical];
const STRUCTURES: [PictureStructure; 3] = [
    PictureStructure::TopField,
    PictureStructure::BottomField,
    PictureStructure::Frame,
];
const CHROMA_FORMATS: [ChromaFormat; 3] = [
    ChromaFormat::Yuv420,
    ChromaFormat::Yuv422,
    ChromaFormat::Yuv444,
];
const CODING_TYPES: [PictureCodingType; 4] = [
    PictureCodingType::Intra,
    PictureCodingType::Predictive,
    PictureCodingType::Bidirectional,
    PictureCodingType::DcIntra,
];
const FLAGS: [bool; 2] = [false, true];

const SLOTS: [Slot; 4] = [
    slot(VectorIndex::First, Direction::Forward),
    slot(VectorIndex::First, Direction::Backward),
    slot(VectorIndex::Second, Direction::Forward),
    slot(VectorIndex::Second, Direction::Backward),
];

const MODES: [Mode; 6] = [
    mode(MvFormat::Field, PictureStructure::TopField),
    mode(MvFormat::Field, PictureStructure::BottomField),
    HALVING,
    mode(MvFormat::Frame, PictureStructure::TopField),
    mode(MvFormat::Frame, PictureStructure::BottomField),
    PLAIN,
];
/// The mode that halves, the vertical component only.
const HALVING: Mode = mode(MvFormat::Field, PictureStructure::Frame);
const PLAIN: Mode = mode(MvFormat::Frame, PictureStructure::Frame);

const F_CODES: RangeInclusive<u8> = 1..=9;
/// Some that are refused, also such as 4 to 7 bits of them would be taken.
const OTHER_F_CODES: [u8; 12] = [0, 10, 11, 15, 16, 17, 33, 65, 128, 129, 137, 255];

/// Some codes that the scope refuses, also such as 5, 8 or 16 bits of them would be taken.
const OTHER_CODES: [i32; 24] = [
    -17,
    17,
    -18,
    18,
    -31,
    32,
    33,
    -64,
    100,
    127,
    -128,
    128,
    -129,
    -253,
    255,
    256,
    256 + 3,
    -65_536 - 16,
    65_536 + 16,
    1 << 24,
    i32::MIN,
    i32::MIN + 1,
    i32::MAX - 1,
    i32::MAX,
];

/// Some priors that no wrap brings back, halved or not, also such as 16 bits of them would be.
const FAR_PRIORS: [i32; 10] = [
    i32::MIN,
    i32::MIN + 1,
    i32::MIN + 4095,
    -1_000_001,
    -65_536,
    65_536,
    999_999,
    i32::MAX - 4094,
    i32::MAX - 1,
    i32::MAX,
];

/// The scope's refusals of a component.
const REFUSALS: RangeInclusive<u8> = 1..=6;

/// Instead of a reach: all of i32.
const ANY: i32 = i32::MAX;

const OF_A_COMPONENT: &[u8] = &[0, 1, 2, 3, 4, 5, 6];
const OF_AN_UPDATE: &[u8] = &[0, 7, 8, 9, 10, 11, 12];

/// A call on the lent record has the number of the call by value, and ten.
const KINDS: &[Kind] = &[
    refusing("1", "compute_delta", 5, &[0, 1, 2, 3, 4]),
    refusing("2", "vector_range", 2, &[0, 1]),
    refusing("3", "reconstruct_component", 9, OF_A_COMPONENT),
    refusing("4", "decoded_motion_vector", 16, OF_A_COMPONENT),
    refusing("5", "reconstructed_motion_vector", 21, OF_A_COMPONENT),
    kind("6", "scale_chroma"),
    refusing("7", "updated_predictors", 16, OF_AN_UPDATE),
    kind("8", "spatial_temporal_reset_applied"),
    kind("9", "Pmv::with, Pmv::predictor"),
    kind("10", "Pmv::cleared"),
    kind("11", "Pmv::new"),
    refusing("14", "decode_motion_vector, lent", 16, OF_A_COMPONENT),
    refusing("15", "reconstruct_motion_vector, lent", 21, OF_A_COMPONENT),
    refusing("17", "update_predictors, lent", 16, OF_AN_UPDATE),
    kind("18", "apply_spatial_temporal_reset, lent"),
    kind("19", "Pmv::set, Pmv::get, lent"),
    kind("20", "Pmv::reset, lent"),
];

const FIELDS: &str = "\
Flags are 0 or 1. What is absent is a 0 with a 0 behind it; PRESENT is 1 where it is there.
Kinds are counted from 0 in the order of the original's enums. R: First, Second. S: Forward,
Backward. T: Horizontal, Vertical. FORMAT: Field, Frame. STRUCTURE: TopField, BottomField, Frame.
TYPE: FieldBased, FrameBased, SixteenByEight, DualPrime. CODING_TYPE: Intra, Predictive,
Bidirectional, DcIntra. CHROMA: Yuv420, Yuv422, Yuv444. OUTCOME: those of PmvUpdateOutcome.
P0 to P7 are the predictors before the call, PMV[r][s][t] at 4r + 2s + t; Q0 to Q7 are those after
it, also where it refuses. ANSWER is 0 or the refusal's number; what the call gives stands behind
it, and is 0 where refused.
1 CODE PRESENT RESIDUAL F_CODE ANSWER DELTA
  compute_delta.
2 F_CODE ANSWER LOW HIGH RANGE
  vector_range.
3 CODE PRESENT RESIDUAL F_CODE PRIOR FORMAT STRUCTURE T ANSWER VECTOR NEW_PMV DELTA RANGE
  reconstruct_component.
4 P0..P7 R S T CODE PRESENT RESIDUAL F_CODE ANSWER VECTOR NEW_PMV DELTA RANGE Q0..Q7
  decode_motion_vector.
5 P0..P7 R S CODE_H PRESENT_H RESIDUAL_H CODE_V PRESENT_V RESIDUAL_V F_CODE_H F_CODE_V FORMAT
  STRUCTURE ANSWER VECTOR_H NEW_PMV_H DELTA_H RANGE_H VECTOR_V NEW_PMV_V DELTA_V RANGE_V Q0..Q7
  reconstruct_motion_vector.
6 LUMA_H LUMA_V CHROMA CHROMA_H CHROMA_V
  scale_chroma, which gives LUMA_H and LUMA_V again.
7 P0..P7 STRUCTURE PRESENT TYPE FORWARD BACKWARD INTRA CONCEALMENT ANSWER OUTCOME Q0..Q7
  update_predictors.
8 P0..P7 CODING_TYPE CLASS APPLIED Q0..Q7
  apply_spatial_temporal_reset.
9 P0..P7 R S T VALUE GOT Q0..Q7
  Pmv::get, then Pmv::set to VALUE.
10 P0..P7 Q0..Q7
  Pmv::reset.
11 Q0..Q7
  Pmv::new.
14, 15, 17, 18, 19, 20
  4, 5, 7, 8, 9 and 10 with one record that is lent from line to line. It is new before the first of
  these lines; P0 to P7 are what it is then.";

pub fn list(edition: Edition) -> List {
    let seed = edition.seed(SEED);
    let made = format!(
        "Answers of the calls of src/pmv.rs
({ORIGINAL},
release build) to inputs drawn by splitmix64 from the seed {seed}.
The original refuses with texts: their numbers 1 and 3 to 12 are from docs/SCOPE.md, the scope.
So is all of 2, for a code outside -16..16, after 1 and before the rest: the original
takes such codes and is not asked about them. It has bytes for the codes of a vector. Where one
of the two is outside -16..16, it is asked for the components one by one, the horizontal one
first, and what it accepts is stored. Residuals are bytes, though some of its calls take more.
The last group is wrong on purpose."
    );
    let mut maker = Maker {
        list: List::new("vectors", "crates/replay_pmv/stdin", KINDS, &made, FIELDS),
        rng: Rng::new(seed),
        record: Fresh::ask().after,
    };
    scope_cases(&mut maker);
    f_codes(&mut maker);
    codes(&mut maker);
    residuals(&mut maker);
    deltas(&mut maker);
    sums(&mut maker);
    halves(&mut maker);
    far_priors(&mut maker);
    two_causes(&mut maker);
    drawn_components(&mut maker);
    decoded_components(&mut maker);
    vectors(&mut maker);
    refused_twice(&mut maker);
    refused_codes(&mut maker);
    drawn_vectors(&mut maker);
    chroma(&mut maker);
    updates(&mut maker);
    spatial_resets(&mut maker);
    records(&mut maker);
    runs(&mut maker);
    lent_places(&mut maker);
    lent_vectors(&mut maker);
    lent_updates(&mut maker);
    lent_runs(&mut maker);
    if edition.is_kept() {
        wrong_on_purpose(&mut maker);
    }
    maker.list
}

/// Which of a macroblock's vectors.
#[derive(Clone, Copy)]
struct Slot {
    r: VectorIndex,
    s: Direction,
}

impl Slot {
    fn place(self, t: Component) -> Place {
        let Self { r, s } = self;
        Place { r, s, t }
    }
}

const fn slot(r: VectorIndex, s: Direction) -> Slot {
    Slot { r, s }
}

fn all_places() -> impl Iterator<Item = Place> {
    SLOTS
        .into_iter()
        .flat_map(|slot| COMPONENTS.map(|t| slot.place(t)))
}

const fn mode(format: MvFormat, structure: PictureStructure) -> Mode {
    Mode { format, structure }
}

/// All modes, each with both components.
fn settings() -> impl Iterator<Item = (Mode, Component)> + Clone {
    MODES
        .into_iter()
        .flat_map(|mode| COMPONENTS.map(|t| (mode, t)))
}

fn is_halved((mode, t): (Mode, Component)) -> bool {
    mode == HALVING && t == Component::Vertical
}

const fn coded(code: i32, residual: Option<u8>, f_code: u8) -> Coded {
    Coded {
        code,
        residual,
        f_code,
    }
}

/// What a component is reconstructed from.
#[derive(Clone, Copy)]
struct Part {
    coded: Coded,
    prior: i32,
}

const fn part(coded: Coded, prior: i32) -> Part {
    Part { coded, prior }
}

/// The range of an f_code that is taken.
struct Range {
    low: i32,
    high: i32,
    range: i32,
}

impl Range {
    fn of(f_code: u8) -> Self {
        let (low, high, range) = vector_range(f_code).expect("the original takes this f_code");
        Self { low, high, range }
    }

    fn f(&self) -> i32 {
        self.range / 32
    }
}

/// All codes and residuals that give this delta.
fn codings(f_code: u8, delta: i32) -> Vec<Coded> {
    let f = Range::of(f_code).f();
    if f == 1 || delta == 0 {
        let code = CODES.contains(&delta).then(|| coded(delta, None, f_code));
        return code.into_iter().collect();
    }
    (1..=*CODES.end())
        .filter_map(|code| {
            let residual = delta.abs() - 1 - (code - 1) * f;
            let residual = u8::try_from(residual).ok()?;
            Some(coded(code * delta.signum(), Some(residual), f_code))
        })
        .collect()
}

/// The prior with which a delta makes this sum; if halved the even or the odd one.
fn prior(sum: i32, delta: i32, halved: bool, odd: bool) -> i32 {
    if halved {
        2 * (sum - delta) + i32::from(odd)
    } else {
        sum - delta
    }
}

/// The list under way.
struct Maker {
    list: List,
    rng: Rng,
    /// The record that the replay lends.
    record: Pmv,
}

impl Maker {
    fn delta(&mut self, coded: Coded) {
        self.list.case(Delta::ask(coded));
    }

    /// Reconstructs a component; its ANSWER.
    fn component(&mut self, part: Part, (mode, t): (Mode, Component)) -> u8 {
        let case = Reconstruction::ask(part.coded, part.prior, mode, t);
        self.list.case(&case);
        number(&case.answer)
    }

    /// Decodes a component among drawn predictors; its ANSWER.
    fn decode(&mut self, part: Part, place: Place) -> u8 {
        let before = self.draw_predictors(99, &[(place, part.prior)]);
        let case = Decoding::ask(before, place, part.coded);
        self.list.case(&case);
        number(&case.answer)
    }

    /// Reconstructs a vector among drawn predictors; its ANSWER.
    fn vector(&mut self, slot: Slot, mode: Mode, horizontal: Part, vertical: Part) -> u8 {
        self.vector_among(99, slot, mode, horizontal, vertical)
    }

    /// The same among predictors of this reach.
    fn vector_among(
        &mut self,
        reach: i32,
        slot: Slot,
        mode: Mode,
        horizontal: Part,
        vertical: Part,
    ) -> u8 {
        let fixed = [
            (slot.place(Component::Horizontal), horizontal.prior),
            (slot.place(Component::Vertical), vertical.prior),
        ];
        let before = self.draw_predictors(reach, &fixed);
        let case = vector_case(before, slot, mode, horizontal.coded, vertical.coded);
        self.list.case(&case);
        number(&case.answer)
    }

    fn draw_flag(&mut self) -> bool {
        self.rng.pick(&FLAGS)
    }

    fn draw_f_code(&mut self) -> u8 {
        self.rng.between(1, 9) as u8
    }

    /// Draws a code other than 0, and a residual.
    fn draw_with_residual(&mut self, f_code: u8) -> Coded {
        let code = self.rng.between(1, 16) * self.rng.pick(&[-1, 1]);
        coded(code, Some(self.rng.byte()), f_code)
    }

    fn draw_setting(&mut self) -> (Mode, Component) {
        (self.rng.pick(&MODES), self.rng.pick(&COMPONENTS))
    }

    /// Draws one of the codings of a delta, where there are any.
    fn draw_coding(&mut self, f_code: u8, delta: i32) -> Option<Coded> {
        let codings = codings(f_code, delta);
        (!codings.is_empty()).then(|| self.rng.pick(&codings))
    }

    /// Draws a coding and the prior with which it makes this sum.
    fn draw_sum(&mut self, f_code: u8, sum: i32, halved: bool) -> Part {
        let Range { low, high, .. } = Range::of(f_code);
        let delta = match self.rng.below(4) {
            0 => self.rng.pick(&[low, 0, high]),
            _ => self.rng.between(low, high),
        };
        let coded = self.draw_coding(f_code, delta);
        let odd = self.draw_flag();
        part(
            coded.expect("a delta in the range has codings"),
            prior(sum, delta, halved, odd),
        )
    }

    /// Draws what is accepted with this f_code: one in three at a limit of the wraps.
    fn draw_accepted(&mut self, f_code: u8, halved: bool) -> Part {
        let Range { low, high, range } = Range::of(f_code);
        let (first, last) = (low - range, high + range);
        let sum = match self.rng.below(3) {
            0 => self.rng.pick(&[first, low - 1, low, high, high + 1, last]),
            _ => self.rng.between(first, last),
        };
        self.draw_sum(f_code, sum, halved)
    }

    /// Draws the same, with an f_code that need not be one that is taken.
    fn draw_with_f_code(&mut self, f_code: u8, halved: bool) -> Part {
        if F_CODES.contains(&f_code) {
            return self.draw_accepted(f_code, halved);
        }
        let mut part = self.draw_part(ACCEPTED, halved);
        part.coded.f_code = f_code;
        part
    }

    /// Draws a coding whose delta is out of the range: half of them by one or two.
    fn draw_outside(&mut self, f_code: u8) -> Coded {
        let Range { low, high, .. } = Range::of(f_code);
        loop {
            let furthest = self.rng.pick(&[2, 255]);
            let step = self.rng.between(1, furthest);
            let delta = self.rng.pick(&[low - step, high + step]);
            if let Some(coded) = self.draw_coding(f_code, delta) {
                return coded;
            }
        }
    }

    /// Draws what is accepted, or refused with this number.
    fn draw_part(&mut self, answer: u8, halved: bool) -> Part {
        let f_code = self.draw_f_code();
        let mut part = self.draw_accepted(f_code, halved);
        let coded = &mut part.coded;
        match answer {
            ACCEPTED => {}
            1 => coded.f_code = self.rng.pick(&OTHER_F_CODES),
            CODE_OUTSIDE => coded.code = self.rng.pick(&OTHER_CODES),
            3 => {
                if f_code != 1 {
                    coded.code = 0;
                }
                coded.residual = Some(self.rng.byte());
            }
            4 => {
                let f_code = self.rng.between(2, 9) as u8;
                *coded = self.draw_with_residual(f_code);
                coded.residual = None;
            }
            5 => *coded = self.draw_outside(f_code),
            6 => {
                let Range { low, high, range } = Range::of(f_code);
                let sum = self.rng.pick(&[low - range - 1, high + range + 1]);
                if self.draw_flag() {
                    part = self.draw_sum(f_code, sum, halved);
                } else {
                    part.prior = self.rng.pick(&FAR_PRIORS);
                }
            }
            _ => unreachable!("no refusal of a component: {answer}"),
        }
        part
    }

    fn draw_number(&mut self, reach: i32) -> i32 {
        if reach == ANY {
            self.rng.next_u64() as i32
        } else {
            self.rng.between(-reach, reach)
        }
    }

    /// Draws eight predictors, those at the fixed places as given and the others different from
    /// all others and from 0: whatever is copied, kept or zeroed shows.
    fn draw_predictors(&mut self, reach: i32, fixed: &[(Place, i32)]) -> Pmv {
        let mut taken: Vec<i32> = fixed.iter().map(|(_, value)| *value).collect();
        taken.push(0);
        let mut pmv = Pmv::new();
        for place in all_places() {
            let given = fixed.iter().find(|(other, _)| *other == place);
            let value = match given {
                Some((_, value)) => *value,
                None => iter::repeat_with(|| self.draw_number(reach))
                    .find(|value| !taken.contains(value))
                    .expect("the draws do not end"),
            };
            taken.push(value);
            pmv.set(place.r, place.s, place.t, value);
        }
        pmv
    }
}

/// What is asked of the lent record, which is then what the call leaves.
impl Maker {
    /// Reads a predictor, and sets it.
    fn lend_to_set(&mut self, place: Place, value: i32) {
        let case = GetAndSet::ask(self.record, place, value);
        self.record = case.after;
        self.list.case(Lent(case));
    }

    /// Decodes a component, its predictor set before; its ANSWER.
    fn lend_to_decode(&mut self, part: Part, place: Place) -> u8 {
        self.lend_to_set(place, part.prior);
        let case = Decoding::ask(self.record, place, part.coded);
        let answer = number(&case.answer);
        self.record = case.after;
        self.list.case(Lent(case));
        answer
    }

    /// Reconstructs a vector; its ANSWER.
    fn lend_to_reconstruct(
        &mut self,
        slot: Slot,
        mode: Mode,
        horizontal: Coded,
        vertical: Coded,
    ) -> u8 {
        let case = vector_case(self.record, slot, mode, horizontal, vertical);
        let answer = number(&case.answer);
        self.record = case.after;
        self.list.case(Lent(case));
        answer
    }

    fn lend_to_update(&mut self, context: PmvUpdateContext) {
        let case = Update::ask(self.record, context);
        self.record = case.after;
        self.list.case(Lent(case));
    }

    fn lend_to_spatial_reset(&mut self, coding_type: PictureCodingType, class: u8) {
        let case = SpatialReset::ask(self.record, coding_type, class);
        self.record = case.after;
        self.list.case(Lent(case));
    }

    fn lend_to_reset(&mut self) {
        let case = Reset::ask(self.record);
        self.record = case.after;
        self.list.case(Lent(case));
    }

    /// Sets predictors until all eight differ and none is 0: whatever is copied, kept or zeroed
    /// shows.
    fn lend_until_distinct(&mut self) {
        let at = |pmv: &Pmv, Place { r, s, t }| pmv.get(r, s, t);
        for place in all_places() {
            let mut taken: Vec<i32> = all_places()
                .filter(|other| *other != place)
                .map(|other| at(&self.record, other))
                .collect();
            taken.push(0);
            if taken.contains(&at(&self.record, place)) {
                let value = iter::repeat_with(|| self.draw_number(99))
                    .find(|value| !taken.contains(value))
                    .expect("the draws do not end");
                self.lend_to_set(place, value);
            }
        }
    }
}

fn vector_case(
    before: Pmv,
    slot: Slot,
    mode: Mode,
    horizontal: Coded,
    vertical: Coded,
) -> VectorReconstruction {
    let Slot { r, s } = slot;
    let vector = Vector {
        r,
        s,
        horizontal,
        vertical,
        mode,
    };
    VectorReconstruction::ask(before, vector)
}

fn scope_cases(maker: &mut Maker) {
    const PARTS: [Part; 7] = [
        part(coded(16, None, 1), 0),
        part(coded(-16, None, 1), 0),
        part(coded(-16, None, 1), -16),
        part(coded(3, Some(1), 2), 30),
        part(coded(-16, Some(255), 9), 0),
        part(coded(0, None, 1), 47),
        part(coded(0, None, 1), 48),
    ];
    const HALVED: Part = part(coded(0, None, 1), -3);

    maker.list.group(
        "a. the scope's own, as deltas, as components, decoded and in vectors: f_code 1 and code 16;
code -16 with priors 0 and -16; f_code 2, code 3, residual 1, prior 30; f_code 9, code -16,
residual 255; code 0 with priors 47 and 48; the same prior -3 halved and not; a vector whose
vertical part is refused; chroma of (-3, -3)",
    );
    let first = slot(VectorIndex::First, Direction::Forward);
    let zero = part(coded(0, None, 1), 0);
    for part in PARTS {
        maker.delta(part.coded);
        for t in COMPONENTS {
            maker.component(part, (PLAIN, t));
            maker.decode(part, first.place(t));
        }
        maker.vector(first, PLAIN, part, zero);
        maker.vector(first, PLAIN, zero, part);
    }
    for setting in settings() {
        maker.component(HALVED, setting);
    }
    maker.decode(HALVED, first.place(Component::Vertical));
    for mode in MODES {
        maker.vector(first, mode, HALVED, HALVED);
    }
    let [.., refused] = PARTS;
    maker.vector(first, PLAIN, part(coded(5, None, 1), 7), refused);
    for format in CHROMA_FORMATS {
        maker.list.case(ChromaScaling::ask(-3, -3, format));
    }
}

fn f_codes(maker: &mut Maker) {
    const CODED: [(i32, Option<u8>); 3] = [(0, None), (1, None), (-16, Some(255))];

    maker.list.group(
        "b. every f_code: its range, deltas, and what is accepted or refused for it alone: components,
decoded ones, and vectors with it as the horizontal and as the vertical one",
    );
    for f_code in 0..=u8::MAX {
        maker.list.case(Limits::ask(f_code));
        for (code, residual) in CODED {
            maker.delta(coded(code, residual, f_code));
        }
        let setting = maker.draw_setting();
        let part = maker.draw_with_f_code(f_code, is_halved(setting));
        maker.component(part, setting);

        let part = maker.draw_with_f_code(f_code, false);
        let slot = maker.rng.pick(&SLOTS);
        let t = maker.rng.pick(&COMPONENTS);
        maker.decode(part, slot.place(t));

        let part = maker.draw_with_f_code(f_code, false);
        let other = maker.draw_part(ACCEPTED, false);
        maker.vector(slot, PLAIN, part, other);
        maker.vector(slot, PLAIN, other, part);
    }
}

fn codes(maker: &mut Maker) {
    maker.list.group(
        "c. every code of a byte, and others, with f_codes 0, 1, 2, 9 and 10, without a residual and
with one",
    );
    let bytes = i32::from(i8::MIN)..=i32::from(i8::MAX);
    let others = OTHER_CODES.into_iter().filter(|code| !bytes.contains(code));
    for code in bytes.clone().chain(others) {
        for f_code in [0, 1, 2, 9, 10] {
            maker.delta(coded(code, None, f_code));
            let residual = maker.rng.byte();
            maker.delta(coded(code, Some(residual), f_code));
        }
    }
}

fn residuals(maker: &mut Maker) {
    const LIMITS: [i32; 9] = [-16, -15, -2, -1, 0, 1, 2, 15, 16];

    maker.list.group(
        "d. residuals of 0, f - 1, f and 255, and none, with each f_code and codes at their limits;
every residual, with drawn f_codes and codes",
    );
    for f_code in F_CODES {
        let f = Range::of(f_code).f();
        // None is absent, and where f is not a byte it stands for it as well.
        let mut residuals = vec![None];
        residuals.extend([0, f - 1, f, 255].map(|residual| u8::try_from(residual).ok()));
        residuals.sort_unstable();
        residuals.dedup();
        for code in LIMITS {
            for residual in &residuals {
                maker.delta(coded(code, *residual, f_code));
            }
        }
    }
    for residual in 0..=u8::MAX {
        for _ in 0..2 {
            let f_code = maker.rng.between(2, 9) as u8;
            let mut coded = maker.draw_with_residual(f_code);
            coded.residual = Some(residual);
            maker.delta(coded);
        }
    }
}

fn deltas(maker: &mut Maker) {
    maker.list.group(
        "e. deltas at low and at high, one inside, and one and two outside where a residual gives them,
in up to two drawn codings; with priors 0 and the delta's opposite",
    );
    let mut settings = settings().cycle();
    for f_code in F_CODES {
        let Range { low, high, .. } = Range::of(f_code);
        let deltas = (low - 2..=low + 1).chain(-1..=1).chain(high - 1..=high + 2);
        for delta in deltas {
            let mut codings = codings(f_code, delta);
            maker.rng.shuffle(&mut codings);
            codings.truncate(2);
            for coded in codings {
                maker.delta(coded);
                for (prior, setting) in iter::zip([0, -delta], &mut settings) {
                    maker.component(part(coded, prior), setting);
                }
            }
        }
    }
}

fn sums(maker: &mut Maker) {
    maker.list.group(
        "f. sums at every limit of the wraps, and where a second wrap or a remainder would bring them
back, made of deltas at low, at high, of 0 and drawn ones: not halved, in all settings by
turns, and halved, of an even and of an odd prior",
    );
    let mut settings = settings().filter(|setting| !is_halved(*setting)).cycle();
    for f_code in F_CODES {
        let Range { low, high, range } = Range::of(f_code);
        for sum in [
            low - 2 * range,
            -2 * range,
            low - range - 1,
            low - range,
            low - range + 1,
            low - 1,
            low,
            low + 1,
            -1,
            0,
            high - 1,
            high,
            high + 1,
            high + range - 1,
            high + range,
            high + range + 1,
            2 * range,
            high + 2 * range,
        ] {
            for delta in [low, high, 0, maker.rng.between(low, high)] {
                let mut ask = |setting, odd| {
                    let coded = maker.draw_coding(f_code, delta);
                    let coded = coded.expect("a delta in the range has codings");
                    let prior = prior(sum, delta, is_halved(setting), odd);
                    maker.component(part(coded, prior), setting);
                };
                ask(settings.next().expect("they come by turns"), false);
                for odd in FLAGS {
                    ask((HALVING, Component::Vertical), odd);
                }
            }
        }
    }
}

fn halves(maker: &mut Maker) {
    maker
        .list
        .group("g. every setting, with priors of every sign and parity and code 0");
    for setting in settings() {
        for prior in -5..=5 {
            for f_code in [1, maker.draw_f_code()] {
                maker.component(part(coded(0, None, f_code), prior), setting);
            }
        }
    }
}

fn far_priors(maker: &mut Maker) {
    maker.list.group(
        "h. priors at the ends of i32, where the original's sum wraps, and others far out, with deltas
at low and at high, not halved and halved: 6",
    );
    for f_code in F_CODES {
        let Range { low, high, .. } = Range::of(f_code);
        for prior in FAR_PRIORS {
            for delta in [low, high] {
                let coded = maker.draw_coding(f_code, delta);
                let part = part(coded.expect("a delta in the range has codings"), prior);
                let t = maker.rng.pick(&COMPONENTS);
                for setting in [(PLAIN, t), (HALVING, Component::Vertical)] {
                    let answer = maker.component(part, setting);
                    assert_eq!(answer, 6, "the group says so");
                }
            }
        }
    }
}

fn two_causes(maker: &mut Maker) {
    /// The number of the first cause, and the part.
    const PARTS: [(u8, Part); 35] = [
        // 1 and 2.
        (1, part(coded(17, None, 0), 0)),
        (1, part(coded(-17, Some(3), 10), 0)),
        (1, part(coded(i32::MIN, Some(0), 255), 0)),
        // 1 and 3.
        (1, part(coded(0, Some(0), 0), 0)),
        (1, part(coded(0, Some(255), 10), 0)),
        // 1 and 4.
        (1, part(coded(5, None, 0), 0)),
        (1, part(coded(-5, None, 10), 0)),
        // 1 and 5, by any f.
        (1, part(coded(16, Some(255), 0), 0)),
        // 1 and 6.
        (1, part(coded(1, Some(1), 0), i32::MAX)),
        (1, part(coded(0, None, 15), i32::MIN)),
        // 2 and 3.
        (2, part(coded(17, Some(0), 1), 0)),
        (2, part(coded(-17, Some(255), 1), 0)),
        (2, part(coded(i32::MAX, Some(1), 1), 0)),
        // 2 and 4.
        (2, part(coded(17, None, 2), 0)),
        (2, part(coded(-17, None, 9), 0)),
        (2, part(coded(i32::MIN, None, 5), 0)),
        // 2 and 5.
        (2, part(coded(17, None, 1), 0)),
        (2, part(coded(-17, None, 1), 0)),
        (2, part(coded(17, Some(0), 9), 0)),
        (2, part(coded(-18, Some(1), 2), 0)),
        // 2 and 6.
        (2, part(coded(17, None, 1), i32::MAX)),
        (2, part(coded(-17, Some(0), 4), i32::MIN)),
        // 3 and 5.
        (3, part(coded(16, Some(0), 1), 0)),
        (3, part(coded(16, Some(255), 1), -16)),
        // 3 and 6.
        (3, part(coded(0, Some(1), 1), 1000)),
        (3, part(coded(0, Some(0), 9), i32::MAX)),
        (3, part(coded(-3, Some(7), 1), i32::MIN)),
        // 4 and 5, by most residuals.
        (4, part(coded(16, None, 2), 0)),
        (4, part(coded(-16, None, 3), 0)),
        // 4 and 6.
        (4, part(coded(1, None, 2), -1000)),
        (4, part(coded(-5, None, 9), i32::MAX)),
        // 5 and 6.
        (5, part(coded(16, None, 1), 1000)),
        (5, part(coded(16, Some(255), 9), i32::MAX)),
        (5, part(coded(-16, Some(2), 2), i32::MIN)),
        (5, part(coded(-1, Some(255), 4), -65_536)),
    ];

    maker.list.group(
        "i. two causes of refusal at once: the lower number comes first; as a delta where that tells, as
components, decoded, and in vectors as the horizontal one and as the vertical one",
    );
    for (first, part) in PARTS {
        let setting = maker.draw_setting();
        let slot = maker.rng.pick(&SLOTS);
        let t = maker.rng.pick(&COMPONENTS);
        let mode = maker.rng.pick(&MODES);
        let accepted = maker.draw_part(ACCEPTED, false);

        if first < 5 {
            maker.delta(part.coded);
        }
        let answers = [
            maker.component(part, (PLAIN, Component::Horizontal)),
            maker.component(part, (HALVING, Component::Vertical)),
            maker.component(part, setting),
            maker.decode(part, slot.place(t)),
        ];
        assert_eq!(answers, [first; 4], "the table says so");
        let answers = [
            maker.vector(slot, mode, part, accepted),
            maker.vector(slot, mode, accepted, part),
        ];
        assert_eq!(answers, [first; 2], "the table says so");
    }
}

fn drawn_components(maker: &mut Maker) {
    const ACCEPTED_EACH: usize = 30;
    const REFUSED_EACH: usize = 3;
    const ANY_EACH: usize = 5;

    maker.list.group(
        "j. drawn components in every setting: accepted, refused with each number, and of any i32 as the
prior",
    );
    for setting in settings() {
        let numbers = iter::repeat_n(ACCEPTED, ACCEPTED_EACH)
            .chain(REFUSALS.flat_map(|number| iter::repeat_n(number, REFUSED_EACH)));
        for number in numbers {
            let part = maker.draw_part(number, is_halved(setting));
            let answer = maker.component(part, setting);
            assert_eq!(answer, number, "drawn for it");
        }
        for _ in 0..ANY_EACH {
            let mut part = maker.draw_part(ACCEPTED, false);
            part.prior = maker.draw_number(ANY);
            maker.component(part, setting);
        }
    }
}

fn decoded_components(maker: &mut Maker) {
    maker.list.group(
        "k. components decoded at each place: with each f_code, refused with each number, of odd priors,
which are never halved, and of priors at the ends of i32",
    );
    for place in all_places() {
        for f_code in F_CODES {
            for _ in 0..2 {
                let part = maker.draw_accepted(f_code, false);
                maker.decode(part, place);
            }
        }
        for number in REFUSALS {
            for _ in 0..2 {
                let part = maker.draw_part(number, false);
                let answer = maker.decode(part, place);
                assert_eq!(answer, number, "drawn for it");
            }
        }
        for prior in [-3, 3, i32::MIN, i32::MAX] {
            maker.decode(part(coded(0, None, 1), prior), place);
        }
    }
}

fn vectors(maker: &mut Maker) {
    maker.list.group(
        "l. vectors of each index and direction, in every format and structure: accepted; the horizontal
part refused with each number; the vertical part refused with each number, so that the
horizontal predictor is new and stays",
    );
    for slot in SLOTS {
        for mode in MODES {
            let halved = is_halved((mode, Component::Vertical));
            let refused = REFUSALS.flat_map(|number| [(number, ACCEPTED), (ACCEPTED, number)]);
            for (first, second) in iter::once((ACCEPTED, ACCEPTED)).chain(refused) {
                let horizontal = maker.draw_part(first, false);
                let vertical = maker.draw_part(second, halved);
                let answer = maker.vector(slot, mode, horizontal, vertical);
                assert_eq!(answer, first.max(second), "drawn for it");
            }
        }
    }
}

fn refused_twice(maker: &mut Maker) {
    maker.list.group(
        "m. vectors with both parts refused, by every pair of numbers: the horizontal part's, and no
predictor changes",
    );
    for slot in SLOTS {
        for first in REFUSALS {
            for second in REFUSALS {
                let mode = maker.rng.pick(&MODES);
                let halved = is_halved((mode, Component::Vertical));
                let horizontal = maker.draw_part(first, false);
                let vertical = maker.draw_part(second, halved);
                let answer = maker.vector(slot, mode, horizontal, vertical);
                assert_eq!(answer, first, "drawn for it");
            }
        }
    }
}

fn refused_codes(maker: &mut Maker) {
    maker.list.group(
        "n. codes outside -16..16, also beyond a byte: components, decoded ones, and in vectors as the
horizontal code, as the vertical one, and as both",
    );
    for code in OTHER_CODES {
        let setting = maker.draw_setting();
        let mode = maker.rng.pick(&MODES);
        let halved = is_halved((mode, Component::Vertical));
        let slot = maker.rng.pick(&SLOTS);
        let t = maker.rng.pick(&COMPONENTS);
        let [mut outside, mut halved_outside] =
            [false, halved].map(|halved| maker.draw_part(ACCEPTED, halved));
        outside.coded.code = code;
        halved_outside.coded.code = code;
        let horizontal = maker.draw_part(ACCEPTED, false);
        let vertical = maker.draw_part(ACCEPTED, halved);

        maker.component(outside, setting);
        maker.decode(outside, slot.place(t));
        maker.vector(slot, mode, outside, vertical);
        maker.vector(slot, mode, horizontal, halved_outside);
        maker.vector(slot, mode, outside, halved_outside);
    }
}

fn drawn_vectors(maker: &mut Maker) {
    const DRAWN: usize = 400;

    maker
        .list
        .group("o. drawn vectors, one in eight of the parts refused, among larger predictors");
    for _ in 0..DRAWN {
        let slot = maker.rng.pick(&SLOTS);
        let mode = maker.rng.pick(&MODES);
        let [horizontal, vertical] = COMPONENTS.map(|t| {
            let number = match maker.rng.below(8) {
                0 => maker.rng.between(1, 6) as u8,
                _ => ACCEPTED,
            };
            maker.draw_part(number, is_halved((mode, t)))
        });
        maker.vector_among(8192, slot, mode, horizontal, vertical);
    }
}

fn chroma(maker: &mut Maker) {
    const ENDS: [i32; 4] = [i32::MIN, i32::MIN + 1, i32::MAX - 1, i32::MAX];
    const DRAWN: usize = 40;

    maker
        .list
        .group("p. chroma of every sign and parity, of the ends of i32, and of drawn vectors");
    let components: Vec<i32> = (-4..=4).chain(ENDS).collect();
    let mut vectors: Vec<(i32, i32)> = components
        .iter()
        .flat_map(|horizontal| components.iter().map(|vertical| (*horizontal, *vertical)))
        .collect();
    for drawn in 0..DRAWN {
        let reach = if drawn % 2 == 0 { 4096 } else { ANY };
        vectors.push((maker.draw_number(reach), maker.draw_number(reach)));
    }
    for (horizontal, vertical) in vectors {
        for format in CHROMA_FORMATS {
            let case = ChromaScaling::ask(horizontal, vertical, format);
            maker.list.case(case);
        }
    }
}

/// Every structure, type, absent or not, and setting of the four flags.
fn contexts() -> Vec<PmvUpdateContext> {
    const TYPES: [Option<PredictionType>; 5] = [
        None,
        Some(PredictionType::FieldBased),
        Some(PredictionType::FrameBased),
        Some(PredictionType::SixteenByEight),
        Some(PredictionType::DualPrime),
    ];

    let mut contexts = Vec::new();
    for picture_structure in STRUCTURES {
        for prediction_type in TYPES {
            for flags in 0..16 {
                contexts.push(PmvUpdateContext {
                    picture_structure,
                    prediction_type,
                    macroblock_motion_forward: flags & 8 != 0,
                    macroblock_motion_backward: flags & 4 != 0,
                    macroblock_intra: flags & 2 != 0,
                    concealment_motion_vectors: flags & 1 != 0,
                });
            }
        }
    }
    contexts
}

fn updates(maker: &mut Maker) {
    maker.list.group(
        "q. updates in every context, each of four records of predictors: in three of them all eight
differ, none is 0, and one has the ends of i32; in the last some are equal",
    );
    for context in contexts() {
        let mut places: Vec<Place> = all_places().collect();
        maker.rng.shuffle(&mut places);
        let ends = [(places[0], i32::MIN), (places[1], i32::MAX)];
        for before in [
            maker.draw_predictors(9, &[]),
            maker.draw_predictors(8192, &[]),
            maker.draw_predictors(ANY, &ends),
            draw_alike(maker),
        ] {
            maker.list.case(Update::ask(before, context));
        }
    }
}

/// Draws predictors of which most are equal or 0.
fn draw_alike(maker: &mut Maker) -> Pmv {
    let mut pmv = Pmv::new();
    let value = maker.rng.between(-64, 64);
    for Place { r, s, t } in all_places() {
        let value = maker.rng.pick(&[0, value, -value]);
        pmv.set(r, s, t, value);
    }
    pmv
}

fn spatial_resets(maker: &mut Maker) {
    maker
        .list
        .group("r. spatial resets by every weight class in every type of picture");
    for class in 0..=u8::MAX {
        for coding_type in CODING_TYPES {
            let before = maker.draw_predictors(9, &[]);
            let case = SpatialReset::ask(before, coding_type, class);
            maker.list.case(case);
        }
    }
}

fn records(maker: &mut Maker) {
    maker.list.group(
        "s. the record itself: each predictor read and set, to values up to the ends of i32; resets,
also where one predictor alone is not 0; a new record",
    );
    for place in all_places() {
        for value in [0, 1, -1, i32::MIN, i32::MAX] {
            let before = maker.draw_predictors(9, &[]);
            maker.list.case(GetAndSet::ask(before, place, value));
        }
        for reach in [8192, ANY] {
            let before = maker.draw_predictors(reach, &[]);
            let value = maker.draw_number(reach);
            maker.list.case(GetAndSet::ask(before, place, value));
        }
    }
    for Place { r, s, t } in all_places() {
        let mut alone = Pmv::new();
        alone.set(r, s, t, maker.rng.between(1, 99));
        maker.list.case(Reset::ask(alone));
    }
    for reach in [9, 99, 8192, ANY] {
        let before = maker.draw_predictors(reach, &[]);
        maker.list.case(Reset::ask(before));
    }
    maker.list.case(Reset::ask(Pmv::new()));
    maker.list.case(Fresh::ask());
}

fn runs(maker: &mut Maker) {
    const RUNS: usize = 15;

    maker.list.group(
        "t. runs from new predictors, as macroblocks follow in a slice: the vectors of each, then the
update, each on what the case before left",
    );
    for run in 0..RUNS {
        let mut pmv = Fresh::ask().after;
        for macroblock in draw_slice(maker, STRUCTURES[run % STRUCTURES.len()]) {
            for (slot, mode, [horizontal, vertical]) in macroblock.vectors {
                let case = vector_case(pmv, slot, mode, horizontal, vertical);
                pmv = case.after;
                maker.list.case(case);
            }
            let case = Update::ask(pmv, macroblock.context);
            pmv = case.after;
            maker.list.case(case);
        }
    }
}

/// What a macroblock asks of the predictors: its vectors, then the update.
struct Macroblock {
    vectors: Vec<(Slot, Mode, [Coded; 2])>,
    context: PmvUpdateContext,
}

/// Draws the macroblocks of a slice, each as the tables have it.
fn draw_slice(maker: &mut Maker, structure: PictureStructure) -> Vec<Macroblock> {
    const MACROBLOCKS: usize = 12;

    let accepted = |context: &PmvUpdateContext| {
        context.picture_structure == structure && Update::ask(Pmv::new(), *context).answer.is_ok()
    };
    let contexts: Vec<PmvUpdateContext> = contexts().into_iter().filter(accepted).collect();
    let f_codes = SLOTS.map(|_| maker.draw_f_code());
    let mut draw = || {
        let context = maker.rng.pick(&contexts);
        let coded = |slot: Slot| {
            let components =
                COMPONENTS.map(|t| draw_as_coded(maker, f_codes[2 * slot.s.index() + t.index()]));
            (slot, mode(format(context), structure), components)
        };
        Macroblock {
            vectors: coded_slots(context).into_iter().map(coded).collect(),
            context,
        }
    };
    iter::repeat_with(&mut draw).take(MACROBLOCKS).collect()
}

/// The vectors that a macroblock has.
fn coded_slots(context: PmvUpdateContext) -> Vec<Slot> {
    let two = match context.prediction_type {
        Some(PredictionType::SixteenByEight) => true,
        Some(PredictionType::FieldBased) => context.picture_structure == PictureStructure::Frame,
        _ => false,
    };
    let intra = context.macroblock_intra;
    let has = |slot: &Slot| match slot.s {
        _ if slot.r == VectorIndex::Second && (intra || !two) => false,
        Direction::Forward if intra => context.concealment_motion_vectors,
        Direction::Forward => context.macroblock_motion_forward,
        Direction::Backward => context.macroblock_motion_backward,
    };
    SLOTS.into_iter().filter(has).collect()
}

fn format(context: PmvUpdateContext) -> MvFormat {
    let frame = context.picture_structure == PictureStructure::Frame;
    match context.prediction_type {
        None if frame => MvFormat::Frame,
        Some(PredictionType::FrameBased) => MvFormat::Frame,
        _ => MvFormat::Field,
    }
}

/// Draws a component as streams have it: with a residual below f, where there is one.
fn draw_as_coded(maker: &mut Maker, f_code: u8) -> Coded {
    let f = Range::of(f_code).f();
    let code = maker.rng.between(-16, 16);
    let residual = maker.rng.between(0, f - 1) as u8;
    let present = f != 1 && code != 0;
    coded(code, present.then_some(residual), f_code)
}

fn lent_places(maker: &mut Maker) {
    maker.list.group(
        "u. the lent record, new at first: each predictor read and set, up to the ends of i32",
    );
    for value in [1, -1, i32::MIN, i32::MAX, 0] {
        for place in all_places() {
            maker.lend_to_set(place, value);
        }
    }
    for reach in [ANY, 8192] {
        for place in all_places() {
            let value = maker.draw_number(reach);
            maker.lend_to_set(place, value);
        }
    }
}

fn lent_vectors(maker: &mut Maker) {
    maker.list.group(
        "v. components decoded with the lent record at each place, accepted and refused with each number;
vectors of each index and direction, accepted in every format and structure, and in a drawn one
with the horizontal part refused with each number, the vertical part, and both. Their predictors
are set before",
    );
    for place in all_places() {
        for number in iter::once(ACCEPTED).chain(REFUSALS) {
            let part = maker.draw_part(number, false);
            let answer = maker.lend_to_decode(part, place);
            assert_eq!(answer, number, "drawn for it");
        }
    }
    for slot in SLOTS {
        let accepted = MODES.map(|mode| (mode, ACCEPTED, ACCEPTED));
        let refused = REFUSALS.flat_map(|number| {
            let other = REFUSALS.end() + 1 - number;
            [(number, ACCEPTED), (ACCEPTED, number), (number, other)]
        });
        let refused: Vec<_> = refused
            .map(|(first, second)| (maker.rng.pick(&MODES), first, second))
            .collect();
        for (mode, first, second) in accepted.into_iter().chain(refused) {
            let halved = is_halved((mode, Component::Vertical));
            let horizontal = maker.draw_part(first, false);
            let vertical = maker.draw_part(second, halved);
            maker.lend_to_set(slot.place(Component::Horizontal), horizontal.prior);
            maker.lend_to_set(slot.place(Component::Vertical), vertical.prior);
            let answer = maker.lend_to_reconstruct(slot, mode, horizontal.coded, vertical.coded);
            let expected = if first == ACCEPTED { second } else { first };
            assert_eq!(answer, expected, "drawn for it");
        }
    }
}

fn lent_updates(maker: &mut Maker) {
    const CLASSES: [u8; 6] = [0, 1, 3, 4, 5, 255];
    const RESETS: usize = 3;

    maker.list.group(
        "w. the lent record updated in every context, and reset: by weight classes in every type of
picture, and at once. Where two predictors are equal or one is 0, it is set before",
    );
    for context in contexts() {
        maker.lend_until_distinct();
        maker.lend_to_update(context);
    }
    for class in CLASSES {
        for coding_type in CODING_TYPES {
            maker.lend_until_distinct();
            maker.lend_to_spatial_reset(coding_type, class);
        }
    }
    for _ in 0..RESETS {
        maker.lend_until_distinct();
        maker.lend_to_reset();
    }
}

fn lent_runs(maker: &mut Maker) {
    const RUNS: usize = 9;

    maker
        .list
        .group("x. runs as in t with the lent record, which each begins with a reset");
    for run in 0..RUNS {
        maker.lend_to_reset();
        for macroblock in draw_slice(maker, STRUCTURES[run % STRUCTURES.len()]) {
            for (slot, mode, [horizontal, vertical]) in macroblock.vectors {
                maker.lend_to_reconstruct(slot, mode, horizontal, vertical);
            }
            maker.lend_to_update(macroblock.context);
        }
    }
}

fn wrong_on_purpose(maker: &mut Maker) {
    maker.list.group(
        "y. wrong on purpose, so that the expected output shows that the comparison can fail. A case of
each kind: a delta without its sign; high as 16f; prior 48 reduced modulo 32; the new predictor
in the other component's place; the horizontal predictor restored after a vertical refusal;
chroma floored; second copied to first; a reset in an I picture; the other component read; a
predictor that a reset leaves; a new predictor that is not 0. Wrong numbers: 3 where 2 is
right; 1 for an f_code that is taken, and 2 where 1 is right; 6 where 5 is right, also decoded; 4
for a component that is accepted; the vertical part's 5 where both are refused; 8 where 7 is
right. Off by one: every other value of a call, a predictor after it, and each of the eight after
a reset. Of the lent record: what it is before a call; a predictor read, and one set; 4 for a
component that is accepted; the horizontal predictor restored; a delta; the record unchanged by
an update, and the outcome of another context; a reset that is not made, and one that leaves a
predictor. Lines that set the lent record before these are right",
    );
    let mut signless = Delta::ask(coded(-3, Some(1), 2));
    signless.answer = Ok([6]);
    maker.list.case(signless);

    let mut high = Limits::ask(3);
    high.answer = Ok([-64, 64, 128]);
    maker.list.case(high);

    let beyond = coded(0, None, 1);
    let mut reduced = Reconstruction::ask(beyond, 48, PLAIN, Component::Horizontal);
    reduced.answer = Ok([-16, -16, 0, 32]);
    maker.list.case(reduced);

    let [first, second] = [VectorIndex::First, VectorIndex::Second];
    let [forward, backward] = [Direction::Forward, Direction::Backward];
    let [horizontal, vertical] = COMPONENTS;
    let place = slot(second, forward).place(vertical);
    let before = maker.draw_predictors(15, &[(place, 3)]);
    let mut elsewhere = Decoding::ask(before, place, coded(5, None, 1));
    elsewhere.after = before;
    elsewhere.after.set(second, forward, horizontal, 8);
    maker.list.case(elsewhere);

    let last = slot(second, backward);
    let fixed = [(last.place(horizontal), 3), (last.place(vertical), 48)];
    let before = maker.draw_predictors(15, &fixed);
    let mut restored = vector_case(before, last, PLAIN, coded(5, None, 1), coded(0, None, 1));
    restored.after = before;
    maker.list.case(restored);

    let mut floored = ChromaScaling::ask(-3, -3, ChromaFormat::Yuv420);
    floored.chroma.0 = -2;
    maker.list.case(floored);

    let context = PmvUpdateContext {
        picture_structure: PictureStructure::Frame,
        prediction_type: Some(PredictionType::FrameBased),
        macroblock_motion_forward: false,
        macroblock_motion_backward: true,
        macroblock_intra: false,
        concealment_motion_vectors: false,
    };
    let before = maker.draw_predictors(99, &[]);
    let mut backwards = Update::ask(before, context);
    backwards.after = before;
    for t in COMPONENTS {
        let value = before.get(second, backward, t);
        backwards.after.set(first, backward, t, value);
    }
    maker.list.case(backwards);

    let before = maker.draw_predictors(99, &[]);
    let mut intra = SpatialReset::ask(before, PictureCodingType::Intra, 4);
    intra.after = Pmv::new();
    maker.list.case(intra);

    let before = maker.draw_predictors(99, &[]);
    let mut other = GetAndSet::ask(before, slot(first, backward).place(horizontal), 7);
    other.got = before.get(first, backward, vertical);
    maker.list.case(other);

    let mut left = Reset::ask(before);
    let value = before.get(second, backward, vertical);
    left.after.set(second, backward, vertical, value);
    maker.list.case(left);

    let mut fresh = Fresh::ask();
    fresh.after.set(first, forward, horizontal, 1);
    maker.list.case(fresh);

    wrong_numbers(maker, context);
    wrong_values(maker, context);
    wrong_lent(maker, context);
}

fn wrong_numbers(maker: &mut Maker, context: PmvUpdateContext) {
    let place = slot(VectorIndex::First, Direction::Forward).place(Component::Vertical);
    let before = maker.draw_predictors(9, &[]);

    let mut delta = Delta::ask(coded(17, Some(0), 1));
    delta.answer = Err(3);
    maker.list.case(delta);

    for (f_code, number) in [(9, 1), (0, 2)] {
        let mut limits = Limits::ask(f_code);
        limits.answer = Err(number);
        maker.list.case(limits);
    }

    let mut component = Reconstruction::ask(coded(16, None, 1), 48, PLAIN, Component::Vertical);
    component.answer = Err(6);
    maker.list.case(component);

    for (code, number) in [(coded(1, Some(0), 2), 4), (coded(16, None, 1), 6)] {
        let mut decoding = Decoding::ask(before, place, code);
        decoding.answer = Err(number);
        maker.list.case(decoding);
    }

    let [horizontal, vertical] = [coded(2, None, 2), coded(16, None, 1)];
    let mut vector = vector_case(before, SLOTS[0], PLAIN, horizontal, vertical);
    vector.answer = Err(5);
    maker.list.case(vector);

    let mut update = Update::ask(
        before,
        PmvUpdateContext {
            prediction_type: None,
            macroblock_intra: true,
            ..context
        },
    );
    update.answer = Err(8);
    maker.list.case(update);
}

fn wrong_values(maker: &mut Maker, context: PmvUpdateContext) {
    let place = slot(VectorIndex::First, Direction::Forward).place(Component::Vertical);
    let Place { r, s, t } = place;
    let off = |pmv: &mut Pmv| pmv.set(r, s, t, pmv.get(r, s, t) + 1);
    let before = maker.draw_predictors(15, &[]);

    for value in [0, 2] {
        let mut limits = Limits::ask(4);
        raise(&mut limits.answer, value);
        maker.list.case(limits);
    }

    for value in 0..4 {
        let mut component = Reconstruction::ask(coded(-7, Some(3), 3), 21, HALVING, t);
        raise(&mut component.answer, value);
        maker.list.case(component);
    }

    let decoding = || Decoding::ask(before, place, coded(9, Some(5), 5));
    for value in 0..4 {
        let mut decoding = decoding();
        raise(&mut decoding.answer, value);
        maker.list.case(decoding);
    }
    let mut after = decoding();
    off(&mut after.after);
    maker.list.case(after);

    let [horizontal, vertical] = [coded(4, Some(1), 2), coded(-5, Some(2), 3)];
    let vector = || vector_case(before, SLOTS[0], HALVING, horizontal, vertical);
    for value in 0..8 {
        let mut vector = vector();
        raise(&mut vector.answer, value);
        maker.list.case(vector);
    }
    let mut after = vector();
    off(&mut after.after);
    maker.list.case(after);

    let mut chroma = ChromaScaling::ask(5, -6, ChromaFormat::Yuv422);
    chroma.chroma.1 += 1;
    maker.list.case(chroma);

    let mut update = Update::ask(before, context);
    raise(&mut update.answer, 0);
    maker.list.case(update);

    let mut reset = SpatialReset::ask(before, PictureCodingType::Bidirectional, 4);
    reset.applied = false;
    maker.list.case(reset);

    let mut set = GetAndSet::ask(before, place, 11);
    off(&mut set.after);
    maker.list.case(set);

    for Place { r, s, t } in all_places() {
        let mut reset = Reset::ask(before);
        reset.after.set(r, s, t, 1);
        maker.list.case(reset);
    }
}

/// The record goes on as the original leaves it, whatever the line says.
fn wrong_lent(maker: &mut Maker, context: PmvUpdateContext) {
    let slot = slot(VectorIndex::Second, Direction::Backward);
    let [horizontal, vertical] = COMPONENTS.map(|t| slot.place(t));
    let Place { r, s, t } = vertical;
    let off = |pmv: &mut Pmv| pmv.set(r, s, t, pmv.get(r, s, t) + 1);
    maker.lend_until_distinct();
    maker.lend_to_set(horizontal, 3);

    let mut before = GetAndSet::ask(maker.record, vertical, 48);
    maker.record = before.after;
    off(&mut before.before);
    maker.list.case(Lent(before));

    let mut got = GetAndSet::ask(maker.record, vertical, 48);
    got.got = 3;
    maker.list.case(Lent(got));

    let mut set = GetAndSet::ask(maker.record, vertical, 48);
    off(&mut set.after);
    maker.list.case(Lent(set));

    let mut number = Decoding::ask(maker.record, horizontal, coded(0, None, 1));
    number.answer = Err(4);
    maker.list.case(Lent(number));

    let [five, zero] = [coded(5, None, 1), coded(0, None, 1)];
    let mut restored = vector_case(maker.record, slot, PLAIN, five, zero);
    mem::swap(&mut maker.record, &mut restored.after);
    maker.list.case(Lent(restored));

    let mut vector = vector_case(maker.record, slot, HALVING, zero, coded(-9, None, 1));
    maker.record = vector.after;
    raise(&mut vector.answer, 6);
    maker.list.case(Lent(vector));

    let mut update = Update::ask(maker.record, context);
    mem::swap(&mut maker.record, &mut update.after);
    maker.list.case(Lent(update));

    maker.lend_until_distinct();
    let mut outcome = Update::ask(maker.record, context);
    maker.record = outcome.after;
    raise(&mut outcome.answer, 0);
    maker.list.case(Lent(outcome));

    let mut class = SpatialReset::ask(maker.record, PictureCodingType::Predictive, 3);
    class.applied = true;
    maker.list.case(Lent(class));

    maker.lend_until_distinct();
    let mut reset = Reset::ask(maker.record);
    let kept = maker.record.get(r, s, t);
    maker.record = reset.after;
    reset.after.set(r, s, t, kept);
    maker.list.case(Lent(reset));
}

fn raise<const N: usize>(answer: &mut Answer<N>, value: usize) {
    let values = answer.as_mut().expect("the case is accepted");
    values[value] += 1;
}
