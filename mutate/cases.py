"""Cases that judge the definitions, as modules of equations which the prover computes: a selection of the lists' lines; the worked cases
of docs/SCOPE.md, which worked_cases has, and the runs and steps of worked_runs; and for what no list has, placing and the C buffers, cases
from an account of it here and in placing.py."""

import os
import re
import struct

import placing

# ---- the lists


def read_list(repository, name):
    """the cases of a list, but for those that are wrong on purpose: group, fields"""
    group, wrong, found = "", False, []
    with open(os.path.join(repository, "crates", "replay_" + name, "stdin")) as lines:
        for line in lines:
            m = re.match(r"# ([a-z])\. (.*)", line)
            if m:
                group, wrong = m.group(1), m.group(2).startswith("wrong on purpose")
            elif not line.startswith("#") and line.strip() and not wrong:
                found.append((group, line.split()))
    return found


def selection(cases, signature, each, most):
    """of the cases with one signature the first few, and of all these at most so many, evenly"""
    seen, kept = {}, []
    for case in cases:
        s = signature(case)
        if s is None:
            continue
        seen[s] = seen.get(s, 0) + 1
        if seen[s] <= each:
            kept.append(case)
    if not kept:
        raise ValueError("a selection of a list's cases is empty: have its groups other letters now?")
    if len(kept) > most:
        kept = [kept[i * len(kept) // most] for i in range(most)]
    return kept


# ---- terms


def z(v):
    v = int(v)
    return f"(pos {v})" if v >= 0 else f"(negsuc {-v - 1})"


def lst(values):
    return "(" + " ∷ ".join([str(v) for v in values] + ["[]"]) + ")"


def flag(v):
    return "true" if int(v) else "false"


# the reasons by their numbers, each under the name of its enum
REASONS = {
    "AveragingRefusal": {18: "WrongLength", 19: "LengthsDiffer"},
    "FormingRefusal": {14: "OutsideDomain", 18: "WrongLength"},
    "VectorRefusal": {1: "FCodeOutside", 2: "CodeOutside", 3: "ResidualForbidden", 4: "ResidualMissing", 5: "DeltaOutside", 6: "VectorOutside"},
    "UpdateRefusal": {
        7: "IntraWithMotion", 8: "TypeMissing", 9: "FrameBasedInField", 10: "SixteenByEightInFrame", 11: "DualPrimeFlags", 12: "NoneRowFlags",
    },
    "PredictionRefusal": {
        13: "CellTooFar", 14: "OutsideDomain", 15: "OtherGeometry", 16: "ForwardMissing", 17: "BackwardMissing", 18: "WrongLength",
    },
    "PlacingRefusal": {14: "OutsideDomain", 18: "WrongLength", 20: "IllFormed"},
}  # fmt: skip


def reason(enum, number):
    return f"{enum}.{REASONS[enum][int(number)]}"


def said(enum, number, value):
    """what a call answers: its value, or where the number is not 0 that reason"""
    return f"Err {reason(enum, number)}" if int(number) else f"Ok {value}"


def optional(number, value):
    """the value of an answer, if it has one"""
    return "None" if int(number) else f"Some {value}"


def hexed(text):
    return [] if text == "-" else list(bytes.fromhex(text))


class Module:
    """equations of one layer; each must hold by computation"""

    def __init__(self, head, unfolding):
        self.head, self.unfolding, self.parts, self.count = head, unfolding, [], 0

    def define(self, text):
        self.parts.append(text)

    def case(self, *equations):
        self.count += 1
        name = f"case{self.count}"
        claim = " × ".join(f"({e})" for e in equations)
        proof = "refl" if len(equations) == 1 else "(" + ", ".join("refl" for _ in equations) + ")"
        unfolding = f"unfolding {self.unfolding}\n" if self.unfolding else ""
        self.parts.append(f"pub {name} : {claim}\n{unfolding}{name} = {proof}")

    def text(self, every=1):
        """the module, or one with every few cases alone and what they need"""
        kept, n = [], 0
        for part in reversed(self.parts):
            if part.startswith("pub case"):
                n += 1
                if n % every == 0:
                    kept.append(part)
            elif every == 1 or any(re.search(rf"(?<!\w){name}(?!\w)", k) for name in re.findall(r"^abbrev (\S+) :", part, re.M) for k in kept):
                kept.append(part)
        return COMMON + self.head.strip() + "\n\n" + "\n\n".join(reversed(kept)) + "\n"


COMMON = """use mathlib.Core.Path.{◌≡◌, refl}
use mathlib.Core.Bool.{Bool, true, false, cond}
use mathlib.Core.List.{List, [], ◌∷◌, ◌++◌}
use Rattle.std.specs.Prelude.{Option, None, Some, Result, Ok, Err}
use Prim.Native.Nat.{ℕ, zero, suc, ◌+◌, ◌-◌, ◌*◌, ◌/◌, ◌%◌, ◌^◌}
use lib.IntN.{ℤ, pos, negsuc}
use lib.ListN.{length, get_or, replicate}
use Rattle.laws.specs.Tabulate.{tabulate}
use Rattle.combine_predictions.specs.Refusals.{answered, value_unless, unless_refused, refusal_number}
"""

LENT = """-- a plane with its samples; where these lie says nothing
abbrev plane : ℕ → ℕ → List ℕ → ReferencePlane
plane w h samples = record { sides = record { width = w; height = h }; samples = record { ref_ptr = (0, 0); now = samples } }"""

FILLED = """-- what a buffer of n bytes holds before a call
abbrev filled : ℕ → ℕ → List ℕ
filled first n = tabulate n (λ (k : ℕ). (first + k) % 256)"""


# ---- averaging


def averaging(repository):
    m = Module(
        """
use Rattle.std.specs.Borrow.{Bor}
use Rattle.combine_predictions.specs.Refusals.{averaging_number}
use Rattle.combine_predictions.specs.Averaging.{averaged, average_refusal, average_answer}
use Rattle.combine_predictions.specs.Choosing.{chosen}
use Rattle.combine_predictions.specs.declared.AveragingRefusal.TheVariants as AveragingRefusal
use Rattle.combine_predictions.specs.declared.PredictionDirection.TheVariants.{Forward, Backward, Skipped}
""",
        "tabulate",
    )
    m.define(FILLED)
    cases = read_list(repository, "combine_predictions")
    for group, c in selection([x for x in cases if x[1][0] == "1"], lambda x: (x[0], x[1][5], len(x[1][1]) < 60), 4, 40):
        forward, backward, answer = hexed(c[1]), hexed(c[2]), int(c[5])
        lengths = f"{len(forward)} {len(backward)} {c[4]}"
        after = f"unless_refused (average_refusal {lengths}) (averaged {lst(forward)} {lst(backward)}) (filled {c[3]} {c[4]})"
        m.case(
            f"average_answer {lengths} ≡ {said('AveragingRefusal', answer, 'tt')}",
            f"refusal_number averaging_number (average_refusal {lengths}) ≡ {answer}",
            f"{after} ≡ {lst(hexed(c[6]))}",
        )
    directions = {"0": "Forward", "1": "Backward", "3": "Skipped"}
    for group, c in selection([x for x in cases if x[1][0] == "2" and x[1][2] != x[1][3]], lambda x: x[1][1], 1, 9):
        side = "f" if c[4] == c[2] else "b"
        m.count += 1
        m.parts.append(f"pub case{m.count} : (f b : Bor (List ℕ)) → chosen {directions[c[1]]} f b ≡ {side}\ncase{m.count} f b = refl")
    return m


# ---- forming


LINES = {"0": "(field Top)", "1": "(field Bottom)", "2": "frame"}


def side(v, n):
    return 0 if v < 0 else 1 if v == 0 else 2 if v < n - 1 else 3 if v == n - 1 else 4 if v == n else 5


def forming(repository):
    m = Module(
        """
use Rattle.forming_predictions.specs.Splitting.{floor_half, half_flag, IsSplit, horizontal_half, vertical_half}
use Rattle.forming_predictions.specs.Lines.{frame, field, field_lines, clamp_to, row_of, sample_at}
use Rattle.forming_predictions.specs.Means.{rounded}
use Rattle.forming_predictions.specs.Forming.{combined, formed, block_of, predicted_block}
use Rattle.forming_predictions.specs.Refusals.{forming_number, plane_fits, position_fits, block_side_fits, plane_refusal, sample_refusal, block_refusal}
use Rattle.forming_predictions.specs.Planes.{lines_by, read_at, plane_refused, sample_refused, block_refused}
use Rattle.forming_predictions.specs.declared.ReferencePlane.{ReferencePlane}
use Rattle.forming_predictions.specs.declared.ComponentSplit.{ComponentSplit}
use Rattle.forming_predictions.specs.declared.FieldParity.TheVariants.{Top, Bottom}
use Rattle.forming_predictions.specs.declared.HalfPattern.TheVariants.{Integer, HalfHorizontal, HalfVertical, HalfBoth}
use Rattle.forming_predictions.specs.declared.FormingRefusal.TheVariants as FormingRefusal
""",
        "tabulate floor_half half_flag field_lines clamp_to row_of sample_at combined formed block_of plane_fits position_fits block_side_fits "
        "sample_refusal block_refusal",
    )
    m.define(LENT)
    m.define(FILLED)
    m.case("lines_by None ≡ frame", "lines_by (Some Top) ≡ field Top", "lines_by (Some Bottom) ≡ field Bottom")
    cases = read_list(repository, "forming_predictions")
    patterns = ["Integer", "HalfHorizontal", "HalfVertical", "HalfBoth"]
    plane, planes = (0, 0, []), {}
    called = []
    for group, c in cases:
        if c[0] == "5":
            plane = (int(c[1]), int(c[2]), hexed(c[3]))
        elif c[0] == "6":
            plane = (int(c[1]), int(c[2]), [(int(c[4]) + k) % 256 for k in range(int(c[3]))])
        else:
            called.append((group, c, plane))
    kind = lambda k: [x for x in called if x[1][0] == k]
    for group, c, _ in selection(kind("1"), lambda x: (int(x[1][1]) < 0, int(x[1][1]) % 4, len(x[1][1]) // 4), 2, 30):
        split = f"record {{ int_vec = {z(c[2])}; half_flag = {flag(c[3])} }}"
        m.case(f"floor_half {z(c[1])} ≡ {z(c[2])}", f"half_flag {z(c[1])} ≡ {flag(c[3])}")
        if abs(int(c[1])) < 4:
            m.count += 1
            m.parts.append(f"pub case{m.count} : IsSplit {z(c[1])} ({split})\nunfolding floor_half half_flag\ncase{m.count} = (refl, refl)")
    for group, c, _ in selection(kind("3"), lambda x: tuple(x[1]), 1, 4):
        m.case(f"horizontal_half {patterns[int(c[3])]} ≡ {flag(c[1])}", f"vertical_half {patterns[int(c[3])]} ≡ {flag(c[2])}")
    for group, c, _ in selection(kind("4"), lambda x: x[1][1] if len(x[1][1]) < 3 else len(x[1][1]), 1, 30):
        m.case(f"field_lines Top {c[1]} ≡ {c[2]}", f"field_lines Bottom {c[1]} ≡ {c[3]}")

    def named(plane):
        w, h, samples = plane
        if len(samples) > 600:
            return None
        key = (w, h, bytes(samples))
        if key not in planes:
            planes[key] = f"plane{len(planes)}"
            m.define(f"abbrev {planes[key]} : ReferencePlane\n{planes[key]} = plane {w} {h} {lst(samples)}")
        return planes[key]

    def shape(x):
        group, c, (w, h, s) = x
        lines = h if c[1] == "2" else (h + 1) // 2 if c[1] == "0" else h // 2
        return (c[1], side(int(c[2]), w), side(int(c[3]), lines), min(w, 2), min(h, 2))

    few = lambda x: len(x[2][2]) <= 600
    for x in selection([x for x in kind("7") if few(x)], lambda x: shape(x) + (x[1][4],), 1, 70):
        group, c, (w, h, s) = x
        refusal, value = f"(plane_refused {named(x[2])})", f"(read_at {LINES[c[1]]} {named(x[2])} {z(c[2])} {z(c[3])})"
        m.case(
            f"answered {refusal} {value} ≡ {said('FormingRefusal', c[4], c[5])}",
            f"refusal_number forming_number {refusal} ≡ {c[4]}",
            f"value_unless {refusal} {value} ≡ {optional(c[4], c[5])}",
        )
    halves = lambda c: (int(c[4]) % 2, int(c[5]) % 2)
    for x in selection([x for x in kind("8") if few(x)], lambda x: (x[1][1], x[1][6], halves(x[1]), x[0], int(x[1][4]) < 0), 1, 90):
        group, c, (w, h, s) = x
        value = f"formed rounded (read_at {LINES[c[1]]} {named(x[2])}) {z(c[2])} {z(c[3])} {z(c[4])} {z(c[5])}"
        call = f"answered (sample_refused {named(x[2])} {z(c[2])} {z(c[3])}) ({value})"
        m.case(f"{call} ≡ {said('FormingRefusal', c[6], c[7])}")
    numbers = lambda x: (len(x[2][2]), x[2][0], x[2][1], tuple(x[1][2:4]))
    for x in selection(kind("8"), lambda x: (x[1][6],) + numbers(x) if x[0] in "klmo" else None, 1, 90):
        group, c, (w, h, s) = x
        m.case(f"refusal_number forming_number (sample_refusal {w} {h} {len(s)} {z(c[2])} {z(c[3])}) ≡ {c[6]}")
    for x in selection(kind("7"), lambda x: (x[2][0], x[2][1], len(x[2][2])) if x[0] in "kl" else None, 1, 60):
        group, c, (w, h, s) = x
        m.case(f"refusal_number forming_number (plane_refusal {w} {h} {len(s)}) ≡ {c[4]}")
    block = lambda c: (int(c[6]) % 2, int(c[7]) % 2)
    small = lambda x: few(x) and int(x[1][9]) <= 40
    for x in selection([x for x in kind("9") if small(x)], lambda x: (x[1][1], x[1][10], block(x[1]), x[0]), 1, 60):
        group, c, (w, h, s) = x
        call = f"block_refused {named(x[2])} {z(c[2])} {z(c[3])} {c[4]} {c[5]} {c[9]}"
        value = f"predicted_block rounded (read_at {LINES[c[1]]} {named(x[2])}) {c[4]} {c[5]} {z(c[2])} {z(c[3])} {z(c[6])} {z(c[7])}"
        if int(c[4]) * int(c[5]) > 64:
            value = "[]"
        after = f"unless_refused ({call}) ({value}) (filled {c[8]} {c[9]})"
        m.case(f"answered {{A = Unit {{0}}}} ({call}) tt ≡ {said('FormingRefusal', c[10], 'tt')}", f"{after} ≡ {lst(hexed(c[11]))}")
    limits = lambda x: (x[1][10],) + tuple(x[1][2:6]) + (int(x[1][9]) - int(x[1][4]) * int(x[1][5]),) + (x[2][0], x[2][1], len(x[2][2]))
    for x in selection(kind("9"), lambda x: limits(x) if x[0] in "klmnopq" else None, 1, 160):
        group, c, (w, h, s) = x
        m.case(f"refusal_number forming_number (block_refusal {w} {h} {len(s)} {z(c[2])} {z(c[3])} {c[4]} {c[5]} {c[9]}) ≡ {c[10]}")
    return m


# ---- vectors and predictors


KINDS = {  # the kinds in the order of the header's numbers: type, its values, and what the definitions call it
    "VectorIndex": (["First", "Second"], "index"),
    "Direction": (["Forward", "Backward"], "direction"),
    "Component": (["Horizontal", "Vertical"], "component"),
    "MvFormat": (["Field", "Frame"], "format"),
    "PictureStructure": (["TopField", "BottomField", "Frame"], "structure"),
    "PredictionType": (["FieldBased", "FrameBased", "SixteenByEight", "DualPrime"], "type"),
    "ChromaFormat": (["Yuv420", "Yuv422", "Yuv444"], "chroma"),
    "FieldParity": (["Top", "Bottom"], "parity"),
    "PictureCodingType": (["Intra", "Predictive", "Bidirectional", "DcIntra"], "coding"),
}
HEADER = {  # what the header calls a type, and its values
    "VectorIndex": ("vector_index", ["FIRST", "SECOND"]),
    "Direction": ("direction", ["FORWARD", "BACKWARD"]),
    "Component": ("component", ["HORIZONTAL", "VERTICAL"]),
    "MvFormat": ("mv_format", ["FIELD_VECTOR", "FRAME_VECTOR"]),
    "PictureStructure": ("picture_structure", ["TOP_FIELD_PICTURE", "BOTTOM_FIELD_PICTURE", "FRAME_PICTURE"]),
    "PredictionType": ("prediction_type", ["FIELD_BASED", "FRAME_BASED", "SIXTEEN_BY_EIGHT", "DUAL_PRIME"]),
    "ChromaFormat": ("chroma_format", ["YUV420", "YUV422", "YUV444"]),
    "FieldParity": ("field_parity", ["TOP", "BOTTOM"]),
}
OUTCOMES = (
    "IntraConcealmentCopyForwardFirst IntraResetAll NonIntraCopyBoth NonIntraCopyForward NonIntraCopyBackward NonIntraZeroMotionReset "
    "NoUpdate DualPrimeCopyForward"
).split()


def kind_of(name, number):
    return f"{name}.{KINDS[name][0][int(number)]}"


def residual(present, value):
    return f"(Some {value})" if int(present) else "None"


PMV_HEAD = """
use Rattle.forming_predictions.specs.Splitting.{floor_half}
use Rattle.pmv.specs.Delta.{scale, is_plain, delta, f_code_fits, code_fits, f_code_refusal, code_refusal, delta_refusal}
use Rattle.pmv.specs.Component.{range_of, halves, wrapped, from_delta, from_delta_refusal, delta_of, component_of, component_refusal}
use Rattle.pmv.specs.Chroma.{trunc_half, scaled}
use Rattle.pmv.specs.Predictors.{predictor, stored, zeroed, pair_of, pair_stored, first_copied}
use Rattle.pmv.specs.Vector.{ported, decoded, part, part_refusal, reconstructed_pair, vector_refusal, components, reconstructed}
use Rattle.pmv.specs.Update.{decided_refusal, decided_outcome, update_refusal, update_outcome, outcome_number, updated, spatial_temporal_reset}
use Rattle.pmv.specs.Refusals.{vector_number, update_number}
use Rattle.pmv.specs.declared.component.VectorRefusal.TheVariants as VectorRefusal
use Rattle.pmv.specs.declared.component.VectorRange.{VectorRange}
use Rattle.pmv.specs.declared.component.ReconstructedComponent.{ReconstructedComponent}
use Rattle.pmv.specs.declared.vector.MotionVector.{MotionVector}
use Rattle.pmv.specs.declared.update.PmvUpdateContext.{PmvUpdateContext}
use Rattle.pmv.specs.declared.update.PmvUpdateOutcome.TheVariants as Outcome
use Rattle.pmv.specs.declared.update.UpdateRefusal.TheVariants as UpdateRefusal
use Rattle.pmv.specs.declared.predictors.Pmv.{Pmv}
use Rattle.pmv.specs.declared.kinds.PredictionType.{PredictionType}
use Rattle.pmv.specs.declared.kinds.PictureStructure.{PictureStructure}
""" + "".join(f"use Rattle.pmv.specs.declared.kinds.{name}.TheVariants as {name}\n" for name in KINDS if name != "FieldParity")
PMV_UNFOLDING = (
    "floor_half scale is_plain delta f_code_fits code_fits code_refusal delta_refusal range_of halves wrapped from_delta from_delta_refusal trunc_half "
    "scaled decoded reconstructed_pair reconstructed decided_refusal decided_outcome updated spatial_temporal_reset"
)
PMV_HELP = """abbrev eight : ℤ → ℤ → ℤ → ℤ → ℤ → ℤ → ℤ → ℤ → Pmv
eight a b c d e f g h = record { values = a ∷ b ∷ c ∷ d ∷ e ∷ f ∷ g ∷ h ∷ [] }

abbrev range : ℤ → ℤ → ℤ → VectorRange
range a b c = record { low = a; high = b; range = c }

abbrev component : ℤ → ℤ → ℤ → ℤ → ReconstructedComponent
component v p d r = record { vector_prime = v; new_pmv = p; delta = d; range = r }

abbrev vector : ℤ → Option ℕ → ℤ → Option ℕ → MotionVector
vector h rh v rv = record { motion_code_horiz = h; motion_residual_horiz = rh; motion_code_vert = v; motion_residual_vert = rv }

abbrev context : PictureStructure → Option PredictionType → Bool → Bool → Bool → Bool → PmvUpdateContext
context p t f b i c = record { picture_structure = p; prediction_type = t; macroblock_motion_forward = f; macroblock_motion_backward = b; macroblock_intra = i; concealment_motion_vectors = c }"""


def eight(fields):
    return "(eight " + " ".join(z(f) for f in fields) + ")"


def pmv(repository):
    m = Module(PMV_HEAD, PMV_UNFOLDING)
    m.define(PMV_HELP)
    cases = read_list(repository, "pmv")
    kind = lambda k: [(g, [int(v) for v in c]) for g, c in cases if c[0] == str(k)]
    for g, c in selection(kind(1), lambda x: (x[0], x[1][5], min(x[1][4], 11), (x[1][1] > 0) - (x[1][1] < 0)), 1, 120):
        _, code, there, value, f, answer, d = c
        words = f"{f} {z(code)} {residual(there, value)}"
        m.case(
            f"answered (delta_refusal {words}) (delta_of {words}) ≡ {said('VectorRefusal', answer, z(d))}",
            f"refusal_number vector_number (delta_refusal {words}) ≡ {answer}",
        )
    for g, c in selection(kind(2), lambda x: min(x[1][1], 12), 1, 13):
        _, f, answer, low, high, span = c
        value = f"(range {z(low)} {z(high)} {z(span)})"
        m.case(f"answered (f_code_refusal {f}) (range_of (scale {f})) ≡ {said('VectorRefusal', answer, value)}")

    def component(values):
        return "(component " + " ".join(z(v) for v in values) + ")"

    for g, c in selection(kind(3), lambda x: (x[0], x[1][9], tuple(x[1][6:9]), x[1][5] % 2), 1, 220):
        _, code, there, value, f, prior, format, structure, t, answer = c[:10]
        kinds = f"{kind_of('MvFormat', format)} {kind_of('PictureStructure', structure)} {kind_of('Component', t)}"
        words = f"{f} {z(code)} {residual(there, value)} {z(prior)} (halves {kinds})"
        m.case(f"answered (component_refusal {words}) (component_of {words}) ≡ {said('VectorRefusal', answer, component(c[10:14]))}")
    for g, c in selection(kind(4), lambda x: (x[0], tuple(x[1][9:12]), x[1][16]), 1, 60):
        r, s, t = kind_of("VectorIndex", c[9]), kind_of("Direction", c[10]), kind_of("Component", c[11])
        words = f"{eight(c[1:9])} {r} {s} {t} {c[15]} {z(c[12])} {residual(c[13], c[14])} false"
        m.case(
            f"(decoded {words} ported).answer ≡ {said('VectorRefusal', c[16], component(c[17:21]))}",
            f"(decoded {words} ported).pmv ≡ {eight(c[21:29])}",
            f"refusal_number vector_number (part_refusal {words} ported) ≡ {c[16]}",
        )
    vectors = selection(kind(5), lambda x: (x[0], x[1][21], x[1][9], x[1][10], x[1][19], x[1][20] == 2), 1, 100)
    # the vertical component alone is halved: priors that would be accepted halved
    vectors += [x for x in kind(5) if x[0] == "l" and x[1][19:22] == [0, 2, 6] and x not in vectors]
    for g, c in vectors:
        r, s = kind_of("VectorIndex", c[9]), kind_of("Direction", c[10])
        mv = f"(vector {z(c[11])} {residual(c[12], c[13])} {z(c[14])} {residual(c[15], c[16])})"
        value = f"(record {{ horizontal = {component(c[22:26])}; vertical = {component(c[26:30])} }})"
        words = f"{c[17]} {c[18]} {kind_of('MvFormat', c[19])} {kind_of('PictureStructure', c[20])}"
        call = f"reconstructed {eight(c[1:9])} {mv} {r} {s} {words} ported"
        m.case(
            f"({call}).answer ≡ {said('VectorRefusal', c[21], value)}",
            f"({call}).pmv ≡ {eight(c[30:38])}",
            f"refusal_number vector_number (vector_refusal (pair_of {eight(c[1:9])} {r} {s}) {mv} {words} ported) ≡ {c[21]}",
        )
    for g, c in selection(kind(6), lambda x: (x[1][3], x[1][1] % 4, x[1][1] < 0, x[1][2] % 4 == x[1][1] % 4), 1, 48):
        chroma = kind_of("ChromaFormat", c[3])
        m.case(
            f"scaled {z(c[1])} {z(c[2])} {chroma} ≡ record {{ luma_horiz = {z(c[1])}; luma_vert = {z(c[2])}; "
            f"chroma_horiz = {z(c[4])}; chroma_vert = {z(c[5])} }}"
        )
    distinct = lambda c: len(set(c[1:9])) == 8 and 0 not in c[1:9]
    for g, c in selection([x for x in kind(7) if distinct(x[1])], lambda x: tuple(x[1][9:16]), 1, 300):
        type = f"(Some {kind_of('PredictionType', c[11])})" if c[10] else "None"
        x = f"(context {kind_of('PictureStructure', c[9])} {type} {' '.join(flag(v) for v in c[12:16])})"
        m.case(
            f"(updated {eight(c[1:9])} {x}).answer ≡ {said('UpdateRefusal', c[16], 'Outcome.' + OUTCOMES[c[17]])}",
            f"(updated {eight(c[1:9])} {x}).pmv ≡ {eight(c[18:26])}",
            f"refusal_number update_number (update_refusal {x}) ≡ {c[16]}",
        )
    for n, name in enumerate(OUTCOMES):
        m.case(f"outcome_number Outcome.{name} ≡ {n}")
    for g, c in selection([x for x in kind(8) if distinct(x[1])], lambda x: (x[1][9], min(x[1][10], 6)), 1, 40):
        call = f"spatial_temporal_reset {eight(c[1:9])} {kind_of('PictureCodingType', c[9])} {c[10]}"
        m.case(f"({call}).applied ≡ {flag(c[11])}", f"({call}).pmv ≡ {eight(c[12:20])}")
    for g, c in selection([x for x in kind(9) if distinct(x[1])], lambda x: tuple(x[1][9:12]), 1, 8):
        place = " ".join([kind_of("VectorIndex", c[9]), kind_of("Direction", c[10]), kind_of("Component", c[11])])
        m.case(f"predictor {eight(c[1:9])} {place} ≡ {z(c[13])}", f"stored {eight(c[1:9])} {place} {z(c[12])} ≡ {eight(c[14:22])}")
    for g, c in kind(11)[:1]:
        m.case(f"zeroed ≡ {eight(c[1:9])}")
    return m


# ---- macroblocks


FRAMES_HEAD = """
use Rattle.std.specs.Prelude.{is_some}
use Rattle.forming_predictions.specs.Splitting.{floor_half, half_flag}
use Rattle.forming_predictions.specs.Lines.{field_lines, clamp_to, row_of, sample_at}
use Rattle.forming_predictions.specs.Forming.{combined, formed}
use Rattle.forming_predictions.specs.Means.{rounded}
use Rattle.forming_predictions.specs.Refusals.{plane_fits}
use Rattle.forming_predictions.specs.declared.ReferencePlane.{ReferencePlane}
use Rattle.forming_predictions.specs.declared.FieldParity.TheVariants as FieldParity
use Rattle.forming_predictions.specs.declared.FieldParity.{FieldParity}
use Rattle.pmv.specs.Chroma.{trunc_half}
use Rattle.pmv.specs.declared.kinds.ChromaFormat.TheVariants as ChromaFormat
use Rattle.pmv.specs.declared.kinds.ChromaFormat.{ChromaFormat}
use Rattle.inter_reconstruction.specs.Components.{ColourComponent, luma, cb, cr}
use Rattle.inter_reconstruction.specs.Motion.{remaining, frame_wanted, field_wanted, frame_uses, field_uses}
use Rattle.inter_reconstruction.specs.Macroblock.{field_sample, direction_sample, used_sample, rectangle, macroblock, predicted}
use Rattle.inter_reconstruction.specs.Refusals.{prediction_number, same_geometry, planes_fit, prediction_refusal}
use Rattle.inter_reconstruction.specs.Answers.{prediction_directions, accepted, refusal_among, refusal_from, prediction_from}
use Rattle.inter_reconstruction.specs.declared.motion.UsedDirections.TheVariants as Used
use Rattle.inter_reconstruction.specs.declared.frames.FrameGeometry.{FrameGeometry}
use Rattle.inter_reconstruction.specs.declared.frames.FrameSides.{FrameSides}
use Rattle.inter_reconstruction.specs.declared.frames.FrameBuffer.{FrameBuffer}
use Rattle.inter_reconstruction.specs.declared.macroblock.PredictionRefusal.TheVariants as PredictionRefusal
use Rattle.inter_reconstruction.specs.declared.motion.MotionVectorPel.{MotionVectorPel}
use Rattle.inter_reconstruction.specs.declared.motion.FieldVector.{FieldVector}
use Rattle.inter_reconstruction.specs.declared.motion.FieldVectorPair.{FieldVectorPair}
use Rattle.inter_reconstruction.specs.declared.motion.Motion.{Motion}
"""
FRAMES_UNFOLDING = (
    "tabulate floor_half half_flag field_lines clamp_to row_of sample_at combined formed plane_fits trunc_half field_sample direction_sample used_sample "
    "rectangle macroblock same_geometry planes_fit"
)
FRAMES_HELP = """abbrev geometry : ℕ → ℕ → ChromaFormat → FrameGeometry
geometry w h f = record { width = w; height = h; chroma_format = f }

abbrev sides : FrameGeometry → ℕ → ℕ → ℕ → ℕ → ℕ → ℕ → FrameSides
sides g yw yh bw bh rw rh = record { geometry = g; y = record { width = yw; height = yh }; cb = record { width = bw; height = bh }; cr = record { width = rw; height = rh } }

abbrev absent : Option FrameSides
absent = None

abbrev buffer : FrameGeometry → ReferencePlane → ReferencePlane → ReferencePlane → FrameBuffer
buffer g y b r = record { geometry = g; y = y; cb = b; cr = r }

abbrev no_buffer : Option FrameBuffer
no_buffer = None

abbrev vector : ℤ → ℤ → MotionVectorPel
vector h v = record { horizontal = h; vertical = v }

abbrev fieldVector : ℤ → ℤ → FieldParity → FieldVector
fieldVector h v p = record { vector = vector h v; reference_field = p }

abbrev frame_direction : ℤ → ℤ → Option MotionVectorPel
frame_direction h v = Some (vector h v)

abbrev field_direction : FieldVector → FieldVector → Option FieldVectorPair
field_direction t b = Some (record { top = t; bottom = b })

abbrev frameMotion : Option MotionVectorPel → Option MotionVectorPel → Motion MotionVectorPel
frameMotion f b = record { forward = f; backward = b }

abbrev fieldMotion : Option FieldVectorPair → Option FieldVectorPair → Motion FieldVectorPair
fieldMotion f b = record { forward = f; backward = b }

abbrev lengths : ℕ → ℕ → ℕ → ColourComponent → ℕ
lengths a b c luma = a
lengths a b c cb = b
lengths a b c cr = c"""


USED = {"1": "Used.Forward", "2": "Used.Backward", "3": "Used.Both"}


def plane_samples(seed, count):
    out = []
    for _ in range(count):
        seed = (seed * 1103515245 + 12345) % 2**31
        out.append(seed // 2**16 % 256)
    return out


class Macroblocks:
    """the calls of the macroblocks list, with the planes that each is given"""

    def __init__(self, repository):
        planes = {"0": None, "1": None}
        self.calls = []
        for group, c in read_list(repository, "inter_reconstruction"):
            if c[0] == "1":
                planes[c[1]] = [int(v) for v in c[2:]]
            else:
                self.calls.append((group, c, planes["0"], planes["1"]))

    @staticmethod
    def sides(p):
        return [p[0], p[1], p[3], p[4], p[6], p[7]]

    @staticmethod
    def size(p):
        return p[2] + p[5] + p[8]

    @staticmethod
    def samples(p):
        s = plane_samples(p[9], p[2] + p[5] + p[8])
        return s[: p[2]], s[p[2] : p[2] + p[5]], s[p[2] + p[5] :]


def small_motion(x):
    """which directions there are, and the remainders of the first vector by four"""
    c = x[1]
    return (c[13], c[16] if c[0] == "2" else c[20], int(c[14]) % 4, int(c[15]) % 4)


def macroblocks(repository):
    m = Module(FRAMES_HEAD, FRAMES_UNFOLDING)
    m.define(LENT)
    m.define(FRAMES_HELP)
    m.define(FILLED)
    calls = Macroblocks(repository)
    planes = {}

    def named(p):
        key = tuple(p)
        if key not in planes:
            planes[key] = f"planes{len(planes)}"
            three = " ".join(f"(plane {p[3 * k]} {p[3 * k + 1]} {lst(samples)})" for k, samples in enumerate(Macroblocks.samples(p)))
            m.define(f"abbrev {planes[key]} : FrameGeometry → FrameBuffer\n{planes[key]} g = buffer g {three}")
        return planes[key]

    def geometry(c):
        return f"(geometry {c[0]} {c[1]} {kind_of('ChromaFormat', c[2])})"

    # a reference without samples; with those that the list gives it; with as many, all alike
    def reference(c, p):
        return "absent" if c[0] == "0" else f"(Some (sides {geometry(c[1:])} {' '.join(map(str, Macroblocks.sides(p)))}))"

    def held(c, p):
        return "no_buffer" if c[0] == "0" else f"(Some ({named(p)} {geometry(c[1:])}))"

    def grey(c, p):
        three = " ".join(f"(plane {p[k]} {p[k + 1]} (replicate {p[k + 2]} 7))" for k in (0, 3, 6))
        return "no_buffer" if c[0] == "0" else f"(Some (buffer {geometry(c[1:])} {three}))"

    def parts(c):
        if c[0] == "2":
            direction = lambda d: f"(frame_direction {z(d[1])} {z(d[2])})" if int(d[0]) else "None"
            return f"frame_uses (frameMotion {direction(c[14:17])} {direction(c[17:20])})", c[20:]
        vector = lambda v: f"(fieldVector {z(v[0])} {z(v[1])} {kind_of('FieldParity', v[2])})"
        direction = lambda d: f"(field_direction {vector(d[1:4])} {vector(d[4:7])})" if int(d[0]) else "None"
        return f"field_uses (fieldMotion {direction(c[14:21])} {direction(c[21:28])})", c[28:]

    def tail(c):
        return c[20:] if c[0] == "2" else c[28:]

    no_planes = [0] * 10

    def call(c, f, b):
        """the refusal from sides and lengths, the directions used, and the rest of the line"""
        uses, rest = parts(c)
        f, b = f or no_planes, b or no_planes
        forward, backward = reference(c[4:8], f), reference(c[8:12], b)
        u = f"({uses} (is_some {forward}) (is_some {backward}))"
        lengths = [f"(lengths {p[2]} {p[5]} {p[8]})" for p in (f, b)]
        refusal = f"prediction_refusal {geometry(c[1:])} {rest[1]} {forward} {lengths[0]} {backward} {lengths[1]} {u} {c[12]} {c[13]}"
        return refusal, u, rest

    def call_by(c, forward, backward):
        """the same from references that hold their samples; the refusal of these alone; the macroblock"""
        uses, rest = parts(c)
        u = f"({uses} (is_some {forward}) (is_some {backward}))"
        refusal = f"refusal_from {geometry(c[1:])} {rest[1]} {forward} {backward} {u} {c[12]} {c[13]}"
        among = f"refusal_among {geometry(c[1:])} {forward} {backward} {u}"
        return refusal, among, f"prediction_from {kind_of('ChromaFormat', c[3])} {forward} {backward} {u} {c[12]} {c[13]}", rest

    few = lambda x: sum(Macroblocks.size(p) for p in x[2:] if p) <= 2100
    # what is refused, from numbers alone
    signature = lambda x: (x[0], x[1][0], tail(x[1])[2], tuple(x[1][1:14]), tuple(x[2] or [])[:9], tuple(x[3] or [])[:9])
    for group, c, f, b in selection(calls.calls, lambda x: signature(x) if x[0] in "abdemnqrstw" else None, 1, 260):
        refusal, u, rest = call(c, f, b)
        answer = int(rest[2])
        used = "" if answer else USED[rest[3]]
        told = f"(answered ({refusal}) (accepted {u}))"
        wanted = u.replace("_uses (", "_wanted (", 1).replace(" (is_some", ") (is_some", 1)
        m.case(
            f"{told} ≡ {said('PredictionRefusal', answer, f'(record {{ directions = {used} }})')}",
            f"refusal_number prediction_number ({refusal}) ≡ {answer}",
            f"prediction_directions {told} ≡ {optional(answer, used)}",
            f"remaining ({wanted[1:-1]} ≡ {u}",
        )
        if few((group, c, f, b)):
            refusal, among, _, _ = call_by(c, grey(c[4:8], f), grey(c[8:12], b))
            # 13 and 18 are of the cell and of the output
            numbers = [f"refusal_number prediction_number ({r}) ≡ {answer}" for r in ([refusal] if answer in (13, 18) else [refusal, among])]
            m.case(*numbers)
    several = selection([x for x in calls.calls if x[0] == "u"], lambda x: tuple(x[1][1:14]) + tuple(tail(x[1])[1:3]), 1, 150)
    several += selection([x for x in calls.calls if x[0] == "v"], lambda x: 0, len(calls.calls), len(calls.calls))
    for group, c, f, b in several:
        refusal, _, rest = call(c, f, b)
        m.case(f"refusal_number prediction_number ({refusal}) ≡ {rest[2]}")
    # and samples, some of each macroblock
    small = [x for x in calls.calls if x[2] and x[3] and few(x) and tail(x[1])[2] == "0"]
    directions = lambda c: (c[14], c[17] if c[0] == "2" else c[21])
    halves = lambda c: (int(c[15]) % 4, int(c[16]) % 4)
    taken = selection([x for x in small if x[0] in "ceghj"], lambda x: (x[0], x[1][0], x[1][3], directions(x[1])), 1, 40)
    taken += selection([x for x in small if x[0] in "dkp"], lambda x: (x[1][0], directions(x[1]), halves(x[1])), 1, 20)
    for n, (group, c, f, b) in enumerate(taken):
        refusal, _, value, rest = call_by(c, held(c[4:8], f), held(c[8:12], b))
        after = hexed(rest[4])
        if not after:
            continue
        m.define(f"abbrev block{n} : List ℕ\nblock{n} = unless_refused ({refusal}) ({value}) (filled {rest[0]} {rest[1]})")
        chroma = (len(after) - 256) // 2
        spots = [0, 17 + n % 7, 256 + n % chroma, 256 + chroma - 1, 256 + chroma + (11 * n) % chroma, len(after) - 1, (37 * n) % 256]
        m.case(*[f"get_or block{n} {k} 0 ≡ {after[k]}" for k in sorted(set(spots))], f"length block{n} ≡ {len(after)}")
    return m


# ---- placing, by the account of it


def placings(repository):
    m = Module(
        """
use Rattle.forming_predictions.specs.Refusals.{plane_fits}
use Rattle.pmv.specs.declared.kinds.ChromaFormat.TheVariants as ChromaFormat
use Rattle.pmv.specs.declared.kinds.ChromaFormat.{ChromaFormat}
use Rattle.inter_reconstruction.specs.Components.{ColourComponent, luma, cb, cr}
use Rattle.inter_reconstruction.specs.Frames.{Samples, samples_of}
use Rattle.inter_reconstruction.specs.Refusals.{planes_fit}
use Rattle.inter_reconstruction.specs.Placing.{stored, placed, picture_fits, well_formed, placing_refusal, placing_number}
use Rattle.inter_reconstruction.specs.declared.frames.FrameGeometry.{FrameGeometry}
use Rattle.inter_reconstruction.specs.declared.frames.FrameSides.{FrameSides}
use Rattle.inter_reconstruction.specs.declared.placing.PlacingRefusal.TheVariants as PlacingRefusal
""",
        "tabulate stored plane_fits planes_fit picture_fits well_formed",
    )
    m.define(FRAMES_HELP.split("\n\n")[0])
    m.define(FRAMES_HELP.split("\n\n")[1])
    m.define(FRAMES_HELP.split("\n\n")[-1])
    m.define("abbrev bytes : ℕ → List ℕ\nbytes n = tabulate n (λ (k : ℕ). 1000 + k)")
    m.define("abbrev grey : ℕ → ℕ → ℕ → Samples\ngrey a b c = samples_of (replicate a 7) (replicate b 7) (replicate c 7)")

    def picture(c):
        return f"(sides (geometry {c.w} {c.h} {kind_of('ChromaFormat', c.format)}) {' '.join(map(str, c.sides))})"

    for c in placing.accepted():
        counts = " ".join(map(str, c.counts))
        for name, plane in zip(("luma", "cb", "cr"), c.planes(lambda k: 1000 + k)):
            m.case(f"placed {picture(c)} {c.col} {c.row} (bytes {c.bytes}) (grey {counts}) {name} ≡ {lst(plane)}")
    for c in placing.refusals():
        refusal = f"(placing_refusal {picture(c)} (lengths {' '.join(map(str, c.counts))}) {c.bytes} {c.col} {c.row})"
        m.case(f"answered {{A = Unit {{0}}}} {refusal} tt ≡ {said('PlacingRefusal', c.number, 'tt')}", f"refusal_number placing_number {refusal} ≡ {c.number}")
    return m


# ---- the C entry points: the lists' cases by their numbers and bytes, and numbers without a meaning


def header_numbers(repository):
    with open(os.path.join(repository, "include", "fozdrik.h")) as f:
        text = re.sub(r"/\*.*?\*/", "", f.read(), flags=re.S)
    found = {}
    for name, body in re.findall(r"enum fozdrik_(\w+) \{(.*?)\}", text, re.S):
        found[name] = {k: int(v) for k, v in re.findall(r"FOZDRIK_(\w+) = (\d+)", body)}
    return found


def word(v):
    return list(struct.pack("<i", int(v)))


def predictor_bytes(values):
    return [b for v in values for b in word(v)]


def entries(repository):
    head = PMV_HEAD + """
use Rattle.std.specs.Result.{result_err}
use Rattle.forming_predictions.specs.declared.FieldParity.TheVariants as FieldParity
use Rattle.pmv.specs.declared.predictors.PredictorPair.{PredictorPair}
use Rattle.forming_predictions.specs.Parities as Parities
use Rattle.pmv.specs.Kinds as Kinds
use Rattle.entry_points.specs.Layout.{signed_of, word_of, bytes_of, number_at, predictors_of, numbers_bytes, predictor_bytes, pair_bytes, with_pair}
use Rattle.entry_points.specs.Entries.{call_number, unless_number, is_yes, vector_known, update_known, residual_of, type_of, index_of, direction_of, format_of, structure_of, motion_vector_of, vector_from, vector_bytes, context_of, frame_known, field_known, reference_known, fields_known, geometry_of, reference_of, frame_direction_of, field_vector_of, field_direction_of, frame_motion_of, field_motion_of}
use Rattle.inter_reconstruction.specs.Refusals.{prediction_number}
"""
    m = Module(
        head,
        PMV_UNFOLDING + " bytes_of number_at predictors_of numbers_bytes with_pair vector_known update_known residual_of type_of frame_known field_known "
        "reference_known fields_known geometry_of reference_of frame_direction_of field_vector_of field_direction_of",
    )
    m.define(PMV_HELP)
    # kinds, by the header's numbers
    numbers = header_numbers(repository)
    for name, (c_name, values) in HEADER.items():
        short = KINDS[name][1]
        found = f"{'Parities' if name == 'FieldParity' else 'Kinds'}.{short}_from"
        for value, c_value in zip(KINDS[name][0], values):
            n = numbers[c_name][c_value]
            equations = [] if name == "FieldParity" else [f"Kinds.{short}_number {name}.{value} ≡ {n}"]
            if name != "Component":
                equations.append(f"{found} {n} ≡ Some {name}.{value}")
            m.case(*equations)
        if name != "Component":
            for n in (len(values), len(values) + 1, 2**32 - 1):
                m.case(f"{found} {n} ≡ None")
    for n, value in ((numbers["flag"]["NO"], "false"), (numbers["flag"]["YES"], "true")):
        m.case(f"Kinds.flag_from {n} ≡ Some {value}", f"is_yes {n} ≡ {value}")
    for n in (2, 3, 256, 257):
        m.case(f"Kinds.flag_from {n} ≡ None")
    # what a call tells and leaves
    m.case(
        "call_number vector_number true None ≡ 0",
        "call_number vector_number true (Some VectorRefusal.DeltaOutside) ≡ 5",
        "call_number vector_number false None ≡ 38",
        "call_number vector_number false (Some VectorRefusal.DeltaOutside) ≡ 38",
        "unless_number {A = ℕ} 0 7 9 ≡ 7",
        "unless_number {A = ℕ} 1 7 9 ≡ 9",
        "unless_number {A = ℕ} 38 7 9 ≡ 9",
    )
    for n, value in enumerate(KINDS["PictureCodingType"][0]):
        m.case(
            f"Kinds.coding_number PictureCodingType.{value} ≡ {n}",
            f"Kinds.is_inter_picture PictureCodingType.{value} ≡ {flag(value in ('Predictive', 'Bidirectional'))}",
        )
    # numbers in bytes
    for v in (0, 1, -1, 127, 128, 255, 256, -256, 65535, 65536, 16777216, 2**31 - 1, -(2**31), -(2**31) + 1, 305419896, -305419896):
        unsigned = struct.unpack("<I", bytes(word(v)))[0]
        m.case(
            f"word_of {z(v)} ≡ {unsigned}",
            f"signed_of {unsigned} ≡ {z(v)}",
            f"bytes_of {z(v)} ≡ {lst(word(v))}",
            f"number_at {lst([9] + word(v) + [9])} 1 ≡ {z(v)}",
        )
    # vectors and updates
    cases = read_list(repository, "pmv")
    kind = lambda k: [(g, [int(v) for v in c]) for g, c in cases if c[0] == str(k)]
    old = [9, 8, 7, 6, 5, 4, 3, 2]
    shape = lambda x: tuple(x[1][k] for k in (21, 9, 10, 19, 20, 12, 15))
    for g, c in selection([x for x in kind(5) if x[0] in "lmo"], shape, 1, 60):
        l, after = lst(predictor_bytes(c[1:9])), lst(predictor_bytes(c[30:38]))
        mv = f"(motion_vector_of {z(c[11])} {c[12]} {c[13]} {z(c[14])} {c[15]} {c[16]})"
        got = f"vector_from {l} (index_of {c[9]}) (direction_of {c[10]}) {mv} {c[17]} {c[18]} (format_of {c[19]}) (structure_of {c[20]})"
        component = lambda values: "(component " + " ".join(z(v) for v in values) + ")"
        value = f"(record {{ horizontal = {component(c[22:26])}; vertical = {component(c[26:30])} }})"
        known = f"vector_known {c[9]} {c[10]} {c[12]} {c[15]} {c[19]} {c[20]} 32 8"
        vector = lst(word(c[22]) + word(c[26]) if not c[21] else old)
        m.case(
            f"call_number vector_number ({known}) (result_err ({got}).answer) ≡ {c[21]}",
            f"({got}).answer ≡ {said('VectorRefusal', c[21], value)}",
            f"with_pair {l} (index_of {c[9]}) (direction_of {c[10]}) ({got}).predictors ≡ {after}",
            f"vector_bytes ({got}).answer {lst(old)} ≡ {vector}",
        )
    distinct = lambda c: len(set(c[1:9])) == 8 and 0 not in c[1:9]
    for g, c in selection([x for x in kind(7) if distinct(x[1])], lambda x: (x[1][9], x[1][10], x[1][11], x[1][16], x[1][17]), 1, 60):
        l = lst(predictor_bytes(c[1:9]))
        words = " ".join(str(v) for v in c[9:16])
        m.case(
            f"call_number update_number (update_known {words} 32 1) (update_refusal (context_of {words})) ≡ {c[16]}",
            f"predictor_bytes (updated (predictors_of {l}) (context_of {words})).pmv ≡ {lst(predictor_bytes(c[18:26]))}",
        )
    # one number without a meaning, or a length, at a time: 38; what stands beside an absence is not read
    def unknowns(name, right, wrong, free=()):
        number = lambda words: f"call_number prediction_number ({name} {' '.join(map(str, words))}) None"
        m.case(f"{number(right)} ≡ 0")
        for k, values in wrong.items():
            for v in values:
                other = list(right)
                other[k] = v
                m.case(f"{number(other)} ≡ 38")
        for k, v in free:
            other = list(right)
            other[k] = v
            m.case(f"{number(other)} ≡ 0")

    two, three, four = (2, 7), (3, 7), (4, 7)
    unknowns(
        "vector_known",
        [1, 1, 1, 1, 1, 2, 32, 8],
        {0: two, 1: two, 2: two, 3: two, 4: two, 5: three, 6: (31, 33, 0), 7: (7, 9, 0)},
        [(0, 0), (5, 0), (5, 1)],
    )
    unknowns(
        "update_known",
        [2, 1, 3, 1, 1, 1, 1, 32, 1],
        {0: three, 1: two, 2: four, 3: two, 4: two, 5: two, 6: two, 7: (31, 33), 8: (0, 2)},
        [(2, 0), (6, 0)],
    )
    unknowns("update_known", [2, 0, 9, 0, 0, 0, 0, 32, 1], {1: two}, [(2, 4)])
    unknowns("frame_known", [2, 1, 2, 1, 2, 1, 1], {0: three, 1: two, 2: three, 3: two, 4: three, 5: two, 6: two}, [(0, 0), (5, 0)])
    unknowns("frame_known", [2, 0, 9, 0, 9, 0, 0], {1: two, 3: two}, [(2, 1), (4, 1)])
    unknowns(
        "field_known",
        [2, 1, 2, 1, 2, 1, 1, 1, 1, 1, 1],
        {0: three, 1: two, 2: three, 3: two, 4: three, 5: two, 6: two, 7: two, 8: two, 9: two, 10: two},
        [(6, 0), (10, 0)],
    )
    unknowns("field_known", [2, 0, 9, 0, 9, 0, 9, 9, 0, 9, 9], {5: two, 8: two}, [(6, 1), (9, 0)])
    # what the numbers of the prediction calls are put together to; every number is another
    g = "record { width = 11; height = 12; chroma_format = ChromaFormat.Yuv422 }"
    plane = lambda a, b: f"record {{ width = {a}; height = {b} }}"
    there = f"Some (record {{ geometry = {g}; y = {plane(13, 14)}; cb = {plane(15, 16)}; cr = {plane(17, 18)} }})"
    m.case(
        f"geometry_of 11 12 1 ≡ {g}",
        f"reference_of 1 11 12 1 13 14 15 16 17 18 ≡ {there}",
        "reference_of 0 11 12 1 13 14 15 16 17 18 ≡ None",
    )
    v = lambda h, w: f"record {{ horizontal = {z(h)}; vertical = {z(w)} }}"
    u = lambda h, w, p: f"record {{ vector = {v(h, w)}; reference_field = FieldParity.{p} }}"
    m.case(f"frame_direction_of 1 {z(3)} {z(-4)} ≡ Some ({v(3, -4)})", f"frame_direction_of 0 {z(3)} {z(-4)} ≡ None")
    m.case(
        f"(frame_motion_of 1 {z(3)} {z(-4)} 1 {z(5)} {z(6)}).forward ≡ Some ({v(3, -4)})",
        f"(frame_motion_of 1 {z(3)} {z(-4)} 1 {z(5)} {z(6)}).backward ≡ Some ({v(5, 6)})",
    )
    m.case(
        f"(frame_motion_of 0 {z(3)} {z(-4)} 1 {z(5)} {z(6)}).forward ≡ None",
        f"(frame_motion_of 1 {z(3)} {z(-4)} 0 {z(5)} {z(6)}).backward ≡ None",
    )
    pair = lambda a, b: f"Some (record {{ top = {a}; bottom = {b} }})"
    for flags in ((1, 1), (0, 1), (1, 0)):
        call = f"field_motion_of {flags[0]} 1 {z(3)} {z(-4)} 0 {z(5)} {z(6)} {flags[1]} 0 {z(7)} {z(8)} 1 {z(-9)} {z(10)}"
        forward = pair(u(3, -4, "Bottom"), u(5, 6, "Top")) if flags[0] else "None"
        backward = pair(u(7, 8, "Top"), u(-9, 10, "Bottom")) if flags[1] else "None"
        m.case(f"({call}).forward ≡ {forward}", f"({call}).backward ≡ {backward}")
    return m


# ---- worked_cases and worked_runs

FITS = """pub fits : (k : ℕ) → Fitting g k hollow
unfolding tabulate
fits k n luma h = refl
fits k n cb h = refl
fits k n cr h = refl

"""


# what the parts of the claim about drift say, by what follows from each
CLAIM_USES = """use mathlib.Core.Path.{◌≡◌}
use mathlib.Core.List.{[]}
use Rattle.std.specs.Prelude.{Some}
use Prim.Native.Nat.{ℕ, ◌<◌}
use native.Mathlib.Omega.{arith}
use lib.ListN.{length, get_or}
use Rattle.inter_reconstruction.specs.Components.{luma, cb}
use Rattle.drift.specs.Steps.{Pictures, after_steps}
use Rattle.drift.specs.Unrounded.{after_unrounded_steps, in_units}
use Rattle.drift.specs.Drift.{Fitting, Lower, Near, DriftWithin}
use Rattle.worked_runs.specs.Steps.{wide}
"""
CLAIMS = """
pub fitting-last : (p : Pictures) → Fitting wide 2 p → length (p 2 luma) ≡ 512
fitting-last p h = h 2 luma (omega arith)

pub lower-is : (n j : ℕ) → Lower n (Some j) → j < n
lower-is n j h = h

pub lower-of : (n j : ℕ) → j < n → Lower n (Some j)
lower-of n j h = h

pub within-is : DriftWithin 2 9 5
    → (p : Pictures)
    → Fitting wide 3 p
    → Near 2 9 5 (get_or (after_steps wide [] p 2 cb) 7 0) (get_or (after_unrounded_steps wide [] (in_units p) 2 cb) 7 0)
within-is h p f = h wide 3 p f [] tt (omega arith) cb 7
"""


def worked(repository):
    """The table's claim, the runs of the drift figure and the steps, and the texts in specs/ that change for a module of these: module, crate, name. What
    is claimed for all numbers there is claimed for some here, and the theorem about drift is a hypothesis: a proof of it is no case."""

    def edited(text, *changes):
        for old, new in changes:
            changed = re.sub(old, new, text, flags=re.S)
            if changed == text:
                raise ValueError(f"the worked cases have changed: {old!r} is not there")
            text = changed
        return text

    folder, runs_folder = (os.path.join(repository, "crates", name) for name in ("worked_cases", "worked_runs"))
    with open(os.path.join(folder, "proofs", "Cases.antt")) as f:
        table = edited(
            f.read(),
            (r"use native\.Mathlib\.Omega[^\n]*\n", ""),
            (r"use [^\n]*clamp_lt[^\n]*\n", ""),
            (r"-- a side of 1 has one place\n.*?\n\n", ""),
            (r"λ x y\. rw \(only x\)", "refl"),
        )
    with open(os.path.join(folder, "specs", "Cases.antt")) as f:
        cases = edited(f.read(), (r"\(\(x y : ℤ\) → (sample_at \(field Bottom\)[^\n]*?) x y ≡ sample\)", r"(\1 (negsuc 1) (pos 3) ≡ sample)"))
    with open(os.path.join(runs_folder, "proofs", "Runs.antt")) as f:
        runs = edited(
            f.read(),
            # pictures 1 and 2 alone: what is computed grows with the picture's number
            (r"\(1 ∷ 2 ∷ 3 ∷ 4 ∷ \[\]\)", "(1 ∷ 2 ∷ [])"),
            (r"\(refl, \(refl, \(refl, \(refl, tt\)\)\)\)", "(refl, (refl, tt))"),
            (r"use [^\n]*length_tab[^\n]*\n", ""),
            (r"use Rattle\.drift\.proofs\.Runs[^\n]*\n", ""),
            (r"Drift\.\{Fitting, InRange, Near\}", "Drift.{Fitting, InRange, Near, Lower, DriftFigure}"),
            (r"pub fits : .*?\n\n", FITS),
            (
                r"pub instance : (Near [^\n]*)\ninstance = drift ([^\n]*?) \(fits .*?\) 2\)",
                r"pub instance : DriftFigure → \1\ninstance drift = drift \2 (fits 2)",
            ),
        )
    few = edited(runs, (r"pub meets_above : .*?\n\n", ""), (r"pub meets_below : .*?\n\n", ""))
    with open(os.path.join(runs_folder, "proofs", "Steps.antt")) as f:
        steps = CLAIM_USES + f.read() + CLAIMS
    with open(os.path.join(runs_folder, "specs", "Steps.antt")) as f:
        rows = f.read()
    # the means of two directions alone, and of those by fields Cb: what these leave depends on nearly all of a step
    few_steps = edited(steps, (r"pub refuse : .*?\n\n", ""), (r"pub steps_hold : .*?\n\n", ""))
    for name, proof, wanted in (("copies", "copied", r" still still ∷ \[\]\)"), ("by_fields", "by_fields_lem", r" crossing bottoms ∷ \[\]\) 2 cb ")):
        kept = [line.strip().removeprefix("∷ ") for line in rows.split("\n") if re.match(rf" +∷ left .*{wanted}", line)]
        rows = edited(rows, (rf"(\n{name} =\n).*?\n\n", lambda m: m[1] + "    " + " ∷ ".join(kept + ["[]"]) + "\n\n"))
        few_steps = edited(few_steps, (rf"(\n{proof} =).*?\n\n", lambda m: m[1] + " (refl, refl) ◂" * len(kept) + " tt\n\n"))
    specs = {("Worked", "worked_cases", "Cases.antt"): cases, ("StepsFew", "worked_runs", "Steps.antt"): rows}
    return {"Worked": table, "Runs": runs, "RunsFew": few, "Steps": steps, "StepsFew": few_steps}, specs


def modules(repository):
    """the modules of cases by name, and what changes in specs/ for them. `XFew` has some of the cases of X: it notices most, and soon."""
    found, specs = worked(repository)
    made = {"Averaging": averaging, "Forming": forming, "Vectors": pmv, "Macroblocks": macroblocks, "Placing": placings, "Entries": entries}
    for name, make in made.items():
        module = make(repository)
        found[name], found[name + "Few"] = module.text(), module.text(8)
    return found, specs
