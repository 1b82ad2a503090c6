#!/usr/bin/env python3
"""Small mutations of the code and of the definitions, and what notices them. See README.md."""

import argparse
import hashlib
import itertools
import multiprocessing
import os
import re
import sys
import time

import antt
import cases
import flat
import judges
import rattle
from judges import NOTICED, REFUSED, SURVIVED

HERE = os.path.dirname(os.path.abspath(__file__))
REPOSITORY = os.path.dirname(HERE)
SURVIVORS = os.path.join(HERE, "survivors.txt")
FUZZ_CASES = 20000

# The crates whose code is mutated, and what judges each: the list of its layer first.
JUDGES = {
    "combine_predictions": ["replay_combine_predictions"],
    "forming_predictions": ["replay_forming_predictions", "fuzz"],
    "pmv": ["replay_pmv", "replay_inter_reconstruction", "fuzz"],
    "inter_reconstruction": ["replay_inter_reconstruction", "replay_placing", "run_drift", "fuzz"],
    "entry_points": ["replay_fozdrik", "fuzz"],
}
# files that the crate's first judge does not run, and what does
RATHER = {
    "inter_reconstruction/src/placing.rt": "replay_placing",
    "inter_reconstruction/src/samples.rt": "replay_placing",
}

# The crates whose definitions are mutated, and the modules of cases that judge each, its own first, and of these the small ones.
CASES = {
    "combine_predictions": ["Averaging", "FormingFew", "VectorsFew", "Worked", "Forming", "Vectors", "Entries", "Macroblocks", "Placing", "Runs"],
    "forming_predictions": ["FormingFew", "Forming", "Worked", "Vectors", "Entries", "Macroblocks", "Placing", "Runs"],
    "pmv": ["VectorsFew", "Vectors", "Entries", "Worked", "Macroblocks", "Runs"],
    "inter_reconstruction": ["MacroblocksFew", "PlacingFew", "Macroblocks", "Placing", "RunsFew", "Runs", "Entries"],
    "entry_points": ["EntriesFew", "Entries"],
    "drift": ["StepsFew", "Steps", "RunsFew", "Runs"],
}
FIRST = {
    "forming_predictions/specs/Parities.antt": "Entries",
    "inter_reconstruction/specs/Placing.antt": "PlacingFew",
    "pmv/specs/Kinds.antt": "Entries",
}
# the crates whose definitions a module of cases needs: as few as can be, since each check reads them
LAYERS = ["laws", "combine_predictions", "forming_predictions", "pmv", "inter_reconstruction"]
NEEDS = {
    "Averaging": LAYERS[:2],
    "Forming": LAYERS[:3],
    "Vectors": LAYERS[:4],
    "Macroblocks": LAYERS,
    "Placing": LAYERS,
    "Entries": LAYERS + ["entry_points"],
    "Worked": LAYERS[:4] + ["worked_cases"],
    "Runs": LAYERS + ["drift", "worked_runs"],
    "Steps": LAYERS + ["drift", "worked_runs"],
}
# of one kind in one function so many at most, evenly, unless all are asked for: long calls have dozens that are much alike
MOST = 4
# a check of a definition's mutant that takes longer computes something absurd
CHECK_SECONDS = 300


class Mutant:
    def __init__(self, path, edit):
        self.path, self.edit = path, edit
        self.crate, self.part = path.split("/")[:2]
        self.key = f"{path} {edit.function}: {edit.name}"


def code_files():
    files = {}
    for crate in JUDGES:
        folder = os.path.join(REPOSITORY, "crates", crate, "src")
        for where, _, names in os.walk(folder):
            for name in sorted(names):
                path = os.path.join(where, name)
                files[os.path.relpath(path, os.path.join(REPOSITORY, "crates"))] = flat.read(path)
    return files


def all_mutants():
    code = code_files()
    enums = {name: variants for text in code.values() for name, variants in rattle.Source(text).enums.items()}
    definitions = {f"{crate}/specs/{name}": text for crate, name, text in flat.spec_files(REPOSITORY)}
    found = []
    for order, files in ((JUDGES, rattle.mutants_of(code)), (CASES, antt.mutants_of(definitions, enums))):
        crates = list(order)
        for path in sorted((p for p in files if p.split("/")[0] in crates), key=lambda p: (crates.index(p.split("/")[0]), p)):
            found += [Mutant(path, edit) for edit in files[path]]
    return found


def some_of(mutants, named):
    """at most MOST of a kind in each function, and those that are named"""
    groups = {}
    for m in mutants:
        groups.setdefault((m.path, m.edit.function, m.edit.kind), []).append(m.key)
    kept = {g[i * len(g) // MOST] if len(g) > MOST else k for g in groups.values() for i, k in enumerate(g) if i < MOST}
    return [m for m in mutants if m.key in kept or m.key in named]


def judge_names(crates):
    return sorted({name for crate in crates for name in JUDGES[crate]})


class CodeCourt:
    """Judges mutants of the code, in a folder of its own."""

    def __init__(self, rt, folder, programs, crates):
        kit = judges.Kit(rt)
        self.library = judges.Library(kit, REPOSITORY, folder)
        objects = judges.Objects(kit, REPOSITORY, programs)
        self.judges = {}
        for name in judge_names(crates):
            if name == "fuzz":
                self.judges[name] = judges.Fuzzer(self.library, REPOSITORY, FUZZ_CASES)
            else:
                self.judges[name] = judges.Program(name, objects, self.library, REPOSITORY)
        module, said = self.library.module()
        if module is None:
            raise judges.Failure(f"without a mutation, the compiler refuses the code: {said}")
        for build in (judges.CHECKED, judges.SANITIZED):
            compiled = self.library.object(module, build)
            for name, judge in self.judges.items():
                if build in judge.builds:
                    verdict, why = judge.judged(compiled, build)
                    if verdict != SURVIVED:
                        raise judges.Failure(f"without a mutation, {name} is {verdict}, {build}: {why}")

    def judged(self, mutant):
        path = self.library.path(mutant.path)
        text = flat.read(os.path.join(REPOSITORY, "crates", mutant.path))
        edit = mutant.edit
        names = sorted(JUDGES[mutant.crate], key=lambda n: n != RATHER.get(mutant.path))
        try:
            self.library.write(path, text[: edit.start] + edit.text + text[edit.end :])
            module, said = self.library.module()
        finally:
            self.library.write(path, text)
        if module is None:
            return REFUSED, said
        # what all let pass is run by the first of them with the address sanitizer
        for build, asked in ((judges.CHECKED, names), (judges.SANITIZED, names[:1])):
            compiled = self.library.object(module, build)
            for name in asked:
                verdict, why = self.judges[name].judged(compiled, build)
                if verdict != SURVIVED:
                    return verdict, f"{name}, {build}: {why}"
        return SURVIVED, ""


class DefinitionCourt:
    """Judges mutants of definitions: for each module of cases one crate with the definitions and that module."""

    def __init__(self, rt, folder, crates):
        self.kit, self.folder = judges.Kit(rt), folder
        modules, specs = cases.modules(REPOSITORY)
        for name in sorted({n for crate in crates for n in CASES[crate]}):
            needs = NEEDS[name.removesuffix("Few")]
            flat.make(REPOSITORY, self.path(name), {name: modules[name]}, needs)
            for (module, crate, file), text in specs.items():
                if module == name:
                    flat.write(self.path(name, "specs", crate, file), flat.renamed(text))
            verdict, why = self.checked(name)
            if verdict != SURVIVED:
                raise judges.Failure(f"without a mutation, the cases {name} are {verdict}: {why}")

    def path(self, name, *parts):
        return os.path.join(self.folder, name, flat.CRATE, *parts)

    def checked(self, name):
        kept = os.path.join(self.folder, name, "kept")
        os.makedirs(kept, exist_ok=True)
        words = [*self.kit.check, "--crate-name", flat.CRATE, self.path(name, "src", "lib.rt"), "--incremental", kept, "--jobs", "1"]
        status, said = judges.run(words, CHECK_SECONDS)
        said = said.decode(errors="replace")
        if status is None:
            return NOTICED, f"the cases {name}: {judges.LATE}"
        if status == 0:
            return SURVIVED, ""
        errors = re.findall(rf"/{flat.CRATE}/(specs|proofs)/\S*: error: (.*)", said)
        if not errors:
            raise judges.Failure(f"the check of {name} has failed: {said[-500:]}")
        where, what = next((e for e in errors if e[0] == "specs"), errors[0])
        return (REFUSED if where == "specs" else NOTICED), f"the cases {name}: {what}"

    def judged(self, mutant):
        crate, _, name = mutant.path.split("/")
        original = flat.read(os.path.join(REPOSITORY, "crates", mutant.path))
        changed = flat.renamed(antt.brought(original, mutant.edit))
        for module in sorted(CASES[crate], key=lambda n: n != FIRST.get(mutant.path)):
            path = self.path(module, "specs", crate, name)
            try:
                flat.write(path, changed)
                verdict, why = self.checked(module)
            finally:
                flat.write(path, flat.renamed(original))
            if verdict != SURVIVED:
                return verdict, why
        return SURVIVED, ""


# ---- survivors with a reason


def read_survivors():
    """the reason of each survivor by its key: lines of keys, then an indented reason for all of them"""
    reasons, keys, said = {}, [], []
    with open(SURVIVORS) as lines:
        for line in list(lines) + ["end"]:
            if line.startswith("#") or not line.strip():
                continue
            if line.startswith("    "):
                said.append(line.strip())
                continue
            if said:
                reasons.update({key: " ".join(said) for key in keys})
                keys, said = [], []
            keys.append(line.strip())
    return reasons


def state(rt):
    """a digest of all that a verdict depends on"""
    digest = hashlib.sha256(judges.run([rt, "version"])[1])
    for folder in ("crates", "fuzz", "include", "mutate"):
        for where, inside, names in os.walk(os.path.join(REPOSITORY, folder)):
            inside.sort()
            for path in sorted(os.path.join(where, n) for n in names if not n.endswith((".pyc", "survivors.txt"))):
                digest.update(os.path.relpath(path, REPOSITORY).encode())
                with open(path, "rb") as f:
                    digest.update(f.read())
    return digest.hexdigest()


def read_verdicts(path, now):
    """the verdicts of a run before, but for those that failed; none, if something has changed since"""
    known = {}
    if os.path.exists(path):
        lines = flat.read(path).split("\n")
        if lines[0] != now:
            print("something has changed since the run that was stopped, and all is tried again")
            return known
        for line in lines[1:]:
            fields = line.split("\t")
            if len(fields) == 4 and fields[0] != "failed":
                known[fields[2]] = (fields[0], fields[3])
    return known


# ---- running

courts = {}


def open_courts(folder, rt, todo):
    number = multiprocessing.current_process()._identity
    own = os.path.join(folder, str(number[0] if number else 0))
    for part in ("src", "specs"):
        crates = [crate for p, crate in todo if p == part]
        if crates:
            try:
                if part == "src":
                    courts[part] = CodeCourt(rt, os.path.join(own, part), os.path.join(folder, "programs"), crates)
                else:
                    courts[part] = DefinitionCourt(rt, os.path.join(own, part), crates)
            except (judges.Failure, ValueError) as failure:
                courts[part] = failure


def try_one(mutant):
    court = courts[mutant.part]
    if isinstance(court, Exception):
        return mutant, ("failed", str(court))
    try:
        return mutant, court.judged(mutant)
    except judges.Failure as failure:
        return mutant, ("failed", str(failure))


def main():
    ap = argparse.ArgumentParser(description=__doc__)
    ap.add_argument("crates", nargs="*", help="crates to mutate, or src or specs alone; all, if none is named")
    ap.add_argument("--all", action="store_true", help=f"all mutants, and not at most {MOST} of a kind in a function")
    ap.add_argument("--every", type=int, default=1, help="every Nth mutant alone")
    ap.add_argument("--jobs", type=int, default=1, help="so many at a time")
    ap.add_argument("--rt", default="rt")
    ap.add_argument("--folder", default=os.path.join(REPOSITORY, "target", "mutate"))
    ap.add_argument("--only", default="", help="mutants whose key has this text alone")
    ap.add_argument("--resume", action="store_true", help="go on with a run that was stopped, if nothing has changed since")
    ap.add_argument("--survivors", action="store_true", help="those alone that survivors.txt names")
    ap.add_argument("--list", action="store_true", help="print the mutants, and run none")
    o = ap.parse_args()
    parts = [w for w in o.crates if w in ("src", "specs")] or ["src", "specs"]
    named = [w for w in o.crates if w not in ("src", "specs")]
    for name in named:
        if name not in {**JUDGES, **CASES}:
            ap.error(f"{name} is no crate that is mutated")
    reasons = read_survivors()
    mutants = all_mutants()
    todo = [m for m in mutants if m.part in parts and (not named or m.crate in named) and o.only in m.key]
    if not (o.all or o.only or o.survivors):
        todo = some_of(todo, reasons)
    if o.survivors:
        todo = [m for m in todo if m.key in reasons]
    todo = todo[:: o.every]
    if o.list:
        for m in todo:
            print(f"{m.edit.kind:12}{m.key}")
        return 0
    rows = list(dict.fromkeys((m.part, m.crate) for m in todo))
    began, counts = time.monotonic(), {row: {} for row in rows}
    survivors, failed, unexplained, late = set(), [], [], 0
    os.makedirs(o.folder, exist_ok=True)
    path = os.path.join(o.folder, "verdicts.txt")
    now = state(o.rt)
    known = read_verdicts(path, now) if o.resume else {}
    before = [(m, known[m.key]) for m in todo if m.key in known]
    left = [m for m in todo if m.key not in known]
    print(f"{len(todo)} mutants; verdicts go to {os.path.relpath(path)}", flush=True)
    rows_left = list(dict.fromkeys((m.part, m.crate) for m in left))
    programs = [n for n in judge_names(crate for part, crate in rows_left if part == "src") if n != "fuzz"]
    if programs:
        try:
            judges.Objects(judges.Kit(o.rt), REPOSITORY, os.path.join(o.folder, "programs")).made(programs)
        except judges.Failure as failure:
            print(f"the code cannot be tried: {failure}")
            return 1
    with open(path, "w") as log, multiprocessing.Pool(o.jobs, open_courts, (o.folder, o.rt, rows_left)) as pool:
        log.write(now + "\n")
        for n, (mutant, (verdict, why)) in enumerate(itertools.chain(before, pool.imap(try_one, left)), 1):
            count = counts[mutant.part, mutant.crate]
            count[verdict] = count.get(verdict, 0) + 1
            log.write(f"{verdict}\t{mutant.edit.kind}\t{mutant.key}\t{' '.join(why.split())[:200]}\n")
            log.flush()
            if verdict == "failed":
                failed.append((mutant, why))
            late += verdict == NOTICED and why.endswith(judges.LATE)
            if verdict == SURVIVED:
                survivors.add(mutant.key)
                if mutant.key not in reasons:
                    unexplained.append(mutant)
                    print(f"survives, without a reason: {mutant.key}", flush=True)
            if n % 100 == 0 or n == len(todo):
                print(f"{n} of {len(todo)}, {len(survivors)} survive, {(time.monotonic() - began) / 60:.1f} minutes", flush=True)
    print(f"\n{'':28}{'mutants':>9}{'noticed':>9}{'survive':>9}{'with a reason':>15}{'not compiled':>14}")
    total = [0] * 5
    for part, crate in rows:
        c = counts[part, crate]
        noticed, survived, refused = c.get(NOTICED, 0), c.get(SURVIVED, 0), c.get(REFUSED, 0)
        lacking = sum(1 for m in unexplained if (m.part, m.crate) == (part, crate))
        figures = [noticed + survived, noticed, survived, survived - lacking, refused]
        total = [a + b for a, b in zip(total, figures)]
        print("{:28}{:9}{:9}{:9}{:15}{:14}".format(f"{part} {crate}", *figures))
    print("{:28}{:9}{:9}{:9}{:15}{:14}".format("all", *total))
    print(f"{late} were noticed because a program or a check did not end in its time")
    # an entry is out of date where its mutant is there no more, or was tried and noticed
    keys, tried, outdated = {m.key for m in mutants}, {m.key for m in todo}, 0
    for key in reasons:
        if key not in keys:
            print(f"survivors.txt has what is no mutant any more: {key}")
            outdated += 1
        elif key in tried and key not in survivors:
            print(f"survivors.txt has what is noticed: {key}")
            outdated += 1
    for mutant, why in failed[:10]:
        print(f"not judged: {mutant.key}: {why}")
    if unexplained or failed or outdated:
        print(f"{len(unexplained)} survive without a reason in survivors.txt; {len(failed)} were not judged; {outdated} entries are out of date")
        return 1
    print("every survivor has its reason in survivors.txt, and every reason its survivor")
    return 0


if __name__ == "__main__":
    sys.exit(main())
