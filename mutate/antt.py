"""Mutants of definitions: of the right sides of what specs/ defines, not of types, records, data or comments."""

import re
from collections import namedtuple

from rattle import Edit

Definition = namedtuple("Definition", "name types clauses")  # a clause: start and end of its left side, start and end of its right side

TOKENS = re.compile(r"(?P<space>\s+)|(?P<comment>--[^\n]*)|(?P<bracket>[(){}\[\];,])|(?P<word>[^\s(){}\[\];,]+)")

OPERATORS = {
    "+": "-", "-": "+", "*": "+", "/": "*", "%": "/", "^": "*", "//": "/", "+ℤ": "-ℤ", "-ℤ": "+ℤ", "*ℤ": "+ℤ", "&&": "||", "||": "&&",
    "≤": "<", "<": "≤",
}  # fmt: skip
NAMES = {
    "ltb": "leb", "leb": "ltb", "lt_z": "le_z", "le_z": "lt_z", "eqb": "leb", "true": "false", "false": "true", "take": "drop", "drop": "take",
    "floor_half": "trunc_half", "trunc_half": "floor_half", "mean2": "mean4", "pos": "negsuc", "negsuc": "pos",
    "chroma_horizontal": "chroma_vertical", "chroma_vertical": "chroma_horizontal", "chroma_columns": "chroma_lines", "chroma_lines": "chroma_columns",
    "columns_of": "lines_of", "lines_of": "columns_of", "block_width": "block_height", "block_height": "block_width", "luma": "cb", "cb": "cr", "cr": "cb",
    "row_at": "column_at", "column_at": "row_at", "first_column": "first_row", "first_row": "first_column", "horizontal_refusal": "vertical_refusal", "vertical_refusal": "horizontal_refusal",
    "raised": "lowered", "lowered": "raised", "frame": "field Top",
}  # fmt: skip
# fields that are mistaken for each other
FIELDS = {
    "width": "height", "horizontal": "vertical", "forward": "backward", "top": "bottom", "low": "high", "cb": "cr", "y": "cb", "column": "row",
    "one": "single", "single": "one", "two": "join", "join": "two", "motion_code_horiz": "motion_code_vert",
    "motion_residual_horiz": "motion_residual_vert", "range": "high", "macroblock_motion_forward": "macroblock_motion_backward",
    "macroblock_intra": "concealment_motion_vectors",
}  # fmt: skip
FIELDS.update({v: k for k, v in list(FIELDS.items()) if v not in FIELDS})

# what the library has and the logic does not: flat.py declares it in the crate of definitions
OWN = "Rattle.definitions.specs"
# where the logic has the names of the library's prelude and of its facades; a mutant may need one that its file does not use
LOGIC = {
    "mathlib.Core.Path": ["◌≡◌", "refl"], "mathlib.Core.Bool": ["Bool", "true", "false", "cond", "not", "◌&&◌", "◌||◌"],
    "mathlib.Core.List": ["List", "[]", "◌∷◌", "◌++◌", "map"],
    "Prim.Native.Nat": ["ℕ", "zero", "suc", "◌+◌", "◌-◌", "◌*◌", "◌/◌", "◌%◌", "◌^◌", "◌≤◌", "◌<◌", "min"],
    "lib.Dec": ["eqb", "ltb", "leb"], "lib.ListN": ["length", "get_or", "take", "drop", "set", "replicate"],
    "lib.IntN": ["ℤ", "pos", "negsuc", "◌+ℤ◌", "◌-ℤ◌", "◌*ℤ◌", "neg_ℤ", "nat_abs"], "lib.Signed": ["lt_z", "le_z"], "denote.Ref": ["Bor"],
    f"{OWN}.declared.prelude.Option": ["Option"], f"{OWN}.declared.prelude.Option.TheVariants": ["None", "Some"],
    f"{OWN}.declared.prelude.Result": ["Result"], f"{OWN}.declared.prelude.Result.TheVariants": ["Ok", "Err"],
    f"{OWN}.prelude": ["is_some", "unwrap_or", "option_map", "result_err"],
}  # fmt: skip


def tokens_of(text, start, end):
    found = []
    for m in TOKENS.finditer(text, start, end):
        if m.lastgroup in ("space", "comment"):
            continue
        # a variable's fields are words of their own; a module's members are not
        parts = re.findall(r"\.[\w-]+|^[^.]+", m.group()) if re.fullmatch(r"[a-z][\w-]*(\.[\w-]+)+|(\.[\w-]+){2,}", m.group()) else [m.group()]
        at = m.start()
        for part in parts:
            found.append((m.lastgroup, part, at))
            at += len(part)
    return found


def signature(text):
    """the types of a definition's arguments, and of its value"""
    parts, depth, current = [], 0, ""
    for word in re.findall(r"→|[()]|[^()→]+", text):
        if word == "→" and depth == 0:
            parts.append(" ".join(current.split()))
            current = ""
            continue
        depth += word == "("
        depth -= word == ")"
        current += word
    return parts + [" ".join(current.split())]


def definitions_of(text):
    lines, at, found = text.split("\n"), 0, []
    starts = []
    for line in lines:
        starts.append(at)
        at += len(line) + 1
    i = 0
    while i < len(lines):
        m = re.match(r"( *)(?:abbrev|unfoldable) (?:pub )?(\S+) : (.*)", lines[i])
        if not m:
            i += 1
            continue
        indent, name, kind = len(m.group(1)), m.group(2), m.group(3)
        i += 1
        deeper = lambda line: len(line) - len(line.lstrip()) > indent and line.strip()
        while i < len(lines) and deeper(lines[i]):
            kind += " " + lines[i].strip()
            i += 1
        clauses = []
        while i < len(lines) and lines[i].strip() and not re.match(r" *(abbrev|unfoldable|pub|use|module|--|infix)\b|^ *--", lines[i]):
            first = i
            i += 1
            while i < len(lines) and deeper(lines[i]):
                i += 1
            start, end = starts[first], starts[i - 1] + len(lines[i - 1])
            equals = re.compile(r" =(?=\s)").search(text, start, end)
            if equals:
                clauses.append((start, equals.start(), equals.end(), end))
        found.append(Definition(name, signature(kind), clauses))
    return found


def imported(text, enums):
    """for each constructor that a file uses the variants of its enum, and the module that has them; of a prefix, under its name and a point"""
    found = {}
    for module, enum, names in re.findall(r"^use (Rattle\.\S*declared\.(?:\w+\.)*(\w+)\.TheVariants)(?:\.\{([^}]*)\}| as \w+)$", text, re.M):
        for name in names.split(",") if names else []:
            found[name.strip()] = enums.get(enum, []), module
    for enum, prefix in re.findall(r"^use Rattle\.\S*declared\.(?:\w+\.)*(\w+)\.TheVariants as (\w+)$", text, re.M):
        found[prefix + "."] = enums.get(enum, []), ""
    for enum, name in re.findall(r"^use Rattle\.\S*declared\.(?:\w+\.)*(\w+)\.\{(\w+)\}$", text, re.M):
        if enum == name:
            found.setdefault(name + ".", (enums.get(enum, []), ""))
    return found


class Mutants:
    def __init__(self, text, types, data, enums, constants):
        self.text, self.types, self.data, self.constants = text, types, data, constants
        self.imported = imported(text, enums)
        self.edits, self.counts = [], {}

    def all(self):
        for definition in definitions_of(self.text):
            self.function = definition.name
            for clause in definition.clauses:
                self.clause(definition, clause)
        return self.edits

    def add(self, start, end, text, kind):
        a = self.text.rfind("\n", 0, start) + 1
        b = self.text.find("\n", end)
        shown = lambda s: " ".join(s.split())
        name = f"{shown(self.text[a:b])} => {shown(self.text[a:start] + text + self.text[end:b])}"
        if any(e.start == start and e.end == end and e.text == text for e in self.edits):
            return
        key = (self.function, name)
        self.counts[key] = n = self.counts.get(key, 0) + 1
        self.edits.append(Edit(start, end, text, kind, self.function, name + (f" ({n})" if n > 1 else "")))

    def clause(self, definition, clause):
        left, left_end, start, end = clause
        variables = self.variables(definition, left, left_end)
        tokens = tokens_of(self.text, start, end)
        for i, (group, word, at) in enumerate(tokens):
            after = at + len(word)
            before = tokens[i - 1][1] if i else ""
            following = tokens[i + 1][1] if i + 1 < len(tokens) else ""
            if group != "word" or following == "=":  # a field of a record
                continue
            if re.fullmatch(r"\d+", word):
                n = int(word)
                if not before.startswith("."):
                    self.add(at, after, str(n + 1), "constant")
                    if n:
                        self.add(at, after, str(n - 1), "constant")
            elif word in OPERATORS:
                self.add(at, after, OPERATORS[word], "operator")
            elif word in variables:
                same = [v for v, kind in variables.items() if kind == variables[word]]
                if len(same) > 1 and before != "λ":
                    self.add(at, after, same[(same.index(word) + 1) % len(same)], "operand")
            elif word.startswith(".") and word[1:] in FIELDS:
                self.add(at, after, "." + FIELDS[word[1:]], "operand")
            elif word == "not":
                self.add(at, after, "", "operator")
            elif word == "Some":
                self.add(at, self.argument_end(tokens, i + 1), "None", "constructor")
            elif word == "None":
                for name, kind in variables.items():
                    if definition.types[-1] in (f"Option {kind}", f"Option ({kind})"):
                        self.add(at, after, f"Some {name}" if start == at - 1 and after == end else f"(Some {name})", "constructor")
            elif word in self.constants and len(self.constants) > 1:
                self.add(at, after, self.constants[(self.constants.index(word) + 1) % len(self.constants)], "operand")
            elif word == "eqb" and self.second_argument(tokens, i) == "0":
                pass  # no number is below 0
            elif word in NAMES:
                self.add(at, after, NAMES[word], "operand")
            else:
                self.constructor(word, at, after)
            if word in self.types or word == "cond":
                self.exchange(word, tokens, i, variables)

    def argument_end(self, tokens, i):
        """where the argument that begins with token i ends in the text"""
        depth = 0
        while True:
            depth += tokens[i][1] in "({"
            depth -= tokens[i][1] in ")}"
            at, i = tokens[i][2] + len(tokens[i][1]), i + 1
            if depth == 0 and not (i < len(tokens) and tokens[i][2] == at and tokens[i][1].startswith(".")):
                return at

    def second_argument(self, tokens, i):
        k, depth = i + 1, 0
        while True:
            depth += tokens[k][1] == "("
            depth -= tokens[k][1] == ")"
            k += 1
            if depth == 0:
                return tokens[k][1]

    def variables(self, definition, left, left_end):
        """the variables of a clause that stand for a whole argument, by its type"""
        words, depth, found, k = [], 0, {}, 0
        for group, word, at in tokens_of(self.text, left, left_end):
            depth += word == "("
            depth -= word == ")"
            if depth == 0 or (depth == 1 and word == "("):
                words.append(word)
        words = [w for w in words if w not in "()" or w == ")"]
        if "◌" in definition.name:  # an operator between its arguments
            words = [w for w in words if w != definition.name.strip("◌")]
        else:
            words = words[1:]
        for word, kind in zip(words, [t for t in definition.types[:-1] if not t.startswith("{")]):
            if re.fullmatch(r"[a-z]\w*", word) and word not in ("zero",):
                found[word] = kind
        return found

    def constructor(self, word, at, after):
        prefix, dot, name = word.rpartition(".")
        if dot and not prefix:
            return
        known = self.imported.get(prefix + dot if dot else name)
        for variants in [known[0]] if known else self.data:
            held = dict(variants).get(name)
            if held is None:
                continue
            same = [v for v, holds in variants if holds == held]
            if len(same) > 1:
                self.add(at, after, prefix + dot + same[(same.index(name) + 1) % len(same)], "constructor")
                return

    def exchange(self, word, tokens, i, variables):
        """two neighbouring arguments of one type"""
        kinds = ["Bool", "A", "A"] if word == "cond" else [t for t in self.types[word][:-1] if not t.startswith("{")]
        parts, k = [], i + 1
        while k < len(tokens):
            group, text, at = tokens[k]
            if parts and at == parts[-1][1] and re.match(r"\.[\w-]", text):  # a field of the argument before
                parts[-1] = (parts[-1][0], at + len(text))
            elif len(parts) == len(kinds):
                break
            elif text in ("(", "{"):
                depth, first = 1, k
                while depth:
                    k += 1
                    depth += tokens[k][1] in "({"
                    depth -= tokens[k][1] in ")}"
                parts.append((tokens[first][2], tokens[k][2] + 1))
            elif group == "word" and text not in OPERATORS and not text.startswith("≡"):
                if text.startswith(".") and parts:
                    return
                parts.append((at, at + len(text)))
            else:
                break
            k += 1
        for n in range(len(parts) - 1):
            if kinds[n] == kinds[n + 1]:
                (a, b), (c, d) = parts[n], parts[n + 1]
                # two variables are put in each other's place already
                if self.text[a:b] != self.text[c:d] and not {self.text[a:b], self.text[c:d]} <= set(variables):
                    self.add(a, d, self.text[c:d] + self.text[b:c] + self.text[a:b], "exchange")


def brought(text, edit):
    """the file with the mutant in it, and with what it needs"""
    changed = text[: edit.start] + edit.text + text[edit.end :]
    used = set(re.findall(r"[^\s(){},.]+", "\n".join(re.findall(r"^use [^\n]*", text, re.M))))
    wanted = set(edit.text.split())
    lines = []
    for module, names in LOGIC.items():
        for name in names:
            if name.strip("◌") in wanted and name not in used:
                lines.append(f"use {module}.{{{name}}}")
    others = {
        "trunc_half": "Rattle.pmv.specs.Chroma", "floor_half": "Rattle.forming_predictions.specs.Splitting", "mean4": "Rattle.forming_predictions.specs.Means",
        "chroma_vertical": "Rattle.pmv.specs.Chroma", "columns_of": "Rattle.inter_reconstruction.specs.Components",
        "lines_of": "Rattle.inter_reconstruction.specs.Components", "block_height": "Rattle.inter_reconstruction.specs.Components",
        "Top": "Rattle.forming_predictions.specs.declared.FieldParity.TheVariants",
        # the constructors that stand beside those which the file uses
        **{name: module for variants, module in imported(text, ENUMS).values() if module for name, _ in variants},
    }  # fmt: skip
    for name, module in others.items():
        if name in wanted and name not in used and not re.search(rf"(abbrev|unfoldable) pub {name} ", text):
            lines.append(f"use {module}.{{{name}}}")
    # below the first comment, which a file begins with
    return "\n".join(lines + [changed]) if lines else changed


# the variants of the code's enums, as `mutants_of` was given them
ENUMS = {}


def mutants_of(files, enums):
    """for each file its mutants; `files` has the text of every file of definitions, `enums` the variants of the code's enums"""
    ENUMS.update(enums)
    types, per_file = {}, {}
    for path, text in files.items():
        for d in definitions_of(text):
            types[d.name] = d.types
    data = []
    for text in files.values():
        for m in re.finditer(r"pub data \S+ : [^\n]* where\n((?:  [^\n]*\n|\n(?=  ))+)", text):
            variants = []
            for line in m.group(1).split("\n"):
                if " : " in line and not line.strip().startswith("--"):
                    names, kind = line.strip().split(" : ", 1)
                    variants += [(n, kind.count("→")) for n in names.split()]
            data.append(variants)
    # numbers that have a name
    for path, text in files.items():
        constants = [d.name for d in definitions_of(text) if d.types == ["ℕ"]]
        seen = set(re.findall(r"[\w]+", text))
        known = [d.name for t in files.values() for d in definitions_of(t) if d.types == ["ℕ"] and d.name in seen]
        per_file[path] = Mutants(text, types, data, enums, known or constants).all()
    return per_file
