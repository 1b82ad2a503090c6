"""Mutants of Rattle code: of the bodies of functions and the values of constants, not of contracts, types or uses."""

import re
from collections import namedtuple

Token = namedtuple("Token", "kind text at")

# What is replaced in a file, from one place to another; `name` is what the mutant is known by, in `function`.
Edit = namedtuple("Edit", "start end text kind function name")

TOKENS = re.compile(
    r"""(?P<space>\s+)|(?P<comment>//[^\n]*)|(?P<bytes>b?"(?:\\.|[^"\\])*"|b'(?:\\.|[^'\\])')|(?P<lifetime>'[a-z]\w*)
    |(?P<number>\d[\d_]*)(?P<suffix>[ui](?:8|16|32|64|size))?|(?P<word>[A-Za-z_]\w*)
    |(?P<sign>::|->|=>|==|!=|<=|>=|<<=|>>=|<<|>>|\+=|-=|\*=|/=|%=|&&|\|\||\.\.=|\.\.|.)""",
    re.X | re.S,
)

OPERATORS = {
    "+": "-", "-": "+", "*": "+", "/": "*", "%": "/", "<": "<=", "<=": "<", ">": ">=", ">=": ">", "==": "!=", "!=": "==",
    "&": "|", "|": "&", "^": "|", "<<": ">>", ">>": "<<", "&&": "||", "||": "&&", "+=": "-=", "-=": "+=",
}  # fmt: skip
# the operators whose operands are exchanged; for the others that changes nothing, or what the table above does already
ORDERED = {"-", "/", "%", "<", "<<", ">>"}

# names that are mistaken for each other, as a whole name or as a part of one between underscores
PAIRS = [
    ("width", "height"), ("forward", "backward"), ("cb", "cr"), ("horizontal", "vertical"), ("horiz", "vert"), ("top", "bottom"),
    ("x", "y"), ("dx", "dy"), ("first", "second"), ("first", "step"), ("upper", "lower"), ("row", "below"), ("low", "high"),
    ("col", "row"), ("columns", "lines"), ("present", "type"), ("e", "f"), ("a", "b"), ("d", "e"), ("right", "below"),
]  # fmt: skip

HEADERS = {"if", "while", "for", "match"}
PRIMITIVE = {"bool", "u8", "u16", "u32", "u64", "usize", "i8", "i16", "i32", "i64", "isize"}
KEYWORDS = HEADERS | {"let", "mut", "return", "else", "loop", "as", "in", "true", "false", "break", "continue", "self", "Self"}


def tokens_of(text):
    found = []
    for m in TOKENS.finditer(text):
        kind = m.lastgroup
        if kind in ("space", "comment"):
            continue
        if kind == "suffix":
            kind = "number"
        found.append(Token(kind, m.group(), m.start()))
    return found


def closing_places(tokens):
    """for each bracket the place of its partner"""
    partner, open_ones = {}, []
    for i, token in enumerate(tokens):
        if token.kind == "sign" and token.text in "([{":
            open_ones.append(i)
        elif token.kind == "sign" and token.text in ")]}":
            j = open_ones.pop()
            partner[i], partner[j] = j, i
    return partner


class Source:
    """A file's tokens, with the parts of it that are code."""

    def __init__(self, text):
        self.text = text
        self.tokens = tokens_of(text)
        self.partner = closing_places(self.tokens)
        self.functions = []  # name, place of '(', of the body's '{'
        self.constants = []  # name, type, first place of the value, place after it: of constants, and of variants that have a number
        self.enums = {}  # name: variants, each with how many fields it has
        self.find_items(0, len(self.tokens), "")

    def is_at(self, i, text):
        return 0 <= i < len(self.tokens) and self.tokens[i].text == text

    def parameter_count(self, opening):
        """how many types stand in the brackets of a variant"""
        k, count = opening + 1, 1
        while k < self.partner[opening]:
            count += self.tokens[k].text == "," and k + 1 < self.partner[opening]
            k = self.partner[k] + 1 if self.tokens[k].text in "([{" else k + 1
        return count

    def parameter_types(self, opening):
        """the types of a function's parameters but for self, without lifetimes"""
        types, current, k = [], [], opening + 1
        while k <= self.partner[opening]:
            if k == self.partner[opening] or self.tokens[k].text == ",":
                text = "".join(x.text for x in current if x.kind != "lifetime")
                if ":" in text:
                    types.append(text.split(":", 1)[1])
                current = []
                k += 1
            else:
                e = self.partner[k] + 1 if self.tokens[k].text in "([{" else k + 1
                current += self.tokens[k:e]
                k = e
        return types

    def past_generics(self, i):
        """the place after the parameters or arguments in angle brackets that begin at i"""
        depth = 0
        while True:
            depth += {"<": 1, ">": -1, ">>": -2}.get(self.tokens[i].text, 0)
            i += 1
            if depth == 0:
                return i

    def implementer(self, start, body):
        """what the functions of an `impl` are known by: its type, or its trait where the type is not of the crates"""
        if self.tokens[start].text == "<":
            start = self.past_generics(start)
        words = [x.text for x in self.tokens[start:body]]
        trait, kind = (words[: words.index("for")], words[words.index("for") + 1 :]) if "for" in words else ([], words)
        return "".join(trait if kind[0] in PRIMITIVE else kind[:1]) + "::"

    def find_items(self, i, end, within):
        t = self.tokens
        while i < end:
            word = t[i].text
            if word == "#":  # an attribute
                i = self.partner[i + 2 if t[i + 1].text == "!" else i + 1]
            elif word in ("impl", "trait"):
                body = next(k for k in range(i, end) if t[k].text == "{")
                self.find_items(body + 1, self.partner[body], self.implementer(i + 1, body) if word == "impl" else t[i + 1].text + "::")
                i = self.partner[body]
            elif word == "fn":
                name = t[i + 1].text
                k = self.past_generics(i + 2) if t[i + 2].text == "<" else i + 2
                parameters = k
                k = self.partner[k] + 1
                while t[k].text not in ("{", ";"):
                    if t[k].text in ("requires", "ensures"):
                        while t[k].text != "{":
                            k += 1
                        k = self.partner[k]
                    k = self.partner[k] + 1 if t[k].text in "([" else k + 1
                if t[k].text == "{":  # a trait's function may have no body
                    self.functions.append((within + name, parameters, k))
                    k = self.partner[k]
                i = k
            elif word in ("const", "static"):
                k = i
                while t[k].text != "=":
                    k += 1
                e = k
                while t[e].text != ";":
                    e = self.partner[e] + 1 if t[e].text in "([{" else e + 1
                self.constants.append((t[i + 1].text, "".join(x.text for x in t[i + 3 : k]), k + 1, e))
                i = e
            elif word == "enum":
                body = i + 2
                variants, k = [], body + 1
                while k < self.partner[body]:
                    fields = self.parameter_count(k + 1) if self.is_at(k + 1, "(") else 0
                    variants.append((t[k].text, fields))
                    first = k
                    while k < self.partner[body] and t[k].text != ",":  # it may have fields, or a number
                        k = self.partner[k] + 1 if t[k].text in "([{" else k + 1
                    if self.is_at(first + 1, "="):
                        self.constants.append((f"{t[i + 1].text}::{t[first].text}", "", first + 2, k))
                    k += 1
                self.enums[t[i + 1].text] = variants
                i = self.partner[body]
            elif word in ("struct", "use", "ghost", "mod"):
                while t[i].text not in ("{", ";"):
                    i += 1
                if t[i].text == "{":
                    i = self.partner[i]
                    if self.is_at(i + 1, ";"):
                        i += 1
            i += 1


class Mutants:
    """The mutants of one file. `enums` has those of all files, `constants` the type of each constant by name, `parameters` the types of
    each function's parameters."""

    def __init__(self, source, enums, constants, parameters):
        self.s, self.t, self.partner = source, source.tokens, source.partner
        self.enums, self.constants, self.parameters = enums, constants, parameters
        self.edits, self.counts = [], {}

    def all(self):
        for name, kind, start, end in self.s.constants:
            self.function, self.patterns, self.brackets = name, set(), set()
            self.names = set()
            self.expressions(start, end)
        for name, parameters, body in self.s.functions:
            self.function = name
            end = self.partner[body]
            self.names = {x.text for x in self.t[parameters:end] if x.kind == "word"}
            self.patterns = set()
            self.kinds = self.brace_kinds(body, end)
            self.find_patterns()
            self.find_generics(body, end)
            self.expressions(body + 1, end)
            self.statements(body, end)
        return self.edits

    # ---- naming and adding

    def place(self, i):
        return self.t[i].at

    def after(self, i):
        return self.t[i].at + len(self.t[i].text)

    def line(self, start, end):
        a = self.s.text.rfind("\n", 0, start) + 1
        b = self.s.text.find("\n", end)
        return a, b if b >= 0 else len(self.s.text)

    def add(self, start, end, text, kind, name=None):
        if name is None:
            a, b = self.line(start, end)
            shown = lambda s: " ".join(s.split("//")[0].split())
            name = f"{shown(self.s.text[a:b])} => {shown(self.s.text[a:start] + text + self.s.text[end:b])}"
            # a line that has no more than an argument says too little
            callee = self.callee_above(a, start)
            if callee:
                name = f"{callee}(.. {name}"
        key = (self.function, name)
        self.counts[key] = n = self.counts.get(key, 0) + 1
        if n > 1:
            name += f" ({n})"
        self.edits.append(Edit(start, end, text, kind, self.function, name))

    def callee_above(self, line, start):
        """the function whose argument stands at `start`, if its name is on a line above"""
        inner = None
        for i, token in enumerate(self.t):
            if token.at >= line:
                break
            if token.text == "(" and self.t[self.partner[i]].at >= start:
                k = i - 1
                while self.t[i - 1].text == ">" and self.t[k].text != "<":  # of `f::<8>(`
                    k -= 1
                k = k - 2 if self.t[k].text == "<" and self.t[k - 1].text == "::" else i - 1
                if self.t[k].kind == "word":
                    inner = self.t[k].text
        return inner

    # ---- what stands where

    def brace_kinds(self, body, end):
        """for each brace of a body: 'code', 'match' or 'literal'"""
        kinds, pending, depth = {body: "code"}, [], [body]
        i = body + 1
        while i < end:
            token = self.t[i]
            if token.kind == "word" and token.text in HEADERS:
                pending.append((len(depth), token.text))
            elif token.kind == "sign" and token.text in "([":
                depth.append(i)
            elif token.kind == "sign" and token.text in ")]}":
                depth.pop()
            elif token.kind == "sign" and token.text == "{":
                if pending and pending[-1][0] == len(depth):
                    kinds[i] = "match" if pending.pop()[1] == "match" else "code"
                elif self.t[i - 1].text in ("else", "loop", "=>", ";", "{", "}"):
                    kinds[i] = "code"
                else:
                    kinds[i] = "literal"
                depth.append(i)
            i += 1
        return kinds

    def find_generics(self, body, end):
        """the angle brackets of arguments as in `f::<8>(..)`, and the bars between the patterns of `matches!`: these are no operators"""
        self.brackets = set()
        for i in range(body, end):
            if self.t[i].text == "::" and self.s.is_at(i + 1, "<"):
                self.brackets |= {i + 1, self.s.past_generics(i + 1) - 1}
            elif self.t[i].text == "matches" and self.s.is_at(i + 1, "!"):
                self.brackets |= {k for k in range(i + 2, self.partner[i + 2]) if self.t[k].text == "|"}

    def find_patterns(self):
        for brace, kind in self.kinds.items():
            if kind != "match":
                continue
            i, stop = brace + 1, self.partner[brace]
            while i < stop:
                while self.t[i].text != "=>":
                    self.patterns.add(i)
                    i += 1
                i += 1
                if self.t[i].text == "{":
                    i = self.partner[i] + 1
                else:
                    while i < stop and self.t[i].text != ",":
                        i = self.partner[i] + 1 if self.t[i].text in "([{" else i + 1
                if i < stop and self.t[i].text == ",":
                    i += 1

    def is_operand_end(self, i):
        token = self.t[i]
        return token.kind == "number" or token.text in (")", "]") or token.kind == "word" and token.text not in KEYWORDS - {"self"}

    # ---- expressions

    def expressions(self, start, end):
        for i in range(start, end):
            token = self.t[i]
            if i in self.patterns:
                if token.kind == "number":
                    self.number(i)
                continue
            if token.kind == "number":
                self.number(i)
            elif token.kind == "word":
                self.word(i)
            elif token.kind == "sign":
                self.sign(i)

    def number(self, i):
        m = re.fullmatch(r"(\d[\d_]*)([a-z]\w*)?", self.t[i].text)
        n, suffix = int(m.group(1).replace("_", "")), m.group(2) or ""
        start, end = self.place(i), self.after(i)
        self.add(start, end, f"{n + 1}{suffix}", "constant")
        if n > 0:
            self.add(start, end, f"{n - 1}{suffix}", "constant")

    def word(self, i):
        text, before, following = self.t[i].text, self.t[i - 1].text, self.t[i + 1].text
        start, end = self.place(i), self.after(i)
        if text in ("true", "false"):
            self.add(start, end, "false" if text == "true" else "true", "constant")
            return
        if text in ("if", "while") and self.t[i + 1].text != "let":
            self.condition(i)
        if text in KEYWORDS or before in ("let", "mut", "as", "fn"):
            return
        if before == "::":
            self.variant(i)
            return
        if following in ("::", "(", "{", "!") or (following == ":" and self.t[i - 1].text in ("{", ",")):
            opening = self.opening(i)
            if opening:
                self.arguments(i, opening)
            return
        if text in self.constants:
            same = [c for c, kind in self.constants.items() if kind == self.constants[text]]
            if len(same) > 1:
                self.add(start, end, same[(same.index(text) + 1) % len(same)], "operand")
            return
        for other in counterparts(text):
            if other in self.names or before == ".":
                self.add(start, end, other, "operand")

    def opening(self, i):
        """where the arguments of the function at i begin, if it is called there"""
        k = self.s.past_generics(i + 2) if self.s.is_at(i + 1, "::") and self.s.is_at(i + 2, "<") else i + 1
        return k if self.s.is_at(k, "(") else None

    def variant(self, i):
        name, enum = self.t[i].text, self.t[i - 2].text
        opening = self.opening(i)
        if opening:
            self.arguments(i, opening)
        variants = self.enums.get(enum, [])
        held = dict(variants).get(name)
        same = [v for v, holds in variants if holds == held]
        if held is not None and len(same) > 1:
            self.add(self.place(i), self.after(i), same[(same.index(name) + 1) % len(same)], "constructor")

    def arguments(self, i, opening):
        """two neighbouring arguments of one type, exchanged; those that `PAIRS` has are put in each other's place already"""
        closing, parts, first = self.partner[opening], [], opening + 1
        k = first
        while k < closing:
            if self.t[k].text == ",":
                parts.append((first, k))
                first = k + 1
            k = self.partner[k] + 1 if self.t[k].text in "([{" else k + 1
        if first < closing:
            parts.append((first, closing))
        texts = [self.s.text[self.place(a) : self.after(b - 1)] for a, b in parts]
        types = self.parameters.get((self.t[i].text, len(parts)))
        for n in range(len(parts) - 1):
            if texts[n] == texts[n + 1] or texts[n] in counterparts(texts[n + 1]) or (types and types[n] != types[n + 1]):
                continue
            start, end = self.place(parts[n][0]), self.after(parts[n + 1][1] - 1)
            between = self.s.text[self.after(parts[n][1] - 1) : self.place(parts[n + 1][0])]
            short = [" ".join(x.split()) for x in texts[n : n + 2]]
            if any(len(x) > 70 for x in short):
                continue
            label = f"{self.t[i].text}({'.., ' if n else ''}{short[0]}, {short[1]}{', ..' if n + 2 < len(parts) else ''})"
            self.add(start, end, texts[n + 1] + between + texts[n], "exchange", f"{label} => {short[1]}, {short[0]}")

    def sign(self, i):
        if i in self.brackets:
            return
        text = self.t[i].text
        binary = i > 0 and self.is_operand_end(i - 1)
        start, end = self.place(i), self.after(i)
        if text == "!" and not binary:
            self.add(start, end, "", "condition")
        elif text == "-" and not binary and self.t[i + 1].kind == "number":
            self.add(start, end, "", "operator")
        elif text in OPERATORS and binary:
            self.add(start, end, OPERATORS[text], "operator")
            if text in ORDERED:
                self.exchange(i)

    def exchange(self, i):
        a = i - 1
        while self.t[a - 1].text == ".":
            a -= 2
        b = i + 1
        while self.t[b + 1].text == ".":
            b += 2
        simple = lambda x: x.kind == "number" or x.kind == "word" and x.text not in KEYWORDS - {"self"}
        if not (simple(self.t[a]) and simple(self.t[i - 1]) and simple(self.t[b])) or self.t[b + 1].text in ("(", "[", "as", "::"):
            return
        if self.t[a - 1].text in ("as", "::"):
            return
        left, right = self.s.text[self.place(a) : self.after(i - 1)], self.s.text[self.place(i + 1) : self.after(b)]
        if left != right:
            self.add(self.place(a), self.after(b), f"{right} {self.t[i].text} {left}", "exchange")

    def condition(self, i):
        k = i + 1
        while self.kinds.get(k) != "code":
            k += 1
        start, end = self.place(i + 1), self.after(k - 1)
        signs = [x.text for x in self.t[i + 1 : k] if x.text in OPERATORS]
        # a test for equality alone is negated by its operator
        if self.t[i + 1].text != "!" and signs not in (["=="], ["!="]):
            text = " ".join(self.s.text[start:end].split())
            word = self.t[i].text
            self.add(start, end, f"!({self.s.text[start:end]})", "condition", f"{word} {text} => {word} !({text})")

    # ---- statements

    def statements(self, body, end):
        for brace, kind in self.kinds.items():
            if kind != "code":
                continue
            i, stop = brace + 1, self.partner[brace]
            while i < stop:
                i = self.statement(i, stop)

    def statement(self, i, stop):
        """looks at the statement at i, and gives the place after it"""
        first, k = i, i
        if self.t[i].text in ("if", "while", "for", "loop", "match"):
            while True:
                while self.kinds.get(k) not in ("code", "match"):
                    k += 1
                k = self.partner[k] + 1
                if not self.s.is_at(k, "else"):
                    break
            if self.t[i].text in ("if", "while") and "else" not in [x.text for x in self.t[i:k]] and k < stop:
                self.drop(first, k)
            return k + 1 if self.s.is_at(k, ";") else k
        while k < stop and self.t[k].text != ";":
            k = self.partner[k] + 1 if self.t[k].text in "([{" else k + 1
        # a call whose answer is not looked at is `let _ = ..`
        bound = self.t[i].text == "let" and self.t[i + 1].text != "_"
        if k < stop and not bound and not (self.t[i].text == "return" and k > i + 1):
            self.drop(first, k + 1)
        return k + 1

    def drop(self, first, after):
        text = " ".join(self.s.text[self.place(first) : self.after(after - 1)].split())
        if len(text) > 90:
            text = text[:60] + " .. " + text[-20:]
        self.add(self.place(first), self.after(after - 1), "", "statement", f"{text} => nothing")


def counterparts(name):
    found = []
    for pair in PAIRS:
        for one, other in (pair, pair[::-1]):
            new = "_".join(other if part == one else part for part in name.split("_"))
            if new != name and new not in found:
                found.append(new)
    return found


def mutants_of(files):
    """for each file of a crate its mutants; `files` has the text of every file of all crates that are looked at"""
    sources = {path: Source(text) for path, text in files.items()}
    enums = {name: variants for s in sources.values() for name, variants in s.enums.items()}
    constants = {}
    for path, s in sources.items():
        constants.update({name: kind for name, kind, _, _ in s.constants})
    parameters = {}
    for s in sources.values():
        for name, opening, _ in s.functions:
            types = s.parameter_types(opening)
            parameters[name.split("::")[-1], len(types)] = types
    result = {}
    for path, s in sources.items():
        seen = {x.text for x in s.tokens}
        own = {name: kind for name, kind in constants.items() if name in seen}
        result[path] = Mutants(s, enums, own, parameters).all()
    return result
