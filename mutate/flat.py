"""One crate of all definitions: the types of the layers, their specs, and cases, with no code and no proof but the cases'. A mutant of a
definition is checked there, so that the cases alone judge it."""

import os
import re
import shutil

import antt
import rattle

CRATE = "definitions"
# What the definitions have of the library, which this crate does not read: antt.py gives its modules.
PRELUDE = """pub enum Option<T> {
    None,
    Some(T),
}

pub enum Result<T, E> {
    Ok(T),
    Err(E),
}
"""
WORDS = f"""use mathlib.Core.Bool.{{Bool, true, false}}
use {antt.OWN}.declared.prelude.Option.{{Option}}
use {antt.OWN}.declared.prelude.Option.TheVariants.{{None, Some}}
use {antt.OWN}.declared.prelude.Result.{{Result}}
use {antt.OWN}.declared.prelude.Result.TheVariants.{{Ok, Err}}

abbrev pub is_some : {{T : Type 0}} → Option T → Bool
is_some None = false
is_some (Some x) = true

abbrev pub unwrap_or : {{T : Type 0}} → Option T → T → T
unwrap_or None d = d
unwrap_or (Some x) d = x

abbrev pub option_map : {{T U : Type 0}} → (T → U) → Option T → Option U
option_map f None = None
option_map f (Some x) = Some (f x)

abbrev pub result_err : {{T E : Type 0}} → Result T E → Option E
result_err (Ok x) = None
result_err (Err e) = Some e
"""
# crates whose definitions are believed, lowest first; the last two have cases
CRATES = ["laws", "combine_predictions", "forming_predictions", "pmv", "inter_reconstruction", "entry_points", "drift", "worked_cases", "worked_runs"]


def from_logic(m):
    """the imports of a line from std, from where the logic has the names: a check that reads no library takes a fifth of the time"""
    lines = []
    for name in (n.strip() for n in m.group(1).split(",")):
        found = [(module, n) for module, names in antt.LOGIC.items() for n in names if n.split(" as ")[-1] == name]
        if not found:
            raise ValueError(f"antt.py does not say where the logic has {name}")
        lines.append(f"use {found[0][0]}.{{{found[0][1]}}}")
    return "\n".join(lines)


def renamed(text):
    """the modules of the crates as modules of one crate, without std"""
    text = re.sub(r"use Rattle\.std\.[\w.]*\.\{([^{}]*)\}", from_logic, text)
    names = "|".join(CRATES)
    text = re.sub(rf"Rattle\.({names})\.specs\.declared\.", rf"Rattle.{CRATE}.specs.declared.\1.", text)
    return re.sub(rf"Rattle\.({names})\.specs\.", rf"Rattle.{CRATE}.specs.\1.", text)


def types_of(text, crate):
    """the public structs and enums of a file, its modules, and the types that it uses"""
    source = rattle.Source(text)
    tokens, kept, i = source.tokens, [], 0
    while i < len(tokens):
        start = i
        if tokens[i].text == "pub" and tokens[i + 1].text in ("struct", "enum", "mod"):
            i += 1
        word = tokens[i].text
        if word in ("struct", "enum"):
            while tokens[i].text not in ("{", ";"):
                i += 1
            i = source.partner[i] if tokens[i].text == "{" else i
            if i > start and tokens[start].text == "pub":
                kept.append(text[tokens[start].at : tokens[i].at + 1])
        elif word in ("mod", "use") and tokens[start].text != "ghost":
            while tokens[i].text != ";":
                i += 1
            kept.append(text[tokens[start].at : tokens[i].at + 1])
        elif word == "ghost":
            while tokens[i].text != ";":
                i += 1
        elif word in ("fn", "impl", "trait"):
            while tokens[i].text != "{":
                if tokens[i].text in ("requires", "ensures"):
                    while tokens[i].text != "{":
                        i += 1
                    i = source.partner[i]
                i += 1
            i = source.partner[i]
        elif word in ("const", "static"):
            while tokens[i].text != ";":
                i = source.partner[i] + 1 if tokens[i].text in "([{" else i + 1
        i += 1
    body = "\n".join(k for k in kept if not k.startswith("use "))
    uses = [f"use crate::prelude::{name};" for name in ("Option", "Result") if re.search(rf"\b{name}<", body)]
    for k in kept:
        m = re.fullmatch(r"use (\w+)((?:::\w+)*)::(\w+|\{[^{}]*\});", k)
        for name in re.findall(r"\w+", m.group(3)) if m else []:
            if name[0].isupper() and not name.isupper() and re.search(rf"\b{name}\b", body):
                first = crate if m.group(1) == "crate" else m.group(1)
                uses.append(f"use crate::{first}{m.group(2)}::{name};")
    return "\n".join(uses + [body]) + "\n"


def write(path, text):
    os.makedirs(os.path.dirname(path), exist_ok=True)
    with open(path, "w") as f:
        f.write(text)


def read(path):
    with open(path) as f:
        return f.read()


def spec_files(repository):
    """the files of definitions that must be believed: crate, name, text"""
    for crate in CRATES:
        folder = os.path.join(repository, "crates", crate, "specs")
        for name in sorted(os.listdir(folder)):
            if name.endswith(".antt") and name not in ("Lib.antt", "inner.antt", "Undivided.antt"):
                yield crate, name, read(os.path.join(folder, name))


def make(repository, folder, proofs, crates):
    """writes the crate, with the definitions of some crates; `proofs` has the text of each module of cases"""
    shutil.rmtree(folder, ignore_errors=True)
    roots = []
    for crate in crates:
        source = os.path.join(repository, "crates", crate, "src")
        texts = {}
        for where, _, names in os.walk(source):
            for name in names:
                path = os.path.relpath(os.path.join(where, name), source)
                texts[path] = types_of(read(os.path.join(where, name)), crate)
        if not any("struct" in t or "enum" in t for t in texts.values()):
            continue
        roots.append(crate)
        # a module without types is left out
        full = {p for p, t in texts.items() if "struct " in t or "enum " in t}
        for path, text in texts.items():
            if path == "lib.rt":
                text = re.sub(r"(pub )?mod (\w+);", lambda m: f"pub mod {m.group(2)};" if m.group(2) + ".rt" in full else "", text)
                write(os.path.join(folder, "src", crate + ".rt"), text)
            elif path in full:
                write(os.path.join(folder, "src", crate, path), text)
    write(os.path.join(folder, "src", "prelude.rt"), PRELUDE)
    write(os.path.join(folder, "src", "lib.rt"), "".join(f"pub mod {c};\n" for c in ["prelude", *roots]))
    write(os.path.join(folder, "specs", "prelude.antt"), WORDS)
    write(os.path.join(folder, "specs", "Lib.antt"), "".join(f"pub mod {c}\n" for c in ["prelude", *crates]))
    modules = {c: [] for c in crates}
    for crate, name, text in spec_files(repository):
        if crate not in crates:
            continue
        modules[crate].append(name[:-5])
        write(os.path.join(folder, "specs", crate, name), renamed(text))
    for crate in crates:
        write(os.path.join(folder, "specs", crate + ".antt"), "".join(f"pub mod {m}\n" for m in modules[crate]))
    write(os.path.join(folder, "proofs", "Lib.antt"), "".join(f"pub mod {m}\n" for m in proofs))
    for name, text in proofs.items():
        write(os.path.join(folder, "proofs", name + ".antt"), renamed(text))
