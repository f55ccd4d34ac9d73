#!/usr/bin/env python3
"""Counts, in the src/ of every crate below the folder given, the places that a better form may serve, point by point.
usage: places.py [-v] [ROOT]      -v lists the places"""
import collections
import pathlib
import re
import sys

verbose = "-v" in sys.argv
root = pathlib.Path(next((a for a in sys.argv[1:] if a != "-v"), "."))
files = sorted(root.glob("crates/*/src/**/*.rt"))
lines = [(f.relative_to(root), n, l.rstrip()) for f in files for n, l in enumerate(f.read_text().splitlines(), 1)]
code = [(f, n, l.split("//")[0]) for f, n, l in lines if not l.lstrip().startswith(("//", "ghost use", "use ", "requires", "ensures"))]


def show(title, found):
    print(f"{title}: {len(found)}")
    if verbose:
        for item in found:
            print("   ", item)


def grep(pattern, without=None):
    return [f"{f}:{n}: {l.strip()}" for f, n, l in code if re.search(pattern, l) and not (without and re.search(without, l))]


def functions():
    """Every function: its place, its name, its parameters, its clauses and its body."""
    start = re.compile(r"^( *)(?:pub(?:\([a-z]+\))? )?(?:extern \"C\" )?fn (\w+)")
    for f in files:
        rows = f.read_text().splitlines()
        i = 0
        while i < len(rows):
            m = start.match(rows[i])
            if not m or rows[i].rstrip().endswith(";"):
                i += 1
                continue
            end = i
            while end < len(rows) and rows[end] not in (m.group(1) + "}", m.group(1) + "{}") and not rows[end].endswith(";" if rows[end].startswith(m.group(1) + "    ensures") else "\0"):
                end += 1
            whole = "\n".join(rows[i:end + 1])
            clauses = re.findall(r"^\s*(?:requires|ensures)[^{\n]*\{(.*)\}\s*$", whole, re.M)
            plain = re.sub(r"^\s*(?:requires|ensures)[^\n]*$", "", whole, flags=re.M)
            plain = re.sub(r"//[^\n]*", "", plain)
            head, _, body = plain.partition("{\n")
            parameters = [p for p in re.findall(r"(\w+): ((?:&'?\w* ?(?:mut )?)?[\w:<>\[\]; ,']+?)(?=,|\)|\n)", head) if p[0].islower()]
            yield f"{f.relative_to(root)}: {m.group(2)}", m.group(2), parameters, clauses, body
            i = end + 1


# 1. own enums, a bool in place of a value, numbers in place of kinds
show("1 own enums", grep(r"^\s*(pub(\([a-z]+\))? )?enum "))
show("1 flags and numbers as answers", grep(r"-> io::Result<bool>|-> Drawn$|refusal: u16|\breturn 0;|return u16::from"))

# 2. functions of one shape: names, numbers and types of numbers left out
shapes = collections.defaultdict(list)
for place, name, parameters, clauses, body in functions():
    shape = re.sub(r"\b(u8|u16|u32|u64|usize)\b", "N", body)
    shape = re.sub(r"\b\d+\b", "0", shape)
    shape = re.sub(r"\b(?!if|else|for|in|let|mut|return|match|while|as|N\b)[A-Za-z_]\w*\b", "x", shape)
    shape = re.sub(r"[&*]", "", re.sub(r"\s+", " ", shape)).strip()
    if len(shape) > 24:
        shapes[shape].append(place)
show("2 functions of one shape", [" = ".join(group) for group in shapes.values() if len(group) > 1])
kinds = collections.defaultdict(list)
for f in files:
    for m in re.finditer(r"^(?:pub )?(?:struct|enum) (\w+)(?:<[^>]*>)? \{\n(.*?)^\}", f.read_text(), re.S | re.M):
        shape = re.sub(r"//[^\n]*|ghost [^\n]*|pub(\([a-z]+\))? ", "", m.group(2))
        kinds[re.sub(r"\s+", " ", shape).strip()].append(f"{f.relative_to(root)}: {m.group(1)}")
show("2 types of one shape", [" = ".join(group) for group in kinds.values() if len(group) > 1])

# 3. loops over the numbers of a range, and loops that carry an index
show("3 loops over a range", grep(r"\bfor \w+ in [^{]*\.\."))
show("3 loops that carry an index", grep(r"\bfor \(\w+, \w+\) in .*enumerate\(\)|\bwhile\b|\bloop \{"))

# 4. conversions by `as`, and impls of std's traits by hand
show("4 casts by `as`", grep(r"\bas (u8|u16|u32|u64|usize)\b"))
show("4 impls by hand", grep(r"^\s*impl.* (fmt::Display|Display|From<.*>|TryFrom<.*>|PartialEq|Ord|PartialOrd|Default|Clone|Debug) for "))

# 5. facts in three contracts or more, and parameters that travel together
facts = collections.defaultdict(set)
for place, name, parameters, clauses, body in functions():
    for clause in clauses:
        if "→" in clause or "λ" in clause:
            continue
        for part in re.split(r" × ", clause):
            part = re.sub(r"\.(now|old|new)\b", "", part).strip(" ()")
            if "result" not in part and len(part) > 6:
                facts[part].add(place)
show("5 facts in three contracts or more", [f"{fact}: {len(where)}" for fact, where in sorted(facts.items()) if len(where) > 2])
together = collections.Counter()
for place, name, parameters, clauses, body in functions():
    for m in [frozenset(p for p in parameters if p[0] not in ("heap", "rt", "f"))]:
        if len(m) > 2:
            together[(m, place.split(":")[0].split("/")[1])] += 1
sets = collections.defaultdict(set)
names = [(place, frozenset(p[0] for p in parameters)) for place, name, parameters, clauses, body in functions()]
for i, (place, these) in enumerate(names):
    for other, those in names[i + 1:]:
        common = these & those
        if len(common) > 2 and place.split("/")[1] == other.split("/")[1]:
            sets[(place.split("/")[1], tuple(sorted(common)))].update((place, other))
show("5 three parameters or more that travel together", [f"{crate}: {', '.join(common)}: {len(where)} functions" for (crate, common), where in sorted(sets.items()) if len(where) > 2])

# 6. fixed arrays, and lists that lie beside one another
show("6 fixed arrays", grep(r"\[(\w+); (\d+|[A-Z]+)\]", r"for |assert|&mut \["))

# 7. a bool that says which step to run, tables of functions
show("7 a flag as a parameter", grep(r"\b\w+: bool\b[,)]?", r"^\s*(pub )?\w+: bool,$.*struct"))
show("7 closures, traits and boxes of functions", grep(r"\bdyn |\bfn\(|impl Fn|: Fn(Mut|Once)?\("))

# 8. proofs
answers = sorted(root.glob("crates/*/proofs/**/Answers.antt"))
invariants = sorted(root.glob("crates/*/proofs/**/Invariants.antt"))
lemmas = [f for f in sorted(root.glob("crates/*/proofs/*.antt")) if f.name != "Lib.antt"]
count = lambda fs: sum(len(f.read_text().splitlines()) for f in fs)
print(f"8 answers: {len(answers)} files, {count(answers)} lines; invariants: {len(invariants)} files, {count(invariants)} lines; lemmas: {len(lemmas)} files, {count(lemmas)} lines")
