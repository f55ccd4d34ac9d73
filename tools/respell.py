#!/usr/bin/env python3
"""Spells the repository's own definitions and lemmas in snake case, and facts and theorems in camel case.

usage: python3 tools/respell.py         at the top of the repository, once, after the kit's port.py
       python3 tools/respell.py --list  only says which names would change, and which of the new names stand already

A name counts as the repository's own where a file of specs/ or proofs/ other than a function's Answers and Invariants defines it.
Names that Rattle makes for goals and steps, the library's names, the functions of src/, strings and outputs are left alone."""
import collections
import os
import re
import sys

PART = r"[^\W\d][\w']*(?:-[\w']+)*"
TOKEN = re.compile(r"(?<![\w'-])" + PART + r"(?![\w'-])")
# Files whose names Rattle makes.
MADE = ("Answers.antt", "Invariants.antt", "Proof.antt", "Choices.antt")
DEFINED = re.compile(r"\s*(?:(?:abbrev|unfoldable|pub|data|record|ruleset|module|let)\s+)*(" + PART + r")\s*(?:[({][^)}]*[)}]\s*)*:(?![:=])")
HEADED = re.compile(r"\s*(?:pub\s+)?(?:record|data|ruleset)\s+(" + PART + ")")


def files(ending):
    for folder, dirs, names in os.walk("crates"):
        dirs[:] = sorted(d for d in dirs if d != "out")
        for name in sorted(names):
            if name.endswith(ending):
                yield os.path.join(folder, name)


def own():
    """The names with a dash that the repository defines, and those of its variables, each with its new spelling."""
    found = set()
    for path in files(".antt"):
        if path.endswith(MADE):
            continue
        with open(path) as it:
            for line in it:
                line = line.split("--")[0]
                for form in (DEFINED, HEADED):
                    m = form.match(line)
                    if m and "-" in m[1]:
                        found.add(m[1])
                # binders with a dash, as (old-link : ℕ) and λ e-is.
                for m in re.findall(r"[({]((?:" + PART + r"\s+)*" + PART + r")\s*:(?!:)", line):
                    found.update(n for n in m.split() if "-" in n)
    # Variables: what no file brings in from the library.
    brought, used = set(), set()
    for path in files(".antt"):
        with open(path) as it:
            code = "".join(p for p, c in pieces(it.read(), "--") if c)
        for line in re.findall(r"^\s*use [^{\n]*\{([^}]*)\}", code, re.M):
            brought.update(TOKEN.findall(line))
        if not path.endswith(MADE):
            used.update(t for t in TOKEN.findall(re.sub(r"^\s*use .*", "", code, flags=re.M)) if "-" in t)
    variables = used - brought - found
    return {n: spelled(n) for n in found}, {n: spelled(n) for n in variables}


def spelled(name):
    parts = name.split("-")
    if name[0].isupper():
        return "".join(p[0].upper() + p[1:] for p in parts)
    return "_".join(parts)


def pieces(text, comment):
    """The text in pieces, each with whether it is code."""
    strings = r'b?"(?:\\.|[^"\\])*"' if comment == "//" else r"(?!)"
    for m in re.finditer(rf"({comment}[^\n]*)|({strings})|((?:(?!{comment}|{strings}).)+|\n)", text, re.S):
        yield m[0], bool(m[3])


def turn(names, text):
    return TOKEN.sub(lambda m: names.get(m[0], m[0]), text)


def turned(names, variables, path, text):
    # In an answer `w.x-is` is Rattle's own fact of a branch.
    if not path.endswith(MADE):
        names = {**names, **variables}
    else:
        names = {**names, "tally-is": "tally-is", "best-is": "best-is"} if re.search(r"\bw\.(tally|best)-is\b", text) else names
    if path.endswith(".md"):
        return re.sub(r"`[^`\n]+`", lambda m: turn(names, m[0]), text)
    comment = "--" if path.endswith(".antt") else "//"
    out = []
    for piece, code in pieces(text, comment):
        if code:
            out.append(turn(names, piece))
        elif piece.startswith(comment):
            out.append(re.sub(r"`[^`\n]+`", lambda m: turn(names, m[0]), piece))
        else:
            out.append(piece)
    assert "".join(p for p, _ in pieces(text, comment)) == text, path
    return "".join(out)


def main(argv):
    names, variables = own()
    paths = [*files(".antt"), *files(".rt"), *files(".edit"), "README.md"]
    paths += sorted("docs/" + f for f in os.listdir("docs") if f.endswith(".md") and f != "PORT.md")
    texts = {p: open(p).read() for p in paths}
    if "--list" in argv:
        for old, new in sorted({**names, **variables}.items()):
            print(old, new)
        back = collections.defaultdict(set)
        for old, new in {**names, **variables}.items():
            back[new].add(old)
        for new, olds in sorted(back.items()):
            if len(olds) > 1:
                print("fall together:", *sorted(olds), "as", new)
        for path, text in texts.items():
            if path.endswith(".antt"):
                code = "".join(p for p, c in pieces(text, "--") if c)
                stand = {t for t in TOKEN.findall(code)}
                for new in sorted(stand & set(back)):
                    if back[new] & stand:
                        print("stands already:", path, new, *sorted(back[new] & stand))
        return
    for path, text in texts.items():
        new = turned(names, variables, path, text)
        if new != text:
            with open(path, "w") as it:
                it.write(new)


main(sys.argv[1:])
