#!/usr/bin/env python3
"""Brings the names of this repository's own definitions and lemmas to today's spelling: words are written with underscores.

usage: python3 tools/respell.py [--dry]      at the top of the repository, once, after the kit's port.py

A name is the repository's own if a .antt file outside the folders of function proofs declares it. `fooBar` and `foo-bar` become `foo_bar`.
Names that a file brings in from the library keep their spelling there, as do the names that the check makes, strings, and the items of
src/, which have underscores already. Types and modules have their capitals already. Comments and pages follow where a name stands in
backquotes. Two names of one file that would become one are reported, and so is a new name that the file has for something else.
"""

import os
import re
import sys

WORD = r"[A-Za-z_][A-Za-z0-9_'₀-₉-]*"
DECLARED = re.compile(rf"^\s*(?:(?:abbrev|unfoldable|pub|opaque|data|record)\s+)*({WORD}(?:\s+{WORD})*)\s+(?=[:({{])")
ALONE = re.compile(rf"^\s*(?:(?:abbrev|unfoldable|pub|opaque|data|record)\s+)*({WORD})\s*$")
FIELDS = re.compile(rf"\(((?:{WORD}\s+)+):|\{{((?:{WORD}\s+)+):")
IMPORT = re.compile(r"^(?:pub )?(?:ghost )?use ([^\s.]+(?:\.[^\s.{]+)*)\.\{([^}]*)\}", re.M)
KEYWORDS = {"use", "module", "let", "where", "in", "elim", "case", "absurd", "rw", "simp", "record", "data", "pub", "abbrev"}
# lemmas with underscores already whose name a definition of that file takes now
TAKEN = {
    "crates/readback/proofs/Sendirs.antt": {"code_read": "code_read_law", "pairs_of": "pairs_of_law"},
    "crates/reads/proofs/Cursor.antt": {"field_is": "field_is_law"},
    "crates/reads/proofs/Rows.antt": {"field_is": "field_is_law"},
    "crates/theorems/proofs/Codes.antt": {"count_fits": "count_fits_law"},
}
# a lemma that would be called as a definition is: its name ends with `_law`
LAWS = {}


def files(root, *ends):
    for folder, dirs, names in os.walk(root):
        dirs[:] = sorted(d for d in dirs if d not in ("out", ".git", "target"))
        for name in sorted(names):
            if name.endswith(ends):
                yield os.path.join(folder, name)


def read(path):
    with open(path, encoding="utf-8") as f:
        return f.read()


def of_a_function(path):
    """Whether a file is the proof of a function, whose declarations have the names of its goals."""
    return os.path.basename(path) == "Proof.antt"


def spelled(name):
    if name in LAWS:
        return LAWS[name]
    name = re.sub(r"(?<=[a-z0-9])([A-Z])", lambda m: "_" + m.group(1), name)
    return name.replace("-", "_").lower()


def old(name):
    return ("-" in name and not name[0].isupper()) or re.match(r"[a-z][A-Za-z0-9_'-]*[A-Z]", name) is not None


def declared(own):
    """The names to be spelled anew, and those that have underscores already."""
    found = set()
    every = set()
    for path in own:
        if of_a_function(path):
            continue
        lines = read(path).splitlines()
        for line, below in zip(lines, lines[1:] + [""]):
            if line.lstrip().startswith("--"):
                continue
            m = DECLARED.match(line) or (below.lstrip().startswith((":", "(", "{")) and ALONE.match(line))
            if m:
                found |= {n for n in m.group(1).split() if old(n)}
                every |= set(m.group(1).split())
            for m in FIELDS.finditer(line):
                found |= {n for n in (m.group(1) or m.group(2)).split() if old(n)}
    return found - KEYWORDS, every - found


def foreign(text, crates):
    """The names that a file brings in from elsewhere."""
    names = set()
    for m in IMPORT.finditer(text):
        path = m.group(1).split(".")
        if path[0] == "Rattle" and len(path) > 1 and path[1] in crates:
            continue
        names |= {n.strip() for n in m.group(2).split(",")}
    return names


def code_and_comments(text, comment):
    """The text cut into pieces, each with whether it is code: comments and strings are not."""
    pattern = re.compile(rf'{comment}[^\n]*|"(?:[^"\\\n]|\\.)*"')
    at = 0
    for m in pattern.finditer(text):
        yield text[at : m.start()], True
        yield m.group(0), False
        at = m.end()
    yield text[at:], True


TOKEN = re.compile(rf"(?<![A-Za-z0-9_'₀-₉◌-]){WORD}")


def turned(text, names, comment):
    out = []
    for piece, code in code_and_comments(text, comment):
        if code:
            out.append(TOKEN.sub(lambda m: spelled(m.group(0)) if m.group(0) in names else m.group(0), piece))
        else:
            out.append(in_backquotes(piece, names))
    return "".join(out)


def in_backquotes(text, names):
    def one(m):
        return TOKEN.sub(lambda w: spelled(w.group(0)) if w.group(0) in names else w.group(0), m.group(0))

    return re.sub(r"`[^`\n]+`", one, text)


def main():
    dry = "--dry" in sys.argv
    crates = {line.split(":")[0].split()[0] for line in read("crates.txt").splitlines() if ":" in line and not line.startswith("#")}
    own = list(files("crates", ".antt"))
    sources = list(files("crates", ".rt"))
    names, others = declared(own)
    taken = {spelled(n) for n in names if "-" not in n} | others
    for n in sorted(names):
        if "-" in n and spelled(n) in taken:
            LAWS[n] = spelled(n) + "_law"
            print(f"look: {n} is {LAWS[n]}" + (", which is taken" if LAWS[n] in taken else ""))
    changed = 0
    for path in own + sources:
        text = read(path)
        for n, to in TAKEN.get(path, {}).items():
            text = re.sub(rf"(?<![A-Za-z0-9_'.-]){n}(?![A-Za-z0-9_'-])", to, text)
        here = names - foreign(text, crates)
        there = set(TOKEN.findall(text))
        after = {}
        for n in sorted(there & here):
            if spelled(n) in after or spelled(n) in there:
                print(f"look: {path}: {n} and {after.get(spelled(n), spelled(n))} are both {spelled(n)}")
            after[spelled(n)] = n
        new = turned(text, here, "//" if path.endswith(".rt") else "--")
        if new != read(path):
            changed += 1
            if not dry:
                with open(path, "w", encoding="utf-8") as f:
                    f.write(new)
    for path in list(files("crates", ".edit")) + list(files("lies", ".lie")):
        text = read(path)
        lines = []
        for line in text.splitlines(keepends=True):
            lines.append(TOKEN.sub(lambda m: spelled(m.group(0)) if m.group(0) in names else m.group(0), line) if line.startswith(("old:", "new:")) else line)
        new = "".join(lines)
        if new != text:
            changed += 1
            if not dry:
                with open(path, "w", encoding="utf-8") as f:
                    f.write(new)
    for path in ["README.md"] + [p for p in files("docs", ".md") if os.sep + "landings" + os.sep not in p]:
        text = read(path)
        new = in_backquotes(text, names)
        if new != text:
            changed += 1
            if not dry:
                with open(path, "w", encoding="utf-8") as f:
                    f.write(new)
    print(f"respell: {len(names)} names, {changed} files")


if __name__ == "__main__":
    main()
