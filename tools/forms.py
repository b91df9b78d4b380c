#!/usr/bin/env python3
"""Counts the places of docs/DESIGN-PASS.md in the sources of a commit.

usage: python3 tools/forms.py [COMMIT] [--list]      at the top of the repository; without COMMIT as the files stand

It reads crates/*/src without comments, and counts for each point what its text shows; --list names each place. What a form means it cannot
say: the page does.
"""
import collections
import re
import subprocess
import sys
from pathlib import Path

NONE = {"Nothing", "NotReply", "Other", "Missing", "Bad", "Unknown", "Still"}
REFUSAL = {"Fault", "Refused"}
ENUM = re.compile(r"^(?:pub )?enum (\w+)(?:<.*?>)? \{\n(.*?)^\}", re.S | re.M)
CASE = re.compile(r"^    (\w+)( *\(([^)]*)\)| *\{(.*?)\})?,$", re.S | re.M)
FUNCTION = re.compile(r"^( *)(?:pub )?(?:const )?fn (\w+)((?:(?!\n\1\}).)*?)\n\1\{\n(.*?)^\1\}", re.S | re.M)
SHORT = re.compile(r"^( *)(?:pub )?fn (\w+)([^\n]*?) \{\n(.*?)^\1\}", re.S | re.M)


def sources(commit):
    """The text of each source, by its path, without comments."""
    if commit:
        names = subprocess.run(["git", "ls-tree", "-r", "--name-only", commit, "crates"], capture_output=True, text=True, check=True).stdout.split()
        read = lambda name: subprocess.run(["git", "show", f"{commit}:{name}"], capture_output=True, text=True, check=True).stdout
    else:
        names = [str(path) for path in sorted(Path("crates").glob("*/src/**/*.rt"))]
        read = lambda name: Path(name).read_text()
    names = [name for name in names if re.fullmatch(r"crates/\w+/src/.*\.rt", name)]
    if not names:
        sys.exit("forms: no source was found")
    return {name: re.sub(r"//.*", "", read(name)) for name in names}


def functions(text):
    """Each function of a text: its name, what stands between name and body, and the body."""
    for _, name, head, body in FUNCTION.findall(text) + SHORT.findall(text):
        yield name, head, body


def shape(head, body):
    """A function without its names, numbers and words."""
    text = re.sub(r"\b(requires|ensures) .*", "", head) + body
    text = re.sub(r'b?"(?:[^"\\]|\\.)*"|b\'(?:[^\'\\]|\\.)*\'', "W", text)
    return " ".join(re.sub(r"\b\w+\b(?:::\w+)*", lambda m: m[0] if m[0] in KEPT else "n", text).split())


KEPT = {"if", "else", "while", "for", "in", "loop", "match", "return", "let", "mut", "as", "break", "continue", "true", "false"}


def enums(text):
    for name, cases in ENUM.findall(text):
        yield name, [(case, value.strip() or fields.strip()) for case, _, value, fields in CASE.findall(cases)]


def count(files):
    found = collections.OrderedDict()

    def place(point, file, what):
        found.setdefault(point, []).append(f"{file}: {what}")

    shapes = collections.defaultdict(list)
    for file, text in files.items():
        for name, cases in enums(text):
            kinds = ["none" if not value else "refusal" if case in REFUSAL and re.fullmatch(r"u64", value) else "value" for case, value in cases]
            if len(cases) == 2 and "value" in kinds and kinds != ["value", "value"]:
                place("1a two cases, one of them nothing or a refusal", file, name)
            elif len(cases) > 2:
                for case, _ in cases:
                    if case in NONE | REFUSAL:
                        place("1b a case of three or more that is nothing or a refusal", file, f"{name}::{case}")
        for name, head, body in functions(text):
            if re.search(r"-> u64\b", head) and re.search(r"fault|refusal", name):
                place("1c a number for a fault, 0 for none", file, name)
            if re.search(r"\b(?:buf|out|line): &mut \[u8\]", head) and re.search(r"\b(?:at|used): usize", head):
                place("5a a lent buffer and a place in it", file, name)
            if re.search(r"requires .*\bSound\w+", head, re.S):
                place("5b asks for a sound record", file, name)
            if re.search(r"=> (true|false),", body):
                place("4b a match written out to true and false", file, name)
            key = shape(head, body)
            if len(key) > 60:
                shapes[key].append((file, name))
        for line in re.findall(r"^ +(?:pub )?(\w+): bool,$", text, re.M):
            place("1d a flag beside a value", file, line)
        for line in re.findall(r"^.*\b(?:while|loop)\b.*\{$", text, re.M):
            place("3 a loop by hand", file, line.strip())
        for line in re.findall(r"^.*\bas (?:u8|u16|u32|u64|usize)\b.*$", text, re.M):
            place("4a a conversion by `as`", file, line.strip())
        for name, head, body in functions(text):
            if re.match(r"(same\w*|is_word|is_of|one_of|owns)$", name) and "-> bool" in head:
                place("4c a comparison by hand", file, name)
        for name, fields in re.findall(r"^(?:pub )?struct (\w+)(?:<.*?>)? \{\n(.*?)^\}", text, re.S | re.M):
            if re.search(r"\b(count|size): usize", fields) and re.search(r": \[", fields):
                place("6 an array with its count beside", file, name)
        for line in re.findall(r"^.*(?:\bfn\(|\bdyn ).*$", text, re.M):
            place("7 a pointer to a function, or dyn", file, line.strip())
    for group in shapes.values():
        if len(group) > 1:
            place("2 functions of one shape", group[0][0], ", ".join(f"{name} ({file})" if file != group[0][0] else name for file, name in group))
    return found


def main():
    words = [word for word in sys.argv[1:] if word != "--list"]
    found = count(sources(words[0] if words else None))
    for point in sorted(found):
        print(f"{point}: {len(found[point])}")
        if "--list" in sys.argv:
            print("".join(f"    {one}\n" for one in found[point]), end="")


main()
