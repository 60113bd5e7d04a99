#!/usr/bin/env python3
"""Brings the names that this repository's specs and proofs define to one spelling: words in snake case, types in camel case.

    python3 tools/respell.py        at the top of the repository, once

It goes by text: it reads which names the .antt files define, and turns them there and in the ghost parts of the .rt files. Names of functions, comments, strings,
and the names that the checker makes (goals, and what they hand over) stay as they are.
"""
import glob
import re

# names that would fall together with another, or that read better so
SPECIAL = {
    "Tree-of": "OptionalTreeOf",
    "lowCorner": "least_corner",
    "highCorner": "greatest_corner",
    "twin-rest": "twin_rest_kept",
}

NAME = r"[A-Za-z][\w'-]*"
MODIFIER = r"(?:pub|abbrev|unfoldable|rec|record|data|instance|private)"
# a line that defines nothing
OTHER = re.compile(r"\s*(use|mod|pub mod|pub use|module|open|unfolding)\b")


def antt_files():
    return sorted(glob.glob("crates/*/specs/**/*.antt", recursive=True) + glob.glob("crates/*/proofs/**/*.antt", recursive=True))


def bare(line):
    return re.sub(r"(^|\s)--\s.*", "", line.rstrip("\n"))


def defined_by(line):
    """The names that a line defines."""
    if OTHER.match(line):
        return []
    match = re.match(rf"^\s*((?:{MODIFIER}\s+)*)({NAME}(?:\s+{NAME})*)(.*)$", line)
    if not match or re.search(r":\s*goal\.", line):
        return []
    modifiers, names, rest = match.groups()
    names = names.split()
    typed = rest.lstrip().startswith(":")
    if modifiers.strip():
        return names if typed and not re.search(r"record|data", modifiers) else names[:1]
    telescope = re.match(r"\s*(\([^()]*\)\s*|\{[^{}]*\}\s*)*:\s", rest + " ")
    return names if telescope else []


def respelled(name):
    if name in SPECIAL:
        return SPECIAL[name]
    if name[0].isupper():
        return "".join(part[0].upper() + part[1:] for part in name.split("-") if part)
    name = name.replace("-", "_")
    return re.sub(r"([a-z0-9])([A-Z])", lambda m: m.group(1) + "_" + m.group(2).lower(), name)


def is_odd(name):
    return "-" in name or re.match(r"[a-z]\w*[A-Z]", name)


def turn_antt(text, table):
    def line_of(line):
        code = bare(line)
        tail = line[len(code):]
        return re.sub(rf"(?<![\w'-]){NAME}", lambda m: table.get(m.group(0), m.group(0)), code) + tail

    return "\n".join(line_of(line) for line in text.split("\n"))


def turn_rt(text, table):
    def line_of(line):
        cut = re.match(r'^((?:[^"/]|"(?:[^"\\]|\\.)*"|/(?!/))*)(.*)$', line)
        code, tail = cut.groups()
        parts = re.split(r'("(?:[^"\\]|\\.)*")', code)
        for i in range(0, len(parts), 2):
            parts[i] = re.sub(rf"(?<![\w'-]){NAME}", lambda m: table.get(m.group(0), m.group(0)), parts[i])
        return "".join(parts) + tail

    return "\n".join(line_of(line) for line in text.split("\n"))


def main():
    names = {name for path in antt_files() for line in open(path) for name in defined_by(bare(line))}
    table = {name: respelled(name) for name in names if is_odd(name)}
    turned = 0
    for path in antt_files():
        text = open(path).read()
        new = turn_antt(text, table)
        turned += new != text
        if new != text:
            open(path, "w").write(new)
    for path in sorted(glob.glob("crates/*/src/**/*.rt", recursive=True)):
        text = open(path).read()
        new = turn_rt(text, table)
        turned += new != text
        if new != text:
            open(path, "w").write(new)
    for old in sorted(table):
        print(old, "->", table[old])
    print(len(table), "names,", turned, "files")


if __name__ == "__main__":
    main()
