#!/usr/bin/env python3
"""Lists places in the crates' src/ that another form might say more plainly, point by point.

    python3 tools/places.py [-v] [COMMIT]

Without a commit it reads the tree as it stands. With -v it prints each place.
"""
import collections
import pathlib
import re
import subprocess
import sys

ROOT = pathlib.Path(__file__).resolve().parent.parent

# What is told by one pattern each. A pattern may go over several lines.
PATTERNS = [
    ("1 own enums", r"^\s*(?:pub(?:\(\w+\))? )?enum \w+"),
    ("1 flags in structs", r"^\s*(?:pub(?:\(\w+\))? )?\w+: bool,"),
    ("1 cases given numbers", r"^\s*\w+::\w+ => \d+,"),
    ("1 none or error passed on by hand",
     r"let (?:Some|Ok)\([^=;]*\) =[^;{}]*else \{\s*return (?:None|Err\([^;]*\));\s*\}"
     r"|if let Err\((\w+)\) =[^{;]*\{\s*return Err\(\1\);"
     r"|Err\((\w+)\) => (?:return )?Err\(\2\)"
     r"|Ok\(\w+\) => \w+,\s*Err\(\w+\) => (?:\{\s*)?return Err\("
     r"|Some\((\w+)\) => Ok\(\3\),\s*None => Err\("
     r"|Some\(\w+\) => (?:match|Some\()[^\n]*(?:\n[^\n]*){0,4}\n\s*None => None"),
    ("3 loops over numbers", r"for \w+ in [^{\n]*\.\.[^{\n]*\{"),
    ("3 while loops", r"^\s*(?:while|loop)\b"),
    ("4 casts", r"\bas (?:u8|u16|u32|u64|u128|usize|i8|i16|i32|i64|isize)\b"),
    ("4 copies by hand", r"^impl.*\bClone for"),
    ("4 Display by hand", r"^impl.*fmt::Display for"),
    ("6 arrays with a count beside them", r"let mut \w+ = \[[^\];]*; \d+\];"),
]

KEYWORDS = set("fn pub crate let mut if else match for in while return self Self impl trait ensures requires as ref true false".split())


def files(commit):
    """Each source file: its path and its text."""
    if commit is None:
        for path in sorted((ROOT / "crates").glob("*/src/**/*.rt")):
            yield str(path.relative_to(ROOT)), path.read_text()
        return
    names = subprocess.run(["git", "ls-tree", "-r", "--name-only", commit, "crates"], cwd=ROOT, check=True, capture_output=True, text=True).stdout
    for name in names.splitlines():
        if re.match(r"crates/[^/]+/src/.*\.rt$", name):
            yield name, subprocess.run(["git", "show", f"{commit}:{name}"], cwd=ROOT, check=True, capture_output=True, text=True).stdout


def without_comments(text):
    return re.sub(r"//[^\n]*", "", text)


def functions(text):
    """Each function: its name, its clauses and its body."""
    for head in re.finditer(r"\bfn (\w+)", text):
        depth, inner, at = 0, 0, head.end()
        opening = None
        while at < len(text):
            c = text[at]
            inner += (c in "([") - (c in ")]")
            if c == ";" and depth == 0 and inner == 0 and opening is None:
                break
            if c == "{":
                line = text[text.rfind("\n", 0, at) + 1:at]
                if depth == 0 and not re.match(r"\s*(?:requires|ensures)\b", line):
                    opening = at
                depth += 1
            if c == "}":
                depth -= 1
                if depth == 0 and opening is not None:
                    yield head.group(1), text[head.end():opening], text[opening:at + 1]
                    break
            at += 1


def shape(body):
    """A body with every name and number taken out."""
    words = re.findall(r"[A-Za-z_]\w*|\d[\w.]*|[^\s\w]", body)
    return " ".join(w if w in KEYWORDS or not re.match(r"\w", w) else "x" for w in words), len(words)


def main():
    args = [a for a in sys.argv[1:] if a != "-v"]
    told = "-v" in sys.argv[1:]
    sources = [(name, without_comments(text)) for name, text in files(args[0] if args else None)]
    for label, pattern in PATTERNS:
        hits = [(name, text.count("\n", 0, m.start()) + 1, m.group(0)) for name, text in sources for m in re.finditer(pattern, text, re.M)]
        print(f"{label}: {len(hits)}")
        for name, line, hit in hits if told else []:
            print(f"    {name}:{line}: {' '.join(hit.split())[:110]}")
    shapes, facts = collections.defaultdict(set), collections.defaultdict(set)
    for name, text in sources:
        for fn, head, body in functions(text):
            form, size = shape(body)
            if size >= 14:
                shapes[form].add(f"{name}::{fn}")
            for clause in re.findall(r"requires[^{\n]*\{ (.*) \}", head):
                facts[clause].add(f"{name}::{fn}")
    twins = [sorted(v) for v in shapes.values() if len(v) > 1]
    print(f"2 functions of one shape: {sum(map(len, twins))} in {len(twins)} groups")
    for group in sorted(twins) if told else []:
        print("    " + ", ".join(group))
    shared = {k: sorted(v) for k, v in facts.items() if len(v) > 2}
    print(f"5 facts asked by three functions or more: {len(shared)}, by {sum(map(len, shared.values()))} functions")
    for clause, where in sorted(shared.items()) if told else []:
        print(f"    {clause}: {len(where)}: {', '.join(w.split('/')[1] + '::' + w.split('::')[-1] for w in where)}")


main()
