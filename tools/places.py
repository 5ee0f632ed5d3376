#!/usr/bin/env python3
"""Lists the places in src/ that look like forms of the older language, for docs/DESIGN-PASS.md.

    python3 tools/places.py [COMMIT]      counts for each point, and each place with its line
    python3 tools/places.py COMMIT -c     the counts alone

It reads the sources of the commit, or of the checkout if none is given. A pattern finds lines that may be such a place; what each
of them is stands in docs/DESIGN-PASS.md."""
import collections
import pathlib
import re
import subprocess
import sys

# point: what the pattern looks for, and the pattern, tried on each line, or over the whole file if it spans lines
PATTERNS = {
    "1 sentinels said in comments": r"//.*\b(0|zeros?) (where|of any|elsewhere|there|past)|// How many .*; 0 |// .*it is 0\b|// .*\b0 for what it does not",
    "1 flags in structs": r"^\s+(pub(\(\w+\))? )?\w+: bool,",
    "1 numbers for kinds": r"\b(kind|side|goal|block)\b: u8\b|\bfn \w+\(kind: u8",
    "1 Option or Result taken apart to be put together": r"None => None,|None => Err\(|Some\(\w+\) => Ok\(|Some\(\w+\) => Some\(|Err\([^)]*\)+ => (return )?Err\(|Err\(_\) => None|Ok\((?P<x>\w+)\) => (?P=x),|else \{\s*return (None|Err\(\w+\));",
    "3 loops with an index by hand": r"while let Some\(\w+\) = \w+\([^;]*, i\)|\bi \+= 1\b|let mut i = |for \w+ in 0\.\.[^{]*\blen\(\)|while .*\.len\(\) > 0",
    "3 loops over numbers": r"\bfor \w+ in [^{]*\.\.",
    "3 arrays read or written by a counted index": r"\w\[\w+ as usize\]|\w\[i\]|\w\[\w+ \+ i\]",
    "4 equality, order, defaults, conversions by hand": r"fn (is|eq|cmp|precedes|\w+_precedes|nothing|none|start|of|mark_spelled|kind_word|number_of|stage_of)\(",
    "6 arrays and buffers": r"\[u(8|64); \d+\](,| )|buffer: &|classes: &?\[u8",
    "7 switches on a step": r"match self \{\n\s+(Extreme|Kind)::",
}


def sources(commit):
    if commit is None:
        for path in sorted(pathlib.Path(".").glob("crates/*/src/**/*.rt")):
            yield str(path), path.read_text()
    else:
        names = subprocess.run(["git", "ls-tree", "-r", "--name-only", commit, "crates"], capture_output=True, text=True, check=True).stdout
        for name in names.split():
            if re.fullmatch(r"crates/\w+/src/.*\.rt", name):
                yield name, subprocess.run(["git", "show", f"{commit}:{name}"], capture_output=True, text=True, check=True).stdout


def contracts(files):
    """The facts that private and public functions ask or promise, word for word, and lists of parameters, with how often each stands."""
    facts, parameters = collections.defaultdict(set), collections.defaultdict(set)
    for name, text in files:
        for clause in re.finditer(r"(requires|ensures)\s+(\w+ )?\{ (.*?) \}\n", text):
            facts[clause[3].replace("self.entry", "self.now")].add(f"{name}:{text[:clause.start()].count(chr(10)) + 1}")
        for fn in re.finditer(r"\bfn (\w+)(<[^(]*>)?\((.*?)\)", text, re.S):
            names = tuple(p.split(":")[0].strip().replace("mut ", "") for p in fn[3].split(",") if ":" in p)
            for i in range(len(names)):
                for j in range(i + 2, len(names) + 1):
                    parameters[names[i:j]].add(f"{name}:{fn[1]}")
    return facts, parameters


def main():
    arguments = [a for a in sys.argv[1:] if a != "-c"]
    counts_alone = "-c" in sys.argv
    files = list(sources(arguments[0] if arguments else None))
    for point, pattern in PATTERNS.items():
        found = []
        for name, text in files:
            for match in re.finditer(pattern, text, re.M):
                line = text[: match.start()].count("\n") + 1
                found.append(f"    {name}:{line}: {text.splitlines()[line - 1].strip()[:110]}")
        print(f"{len(found):4}  {point}")
        if not counts_alone:
            print("\n".join(found))
    facts, parameters = contracts(files)
    for point, table in (("5 clauses that stand word for word in three functions or more", facts), ("5 parameters that stand side by side in three functions or more", parameters)):
        often = {k: v for k, v in table.items() if len(v) >= 3}
        print(f"{len(often):4}  {point}")
        if not counts_alone:
            for k, v in sorted(often.items(), key=lambda kv: -len(kv[1])):
                print(f"    {len(v)} x {k if isinstance(k, str) else ', '.join(k)}: {', '.join(sorted(v)[:6])}")


main()
