#!/usr/bin/env python3
"""Brings the names of this repository's own definitions and lemmas to today's spelling, after the kit's port.py has turned the rest.

    python3 tools/respell.py        # once, at the repository's top

Words are in snake case. So `recordsOf` becomes `records_of`, and a lemma named by a sentence, `next-value-is`, becomes
`next_value_is`. A dash stays where it joins the names of two functions, as in `length-fronted` and `adds-append`. The three
values of a model are functions to numbers and not facts, so they lose their capital: `Value`, `Most` and `Least` are
`value_of`, `most_of` and `least_of`. Names of Rust source, of goals and of the library stay as they are.
"""
import glob
import re

ID = r"[A-Za-z_][A-Za-z0-9_'\-]*"
TOKEN = re.compile(r"(?<![A-Za-z0-9_'\-])" + ID)
DEFINED = re.compile(r"^\s*(?:pub |abbrev |unfoldable )*(?:record |data )?(" + ID + r")\s*((?:[({][^)}]*[)}]\s*)*):(?:\s|$)")
OF = {"Value": "value_of", "Most": "most_of", "Least": "least_of"}
# the library's own
KEPT = {"cases_Bool", "not_from_Decides"}


def snake(name):
    return re.sub(r"(?<=[a-z0-9])([A-Z])", lambda m: "_" + m.group(1).lower(), name)


def respelled(name):
    """The name of a lemma of ours."""
    name = snake(name.replace("getD", "get_or"))
    if name.startswith("length-"):
        return "length-" + name[len("length-"):].replace("-", "_")
    if name.endswith("-append"):
        return name[:-len("-append")].replace("-", "_") + "-append"
    return name.replace("-", "_")


def lemmas():
    """Names with a dash that specs/ and proofs/ define, goals left out."""
    found = set()
    for path in glob.glob("crates/*/specs/**/*.antt", recursive=True) + glob.glob("crates/*/proofs/**/*.antt", recursive=True):
        with open(path, encoding="utf-8") as file:
            for line in file:
                m = DEFINED.match(line)
                if m and "-" in m.group(1) and not re.search(r":\s*goal\.", line):
                    found.add(m.group(1))
    return found


def turned(text, names):
    def one(m):
        word = m.group(0)
        before = text[max(0, m.start() - 40):m.start()]
        field = before.endswith(".") and not re.search(r"(^|[^A-Za-z0-9_'\-])[A-Z][A-Za-z0-9_]*\.$", before) \
            and not re.search(r"\.[A-Z][A-Za-z0-9_]*\.$", before)
        if word in KEPT:
            return word
        if "-" in word:
            return word if field or word not in names else respelled(word)
        if word in OF and not before.endswith("."):
            return OF[word]
        if re.match(r"[a-z][A-Za-z0-9]*[A-Z]", word) and "_" not in word:
            return snake(word)
        return word
    return TOKEN.sub(one, text)


def antt(text, names):
    """Comments keep their words."""
    out = []
    for line in text.split("\n"):
        at = line.find("--")
        cut = at if at >= 0 and (at == 0 or line[at - 1] == " ") else len(line)
        out.append(turned(line[:cut], names) + line[cut:])
    return "\n".join(out)


def rust(text, names):
    """Only clauses and ghost lines are turned."""
    out = []
    clause = False
    for line in text.split("\n"):
        if re.match(r"\s*(pub )?(ghost|requires|ensures)\b", line):
            clause = True
        out.append(turned(line, names) if clause else line)
        if line.rstrip().endswith(("}", "};", "},", ";")):
            clause = False
    return "\n".join(out)


def edit(text, names):
    """In an edit the lines of code stay, but for clauses and lines of antt."""
    out = []
    ghost = False
    for line in text.split("\n"):
        if line.startswith("file: "):
            ghost = line.endswith(".antt")
        if line.startswith(("old: ", "new: ")) and (ghost or re.match(r"(old|new): \s*(ghost|requires|ensures)\b", line)):
            line = line[:5] + turned(line[5:], names)
        out.append(line)
    return "\n".join(out)


def main():
    names = lemmas()
    new = {}
    for name in sorted(names):
        new.setdefault(respelled(name), set()).add(name)
    for name, olds in new.items():
        if len(olds) > 1:
            print("fall together:", name, sorted(olds))
    for pattern, turn in (("crates/**/*.antt", antt), ("crates/**/*.rt", rust), ("crates/*/must-fail/*.edit", edit)):
        for path in sorted(glob.glob(pattern, recursive=True)):
            with open(path, encoding="utf-8") as file:
                old = file.read()
            text = turn(old, names)
            if text != old:
                with open(path, "w", encoding="utf-8") as file:
                    file.write(text)


main()
