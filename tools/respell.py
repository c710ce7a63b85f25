#!/usr/bin/env python3
"""Respells this repository's own definitions: words in snake case (slackParts becomes slack_parts, the field set-is becomes set_is).

usage: tools/respell.py [FOLDER]     at the top of the repository, once, after the kit's port.py

Definitions and lemmas whose names have a capital inside, as slackParts and length-pointsAt, are put into snake case; in a lemma's name a dash still joins two names.
Functions, constructors and record fields of specs/, and record fields of proofs/, have an underscore in place of a dash. Types and modules keep their names, and so do
Rattle's functions, fields and exports. It writes crates/*/{src,specs,proofs} (in src/ the clauses and ghost lines alone) and crates/*/must-fail, and prints what it
renames and which new names were there before.
"""

import os
import re
import sys

root = sys.argv[1] if len(sys.argv) > 1 else "."
STOP = r"\s(){}\[\].,;:@`"
TOKEN = re.compile(rf"[^{STOP}]+")
DECLARED = re.compile(r"^(\s*)((?:(?:unfoldable|abbrev|pub|irreducible)\s+)*)([^\s:(){}]+)\s(?:[^:]*\s)?:\s")
IMPORTED = re.compile(r"^(?:ghost )?use (\S+?)\.\{(.*)\};?\s*$")


# a lemma, which would fall together with one that is there
OWN = {"nodeAt": "at_node"}


def snake(name):
    if name in OWN:
        return OWN[name]
    if name == "getD":
        return "get_or"
    return re.sub(r"(?<=[a-z0-9])([A-Z])", lambda m: "_" + m.group(1).lower(), name)


def files(kinds):
    for folder, dirs, names in os.walk(os.path.join(root, "crates")):
        dirs[:] = sorted(d for d in dirs if d != "out")
        for n in sorted(names):
            if n.endswith(kinds):
                yield os.path.join(folder, n)


def declared():
    found = {}
    for path in files((".antt",)):
        parts = path.split(os.sep)
        spec = "specs" in parts
        record = None
        for line in open(path, encoding="utf-8"):
            indent = len(line) - len(line.lstrip())
            if re.match(r"\s*(abbrev\s+)?(pub\s+)?(record|data) ", line):
                record = indent
                continue
            if line.strip() and record is not None and indent <= record:
                record = None
            m = DECLARED.match(line)
            if not m or line.lstrip().startswith(("--", "use ", "module ")):
                continue
            name = m.group(3)
            if not re.match(r"[a-z]", name):
                continue
            found.setdefault(name, set()).add("field" if record is not None else "spec" if spec and not m.group(1) else "other")
    return found


def imported(own):
    """Names that files bring in from libraries that are not this repository's."""
    names = set()
    for path in files((".antt", ".rt")):
        for line in open(path, encoding="utf-8"):
            m = IMPORTED.match(line)
            if m and not (m.group(1).startswith("Rattle.") and m.group(1).split(".")[1] in own):
                names |= {it.split(" as ")[0].strip() for it in m.group(2).split(",")}
    return names


def main():
    found = declared()
    rename = {}
    kit = imported(set(os.listdir(os.path.join(root, "crates"))))
    for name, kinds in found.items():
        if name in kit:
            continue
        # a capital inside a part that is no type's name
        parts = re.split(r"(-)", name)
        parts = [snake(p) if re.match(r"[a-z]", p) else p for p in parts]
        new = "".join(parts)
        if "-" in new and kinds & {"field", "spec"} and not re.search(r"-[A-Z]", new):
            new = new.replace("-", "_")
        if new != name:
            rename[name] = new
    words = set(found)
    for path in files((".antt",)):
        words |= set(TOKEN.findall(open(path, encoding="utf-8").read()))
    for old, new in sorted(rename.items()):
        print(old, new, "(declared)" if new in found else "(was there)" if new in words else "")
    again = {}
    for old, new in rename.items():
        again.setdefault(new, []).append(old)
    for new, olds in again.items():
        if len(olds) > 1:
            print("falls together:", new, olds)

    def turn(text):
        """Line by line: in a comment "set-up" is English."""
        words = {**rename, "set-up": "set-up"}
        lines = text.split("\n")
        for i, line in enumerate(lines):
            own = words if line.lstrip().startswith(("--", "//", "#")) else rename
            lines[i] = TOKEN.sub(lambda m: own.get(m.group(), m.group()), line)
        return "\n".join(lines)

    for path in files((".antt", ".rt", ".edit")):
        text = open(path, encoding="utf-8").read()
        if path.endswith(".rt"):
            out, clause = [], False
            for line in text.splitlines(keepends=True):
                s = line.strip()
                if s.startswith(("ghost use", "requires", "ensures")):
                    clause = True
                if clause or s.startswith("//"):
                    line = turn(line)
                if clause and s.endswith(("}", ";", "{")):
                    clause = False
                out.append(line)
            new = "".join(out)
        else:
            new = turn(text)
        if new != text:
            open(path, "w", encoding="utf-8").write(new)


main()
