#!/usr/bin/env python3
"""Brings the repository's own definitions and lemmas to today's spelling.

usage: python3 tools/respell.py [--look]

Run once at the top of the repository, right after the kit's port.py. A fact or another type is in upper camel
case, and everything else in snake case: `Is-session` becomes `IsSession`, and `pair-means` `pair_means`. The
names are read off the signatures of specs/ and proofs/; answers to goals, names of the library, functions of
src/, strings and outputs keep theirs. A folder of definitions is a module, so `inner` becomes `Inner`. With --look
nothing is written, and names that would fall together are listed.
"""

import os
import re
import subprocess
import sys

SIGNATURE = re.compile(
    r"^(\s*)((?:abbrev |unfoldable |pub |record |data )*)([^\s:(){}.,;]+)((?:\s*[({][^=]*[)}])*)\s*:\s*(.*)$"
)
LIBRARY = re.compile(r"^\s*(?:ghost )?use (?!Rattle\.(?:OWN)\.)[\w.'·-]+\.\{([^}]*)\}", re.M)
WORD = r"[\w'-]"
EXTRA = {"sumBy-map": "sum_by_map", "sumBy-left-le": "sum_by_left_le"}
# A name that port.py left halfway, names that one definition gives its parts, and an import under another name.
PARTS = ("Row_is", "no-fit", "no-earlier", "a-signal", "f-last", "g-last", "is-space", "spread-left")


def files(crates):
    for folder, dirs, names in os.walk(crates):
        dirs[:] = sorted(d for d in dirs if d not in ("out", "target"))
        for name in sorted(names):
            if name.endswith((".antt", ".rt", ".edit")):
                yield os.path.join(folder, name)


def read(path):
    with open(path, encoding="utf-8") as f:
        return f.read()


def spelled(name):
    if name in EXTRA:
        return EXTRA[name]
    if name[0].isupper():
        return "".join(p[:1].upper() + p[1:] for p in re.split("[-_]", name))
    return name.replace("-", "_")


def own_names(paths):
    """The names with a dash that a signature of specs/ or proofs/ declares and that are no goal's."""
    names = {}
    for path in paths:
        if not path.endswith(".antt"):
            continue
        for line in read(path).splitlines():
            m = SIGNATURE.match(line)
            if not m or m.group(5).startswith("goal."):
                continue
            name = m.group(3)
            if "-" in name and re.fullmatch(r"[A-Za-z][\w']*(-[\w']+)+", name):
                names[name] = spelled(name)
    for name in PARTS:
        names[name] = spelled(name)
    return names


def library_names(paths, own):
    taken = set()
    pattern = re.compile(LIBRARY.pattern.replace("OWN", "|".join(own)), re.M)
    for path in paths:
        for group in pattern.findall(read(path)):
            taken.update(w.strip() for w in group.split(","))
    return taken


def respell(text, names):
    if not names:
        return text
    pattern = re.compile(rf"(?<!{WORD})(?:{'|'.join(map(re.escape, sorted(names, key=len, reverse=True)))})(?!{WORD})")
    return pattern.sub(lambda m: names[m.group(0)], text)


def main(look):
    crates = sorted(c for c in os.listdir("crates") if os.path.isdir(os.path.join("crates", c, "src")))
    paths = list(files("crates"))
    names = own_names(paths)
    for name in sorted(library_names(paths, crates) & set(names)):
        print(f"left: {name} is a name of the library too")
        del names[name]
    everything = "\n".join(read(p) for p in paths)
    words = set(re.findall(rf"(?<!{WORD})[A-Za-z]{WORD}*", everything))
    back = {}
    for old, new in sorted(names.items()):
        if new in words:
            print(f"look: {old} becomes {new}, which is there already")
        if new in back:
            print(f"look: {old} and {back[new]} both become {new}")
        back[new] = old
    if look:
        return 0
    changed = 0
    for path in paths:
        before = read(path)
        after = respell(before, names)
        after = re.sub(r"(Rattle\.\w+\.specs)\.inner\b", r"\1.Inner", after)
        if path.endswith("specs/Lib.antt"):
            after = re.sub(r"\bmod inner\b", "mod Inner", after)
        if after != before:
            with open(path, "w", encoding="utf-8") as f:
                f.write(after)
            changed += 1
    for crate in crates:
        inner = os.path.join("crates", crate, "specs", "inner")
        for old, new in ((inner, os.path.join(os.path.dirname(inner), "Inner")), (inner + ".antt", os.path.join(os.path.dirname(inner), "Inner.antt"))):
            if os.path.exists(old):
                subprocess.run(["git", "mv", old, new], check=True)
    print(f"respell: {len(names)} names, {changed} files")
    return 0


if __name__ == "__main__":
    raise SystemExit(main("--look" in sys.argv[1:]))
