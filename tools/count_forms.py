#!/usr/bin/env python3
"""Counts the places in crates/*/src (and proofs/) that are candidates for a newer form, by the points of
docs/DESIGN-PASS.md.

usage: python3 tools/count_forms.py [POINT]    in the repository: the places of one point, or the counts of all
"""

import collections
import glob
import itertools
import re
import sys

SOURCES = sorted(glob.glob("crates/*/src/**/*.rt", recursive=True))


def lines(pattern, but=None):
    """Each line of the sources that has the pattern, comments left out."""
    found = []
    for path in SOURCES:
        for number, line in enumerate(open(path), 1):
            if line.lstrip().startswith("//"):
                continue
            if re.search(pattern, line) and not (but and re.search(but, line)):
                found.append(f"{path}:{number}: {line.strip()}")
    return found


def functions():
    """Each function: where it is, its name, its parameters, its clauses and its body."""
    for path in SOURCES:
        text = open(path).read()
        for found in re.finditer(r"^( *)(?:pub(?:\(crate\))? )?(?:extern \"C\" )?fn (\w+)", text, re.M):
            rest = text[found.start():]
            opens, ends = rest.find("{\n"), re.search(r"[})]?;\n", rest)
            if ends and (opens < 0 or ends.start() < opens):
                whole = rest[:ends.end()]
            else:
                end = re.search(rf"^{found[1]}\}}", rest, re.M)
                whole = rest[:end.end()] if end else rest
            yield path, text.count("\n", 0, found.start()) + 1, found[2], whole


def refusals():
    """Answers true or false, or a number, where something is refused."""
    found = []
    for path, number, name, whole in functions():
        text = open(path).read().split("\n")
        above = []
        at = number - 2
        while at >= 0 and text[at].lstrip().startswith(("///", "#")):
            above.insert(0, text[at].strip(" /"))
            at -= 1
        said = " ".join(above).lower()
        if re.search(r"-> bool", whole.split("{\n")[0]) and re.search(r"false,? (with|and) nothing", said):
            found.append(f"{path}:{number}: fn {name}, false where it refuses")
    return found + lines(r"fn number\(&self\)|pub number: u8|, u8>|= -\d+;|-> i32|unreachable\(\)")


def shape(whole):
    """A function without its name, its numbers, its texts and the names of types and variants."""
    body = re.sub(r"//.*|ensures .*|requires .*", "", whole)
    body = re.sub(r'b?"[^"]*"|b?\'[^\']*\'', "@", body)
    body = re.sub(r"fn \w+", "fn", body)
    body = re.sub(r"\b[A-Z]\w*\b|\b\d\w*\b|\bu(8|16|32|64|size)\b", "#", body)
    return re.sub(r"\s+", "", body)


def twins():
    """Functions of one shape, with at least 60 characters in it."""
    groups = collections.defaultdict(list)
    for path, number, name, whole in functions():
        key = shape(whole)
        if len(key) >= 60:
            groups[key].append(f"{path}:{number}: fn {name}")
    return [" | ".join(group) for group in groups.values() if len(group) > 1]


def shared():
    """Facts that three or more functions of a crate require, and parameters that go together in three or more."""
    facts, homes = collections.Counter(), collections.defaultdict(set)
    for path, number, name, whole in functions():
        crate = path.split("/")[1]
        for fact in re.findall(r"requires (?:\w+ )?\{ (.*) \}", whole):
            facts[crate, re.sub(r"\b(old|new|entry)\b", "now", fact)] += 1
        head = re.search(r"fn \w+(?:<[^>]*>)?\(([^{]*?)\)\s*(?:->|\{|\n|;)", whole)
        names = sorted(set(re.findall(r"(\w+): ", head[1] if head else "")))
        for one, other in itertools.combinations(names, 2):
            homes[crate, one, other].add((path, number))
    groups = collections.defaultdict(set)
    for (crate, one, other), where in homes.items():
        if len(where) >= 3:
            groups[crate, frozenset(where)] |= {one, other}
    found = [f"{crate}: `{fact}` is required {n} times" for (crate, fact), n in facts.items() if n >= 3]
    return found + [f"{crate}: {', '.join(sorted(names))} go together {len(where)} times"
                    for (crate, where), names in groups.items()]


def loops():
    """Loops by hand: `while`, `loop`, an index over a range, and a `for` that only looks for an item."""
    found = lines(r"^\s*(while|loop)\b|^\s*for [a-z]\w* in [^{]*\.\.")
    for path in SOURCES:
        text = open(path).read()
        for seen in re.finditer(r"^ *for [^\n]* \{\n\s*if [^\n]* \{\n\s*return [^;]*;\n\s*\}\n\s*\}", text, re.M):
            place = f"{path}:{text.count(chr(10), 0, seen.start()) + 1}: {seen[0].strip().split(chr(10))[0]}"
            if place not in found:
                found.append(place)
    return found


def arrays():
    """Arrays that are filled in part or beside one another: a `let mut` of an array, or a field."""
    return lines(r"let mut \w+(: [^=]*)? = \[[^\]]*; |^\s*(pub )?\w+: \[\w+; |^\s*let mut \w+: \[")


def conversions():
    """Comparisons, copies, conversions and printing by hand."""
    return lines(r"impl(<[^>]*>)? (Clone|Copy|PartialEq|Eq|PartialOrd|Ord) for") + lines(
        r"fn (report|number|show|print|print_\w+|write|write_\w+|report_\w+|\w+_word|kind_of|head_of|topic_of|put_decimal|same_word)\b",
        r"\[u8\]\) -> Option<u16>|write_at\(memory|write_card_line")


POINTS = {
    "1": refusals,
    "2": twins,
    "3": loops,
    "4": conversions,
    "5": shared,
    "6": arrays,
    "7": lambda: lines(r"\bdyn |: fn\(|impl Fn|\bmatch (layout|said|step|mode)\b"),
    "8": lambda: sorted(glob.glob("crates/*/proofs/**/Answers.antt", recursive=True)
                        + glob.glob("crates/*/proofs/**/Invariants.antt", recursive=True)),
}


def main():
    if len(sys.argv) > 1:
        print("\n".join(POINTS[sys.argv[1]]()))
        return
    for point, places in POINTS.items():
        print(point, len(places()))
    size = sum(len(open(p).read().split("\n")) - 1 for p in glob.glob("crates/*/proofs/**/*.antt", recursive=True))
    print("lines of proofs/", size)


main()
