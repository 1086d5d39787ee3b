"""A second watch, by the rules of docs/watch.md and with nothing of the first in it.

Rules are judged by their quantifiers over the tree, step by step; the ledger is kept as plain
lists, and each close tries tuples by itertools. Only what those rules fix is compared: after a
break the count of tried tuples is free between 1 and all of them.
"""
import itertools
import os
import re
import sys

sys.path.insert(0, os.path.join(os.path.dirname(os.path.abspath(__file__)), "..", "card"))
from reference import card_line  # noqa: E402

MOST_LETTERS = 128
MOST_ACCEPTED = 1_000_000


def tree(text):
    """A bracketed form as nested lists."""
    stack = [[]]
    for token in re.findall(r"[()]|[a-z0-9]+", text):
        if token == "(":
            stack.append([])
        elif token == ")":
            done = stack.pop()
            stack[-1].append(done)
        else:
            stack[-1].append(token)
    return stack[0]


class Rule:
    def __init__(self, card):
        lines = tree(card)
        self.k = int(lines[0][1])
        self.names = [line[1] for line in lines[1:-1]]
        self.form = lines[-1][1]
        self.upright, self.inverted = set(), set()
        self.walk(self.form, True)
        self.known = {}

    def bit(self, name):
        return self.names.index(name)

    def walk(self, f, even):
        """Sorts the signals by the parity of the negations above them."""
        head = f[0]
        if head == "at":
            (self.upright if even else self.inverted).add(self.bit(f[2]))
        elif head == "near":
            for name in f[4:]:
                self.upright.add(self.bit(name))
                self.inverted.add(self.bit(name))
        elif head == "not":
            self.walk(f[1], not even)
        elif head in ("next", "always"):
            self.walk(f[1], even)
        elif head in ("and", "or", "until"):
            self.walk(f[1], even)
            self.walk(f[2], even)
        elif head == "iff":
            for part in f[1:]:
                self.walk(part, even)
                self.walk(part, not even)
        elif head == "weak":
            # not (until (not g) (and (not f) (not g)))
            self.walk(f[1], even)
            self.walk(f[2], even)

    def holds(self, f, xs, m, i):
        head = f[0]
        if head == "true":
            return True
        if head == "at":
            return bool(xs[int(f[1]) - 1][i] >> self.bit(f[2]) & 1)
        if head == "near":
            a, b = xs[int(f[1]) - 1][i], xs[int(f[2]) - 1][i]
            return sum((a >> s & 1) != (b >> s & 1) for s in {self.bit(n) for n in f[4:]}) <= int(f[3])
        if head == "not":
            return not self.holds(f[1], xs, m, i)
        if head == "and":
            return self.holds(f[1], xs, m, i) and self.holds(f[2], xs, m, i)
        if head == "or":
            return self.holds(f[1], xs, m, i) or self.holds(f[2], xs, m, i)
        if head == "iff":
            return self.holds(f[1], xs, m, i) == self.holds(f[2], xs, m, i)
        if head == "next":
            return i + 1 < m and self.holds(f[1], xs, m, i + 1)
        if head == "always":
            return all(self.holds(f[1], xs, m, j) for j in range(i, m))
        if head == "until":
            for j in range(i, m):
                if self.holds(f[2], xs, m, j):
                    return True
                if not self.holds(f[1], xs, m, j):
                    return False
            return False
        if head == "weak":
            # f holds until g does, which need not come: no step has neither, before g came
            for j in range(i, m):
                if self.holds(f[2], xs, m, j):
                    return True
                if not self.holds(f[1], xs, m, j):
                    return False
            return True
        raise ValueError(head)

    def breaks(self, xs):
        m = min(map(len, xs))
        key = tuple(x[:m] for x in xs)
        if key not in self.known:
            self.known[key] = not self.holds(self.form, xs, m, 0)
        return self.known[key]

    def stands(self, s, t):
        return len(s) == len(t) and all(
            all(b >> x & 1 for x in self.upright if a >> x & 1)
            and all(a >> x & 1 for x in self.inverted if b >> x & 1)
            for a, b in zip(s, t))


class Watch:
    def __init__(self, rule, sessions, letters):
        self.rule, self.sessions, self.letters = rule, sessions, letters
        self.open, self.accepted, self.kept, self.verdict = None, [], [], None
        self.dropped = self.displaced = 0

    def call(self, words):
        """The answer's line, or for a kept session that broke the rule (front, least, most)."""
        return getattr(self, "do_" + words[0])(*map(int, words[1:]))

    def do_open(self):
        if self.open is not None:
            return "(refused 21)"
        self.open = []
        return "(opened)"

    def do_step(self, letter):
        if self.open is None:
            return "(refused 22)"
        if len(self.open) == MOST_LETTERS:
            return "(refused 23)"
        self.open.append(letter)
        return f"(count {len(self.open)})"

    def do_abandon(self):
        if self.open is None:
            return "(refused 22)"
        self.open = None
        return "(abandoned)"

    def do_close(self):
        if self.open is None:
            return "(refused 22)"
        if not self.open:
            return "(refused 24)"
        if len(self.accepted) == MOST_ACCEPTED:
            return "(refused 26)"
        s, number = tuple(self.open), len(self.accepted) + 1
        for n, t in self.kept:
            if self.rule.stands(t, s):
                self.accepted.append(s)
                self.open = None
                self.dropped += 1
                return f"(dropped {number} {n} 0)"
        left = [(n, t) for n, t in self.kept if not self.rule.stands(s, t)]
        after = left + [(number, s)]
        if len(after) > self.sessions or sum(len(t) for _, t in after) > self.letters:
            return "(refused 25)"
        gone = len(self.kept) - len(left)
        self.accepted.append(s)
        self.open, self.kept = None, after
        self.displaced += gone
        front = f"(kept {number} {gone} "
        if self.verdict is not None:
            return front + "0)"
        k, m = self.rule.k, len(left)
        every = (m + 1) ** k - m ** k
        for tuple_ in itertools.product(after, repeat=k):
            if (number, s) in tuple_ and self.rule.breaks([t for _, t in tuple_]):
                self.verdict = [n for n, _ in tuple_]
                return front, 1, every
        return front + f"{every})"

    def do_verdict(self):
        if self.verdict is None:
            return "(clear)"
        return "(violated " + " ".join(map(str, self.verdict)) + ")"

    def do_show(self, place, room):
        if place >= len(self.kept):
            return "(refused 11)"
        number, s = self.kept[place]
        if len(s) > min(room, MOST_LETTERS):
            return "(refused 12)"
        return f"(shown {number} {len(s)} " + " ".join(map(str, s)) + ")"

    def some_tuple_breaks(self):
        """By the accepted sessions, dropped and displaced ones too."""
        sessions = set(self.accepted)
        return any(self.rule.breaks(list(t)) for t in itertools.product(sessions, repeat=self.rule.k))


def matches(line, wanted):
    if isinstance(wanted, str):
        return line == wanted
    front, least, most = wanted
    return line.startswith(front) and line.endswith(")") and least <= int(line[len(front):-1]) <= most


LINE = re.compile(r"\((?:(store) (slot|packed) (\d+)|(open|close|abandon|verdict)|(step) (\d+)|(show) (\d+) (\d+))\)")


def read_line(line):
    """The words of a line of calls, or none where it cannot be read."""
    found = LINE.fullmatch(line)
    if not found:
        return None
    words = [w for w in found.groups() if w is not None]
    for w in words[1:]:
        if w.isdigit() and (str(int(w)) != w or int(w) > 4294967295):
            return None
    return words


def played(card, calls):
    """What is to be printed for each line, and the watch after them (none where none was made)."""
    line = card_line(card)
    if line.startswith("(fault"):
        return [line.rstrip("\n")], None
    lines = calls.split("\n")
    if lines[-1] == "":
        lines.pop()
    store = read_line(lines[0]) if lines else None
    if store is None or store[0] != "store":
        return ["(unread 1)"], None
    used = min(int(store[2]), 8192)
    if used < MOST_LETTERS:
        return ["(refused 10)"], None
    sessions, letters = (used // 128, used // 128 * 128) if store[1] == "slot" else (64, used)
    watch = Watch(Rule(card.decode()), sessions, letters)
    out = []
    for n, text in enumerate(lines[1:], 2):
        words = read_line(text)
        if words is None or words[0] == "store":
            out.append(f"(unread {n})")
            break
        out.append(watch.call(words))
    return out, watch
