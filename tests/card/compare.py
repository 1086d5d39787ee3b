"""Compares the card line of the library with the second reader on many cards: random ones, damaged
ones, and cards at each limit. Usage: compare.py HARNESS [COUNT [SEED]]."""
import random
import struct
import subprocess
import sys

from reference import card_line

WORDS = ["true", "at", "near", "not", "and", "or", "next", "until", "iff", "always", "weak",
         "sessions", "signal", "rule"]
NAMES = ["x", "y", "tariff", "load", "feed", "at", "rule", "a1", "b2c3", "q" * 16]
BYTES = b"()\n abcxyz019AZ_-\t\x00\x80\xff"


def form(rng, k, names, depth):
    """A form that is mostly right."""
    kind = rng.randrange(12) if depth > 1 else rng.choice([0, 1, 2, 2])
    v = str(rng.randint(1, k))
    if kind == 0 or not names:
        return "(true)"
    if kind == 1:
        return f"(at {v} {rng.choice(names)})"
    if kind in (2, 3):
        listed = " ".join(rng.choice(names) for _ in range(rng.randint(1, 4)))
        return f"(near {v} {rng.randint(1, k)} {rng.choice([0, 1, 2, 32])} {listed})"
    if kind < 8:
        return f"({rng.choice(['not', 'next', 'always'])} {form(rng, k, names, depth - 1)})"
    word = rng.choice(["and", "or", "until", "iff", "weak"])
    return f"({word} {form(rng, k, names, depth - 1)} {form(rng, k, names, depth - 1)})"


def card(rng):
    k = rng.randint(1, 4)
    names = rng.sample(NAMES, rng.randint(0, len(NAMES)))
    lines = [f"(sessions {k})"] + [f"(signal {n})" for n in names]
    lines.append(f"(rule {form(rng, k, names, rng.choice([1, 2, 3, 4, 5, 8, 11]))})")
    return "".join(line + "\n" for line in lines).encode()


def damaged(rng, text):
    """The card with one to three small changes."""
    data = bytearray(text)
    for _ in range(rng.randint(1, 3)):
        at = rng.randint(0, len(data))
        what = rng.randrange(7)
        if what == 0 and data:
            del data[min(at, len(data) - 1)]
        elif what == 1:
            data[at:at] = bytes([rng.choice(BYTES)])
        elif what == 2 and data:
            data[min(at, len(data) - 1)] = rng.choice(BYTES)
        elif what == 3:
            data = data[:at]
        elif what == 4:
            data[at:at] = rng.choice(WORDS + NAMES + ["0", "00", "5", "33", "999", "1000"]).encode()
        elif what == 5:
            end = min(len(data), at + rng.randint(1, 20))
            data[at:at] = data[at:end]
        else:
            data[at:at] = b" " * rng.randint(1, 5)
    return bytes(data)


def noise(rng):
    """Tokens in any order."""
    parts = WORDS + NAMES + ["(", ")", "\n", " ", "0", "1", "2", "12", "(", ")"]
    return "".join(rng.choice(parts) + rng.choice(["", " "]) for _ in range(rng.randint(0, 40))).encode()


def nest(n, inner="(true)"):
    return "(not " * n + inner + ")" * n


def chain(n):
    """A form of n nodes: or of true and what follows."""
    return "(true)" if n == 1 else f"(or (true) {chain(n - 2)})" if n % 2 else f"(not {chain(n - 1)})"


def wide(n):
    """A form of n nodes of little depth."""
    if n == 1:
        return "(true)"
    if n == 2:
        return "(not (true))"
    left = (n - 1) // 2
    return f"(and {wide(left)} {wide(n - 1 - left)})"


def limits():
    head = "(sessions 2)\n"

    def rule(f):
        return (head + f"(rule {f})\n").encode()

    yield b""
    for n in range(0, 14):
        yield rule(nest(n))
        yield rule(nest(n, "("))
        yield rule(nest(n, "(at ("))
        yield rule(nest(n, "(at 1 ("))
    for n in range(58, 70):
        yield rule(wide(n))
        for word, size in [("always", 4), ("next", 1)]:
            yield rule(f"({word} {wide(n - size)})")
        for word, size in [("iff", 5), ("weak", 5), ("until", 1)]:
            left = (n - size) // 2
            yield rule(f"({word} {wide(left)} {wide(n - size - left)})")
    for n in (0, 1, 31, 32, 33, 34):
        names = "".join(f"(signal s{i})\n" for i in range(n))
        yield (head + names + "(rule (true))\n").encode()
        yield (head + names + f"(rule (at 1 s{max(0, n - 1)}))\n").encode()
        yield (head + names + f"(rule (near 1 2 {n} s0 s0))\n").encode()
        yield (head + names + names + "(rule (true))\n").encode()
    for n in (1, 15, 16, 17, 18):
        yield (head + f"(signal {'a' * n})\n(rule (at 1 {'a' * n}))\n").encode()
        yield (head + f"(signal {'a' * n}1)\n(rule (true))\n").encode()
    for text in ("0", "1", "4", "5", "00", "01", "12", "099", "999", "1000", "1a", "a1", "4294967296"):
        yield f"(sessions {text})\n(rule (true))\n".encode()
        yield (head + f"(signal x)\n(rule (near {text} 1 0 x))\n").encode()
        yield (head + f"(signal x)\n(rule (near 1 {text} 0 x))\n").encode()
        yield (head + f"(signal x)\n(rule (near 1 2 {text} x))\n").encode()
        yield (head + f"(signal x)\n(rule (at {text} x))\n").encode()
    good = rule("(true)")
    for n in (4095, 4096, 4097, 4098, 5000, 65536):
        yield good[:-1] + b" " * (n - len(good)) + b"\n"
        yield b" " * (n - len(good)) + good
        yield b"\n" * n
        yield b"(" * n
        yield b"a" * n
    for n in range(256):
        yield good + bytes([n])
        yield bytes([n]) + good
        yield head.encode() + b"(rule (tr" + bytes([n]) + b"ue))\n"
    for i in range(len(good) + 1):
        yield good[:i]


def run(harness, cards):
    data = b"".join(struct.pack("<I", len(c)) + c for c in cards)
    out = subprocess.run([harness], input=data, stdout=subprocess.PIPE, check=True).stdout
    return out.decode().splitlines(keepends=True)


def main():
    harness = sys.argv[1]
    count = int(sys.argv[2]) if len(sys.argv) > 2 else 40000
    rng = random.Random(int(sys.argv[3]) if len(sys.argv) > 3 else 1)
    sys.setrecursionlimit(20000)
    cards = list(limits())
    while len(cards) < count:
        whole = card(rng)
        cards += [whole, damaged(rng, whole), damaged(rng, whole), noise(rng)]
    told = run(harness, cards)
    if len(told) != len(cards):
        sys.exit(f"{len(cards)} cards and {len(told)} lines")
    kinds = {}
    for text, line in zip(cards, told):
        wanted = card_line(text)
        if line != wanted:
            sys.exit(f"card {text!r}: {line!r}, and {wanted!r} is wanted")
        kind = " ".join(line.split()[:2]) if line.startswith("(fault") else "(card"
        kinds[kind] = kinds.get(kind, 0) + 1
    seen = ", ".join(f"{kind}) {n}" for kind, n in sorted(kinds.items()))
    missing = [n for n in range(1, 8) if f"(fault {n}" not in kinds]
    if missing or "(card" not in kinds:
        sys.exit(f"no card came to some answer: {seen}")
    print(f"{len(cards)} cards, no difference: {seen}")


main()
