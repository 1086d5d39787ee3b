"""Plays many lists of calls through the program and through the second watch, and compares them line
by line. Usage: compare.py PROGRAM [COUNT [SEED]]."""
import collections
import os
import random
import subprocess
import sys
import tempfile

from watch_reference import matches, played

NAMES = ["x", "y", "tariff", "load", "feed"]
SAMPLE = b"(sessions 2)\n(signal tariff)\n(signal load)\n(signal feed)\n(rule (weak (near 1 2 0 feed) (not (near 1 2 0 tariff))))\n"
DISPLACING = b"(sessions 2)\n(signal x)\n(signal y)\n(rule (always (or (not (at 1 x)) (not (at 2 y)))))\n"


def form(rng, k, names, depth):
    v = rng.randint(1, k)
    kind = rng.randrange(12) if depth > 1 else rng.choice([1, 1, 2])
    if kind == 0:
        return "(true)"
    if kind == 1:
        return f"(at {v} {rng.choice(names)})"
    if kind in (2, 3):
        listed = " ".join(rng.choice(names) for _ in range(rng.randint(1, 3)))
        return f"(near {v} {rng.randint(1, k)} {rng.choice([0, 0, 1, 2])} {listed})"
    if kind < 8:
        return f"({rng.choice(['not', 'not', 'next', 'always'])} {form(rng, k, names, depth - 1)})"
    word = rng.choice(["and", "or", "until", "iff", "weak"])
    return f"({word} {form(rng, k, names, depth - 1)} {form(rng, k, names, depth - 1)})"


def card(rng):
    if rng.random() < 0.15:
        return rng.choice([SAMPLE, DISPLACING])
    k = rng.choice([1, 1, 2, 2, 2, 3, 4])
    names = rng.sample(NAMES, rng.randint(1, 4))
    rule = form(rng, k, names, rng.choice([2, 3, 3, 4]))
    if rng.random() < 0.5:
        # rules that are kept by most, so that lists grow before a break
        rule = f"(always (or {rule} (near 1 {k} 1 {' '.join(names)})))"
    return "".join(f"{line}\n" for line in [f"(sessions {k})", *(f"(signal {n})" for n in names), f"(rule {rule})"]).encode()


def session(rng, old):
    """The letters of a session: often one seen before, or a little other than that."""
    if old and rng.random() < 0.5:
        letters = list(rng.choice(old))
        for _ in range(rng.choice([0, 1, 1, 2])):
            letters[rng.randrange(len(letters))] ^= 1 << rng.choice([0, 1, 2, 3, 31])
        return letters
    length = rng.choice([1, 1, 2, 2, 3, 4, 6, rng.randint(1, 40), 127, 128])
    return [rng.choice([0, 0, 1, 2, 3, 5, 7, rng.getrandbits(32)]) for _ in range(length)]


def calls(rng):
    lines, old = [], []
    for _ in range(rng.choice([1, 3, 6, 10, 16, 30])):
        what = rng.random()
        if what < 0.75:
            letters = session(rng, old)
            old.append(letters)
            lines.append("(open)")
            lines += [f"(step {x})" for x in letters]
            if len(letters) == 128 and rng.random() < 0.5:
                lines.append("(step 9)")
            if rng.random() < 0.1:
                lines.append("(open)")
            if rng.random() < 0.1:
                lines.append(rng.choice(["(abandon)", "(verdict)"]))
            lines.append("(close)")
        elif what < 0.85:
            lines += ["(open)", "(close)", "(abandon)"][rng.randrange(2):]
        else:
            lines.append(rng.choice(["(close)", "(abandon)", "(step 3)", "(open)", "(verdict)"]))
        for _ in range(rng.choice([0, 0, 1, 2])):
            lines.append(f"(show {rng.choice([0, 0, 1, 2, 3, 63, 4294967295])} {rng.choice([0, 1, 2, 3, 127, 128, 129, 4294967295])})")
        if rng.random() < 0.4:
            lines.append("(verdict)")
    if rng.random() < 0.05:
        at = rng.randrange(len(lines) + 1)
        lines.insert(at, rng.choice(["", "(step)", "(step 4294967296)", "(step 01)", " (open)", "(open )", "(opens)", "(store slot 128)", "(show 1)", "(step -1)", "()"]))
    lines.append("(verdict)")
    size = rng.choice([128, 128, 129, 200, 255, 256, 300, 384, 512, 1000, 4096, 8192, 9000, 4294967295])
    if rng.random() < 0.03:
        size = rng.choice([0, 1, 127])
    first = f"(store {rng.choice(['slot', 'packed'])} {size})"
    if rng.random() < 0.02:
        first = rng.choice(["", "(store)", "(store heap 128)", "(open)", "(store slot 0128)"])
    text = "\n".join([first, *lines])
    return text + ("\n" if rng.random() < 0.9 else "")


def run(program, folder, text, listed):
    with open(os.path.join(folder, "card.txt"), "wb") as f:
        f.write(text)
    with open(os.path.join(folder, "calls.txt"), "w", newline="") as f:
        f.write(listed)
    out = subprocess.run([program], cwd=folder, stdout=subprocess.PIPE, check=True).stdout.decode()
    return out.split("\n")


def differs(text, listed, said, wanted):
    sys.exit(f"card {text!r}\ncalls {listed!r}\nsaid {said!r}\nwanted {wanted!r}")


def main():
    program = os.path.abspath(sys.argv[1])
    count = int(sys.argv[2]) if len(sys.argv) > 2 else 3000
    rng = random.Random(int(sys.argv[3]) if len(sys.argv) > 3 else 1)
    seen, laws = collections.Counter(), 0
    with tempfile.TemporaryDirectory() as folder:
        for _ in range(count):
            text = card(rng)
            if rng.random() < 0.02:
                text = text[: rng.randrange(len(text))]
            listed = calls(rng)
            said = run(program, folder, text, listed)
            wanted, watch = played(text, listed)
            for n, want in enumerate(wanted):
                if n >= len(said) or not matches(said[n], want):
                    differs(text, listed, said[n : n + 1], want)
                seen[" ".join(said[n].split()[:2]) if said[n].startswith(("(refused", "(fault")) else said[n].split()[0].strip("()")] += 1
            if watch is None:
                if said != wanted + [""]:
                    differs(text, listed, said, wanted)
                continue
            if said[len(wanted)] != "":
                differs(text, listed, said[len(wanted)], "")
            kinds = len(set(watch.accepted))
            if kinds ** watch.rule.k <= 3000:
                laws += 1
                if watch.some_tuple_breaks() != (watch.verdict is not None):
                    sys.exit(f"the law fails: card {text!r}\ncalls {listed!r}")
    missing = [f"(refused {n})" for n in (10, 11, 12, 21, 22, 23, 24, 25) if seen[f"(refused {n})"] == 0]
    if missing or not all(seen[w] for w in ("opened", "count", "abandoned", "dropped", "kept", "clear", "violated", "shown", "unread")):
        sys.exit(f"some answer never came: {dict(seen)}")
    listed = ", ".join(f"{kind} {n}" for kind, n in sorted(seen.items()) if not kind.startswith("(fault"))
    print(f"{count} lists of calls, no difference: {listed}; {laws} verdicts held against all tuples of accepted sessions")


main()
