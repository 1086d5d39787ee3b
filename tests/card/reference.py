"""A second reader of cards, written from docs/cards.md and with nothing of the first in it.

It splits the card into tokens by a regular expression and walks down the forms, and it raises the
first fault. The order in which the faults of one token are tried is that of the document.
"""
import re

LINE_FORMS = {"signal", "rule"}
TOKEN = re.compile(rb"[a-z0-9]+|[^a-z0-9 ]| ")
ONE = {"not": 1, "next": 1, "always": 4}
TWO = {"and": 1, "or": 1, "until": 1, "iff": 5, "weak": 5}


class Fault(Exception):
    def __init__(self, number, place):
        super().__init__(number, place)
        self.number = number
        self.place = place


class Reader:
    def __init__(self, card):
        self.card = card
        self.runs = [(m.start(), m.group()) for m in TOKEN.finditer(card) if m.group() != b" "]
        self.at = 0
        self.open = 0
        self.k = 0
        self.names = []
        self.nodes = 0

    def next(self, wanted):
        """The next token as (place, kind, value), of a wanted kind: '(' ')' '\\n' 'number' 'word'."""
        if self.at == len(self.runs):
            if "end" in wanted:
                return len(self.card), "end", None
            raise Fault(3, len(self.card))
        place, text = self.runs[self.at]
        kind, value = self.token(place, text)
        if kind == "(" and self.open == 12:
            raise Fault(4, place)
        if kind not in wanted:
            raise Fault(3, place)
        self.at += 1
        if kind == "(":
            self.open += 1
        if kind == ")":
            self.open -= 1
        return place, kind, value

    @staticmethod
    def token(place, text):
        if text in (b"(", b")", b"\n"):
            return text.decode(), None
        if re.fullmatch(rb"[a-z][a-z0-9]{0,15}", text):
            return "word", text.decode()
        if re.fullmatch(rb"0|[1-9][0-9]{0,2}", text):
            return "number", int(text)
        raise Fault(2, place)

    def number(self, low, high):
        place, _, value = self.next({"number"})
        if not low <= value <= high:
            raise Fault(6, place)
        return value

    def name(self):
        place, _, value = self.next({"word"})
        if value not in self.names:
            raise Fault(5, place)

    def close(self, nodes):
        place, _, _ = self.next({")"})
        self.count(place, nodes)

    def count(self, place, nodes):
        if self.nodes + nodes > 64:
            raise Fault(7, place)
        self.nodes += nodes

    def form(self):
        self.next({"("})
        place, _, word = self.next({"word"})
        if word == "true":
            self.close(1)
        elif word == "at":
            self.number(1, self.k)
            self.name()
            self.close(1)
        elif word == "near":
            self.number(1, self.k)
            self.number(1, self.k)
            self.number(0, 32)
            self.name()
            while True:
                place, kind, value = self.next({"word", ")"})
                if kind == ")":
                    self.count(place, 1)
                    return
                if value not in self.names:
                    raise Fault(5, place)
        elif word in ONE:
            self.form()
            self.close(ONE[word])
        elif word in TWO:
            self.form()
            self.form()
            self.close(TWO[word])
        else:
            raise Fault(3, place)

    def line_end(self):
        self.next({")"})
        self.next({"\n"})

    def read(self):
        self.next({"("})
        place, _, word = self.next({"word"})
        if word != "sessions":
            raise Fault(3, place)
        self.k = self.number(1, 4)
        self.line_end()
        while True:
            self.next({"("})
            place, _, word = self.next({"word"})
            if word not in LINE_FORMS:
                raise Fault(3, place)
            if word == "rule":
                break
            place, _, name = self.next({"word"})
            if name in self.names or len(self.names) == 32:
                raise Fault(5, place)
            self.names.append(name)
            self.line_end()
        self.form()
        self.line_end()
        self.next({"end"})


def card_line(card):
    if len(card) > 4096:
        return "(fault 1 1 4096)\n"
    reader = Reader(card)
    try:
        reader.read()
    except Fault as fault:
        line = 1 + card[: fault.place].count(b"\n")
        return f"(fault {fault.number} {line} {fault.place})\n"
    return f"(card {reader.k} {len(reader.names)} {reader.nodes})\n"
