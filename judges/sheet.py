"""A sheet's text as formulas, and the formulas as rows (the user's document, "The sheet", "Meaning" and "Lowering").

For sheets and readings that were accepted: nothing is refused here. A formula is a tuple: ("signal", number), ("not", f), ("and", f, g),
("or", f, g), ("implies", f, g), ("iff", f, g), ("always", f, low, high), ("sometime", f, low, high). Hidden signals are numbered after the
declared ones.
"""
import re

TOKEN = re.compile(r"[a-z][a-z0-9]*|<=>|=>|-?[0-9]+|.")


class Sheet:
    """The window, the words that cover it, the signals' names, how many signals there are with the hidden ones, and all rules, each followed by its defining rules."""

    def __init__(self, text):
        lines = text.splitlines()
        self.window = int(lines[0].removeprefix("window="))
        self.words = (self.window + 63) // 64
        self.names = [line.removeprefix("signal=") for line in lines if line.startswith("signal=")]
        self.signals = len(self.names)
        self.rules = []
        for line in lines:
            if line.startswith("rule="):
                rule = Rule(line.removeprefix("rule="), self)
                self.rules += [rule.formula, *(define(*hidden) for hidden in rule.hidden)]

    def readings(self, text):
        """Each reading as signal, tick and value."""
        values = [line.partition("=")[2] for line in text.splitlines()]
        for tick, name, value in zip(values[0::3], values[1::3], values[2::3]):
            yield self.names.index(name), int(tick), value == "1"


def define(x, a, b, step):
    """x <=> (A | (B & x))@[step,step]"""
    return ("iff", x, ("always", ("or", a, ("and", b, x)), step, step))


class Rule:
    """Reads one rule; each level of the grammar is a function. Hidden signals are numbered in the order written, outer before inner."""

    def __init__(self, text, sheet):
        self.tokens = TOKEN.findall(text) + [""]
        self.sheet = sheet
        self.hidden = []
        self.formula = self.whole()

    def take(self):
        return self.tokens.pop(0)

    def took(self, *signs):
        return self.take() if self.tokens[0] in signs else None

    def whole(self):
        left = self.implication()
        return ("iff", left, self.implication()) if self.took("<=>") else left

    def implication(self):
        left = self.or_part()
        return ("implies", left, self.or_part()) if self.took("=>") else left

    def or_part(self):
        left = self.and_part()
        while self.took("|"):
            left = ("or", left, self.and_part())
        return left

    def and_part(self):
        left = self.timed()
        while self.took("&"):
            left = ("and", left, self.timed())
        return left

    def timed(self):
        part = self.plain()
        while sign := self.took("@", "?"):
            part = ("always" if sign == "@" else "sometime", part, *self.interval())
        return part

    def interval(self):
        opening, low, _, high, closing = (self.take() for _ in range(5))
        return int(low) + (opening == "("), int(high) - (closing == ")")

    def plain(self):
        token = self.take()
        if token == "!":
            return ("not", self.plain())
        if token == "(":
            inside = self.whole()
            self.take()
            return inside
        if token in ("since", "until"):
            return self.hidden_signal(-1 if token == "since" else 1)
        return ("signal", self.sheet.names.index(token))

    def hidden_signal(self, step):
        x = ("signal", self.sheet.signals)
        self.sheet.signals += 1
        place = len(self.hidden)
        self.hidden.append(None)
        self.take()
        a = self.whole()
        self.take()
        b = self.whole()
        self.take()
        self.hidden[place] = (x, a, b, step)
        return x


class Rows:
    """The rows of a sheet: ("signal",), ("opposite", x), ("and", a, b), ("or", a, b) or ("look", child, offset); and each rule's top."""

    def __init__(self, sheet):
        self.rows = [("signal",)] * sheet.signals
        self.tops = [self.lower(rule, True) for rule in sheet.rules]

    def add(self, *row):
        self.rows.append(row)
        return len(self.rows) - 1

    def pair(self, sign, left, right):
        """A two-child node; each child is a formula with its sense, left before right."""
        return self.add(sign, self.lower(*left), self.lower(*right))

    def lower(self, formula, sense):
        kind, *parts = formula
        both, either = ("and", "or") if sense else ("or", "and")
        if kind == "signal":
            return parts[0] if sense else self.add("opposite", parts[0])
        if kind == "not":
            return self.lower(parts[0], not sense)
        if kind in ("and", "or"):
            return self.pair(both if kind == "and" else either, (parts[0], sense), (parts[1], sense))
        if kind == "implies":
            return self.pair(either, (parts[0], not sense), (parts[1], sense))
        if kind == "iff":
            a, b = parts
            left = self.pair(either, (a, not sense), (b, sense))
            right = self.pair(either, (b, not sense), (a, sense))
            return self.add(both, left, right)
        return self.timed(both if kind == "always" else either, sense, *parts)

    def timed(self, sign, sense, part, low, high):
        """The child once, its looks from the smallest offset up, then their joins from the left."""
        child = self.lower(part, sense)
        joined, *looks = [self.add("look", child, offset) for offset in range(low, high + 1)]
        for look in looks:
            joined = self.add(sign, joined, look)
        return joined
