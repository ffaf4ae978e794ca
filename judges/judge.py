"""Puts tables of the proved library before two judges that others wrote. Reads cases from standard input, one a line, as `second export` prints.

clingo computes the least set of marks under rules.lp, and the table must have exactly these marks. CaDiCaL (a SAT solver) looks for a history
that obeys the sheet, agrees with what was read, and has another value than the table somewhere: there must be none; and none at all where the
library told a clash.

A history is made from the formulas and not from the rows. It gives each signal, the hidden ones too, a value at every whole-number tick; those
before and after the window are as free as any other, so nothing is assumed at the window's edges. Each rule, the defining ones too, is true at
each tick of the window and is not asked for outside it.
"""
import json
import pathlib
import re
import subprocess
import sys
from collections import Counter

from sheet import Rows, Sheet

RULES = pathlib.Path(__file__).with_name("rules.lp")
MARK = re.compile(r"(true|false)\((\d+),(\d+)\)")
# Of so many cases the judges are shown wrong answers first: judges/borders, of several words, and an example.
SHOWN_WRONG = 2


class Case:
    """A sheet, what was read, the table lent and the table that the library made of it; marks are triples of row, tick and value."""

    def __init__(self, line):
        case = json.loads(line)
        self.text = f"{case['name']}\n--- sheet.txt\n{case['sheet']}--- readings.txt\n{case['readings']}---\n"
        self.sheet = Sheet(case["sheet"])
        self.held = marks_of(case["held"], self.sheet.words)
        self.given = self.held | set(self.sheet.readings(case["readings"]))
        self.marks = marks_of(case["table"], self.sheet.words)
        self.clash = case["clash"]

    def shown(self):
        """The texts, to be pasted into files, and what the lent table held."""
        return self.text + "".join(f"the lent table has row {row}, tick {tick}, {value}\n" for row, tick, value in sorted(self.held))


def marks_of(table, words):
    """Each row has so many words for its true marks, then as many for its false marks, tick 0 first."""
    bits = ((place // words, 64 * (place % words) + bit) for place, word in enumerate(table) for bit in range(64) if word >> bit & 1)
    return {(block // 2, tick, block % 2 == 0) for block, tick in bits}


def run(command, text, statuses):
    """What a judge prints, and the status it ends with."""
    done = subprocess.run(command, input=text, capture_output=True, text=True)
    if done.returncode not in statuses:
        sys.exit(f"{command[0]} ended with status {done.returncode}: {done.stdout}{done.stderr}")
    return done.stdout, done.returncode


# The first judge.


def facts(case):
    """The rows, tops and given marks, as rules.lp wants them."""
    rows = Rows(case.sheet)
    yield f"window({case.sheet.window})."
    for number, (kind, *parts) in enumerate(rows.rows):
        if parts:
            yield f"{kind}({number},{','.join(map(str, parts))})."
    for top in rows.tops:
        yield f"top({top})."
    for row, tick, value in case.given:
        yield f"given_{str(value).lower()}({row},{tick})."


def least_model(case):
    """Objections to the table, by clingo's least set of marks."""
    said, _ = run(["clingo", "--verbose=0", "--warn=none", str(RULES), "-"], "\n".join(facts(case)), {10, 30})
    least = {(int(row), int(tick), value == "true") for value, row, tick in MARK.findall(said)}
    for row, tick, value in sorted(least ^ case.marks):
        where = "not in the table" if (row, tick, value) in least else "in the table and does not follow"
        yield f"clingo: row {row}, tick {tick}, {value} is {where}"
    if ("clash" in said.split()) != bool(case.clash):
        yield f"clingo: the library answered clash={case.clash}"


# The second judge.


class Histories:
    """The histories of a case, as clauses: each signal at each tick is a variable, and each formula at each tick that matters is a literal."""

    def __init__(self, case):
        self.variables = 0
        self.clauses = []
        self.cells = {}
        self.literals = {}
        for rule in case.sheet.rules:
            for tick in range(case.sheet.window):
                self.clauses.append([self.literal(rule, tick)])
        for signal, tick, value in case.given:
            self.clauses.append([self.cell(signal, tick, value)])

    def new(self):
        self.variables += 1
        return self.variables

    def cell(self, signal, tick, value):
        """The literal that a signal has this value at this tick."""
        if (signal, tick) not in self.cells:
            self.cells[signal, tick] = self.new()
        return self.cells[signal, tick] if value else -self.cells[signal, tick]

    def literal(self, formula, tick):
        """The literal that the formula is true at this tick."""
        if formula[0] == "signal":
            return self.cell(formula[1], tick, True)
        key = (id(formula), tick)
        if key not in self.literals:
            self.literals[key] = self.meaning(formula, tick)
        return self.literals[key]

    def meaning(self, formula, tick):
        kind, part, *more = formula
        if kind in ("always", "sometime"):
            low, high = more
            values = [self.literal(part, tick + offset) for offset in range(low, high + 1)]
            return self.all(values) if kind == "always" else -self.all([-value for value in values])
        a = self.literal(part, tick)
        if kind == "not":
            return -a
        b = self.literal(more[0], tick)
        if kind == "and":
            return self.all([a, b])
        if kind == "or":
            return -self.all([-a, -b])
        if kind == "implies":
            return -self.all([a, -b])
        return self.all([-self.all([a, -b]), -self.all([b, -a])])

    def all(self, values):
        """A literal that is true exactly if all of these are."""
        whole = self.new()
        self.clauses += [[-whole, value] for value in values]
        self.clauses.append([whole, *(-value for value in values)])
        return whole

    def one(self, *more):
        """The literals of a history in which these clauses hold too, or None if there is none."""
        clauses = [*self.clauses, *more]
        text = f"p cnf {self.variables} {len(clauses)}\n" + "".join(" ".join(map(str, c)) + " 0\n" for c in clauses)
        said, status = run(["cadical", "-q"], text, {10, 20})
        if status == 20:
            return None
        return {int(word) for line in said.splitlines() if line.startswith("v") for word in line.split()[1:]}


def other_history(case, counts):
    """Objections to the table, by a history in which it is wrong. Marks lent on rows of nodes are no part of a history: such a case is left out."""
    if any(row >= case.sheet.signals for row, _, _ in case.held):
        counts["cases left to clingo alone"] += 1
        return
    histories = Histories(case)
    exists = histories.one() is not None
    if case.clash:
        counts["clashes"] += 1
        if exists:
            yield "cadical: there is a history, and the library told a clash"
        return
    counts["cases without a clash"] += 1
    counts["of them with a history"] += exists
    settled = [mark for mark in case.marks if mark[0] < case.sheet.signals]
    counts["settled cells"] += len(settled)
    others = {-histories.cell(*mark): mark for mark in settled}
    history = histories.one(list(others)) or set()
    for signal, tick, value in sorted(others[other] for other in others.keys() & history):
        yield f"cadical: a history has signal {signal} at tick {tick} {not value}"


# Both.


def objections(case, counts):
    return [*least_model(case), *other_history(case, counts)]


def must_object(case):
    """Each judge is shown wrong answers: a mark of the last tick that has one taken away, a mark put in at the window's last tick, where the
    first signal is unsettled, a clash told."""
    right, free = case.marks, {(0, case.sheet.window - 1, True)}
    latest = max(right, key=lambda mark: mark[1])
    assert not case.clash and not free & right
    for judge, wrong, clash in [("clingo", right - {latest}, 0), ("clingo", right | free, 0), ("clingo", right, 1),
                                ("cadical", right | free, 0), ("cadical", right, 1)]:
        case.marks, case.clash = wrong, clash
        if not any(said.startswith(judge) for said in objections(case, Counter())):
            sys.exit(f"{judge} does not object to a wrong table")
    case.marks, case.clash = right, 0


def main():
    counts, failed = Counter(), 0
    for number, line in enumerate(sys.stdin):
        case = Case(line)
        if number < SHOWN_WRONG:
            must_object(case)
        counts["cases"] += 1
        counts["of several words"] += case.sheet.words > 1
        counts["marks"] += len(case.marks)
        said = objections(case, counts)
        if said:
            failed += 1
            print(case.shown() + "\n".join(said), flush=True)
    for what, count in counts.items():
        print(f"{what}: {count}")
    print(f"{counts['cases'] - failed} passed, {failed} failed")
    sys.exit(failed > 0 or not counts["of several words"])


main()
