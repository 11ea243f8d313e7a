#!/usr/bin/env python3
"""The list of reasons of document 02, item 4, worked out plainly from a plan: lists to try `tools/reasons.py` on.

    reason_list.py FILE      what the program `why` writes for that plan file

Not what `./night why` runs: that is the proved program. This one is slow, and written from the item's text alone.
"""
import sys

sys.dont_write_bytecode = True
from reasons import LIMIT, LONGEST, LOWER, LOWER_CASE, OPEN_JOIN, OPEN_ONLY, SHORTEST, START, STRICT_JOIN, UPPER, load_planfile

ALWAYS_WRITTEN = (LONGEST, SHORTEST, LOWER_CASE)


class Ended(Exception):
    """A line from a point to itself is below zero: the list is done."""


class Reasons:
    """A list so far. A pair's best is the number of its line; a point to itself starts at 0 and has no line."""

    def __init__(self, plan):
        self.plan, self.lines, self.strict, self.open = plan, [], {}, {}

    def beats(self, best, x, y, weight):
        if (x, y) in best:
            return weight < self.lines[best[x, y]][3]
        return x != y or weight < 0

    def offer(self, kind, x, y, weight, first=0, second=0):
        competes = self.open if kind == OPEN_JOIN else self.strict
        if kind not in ALWAYS_WRITTEN and not self.beats(competes, x, y, weight):
            return
        number = len(self.lines)
        becomes = [best for best in ([self.open] if kind in OPEN_ONLY else [self.strict, self.open]) if self.beats(best, x, y, weight)]
        self.lines.append((kind, x, y, weight, first, second))
        for best in becomes:
            best[x, y] = number
        if x == y and weight < 0:
            raise Ended

    def joins(self, kind, best):
        points = range(self.plan.points)
        for middle in points:
            for x in points:
                for y in points:
                    # Read at the moment of the try: a line written a moment ago may be part of this one.
                    i, j = best.get((x, middle)), best.get((middle, y))
                    if i is not None and j is not None:
                        self.offer(kind, x, y, self.lines[i][3] + self.lines[j][3], i, j)

    def given(self):
        for x in range(self.plan.points):
            self.offer(START, x, 0, 0)
        for i, (x, y, w) in enumerate(self.plan.limits):
            self.offer(LIMIT, x, y, w, i)
        before_links = len(self.lines)
        for i, (a, c, l, u) in enumerate(self.plan.links):
            self.offer(LONGEST, a, c, u, i)
            self.offer(SHORTEST, c, a, -l, i)
            self.offer(LOWER_CASE, a, c, l, i)
        self.longest_at = lambda i: before_links + 3 * i
        self.lower_case_at = lambda i: before_links + 3 * i + 2

    def sweep(self):
        links = self.plan.links
        self.joins(STRICT_JOIN, self.strict)
        for i, (a, c, l, _) in enumerate(links):
            for _, r, short, long in links:
                j = self.strict.get((c, r))
                if r != c and j is not None and self.lines[j][3] < long - short:
                    self.offer(LOWER, a, r, l + self.lines[j][3], self.lower_case_at(i), j)
        for p in range(self.plan.points):
            for i, (a, c, l, u) in enumerate(links):
                j = self.strict.get((p, c))
                if j is not None:
                    self.offer(UPPER, p, a, max(self.lines[j][3] - u, -l), j, self.longest_at(i))
        self.joins(OPEN_JOIN, self.open)


def reason_list(plan):
    """The lines of a refused plan's list; none for a controllable plan."""
    reasons = Reasons(plan)
    try:
        reasons.given()
        while True:
            before = len(reasons.lines)
            reasons.sweep()
            if len(reasons.lines) == before:
                return []
    except Ended:
        return reasons.lines


def text_of_list(lines):
    """As the program `why` writes it."""
    if not lines:
        return "controllable\n"
    return f"refused 11 {len(lines)}\n" + "".join(" ".join(map(str, line)) + "\n" for line in lines)


def main(words):
    if len(words) != 1:
        sys.stderr.write(__doc__)
        return 2
    planfile = load_planfile()
    try:
        with open(words[0], "rb") as file:
            lines = reason_list(planfile.plan_of_file(file.read()))
    except (planfile.Refused, OSError) as refused:
        sys.stderr.write(f"reason_list: {refused}\n")
        return 1
    sys.stdout.write(text_of_list(lines))
    return 1 if lines else 0


if __name__ == "__main__":
    sys.exit(main(sys.argv[1:]))
