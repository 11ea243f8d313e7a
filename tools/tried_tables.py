#!/usr/bin/env python3
"""Write the plan files with two tables each that the program `checks` reads, and what it must print of them.

    python3 tools/tried_tables.py

writes crates/checks/stdin and crates/checks/stdout. An entry of stdin is twelve bytes, the file's length and how many cells the strict and
the open table have, then the file, then the cells of both. Of each entry stdout has a line: Sound's code and place, then Check's.

Nothing here comes from the library. `tables` finds a plan's tables by rounds over the rules until nothing changes, `closed` is the
rule paper's sentence "Tables are closed for a plan if ..", and codes 1 to 8 are those of damaged_files.py. The tables that the paper
prints are compared with the ones found here.
"""
import os
import struct

from damaged_files import of_file, plan

MARK, REACH = 2_147_483_647, 63_000_000


# ---- the paper, read once more. A cell is a number or None, "the no-path mark"; a limit is X, Y, w and a link A, l, u, C

def total(a, b):
    """Adding to the mark gives the mark."""
    return None if a is None or b is None else a + b


def exceeds(a, b):
    """The mark counts as larger than every number."""
    return b is not None and (a is None or a > b)


def given(n, limits, links):
    yield from limits
    for x in range(n):
        yield x, 0, 0
    for a, l, u, c in links:
        yield a, c, u
        yield c, a, -l


def yielded(n, links, strict):
    """What Lower and Upper yield from strict cells."""
    for a, l, _, c in links:
        for _, l2, u2, r in links:
            w = strict[c][r]
            if r != c and w is not None and w < u2 - l2:
                yield a, r, l + w
    for a, l, u, c in links:
        for p in range(n):
            v = strict[p][c]
            if v is not None:
                yield p, a, max(v - u, -l)


def lower(table, edges):
    """Puts the edges in where they are smaller; says whether one was."""
    changed = False
    for x, y, w in edges:
        if exceeds(table[x][y], w):
            table[x][y] = w
            changed = True
    return changed


def sums(n, table):
    for y in range(n):
        for x in range(n):
            for z in range(n):
                w = total(table[x][y], table[y][z])
                if w is not None:
                    yield x, z, w


def tables(n, limits, links):
    """The strict and the open table, or None for an uncontrollable plan. It goes by rounds. Both diagonals are looked at in each round, so that
    a plan without tables ends it: "some closed walk .. has a negative total"."""
    strict = [[0 if x == y else None for y in range(n)] for x in range(n)]
    weak = [row[:] for row in strict]
    lower(strict, given(n, limits, links))
    changed = True
    while changed:
        changed = lower(strict, sums(n, strict))
        changed |= lower(strict, yielded(n, links, [row[:] for row in strict]))
        changed |= lower(weak, [(x, y, strict[x][y]) for x in range(n) for y in range(n) if strict[x][y] is not None])
        changed |= lower(weak, [(a, c, l) for a, l, _, c in links])
        changed |= lower(weak, sums(n, weak))
        if any(strict[x][x] < 0 or weak[x][x] < 0 for x in range(n)):
            return None
    return strict, weak


def closed(n, limits, links, strict, weak):
    points = range(n)
    for table in (strict, weak):
        if any(c is not None and not -REACH <= c <= REACH for row in table for c in row):
            return False
        if any(table[x][x] != 0 for x in points):
            return False
        if any(exceeds(table[x][z], total(table[x][y], table[y][z])) for x in points for y in points for z in points):
            return False
    if any(exceeds(strict[x][y], w) for x, y, w in given(n, limits, links)):
        return False
    if any(exceeds(strict[x][y], w) for x, y, w in yielded(n, links, strict)):
        return False
    if any(exceeds(weak[x][y], strict[x][y]) for x in points for y in points):
        return False
    return not any(exceeds(weak[a][c], l) for a, l, _, c in links)


def answer(data, n, limits, links, strict, weak):
    """Check's code and place, for lists of cells as they are lent."""
    refused = of_file(data)
    if refused != (0, 0):
        return refused
    if len(strict) < n * n or len(weak) < n * n:
        return 9, 0
    read = [[[None if c == MARK else c for c in cells[x * n:x * n + n]] for x in range(n)] for cells in (strict, weak)]
    return (0, 0) if closed(n, limits, links, *read) else (12, 0)


# ---- the plans to try: a to k, here with f's additions as limits of the file; those of document 02; one of our own

E_LINK = [(0, 2, 5, 1)]
PLANS = [
    # what it is, points, limits, links, the tables that the paper prints: strict and open, or one for both, or none
    ("a", 1, [], [], ["0"]),
    ("b", 2, [(0, 1, 10)], [], ["0 10; 0 0"]),
    ("c", 2, [(0, 1, 10), (1, 0, -10)], [], ["0 10; -10 0"]),
    ("c with -11", 2, [(0, 1, 10), (1, 0, -11)], [], None),
    ("d", 3, [(0, 2, 12), (1, 0, -4), (1, 2, 6), (2, 1, -3)], [], ["0 9 12; -4 0 6; -7 -3 0"]),
    ("e", 2, [], E_LINK, ["0 5; -2 0", "0 2; -2 0"]),
    ("f in one file: 0>1 5", 2, [(0, 1, 5)], E_LINK, ["0 5; -2 0", "0 2; -2 0"]),
    ("f in one file: 0>1 4", 2, [(0, 1, 4)], E_LINK, None),
    ("f in one file: 1>0 -3", 2, [(1, 0, -3)], E_LINK, None),
    ("g", 3, [(2, 1, 0), (1, 2, 1)], E_LINK, ["0 5 6; -2 0 1; -2 0 0", "0 2 3; -2 0 1; -2 0 0"]),
    ("h", 3, [(1, 2, -1), (2, 1, 4)], E_LINK, ["0 5 4; -2 0 -1; -1 4 0", "0 2 1; -2 0 -1; -1 1 0"]),
    ("i", 3, [(1, 2, -1), (2, 1, 3)], E_LINK, None),
    ("j", 3, [(1, 2, 0)], [(0, 1, 3, 1), (0, 1, 2, 2)], None),
    ("j with 1", 3, [(1, 2, 1)], [(0, 1, 3, 1), (0, 1, 2, 2)], []),
    ("k", 2, [(1, 1, -1)], [], None),
    ("k with 0", 2, [(1, 1, 0)], [], []),
    # document 02, item 2, with the table that it prints; then its neighbour and both ends of the range, worked out by hand, as are those of Lower
    ("02: (0,40,40,1)", 2, [], [(0, 40, 40, 1)], ["0 40; -40 0"]),
    ("02: (0,40,41,1) beside it", 2, [], [(0, 40, 41, 1)], ["0 41; -40 0", "0 40; -40 0"]),
    ("02: l = u = 1", 2, [], [(0, 1, 1, 1)], ["0 1; -1 0"]),
    ("02: l = u = 1,000,000", 2, [], [(0, 1_000_000, 1_000_000, 1)], ["0 1000000; -1000000 0"]),
    # D(3) is 0: Lower takes the edge 1>3 of -1, and not that of 0
    ("02: Lower below zero", 4, [(1, 3, -1)], [(0, 4, 8, 1), (2, 2, 2, 3)],
     ["0 8 1 3; -4 0 -3 -1; 0 8 0 2; -2 6 -2 0", "0 4 1 3; -4 0 -3 -1; 0 4 0 2; -2 2 -2 0"]),
    ("02: no Lower at zero", 4, [(1, 3, 0)], [(0, 4, 8, 1), (2, 2, 2, 3)],
     ["0 8 6 8; -4 0 -2 0; 0 8 0 2; -2 6 -2 0", "0 4 2 4; -4 0 -2 0; 0 4 0 2; -2 2 -2 0"]),
    # strict joins that go through the last point, and a cell of the mark beside a sum
    ("through the last point", 4, [(0, 3, 2), (3, 1, -1), (1, 2, 7)], [(1, 1, 4, 2)], []),
]


def file_of(n, limits, links):
    return plan(n, limits, [(a, c, l, u) for a, l, u, c in links])


def printed(text):
    return [[int(c) for c in row.split()] for row in text.split(";")]


def cells(table):
    return [MARK if c is None else c for row in table for c in row]


def moved(strict, weak):
    """Both tables as they are, and with each cell of each moved by one either way, set to the mark and set beyond the reach."""
    yield strict, weak
    for which in (0, 1):
        for at in range(len(strict)):
            old = (strict, weak)[which][at]
            # one above the mark is no number of a cell: the mark's other neighbour is the least number there is
            for new in (old - 1, old + 1 if old < MARK else -MARK - 1, MARK, REACH + 1):
                pair = [strict[:], weak[:]]
                pair[which][at] = new
                yield pair[0], pair[1]


def entries():
    """Each entry: the file, its points, limits and links, and the cells of two tables."""
    found = None
    for name, n, limits, links, paper in PLANS:
        pair = tables(n, limits, links)
        assert (pair is None) == (paper is None), name
        if pair is not None:
            for at, text in enumerate(paper):
                assert pair[at] == printed(text) and pair[1 if len(paper) == 1 else at] == printed(text), name
            found = pair
        else:
            # no tables: those of the plan before it, or 0 everywhere, stand in for them
            pair = found if len(found[0]) == n else [[[0] * n] * n] * 2
        strict, weak = cells(pair[0]), cells(pair[1])
        data = file_of(n, limits, links)
        for one, other in moved(strict, weak):
            yield data, n, limits, links, one, other
        # room: one cell short in each table, one more than is needed
        yield data, n, limits, links, strict[:-1], weak
        yield data, n, limits, links, strict, weak[:-1]
        yield data, n, limits, links, strict + [REACH + 1], weak + [REACH + 1]
    # files that are refused, whatever the tables
    for data in (b"", file_of(65, [], []), file_of(2, [(0, 1, 1_000_001)], []), file_of(2, [(0, 1, 10)], [(0, 0, 5, 1)]), file_of(3, [], E_LINK * 2)):
        yield data, 0, [], [], [0] * 4, [0] * 4


def main():
    stdin, stdout, codes = b"", "", {}
    for data, n, limits, links, strict, weak in entries():
        stdin += struct.pack("<3I", len(data), len(strict), len(weak)) + data + struct.pack("<%di" % (len(strict) + len(weak)), *strict, *weak)
        code, place = answer(data, n, limits, links, strict, weak)
        codes[code] = codes.get(code, 0) + 1
        stdout += "%d %d %d %d\n" % (*of_file(data), code, place)
    folder = os.path.join(os.path.dirname(os.path.abspath(__file__)), "..", "crates", "checks")
    with open(os.path.join(folder, "stdin"), "wb") as file:
        file.write(stdin)
    with open(os.path.join(folder, "stdout"), "w", encoding="ascii") as file:
        file.write(stdout)
    print(len(stdin), "bytes,", sum(codes.values()), "entries:", ", ".join("code %d %d times" % item for item in sorted(codes.items())))


if __name__ == "__main__":
    main()
