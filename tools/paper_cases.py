#!/usr/bin/env python3
"""Write the plan files that the program `cases` reads, and what it must print of them.

    python3 tools/paper_cases.py

writes crates/cases/stdin and crates/cases/stdout. An entry of stdin is twelve bytes, the lengths of a name and of a file and the number
of limits to add, then the name, the file and the limits, twelve bytes each. Of each entry stdout has the name; Sound's code and place;
Judge's code and place and, with 0, both tables; Check's code and place for the tables that Judge left; of each limit that is then added to
those tables, one after the other, the limit, Add's code and place, both tables after it, and how many cells of a scratch of 7s are 0 from
the first one on and how many behind those are still 7; Earliest's code and place and, with 0, the times.

Nothing here comes from the library: the plans and what is said of them are document 01's "Plans to try" and document 02's, with others
about them; the tables are found by the rounds over the rules of tried_tables.py, Add's too, and codes 1 to 8 are those of
damaged_files.py. What the papers print is compared with what is found here.
"""
import os
import struct

from damaged_files import limit_field, link_field, of_add, of_file
from tried_tables import E_LINK, MARK, PLANS, REACH, answer, cells, file_of, printed, tables

ROOM, SCRATCH = 4096, 8192
NAMED = [*"abcdefghijk", "02"]  # document 01's cases by their letters, and those of document 02
# the earliest times that the paper prints, by the name of the case
TIMES = {"b": [0, 0], "d": [0, 4, 7]}
# what is not among PLANS: name, points, limits, links, code and place of Judge
MORE = [
    ("a plan whose strict cells alone would fall for ever", 4, [(2, 3, -3)], [(3, 1, 7, 2), (0, 2, 7, 1)], (11, 0)),
    ("l: n 65", 65, [], [], (3, 0)),
    ("l: w 1,000,001, the second limit", 2, [(0, 1, 10), (0, 1, 1_000_001)], [], (6, limit_field(1, "w"))),
    ("l: w 1,000,000", 2, [(0, 1, 1_000_000)], [], (0, 0)),
    ("l: l = 0, the second link", 3, [], [(0, 2, 5, 1), (0, 0, 5, 2)], (7, link_field(0, 1, "l"))),
    ("l: u 1,000,000", 2, [], [(0, 2, 1_000_000, 1)], (0, 0)),
    ("02: l above u, the second link", 3, [], [(0, 40, 40, 1), (0, 41, 40, 2)], (7, link_field(0, 1, "u"))),
    ("02: l = u = 1,000,001", 2, [], [(0, 1_000_001, 1_000_001, 1)], (7, link_field(0, 0, "u"))),
    ("02: l = u = 0", 2, [], [(0, 0, 0, 1)], (7, link_field(0, 0, "l"))),
]
# limits added one after the other to the tables that Judge leaves: name, points, limits, links, what is added with Add's code and place, and
# the case whose tables they end in
ADDED = [
    # "Add 0>1 5 to e: taken, nothing changes. Add 0>1 4: 11. Add 1>0 -3: 11."
    ("f", 2, [], E_LINK, [((0, 1, 5), (0, 0)), ((0, 1, 4), (11, 0)), ((1, 0, -3), (11, 0))], "e"),
    ("d, limit by limit", 3, [], [], [((0, 2, 12), (0, 0)), ((2, 1, -3), (0, 0)), ((1, 2, 6), (0, 0)), ((1, 0, -4), (0, 0))], "d"),
    ("h, its second limit added, then that of i, then one that names a point too many", 3, [(1, 2, -1)], E_LINK,
     [((2, 1, 4), (0, 0)), ((2, 1, 3), (11, 0)), ((3, 1, 0), (6, limit_field(1, "X")))], "h"),
    # document 02, item 2: 40 seconds are what it takes, no more and no less
    ("02: (0,40,40,1), limits added", 2, [], [(0, 40, 40, 1)],
     [((0, 1, 40), (0, 0)), ((1, 0, -40), (0, 0)), ((0, 1, 39), (11, 0)), ((1, 0, -41), (11, 0))], "02: (0,40,40,1)"),
    ("c with -11, and a limit added to what is left", 2, [(0, 1, 10), (1, 0, -11)], [], [((0, 1, 10), (12, 0))], None),
]


def judged(data, n, limits, links):
    """Judge's code and place, and the cells that it leaves in tables of zeros."""
    refused = of_file(data)
    if refused != (0, 0):
        return refused, [0] * ROOM, [0] * ROOM
    pair = tables(n, limits, links)
    if pair is None:
        return (11, 0), *[[MARK] * (n * n) + [0] * (ROOM - n * n)] * 2
    return (0, 0), *[cells(table) + [0] * (ROOM - n * n) for table in pair]


def added(data, n, limits, links, limit, strict, weak):
    """Add's code and place, the cells of both tables after it, and how many cells of the scratch are 0."""
    refused = of_add(data, limit)
    if refused != (0, 0):
        return refused, strict, weak, 0
    if answer(data, n, limits, links, strict, weak) != (0, 0):
        return (12, 0), strict, weak, 2 * n * n
    # "Take as limits every strict cell off the diagonal that isn't the mark, and the new limit."
    taken = [(x, y, strict[x * n + y]) for x in range(n) for y in range(n) if x != y and strict[x * n + y] != MARK]
    pair = tables(n, taken + [limit], links)
    if pair is None:
        return (11, 0), strict, weak, 2 * n * n
    if any(c is not None and not -REACH <= c <= REACH for table in pair for row in table for c in row):
        return (12, 0), strict, weak, 2 * n * n
    return (0, 0), *[cells(new) + old[n * n:] for new, old in zip(pair, (strict, weak))], 2 * n * n


def timed(data, n, limits, links):
    """Earliest's code and place, and the times."""
    refused, strict, _ = judged(data, n, limits, links)
    if of_file(data) == (0, 0) and links:
        return (10, 0), []
    # "time of X is minus the strict cell from X to 0"
    return refused, [-strict[x * n] for x in range(n)] if refused == (0, 0) else []


def words(row):
    return "".join(" mark" if cell == MARK else " %d" % cell for cell in row)


def both(n, strict, weak):
    for word, table in ("strict", strict), ("open", weak):
        yield word + "".join(words(table[x * n:x * n + n]) + ";" for x in range(n))


def lines(name, data, n, limits, links, more):
    """What is printed of an entry."""
    code, strict, weak = judged(data, n, limits, links)
    yield name
    yield "sound %d %d" % of_file(data)
    yield "judge %d %d" % code
    if code == (0, 0):
        yield from both(n, strict, weak)
    yield "check %d %d" % answer(data, n, limits, links, strict, weak)
    for limit in more:
        code, strict, weak, zeros = added(data, n, limits, links, limit, strict, weak)
        yield "limit %d>%d %d" % limit
        yield "add %d %d" % code
        yield from both(n, strict, weak)
        yield "scratch %d %d" % (zeros, SCRATCH - zeros)
    code, times = timed(data, n, limits, links)
    yield "earliest %d %d" % code
    if code == (0, 0):
        yield "times" + words(times)


def flat(text):
    return [cell for row in printed(text) for cell in row]


def additions():
    """The entries with limits to add. What the paper says of them is looked at first."""
    for name, n, limits, links, more, end in ADDED:
        data = file_of(n, limits, links)
        _, strict, weak = judged(data, n, limits, links)
        for limit, paper in more:
            before = strict, weak
            code, strict, weak, _ = added(data, n, limits, links, limit, strict, weak)
            assert code == paper, (name, limit)
            # "Add changes the tables only with code 0."; of f: "nothing changes"
            assert code == (0, 0) and name != "f" or (strict, weak) == before, (name, limit)
        if end:
            text = next(paper for letter, _, _, _, paper in PLANS if letter == end)
            assert [strict[:n * n], weak[:n * n]] == [flat(rows) for rows in (text * 2 if len(text) == 1 else text)], name
        yield name, data, n, limits, links, [limit for limit, _ in more]


def entries():
    """Each entry: the name, the file, its points, limits and links, and the limits to add. What the paper says of it is looked at first."""
    for name, n, limits, links, paper in PLANS:
        if name.split()[0].strip(":") not in NAMED:
            continue
        data = file_of(n, limits, links)
        code, strict, weak = judged(data, n, limits, links)
        assert code == ((11, 0) if paper is None else (0, 0)), name
        if paper:
            for table, text in zip((strict, weak), paper * 2 if len(paper) == 1 else paper):
                assert table[:n * n] == flat(text), name
        if name in TIMES:
            assert timed(data, n, limits, links) == ((0, 0), TIMES[name]), name
        yield name, data, n, limits, links, []
    yield from additions()
    for name, n, limits, links, code in MORE:
        data = file_of(n, limits, links)
        assert judged(data, n, limits, links)[0] == code, name
        yield name, data, n, limits, links, []


def main():
    stdin, stdout, count = b"", "", 0
    # "The file's fields in order: 1, 2, 1, 0, 24, 36; 0, 1, 10; 36 bytes."
    assert file_of(2, [(0, 1, 10)], []) == struct.pack("<9I", 1, 2, 1, 0, 24, 36, 0, 1, 10)
    for entry in entries():
        name, data, more = entry[0].encode("ascii"), entry[1], entry[-1]
        stdin += struct.pack("<3I", len(name), len(data), len(more)) + name + data + b"".join(struct.pack("<IIi", *limit) for limit in more)
        stdout += "".join(line + "\n" for line in lines(*entry))
        count += 1
    folder = os.path.join(os.path.dirname(os.path.abspath(__file__)), "..", "crates", "cases")
    with open(os.path.join(folder, "stdin"), "wb") as file:
        file.write(stdin)
    with open(os.path.join(folder, "stdout"), "w", encoding="ascii") as file:
        file.write(stdout)
    print(count, "plans,", len(stdin), "bytes")


if __name__ == "__main__":
    main()
