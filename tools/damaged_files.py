#!/usr/bin/env python3
"""Write the damaged and sound plan files that the program `files` reads, and what it must print of them.

    python3 tools/damaged_files.py

writes crates/files/stdin and crates/files/stdout. Each file stands in stdin behind sixteen bytes: its length and the limit
X, Y, w that is handed to Add with it. Of each, stdout has a line: code and place of the file, code and place with Add's limit.

Nothing here comes from the library. `of_file` and `of_add` are a reading of the rule paper ("Plan file", "Numbers
returned") and of document 02 (item 2: "1 <= l <= u"; item 5: the place with codes 6, 7 and 8 is "the offset in the file of
the field at fault"), and each case also names the answer that it is there for; the two must agree.
"""
import os
import struct

POINTS, LIMITS, LINKS, WEIGHT = 64, 1024, 32, 1_000_000
FULL = 2**32 - 1
FITTING = (0, 0, 0)


# ---- the paper, read once more

def first_of(bad):
    """The offset in its record of the first field that is bad; None where none is."""
    return 4 * bad.index(True) if True in bad else None


def limit_fault(n, x, y, w):
    """Item 5: "for a limit the first bad one of from, to, weight"."""
    return first_of([x >= n, y >= n, not -WEIGHT <= w <= WEIGHT])


def link_fault(n, a, c, l, u):
    """Item 5: "for a link of A, C, l, u, where A equal to C is blamed on C, a wrong order of l and u on u, and l only when it is 0"."""
    return first_of([a >= n, c >= n or c == 0 or c == a, l == 0, u < l or u > WEIGHT])


def parts(data):
    """Code and place of the header and the limits, and of the links; None where nothing is refused."""
    if len(data) < 24:
        return (1, 0), None, 0, 0
    version, n, m, k, limits_at, links_at = struct.unpack_from("<6I", data)
    if version != 1:
        return (2, 0), None, n, m
    if not 1 <= n <= POINTS:
        return (3, 0), None, n, m
    if m > LIMITS or k > LINKS:
        return (4, 0), None, n, m
    if limits_at != 24 or links_at != 24 + 12 * m or len(data) != 24 + 12 * m + 16 * k:
        return (5, 0), None, n, m
    for at in range(24, 24 + 12 * m, 12):
        fault = limit_fault(n, *struct.unpack_from("<IIi", data, at))
        if fault is not None:
            return (6, at + fault), None, n, m
    seen = []
    for at in range(24 + 12 * m, len(data), 16):
        a, c, l, u = struct.unpack_from("<4I", data, at)
        fault = link_fault(n, a, c, l, u)
        if fault is not None:
            return None, (7, at + fault), n, m
        if c in seen:
            return None, (8, at + 4), n, m
        seen.append(c)
    return None, None, n, m


def of_file(data):
    front, links, _, _ = parts(data)
    return front or links or (0, 0)


def of_add(data, added):
    front, links, n, m = parts(data)
    if front:
        return front
    fault = limit_fault(n, *added)
    if fault is not None:
        return 6, 24 + 12 * m + fault
    return links or (0, 0)


# ---- files

def plan(n, limits=(), links=(), **header):
    """The file of a plan; a header field may be given another value."""
    m, k = len(limits), len(links)
    fields = {"version": 1, "n": n, "m": m, "k": k, "limits_at": 24, "links_at": 24 + 12 * m}
    fields.update(header)
    data = struct.pack("<6I", *fields.values())
    for x, y, w in limits:
        data += struct.pack("<IIi", x, y, w)
    for link in links:
        data += struct.pack("<4I", *link)
    return data


def put(records, at, record):
    return records[:at] + [record] + records[at + 1:]


LIMIT, LINK = (0, 1, 10), (0, 1, 2, 5)
SMALL = plan(3, [LIMIT, (1, 2, -4)], [LINK])
MANY = [(i % 64, (i * 7) % 64, i - 512) for i in range(LIMITS)]
CHAIN = [(i, i + 1, 1, i + 2) for i in range(LINKS)]
LARGEST = plan(64, MANY, CHAIN)


def one_limit(limit, n=3):
    return plan(n, [limit])


def one_link(link, n=3):
    return plan(n, [LIMIT], [link])


# ---- where a field begins, by its name: what the places below are typed with

def limit_field(i, name):
    """Of limit i; of the limit handed to Add, where i is the number of the file's own."""
    return 24 + 12 * i + {"X": 0, "Y": 4, "w": 8}[name]


def link_field(m, i, name):
    """Of link i, behind m limits."""
    return 24 + 12 * m + 16 * i + {"A": 0, "C": 4, "l": 8, "u": 12}[name]


# one of each by its number
assert [limit_field(1, name) for name in "XYw"] == [36, 40, 44]
assert [link_field(1, 0, name) for name in "AClu"] == [36, 40, 44, 48]
assert limit_field(1023, "w") == 12_308 and link_field(1024, 31, "u") == 12_820


CASES = [
    # what the case is, the file, its code and place
    ("no bytes", b"", (1, 0)),
    ("one byte", b"\1", (1, 0)),
    ("23 bytes", plan(1)[:23], (1, 0)),
    ("24 bytes: a", plan(1), (0, 0)),
    ("25 bytes", plan(1) + b"\0", (5, 0)),
    ("b", plan(2, [LIMIT]), (0, 0)),
    ("b, one byte short", plan(2, [LIMIT])[:-1], (5, 0)),
    ("b, one byte long", plan(2, [LIMIT]) + b"\0", (5, 0)),
    ("a small sound file", SMALL, (0, 0)),
    ("one byte short", SMALL[:-1], (5, 0)),
    ("one byte long", SMALL + b"\0", (5, 0)),
    ("a record short", SMALL[:-16], (5, 0)),
    ("the largest file", LARGEST, (0, 0)),
    ("the largest file, one byte short", LARGEST[:-1], (5, 0)),
    ("the largest file, one byte long", LARGEST + b"\0", (5, 0)),
    # each header field off by one
    ("version 0", plan(3, [LIMIT], [LINK], version=0), (2, 0)),
    ("version 2", plan(3, [LIMIT], [LINK], version=2), (2, 0)),
    ("version 2 to the power 24", plan(3, [LIMIT], [LINK], version=2**24), (2, 0)),
    ("n 0", plan(0), (3, 0)),
    ("n 1", plan(1), (0, 0)),
    ("n 64", plan(64), (0, 0)),
    ("n 65", plan(65), (3, 0)),
    ("one point less than is named", plan(1, [LIMIT]), (6, limit_field(0, "Y"))),
    ("one limit less than there is", plan(3, [LIMIT], [LINK], m=0), (5, 0)),
    ("one limit more than there is", plan(3, [LIMIT], [LINK], m=2), (5, 0)),
    ("one link less than there is", plan(3, [LIMIT], [LINK], k=0), (5, 0)),
    ("one link more than there is", plan(3, [LIMIT], [LINK], k=2), (5, 0)),
    ("offset of the limits 23", plan(3, [LIMIT], [LINK], limits_at=23), (5, 0)),
    ("offset of the limits 25", plan(3, [LIMIT], [LINK], limits_at=25), (5, 0)),
    ("offset of the links 35", plan(3, [LIMIT], [LINK], links_at=35), (5, 0)),
    ("offset of the links 37", plan(3, [LIMIT], [LINK], links_at=37), (5, 0)),
    ("offset of the links without the limits", plan(3, [LIMIT], [LINK], links_at=24), (5, 0)),
    # counts at and beyond their ends
    ("1,024 limits, none there", plan(64, m=1024), (5, 0)),
    ("1,025 limits, none there", plan(64, m=1025), (4, 0)),
    ("32 links", plan(64, [], CHAIN), (0, 0)),
    ("33 links", plan(64, [], CHAIN + [(0, 40, 1, 2)]), (4, 0)),
    ("n at its fullest", plan(FULL), (3, 0)),
    ("m at its fullest", plan(3, m=FULL), (4, 0)),
    ("k at its fullest", plan(3, k=FULL), (4, 0)),
    ("m and k at their fullest", plan(3, m=FULL, k=FULL), (4, 0)),
    ("m for which 24 + 12m is 32 in 32 bits", plan(3, m=357_913_942, links_at=32), (4, 0)),
    ("k for which the length is 24 in 32 bits", plan(3, k=2**28), (4, 0)),
    ("offset of the limits at its fullest", plan(3, limits_at=FULL), (5, 0)),
    ("offset of the links at its fullest", plan(3, links_at=FULL), (5, 0)),
    ("every field at its fullest", b"\xff" * 24, (2, 0)),
    # limits
    ("the first limit of many", plan(64, put(MANY[:40], 0, (64, 0, 0)), CHAIN), (6, limit_field(0, "X"))),
    ("the last limit of many", plan(64, put(MANY, 1023, (64, 0, 0)), CHAIN), (6, limit_field(1023, "X"))),
    ("the largest file's last w", plan(64, put(MANY, 1023, (63, 63, WEIGHT + 1)), CHAIN), (6, limit_field(1023, "w"))),
    ("two bad limits", plan(3, [LIMIT, (0, 3, 0), (3, 0, 0)]), (6, limit_field(1, "Y"))),
    ("X equal to n", one_limit((3, 0, 0)), (6, limit_field(0, "X"))),
    ("Y equal to n", one_limit((0, 3, 0)), (6, limit_field(0, "Y"))),
    ("X at its fullest", one_limit((FULL, 0, 0)), (6, limit_field(0, "X"))),
    ("Y at its fullest", one_limit((0, FULL, 0)), (6, limit_field(0, "Y"))),
    ("X = Y", one_limit((2, 2, -1)), (0, 0)),
    ("X = Y = n", one_limit((3, 3, 0)), (6, limit_field(0, "X"))),
    ("limits that repeat", plan(3, [LIMIT, LIMIT]), (0, 0)),
    ("w 1,000,000", one_limit((0, 1, WEIGHT)), (0, 0)),
    ("w 1,000,001", one_limit((0, 1, WEIGHT + 1)), (6, limit_field(0, "w"))),
    ("w -1,000,000", one_limit((0, 1, -WEIGHT)), (0, 0)),
    ("w -1,000,001", one_limit((0, 1, -WEIGHT - 1)), (6, limit_field(0, "w"))),
    ("the largest w", one_limit((0, 1, 2**31 - 1)), (6, limit_field(0, "w"))),
    ("the least w", one_limit((0, 1, -2**31)), (6, limit_field(0, "w"))),
    # two faults or three in one limit: the first is blamed
    ("X, and Y too", plan(3, [LIMIT, (3, 9, 0)]), (6, limit_field(1, "X"))),
    ("X, and w too", plan(3, [LIMIT, (3, 0, WEIGHT + 1)]), (6, limit_field(1, "X"))),
    ("X, and Y and w too", plan(3, [LIMIT, (3, 3, -WEIGHT - 1)]), (6, limit_field(1, "X"))),
    ("Y, and w too", plan(3, [LIMIT, (0, 3, WEIGHT + 1)]), (6, limit_field(1, "Y"))),
    ("w, and the next limit's X too", plan(3, [LIMIT, (0, 1, WEIGHT + 1), (3, 0, 0)]), (6, limit_field(1, "w"))),
    # links
    ("the first link of many", plan(64, MANY[:40], put(CHAIN, 0, (0, 1, 0, 5))), (7, link_field(40, 0, "l"))),
    ("the last link of many", plan(64, MANY, put(CHAIN, 31, (31, 32, 0, 5))), (7, link_field(1024, 31, "l"))),
    ("the largest file's last u", plan(64, MANY, put(CHAIN, 31, (31, 32, 5, 4))), (7, link_field(1024, 31, "u"))),
    ("no limits before the link", plan(3, [], [(0, 1, 6, 5)]), (7, link_field(0, 0, "u"))),
    ("A equal to n", one_link((3, 1, 2, 5)), (7, link_field(1, 0, "A"))),
    ("A at its fullest", one_link((FULL, 1, 2, 5)), (7, link_field(1, 0, "A"))),
    ("C equal to n", one_link((0, 3, 2, 5)), (7, link_field(1, 0, "C"))),
    ("C at its fullest", one_link((0, FULL, 2, 5)), (7, link_field(1, 0, "C"))),
    ("A = C", one_link((1, 1, 2, 5)), (7, link_field(1, 0, "C"))),
    ("C = 0", one_link((1, 0, 2, 5)), (7, link_field(1, 0, "C"))),
    ("A = C = 0", one_link((0, 0, 2, 5)), (7, link_field(1, 0, "C"))),
    ("l = 0", one_link((0, 1, 0, 5)), (7, link_field(1, 0, "l"))),
    ("l = 1", one_link((0, 1, 1, 5)), (0, 0)),
    ("l = u", one_link((0, 1, 5, 5)), (0, 0)),
    ("l = u = 0", one_link((0, 1, 0, 0)), (7, link_field(1, 0, "l"))),
    ("l = u = 1", one_link((0, 1, 1, 1)), (0, 0)),
    ("l = u = 1,000,000", one_link((0, 1, WEIGHT, WEIGHT)), (0, 0)),
    ("l = u = 1,000,001", one_link((0, 1, WEIGHT + 1, WEIGHT + 1)), (7, link_field(1, 0, "u"))),
    ("l one above u", one_link((0, 1, 6, 5)), (7, link_field(1, 0, "u"))),
    ("l 1, u 0", one_link((0, 1, 1, 0)), (7, link_field(1, 0, "u"))),
    ("l 1,000,001, u in range", one_link((0, 1, WEIGHT + 1, WEIGHT)), (7, link_field(1, 0, "u"))),
    ("l 1,000,001, u above it", one_link((0, 1, WEIGHT + 1, WEIGHT + 2)), (7, link_field(1, 0, "u"))),
    ("l at its fullest", one_link((0, 1, FULL, 5)), (7, link_field(1, 0, "u"))),
    ("l and u at their fullest", one_link((0, 1, FULL, FULL)), (7, link_field(1, 0, "u"))),
    ("l one below u", one_link((0, 1, 4, 5)), (0, 0)),
    ("u 1,000,000", one_link((0, 1, 5, WEIGHT)), (0, 0)),
    ("u 1,000,001", one_link((0, 1, 5, WEIGHT + 1)), (7, link_field(1, 0, "u"))),
    ("u at its fullest", one_link((0, 1, 5, FULL)), (7, link_field(1, 0, "u"))),
    ("A is another link's C", plan(4, [], [(0, 1, 2, 5), (1, 2, 2, 5)]), (0, 0)),
    ("two links share an A", plan(4, [], [(0, 1, 2, 5), (0, 2, 2, 5)]), (0, 0)),
    # two faults or more in one link: the first is blamed
    ("A, and C out of range too", one_link((3, 4, 2, 5)), (7, link_field(1, 0, "A"))),
    ("A = C = n", one_link((3, 3, 2, 5)), (7, link_field(1, 0, "A"))),
    ("A, and C = 0 too", one_link((3, 0, 2, 5)), (7, link_field(1, 0, "A"))),
    ("A, and l too", one_link((3, 1, 0, 5)), (7, link_field(1, 0, "A"))),
    ("A, and u too", one_link((3, 1, 6, 5)), (7, link_field(1, 0, "A"))),
    ("C out of range, and l too", one_link((0, 3, 0, 5)), (7, link_field(1, 0, "C"))),
    ("C = 0, and l too", one_link((1, 0, 0, 5)), (7, link_field(1, 0, "C"))),
    ("A = C, and l too", one_link((2, 2, 0, 5)), (7, link_field(1, 0, "C"))),
    ("A = C, and u too", one_link((2, 2, 6, 5)), (7, link_field(1, 0, "C"))),
    ("l = 0, and u above 1,000,000 too", one_link((0, 1, 0, WEIGHT + 1)), (7, link_field(1, 0, "l"))),
    ("every field of a link", one_link((3, 0, 0, FULL)), (7, link_field(1, 0, "A"))),
    ("u, and the next link's A too", plan(3, [LIMIT], [LINK, (0, 2, 6, 5), (3, 0, 0, 0)]), (7, link_field(1, 1, "u"))),
    # a contingent point that an earlier link has
    ("a repeated contingent point, first place", plan(4, [], [(0, 1, 2, 5), (2, 1, 2, 5)]), (8, link_field(0, 1, "C"))),
    ("a repeated contingent point, last place", plan(64, MANY[:40], put(CHAIN, 31, (40, 1, 1, 2))), (8, link_field(40, 31, "C"))),
    ("a repeated contingent point, next to the last", plan(64, [], put(CHAIN, 31, (40, 31, 1, 2))), (8, link_field(0, 31, "C"))),
    ("a repeated contingent point, after limits", plan(4, [LIMIT, LIMIT], [LINK, (0, 2, 2, 5), (2, 1, 2, 5)]), (8, link_field(2, 2, "C"))),
    ("a contingent point three times", plan(4, [], [LINK, LINK, LINK]), (8, link_field(0, 1, "C"))),
    # order
    ("version before n", plan(0, version=2), (2, 0)),
    ("n before m", plan(0, m=FULL), (3, 0)),
    ("k before the offsets", plan(3, k=33, limits_at=0), (4, 0)),
    ("layout before the limits", plan(3, [(9, 9, 9)], limits_at=0), (5, 0)),
    ("limits before the links", plan(3, [(3, 0, 0)], [(0, 0, 0, 0)]), (6, limit_field(0, "X"))),
    ("7 before 8 in one link, A", plan(4, [], [LINK, (4, 1, 2, 5)]), (7, link_field(0, 1, "A"))),
    ("7 before 8 in one link, A = C", plan(4, [], [LINK, (1, 1, 2, 5)]), (7, link_field(0, 1, "C"))),
    ("7 before 8 in one link, l", plan(4, [], [LINK, (2, 1, 0, 5)]), (7, link_field(0, 1, "l"))),
    ("7 before 8 in one link, u", plan(4, [], [LINK, (2, 1, 6, 5)]), (7, link_field(0, 1, "u"))),
    ("8 before a later 7", plan(4, [], [(0, 1, 2, 5), (2, 1, 2, 5), (0, 0, 0, 0)]), (8, link_field(0, 1, "C"))),
    ("7 before a later 8", plan(4, [], [(0, 1, 2, 5), (0, 3, 6, 5), (2, 1, 2, 5)]), (7, link_field(0, 1, "u"))),
]

# the same with a limit for Add: what the case is, the file, the limit, code and place
ADDED = [
    ("in range", SMALL, (2, 1, -WEIGHT), (0, 0)),
    ("X = Y", SMALL, (2, 2, WEIGHT), (0, 0)),
    ("X equal to n", SMALL, (3, 0, 0), (6, limit_field(2, "X"))),
    ("Y equal to n", SMALL, (0, 3, 0), (6, limit_field(2, "Y"))),
    ("w 1,000,001", SMALL, (0, 1, WEIGHT + 1), (6, limit_field(2, "w"))),
    ("w -1,000,001", SMALL, (0, 1, -WEIGHT - 1), (6, limit_field(2, "w"))),
    ("the largest w", SMALL, (0, 1, 2**31 - 1), (6, limit_field(2, "w"))),
    ("the least w", SMALL, (0, 1, -2**31), (6, limit_field(2, "w"))),
    ("X, and Y too", SMALL, (3, 3, 0), (6, limit_field(2, "X"))),
    ("X, and w too", SMALL, (3, 0, WEIGHT + 1), (6, limit_field(2, "X"))),
    ("Y, and w too", SMALL, (0, 3, WEIGHT + 1), (6, limit_field(2, "Y"))),
    ("every field at its fullest", SMALL, (FULL, FULL, -1), (6, limit_field(2, "X"))),
    ("no limits in the file, X", plan(1), (1, 0, 0), (6, limit_field(0, "X"))),
    ("no limits in the file, Y", plan(1), (0, 1, 0), (6, limit_field(0, "Y"))),
    ("no limits in the file, w", plan(1), (0, 0, WEIGHT + 1), (6, limit_field(0, "w"))),
    ("no limits in the file, Y, and w too", plan(1), (0, 1, WEIGHT + 1), (6, limit_field(0, "Y"))),
    ("the most limits in the file, X", LARGEST, (64, 0, 0), (6, limit_field(1024, "X"))),
    ("the most limits in the file, Y", LARGEST, (0, 64, 0), (6, limit_field(1024, "Y"))),
    ("the most limits in the file, w", LARGEST, (63, 63, -WEIGHT - 1), (6, limit_field(1024, "w"))),
    ("the most limits in the file, X, and w too", LARGEST, (64, 0, WEIGHT + 1), (6, limit_field(1024, "X"))),
    ("the header comes first", plan(0), (3, 0, 0), (3, 0)),
    ("the file's limits come first", plan(3, [LIMIT, (3, 0, 0)]), (3, 0, 0), (6, limit_field(1, "X"))),
    ("the file's limits come first, w before X", plan(3, [LIMIT, (0, 1, WEIGHT + 1)]), (3, 0, 0), (6, limit_field(1, "w"))),
    ("a file's limit is bad and Add's is not", plan(3, [LIMIT, (3, 0, 0)]), FITTING, (6, limit_field(1, "X"))),
    # Add's limit is named where the first link begins
    ("the links come after, 7", plan(3, [LIMIT], [(0, 0, 0, 0)]), (3, 0, 0), (6, limit_field(1, "X"))),
    ("the links come after, 7 at A", plan(3, [LIMIT], [(3, 1, 2, 5)]), (0, 1, WEIGHT + 1), (6, limit_field(1, "w"))),
    ("the links come after, 8", plan(4, [], [(0, 1, 2, 5), (2, 1, 2, 5)]), (4, 0, 0), (6, limit_field(0, "X"))),
    ("a link is bad and Add's limit is not", plan(3, [LIMIT], [(0, 0, 0, 0)]), FITTING, (7, link_field(1, 0, "C"))),
    ("a link repeats and Add's limit does not matter", plan(4, [], [(0, 1, 2, 5), (2, 1, 2, 5)]), FITTING, (8, link_field(0, 1, "C"))),
]


def main():
    entries = []
    for name, data, expected in CASES:
        assert of_file(data) == expected, (name, of_file(data), expected)
        entries.append((data, FITTING))
    for name, data, added, expected in ADDED:
        assert of_add(data, added) == expected, (name, of_add(data, added), expected)
        entries.append((data, added))
    stdin, stdout = b"", ""
    for data, added in entries:
        stdin += struct.pack("<IIIi", len(data), *added) + data
        stdout += "%d %d %d %d\n" % (*of_file(data), *of_add(data, added))
    folder = os.path.join(os.path.dirname(os.path.abspath(__file__)), "..", "crates", "files")
    with open(os.path.join(folder, "stdin"), "wb") as file:
        file.write(stdin)
    with open(os.path.join(folder, "stdout"), "w", encoding="ascii") as file:
        file.write(stdout)
    print(len(entries), "files,", len(stdin), "bytes")


if __name__ == "__main__":
    main()
