#!/usr/bin/env python3
"""Write the plan files that change overnight, which the program `overnight` reads, and what it must print of them.

    python3 tools/changed_files.py

writes crates/overnight/stdin and crates/overnight/stdout. An entry of stdin is twelve bytes, the lengths of a name, of the file as it was
stored in the afternoon and of what flash holds at night, then those three. Of each entry stdout has a line: the name, Sound's code and place for
the stored file, Judge's for what is held at night, and what became of two tables of 7s: they stay, or the first n x n cells of
both are marked, or they are filled.

Nothing here comes from the library. Codes 1 to 8 are those of damaged_files.py, the tables are found by the rounds over the rules of
tried_tables.py, and what became of them is read from their cells. Each entry also names what it is there for: the afternoon's answer, the
night's, and the word for the tables; the two must agree.
"""
import os
import struct

from damaged_files import CHAIN, FULL, LARGEST, SMALL, WEIGHT, limit_field, link_field, of_file, plan
from tried_tables import MARK, cells, tables

ROOM, INPUT, FLASH = 4096, 262_144, 16_384
KEPT = [7] * ROOM
SOUND, UNCONTROLLABLE = (0, 0), (11, 0)


# ---- the paper, read once more

def read(data):
    """Points, limits and links of a sound file; a link as A, l, u, C."""
    _, n, m, k, _, _ = struct.unpack_from("<6I", data)
    limits = [struct.unpack_from("<IIi", data, 24 + 12 * i) for i in range(m)]
    links = [struct.unpack_from("<4I", data, 24 + 12 * m + 16 * i) for i in range(k)]
    return n, limits, [(a, l, u, c) for a, c, l, u in links]


def judged(data):
    """Judge's code and place, and the cells that it leaves in tables of 7s: "their other refusals change no cell"."""
    refused = of_file(data)
    if refused != SOUND:
        return refused, KEPT, KEPT
    n, limits, links = read(data)
    pair = tables(n, limits, links)
    if pair is None:
        return UNCONTROLLABLE, *[[MARK] * (n * n) + KEPT[n * n:]] * 2
    return SOUND, *[cells(table) + KEPT[n * n:] for table in pair]


def left(data, strict, weak):
    """What became of the tables, by their cells."""
    if strict == weak == KEPT:
        return "stay"
    n = struct.unpack_from("<I", data, 4)[0]
    if strict == weak == [MARK] * (n * n) + KEPT[n * n:]:
        return "marked"
    return "filled"


# ---- files and what happens to them

# Two limits and two links, so that each code is one changed field away. Controllable: nothing keeps points 1 and 3 from their durations.
LIMITS, LINKS = [(0, 1, 10), (1, 2, 4)], [(0, 1, 2, 5), (0, 3, 1, 6)]
DAY = plan(4, LIMITS, LINKS)
# point 1 comes after 5 at the latest, and 4 is asked for
TIGHT = plan(4, [(0, 1, 4), (1, 2, 4)], LINKS)
# as large as LARGEST, which is uncontrollable (its first limit says that point 0 comes before itself), and with time enough for every duration
LOOSE = plan(64, [(i % 64, (i * 7) % 64, 100_000 + i) for i in range(1024)], CHAIN)
assert len(LOOSE) == len(LARGEST) == 12_824 and len(DAY) == 80


def header_field(name):
    return {"version": 0, "n": 4, "m": 8, "k": 12, "limits": 16, "links": 20}[name]


def changed(data, at, value):
    """The file with another 32-bit number at a place."""
    return data[:at] + struct.pack("<I", value % 2**32) + data[at + 4:]


def header(name, value, data=DAY):
    return changed(data, header_field(name), value)


def limit(i, name, value, data=DAY):
    return changed(data, limit_field(i, name), value)


def link(i, name, value, data=DAY, m=2):
    return changed(data, link_field(m, i, name), value)


def noise(count):
    return bytes((i * i * 37 + i * 101 + 43) % 256 for i in range(count))


ENTRIES = [
    # what happens, the file as it was stored and its code and place, what flash holds at night and Judge's code and place, the tables
    ("nothing changed", DAY, SOUND, DAY, SOUND, "filled"),
    # fewer than 24 bytes
    ("an empty flash", DAY, SOUND, b"", (1, 0), "stay"),
    ("23 bytes left", DAY, SOUND, DAY[:23], (1, 0), "stay"),
    # version, and back
    ("version 0", DAY, SOUND, header("version", 0), (2, 0), "stay"),
    ("version 2", DAY, SOUND, header("version", 2), (2, 0), "stay"),
    ("version 1 again", header("version", 2), (2, 0), DAY, SOUND, "filled"),
    ("a bit of the version's last byte", DAY, SOUND, header("version", 1 + 2**31), (2, 0), "stay"),
    # points
    ("n 0", DAY, SOUND, header("n", 0), (3, 0), "stay"),
    ("n 65", DAY, SOUND, header("n", 65), (3, 0), "stay"),
    ("n at its fullest", DAY, SOUND, header("n", FULL), (3, 0), "stay"),
    ("n 2, a limit names a point too many", DAY, SOUND, header("n", 2), (6, limit_field(1, "Y")), "stay"),
    ("n 3, a link names a point too many", DAY, SOUND, header("n", 3), (7, link_field(2, 1, "C")), "stay"),
    ("n 64, more points than are named", DAY, SOUND, header("n", 64), SOUND, "filled"),
    # counts
    ("m 1,025", DAY, SOUND, header("m", 1025), (4, 0), "stay"),
    ("k 33", DAY, SOUND, header("k", 33), (4, 0), "stay"),
    ("k at its fullest", DAY, SOUND, header("k", FULL), (4, 0), "stay"),
    # layout and length
    ("a limit less than there is", DAY, SOUND, header("m", 1), (5, 0), "stay"),
    ("a link more than there is", DAY, SOUND, header("k", 3), (5, 0), "stay"),
    ("offset of the limits 25", DAY, SOUND, header("limits", 25), (5, 0), "stay"),
    ("offset of the links 47", DAY, SOUND, header("links", 47), (5, 0), "stay"),
    ("24 bytes left", DAY, SOUND, DAY[:24], (5, 0), "stay"),
    ("one byte short", DAY, SOUND, DAY[:-1], (5, 0), "stay"),
    ("the last link gone", DAY, SOUND, DAY[:-16], (5, 0), "stay"),
    ("one byte long", DAY, SOUND, DAY + b"\0", (5, 0), "stay"),
    ("the file twice", DAY, SOUND, DAY + DAY, (5, 0), "stay"),
    # limits
    ("X of the first limit", DAY, SOUND, limit(0, "X", 4), (6, limit_field(0, "X")), "stay"),
    ("X of the second limit", DAY, SOUND, limit(1, "X", 4), (6, limit_field(1, "X")), "stay"),
    ("Y of the second limit", DAY, SOUND, limit(1, "Y", FULL), (6, limit_field(1, "Y")), "stay"),
    ("w of the first limit", DAY, SOUND, limit(0, "w", -WEIGHT - 1), (6, limit_field(0, "w")), "stay"),
    ("w of the second limit", DAY, SOUND, limit(1, "w", WEIGHT + 1), (6, limit_field(1, "w")), "stay"),
    ("the sign of w", DAY, SOUND, limit(1, "w", 4 + 2**31), (6, limit_field(1, "w")), "stay"),
    ("w, and a link too", DAY, SOUND, limit(1, "w", WEIGHT + 1, link(0, "l", 0)), (6, limit_field(1, "w")), "stay"),
    # links
    ("A of the first link", DAY, SOUND, link(0, "A", 4), (7, link_field(2, 0, "A")), "stay"),
    ("A of the second link", DAY, SOUND, link(1, "A", FULL), (7, link_field(2, 1, "A")), "stay"),
    ("C of the second link", DAY, SOUND, link(1, "C", 4), (7, link_field(2, 1, "C")), "stay"),
    ("C of the first link is 0", DAY, SOUND, link(0, "C", 0), (7, link_field(2, 0, "C")), "stay"),
    ("A of the second link is its C", DAY, SOUND, link(1, "A", 3), (7, link_field(2, 1, "C")), "stay"),
    ("l of the first link", DAY, SOUND, link(0, "l", 0), (7, link_field(2, 0, "l")), "stay"),
    ("l of the second link above its u", DAY, SOUND, link(1, "l", 7), (7, link_field(2, 1, "u")), "stay"),
    ("u of the first link below its l", DAY, SOUND, link(0, "u", 1), (7, link_field(2, 0, "u")), "stay"),
    ("u of the second link", DAY, SOUND, link(1, "u", WEIGHT + 1), (7, link_field(2, 1, "u")), "stay"),
    # a contingent point that an earlier link has
    ("C of the second link is the first's", DAY, SOUND, link(1, "C", 1), (8, link_field(2, 1, "C")), "stay"),
    ("C of the first link is the second's", DAY, SOUND, link(0, "C", 3), (8, link_field(2, 1, "C")), "stay"),
    ("the first link where the second was", DAY, SOUND, DAY[:-16] + DAY[-32:-16], (8, link_field(2, 1, "C")), "stay"),
    # worse
    ("all bytes 255", DAY, SOUND, b"\xff" * 80, (2, 0), "stay"),
    ("all bytes 255 behind the header", DAY, SOUND, DAY[:24] + b"\xff" * 56, (6, limit_field(0, "X")), "stay"),
    ("all bytes 0", DAY, SOUND, bytes(80), (2, 0), "stay"),
    ("all bytes 0 behind the limits", DAY, SOUND, DAY[:48] + bytes(32), (7, link_field(2, 0, "C")), "stay"),
    ("noise", DAY, SOUND, noise(80), (2, 0), "stay"),
    ("noise behind the version", DAY, SOUND, DAY[:4] + noise(76), (3, 0), "stay"),
    ("noise behind the limits", DAY, SOUND, DAY[:48] + noise(32), (7, link_field(2, 0, "A")), "stay"),
    # sound at night too: another plan is judged
    ("another w", DAY, SOUND, limit(1, "w", 3), SOUND, "filled"),
    ("another u", DAY, SOUND, link(0, "u", 6), SOUND, "filled"),
    ("a limit more", DAY, SOUND, plan(4, LIMITS + [(3, 2, 1)], LINKS), SOUND, "filled"),
    ("another file", DAY, SOUND, plan(1), SOUND, "filled"),
    ("w below a duration", DAY, SOUND, limit(0, "w", 4), UNCONTROLLABLE, "marked"),
    ("a point before itself", DAY, SOUND, limit(1, "X", 2, limit(1, "w", -1)), UNCONTROLLABLE, "marked"),
    ("n 64, and w below a duration", DAY, SOUND, header("n", 64, TIGHT), UNCONTROLLABLE, "marked"),
    ("w above every duration again", TIGHT, SOUND, DAY, SOUND, "filled"),
    ("uncontrollable, and nothing changed", SMALL, SOUND, SMALL, UNCONTROLLABLE, "marked"),
    ("uncontrollable, and w out of range", SMALL, SOUND, limit(1, "w", -WEIGHT - 1, SMALL), (6, limit_field(1, "w")), "stay"),
    # refused in the afternoon
    ("an empty flash, then a file", b"", (1, 0), DAY, SOUND, "filled"),
    ("one byte short, then whole", DAY[:-1], (5, 0), DAY, SOUND, "filled"),
    ("w of the second limit mended", limit(1, "w", WEIGHT + 1), (6, limit_field(1, "w")), DAY, SOUND, "filled"),
    ("l of the first link mended", link(0, "l", 0), (7, link_field(2, 0, "l")), DAY, SOUND, "filled"),
    ("C of the second link mended", link(1, "C", 1), (8, link_field(2, 1, "C")), DAY, SOUND, "filled"),
    ("n mended, and w below a duration", header("n", 65), (3, 0), TIGHT, UNCONTROLLABLE, "marked"),
    # refused both times
    ("k, then the version", header("k", 33), (4, 0), header("version", 3), (2, 0), "stay"),
    ("u of a link, then w of a limit", link(1, "u", 0), (7, link_field(2, 1, "u")), limit(0, "w", 2**31), (6, limit_field(0, "w")), "stay"),
    ("one field, then another", limit(1, "X", 4), (6, limit_field(1, "X")), limit(1, "Y", 4), (6, limit_field(1, "Y")), "stay"),
    # the largest file, each code at the last place there is
    ("largest, nothing changed", LARGEST, SOUND, LARGEST, UNCONTROLLABLE, "marked"),
    ("largest, 23 bytes left", LARGEST, SOUND, LARGEST[:23], (1, 0), "stay"),
    ("largest, version", LARGEST, SOUND, header("version", 2, LARGEST), (2, 0), "stay"),
    ("largest, n", LARGEST, SOUND, header("n", 65, LARGEST), (3, 0), "stay"),
    ("largest, m", LARGEST, SOUND, header("m", 1025, LARGEST), (4, 0), "stay"),
    ("largest, one byte long", LARGEST, SOUND, LARGEST + b"\0", (5, 0), "stay"),
    ("largest, w of the last limit", LARGEST, SOUND, limit(1023, "w", WEIGHT + 1, LARGEST), (6, limit_field(1023, "w")), "stay"),
    ("largest, u of the last link", LARGEST, SOUND, link(31, "u", 0, LARGEST, 1024), (7, link_field(1024, 31, "u")), "stay"),
    ("largest, C of the last link", LARGEST, SOUND, link(31, "C", 1, LARGEST, 1024), (8, link_field(1024, 31, "C")), "stay"),
    ("largest, time enough for every duration", LARGEST, SOUND, LOOSE, SOUND, "filled"),
]


def main():
    stdin, stdout, codes = b"", "", {}
    for name, stored, afternoon, held, night, word in ENTRIES:
        assert of_file(stored) == afternoon, (name, of_file(stored), afternoon)
        answer, strict, weak = judged(held)
        assert answer == night, (name, answer, night)
        assert left(held, strict, weak) == word, (name, left(held, strict, weak), word)
        assert max(len(stored), len(held)) <= FLASH, name
        stdin += struct.pack("<3I", len(name), len(stored), len(held)) + name.encode("ascii") + stored + held
        stdout += "%s: sound %d %d, judge %d %d, tables %s\n" % (name, *afternoon, *night, word)
        codes[night[0]] = codes.get(night[0], 0) + 1
    assert len(stdin) <= INPUT
    folder = os.path.join(os.path.dirname(os.path.abspath(__file__)), "..", "crates", "overnight")
    with open(os.path.join(folder, "stdin"), "wb") as file:
        file.write(stdin)
    with open(os.path.join(folder, "stdout"), "w", encoding="ascii") as file:
        file.write(stdout)
    print(len(stdin), "bytes,", len(ENTRIES), "entries, at night:", ", ".join("code %d %d times" % item for item in sorted(codes.items())))


if __name__ == "__main__":
    main()
