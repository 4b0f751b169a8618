#!/usr/bin/env python3
"""Writes the sample units of `check_units`: its standard input, and what it must print for each line.

    samples/sample_units.py                 write crates/check_units/stdin and stdout
    samples/sample_units.py --speed N K     print N lines, each a sound unit of K instructions

Every sample stands here with its outcome, which is written by hand and not computed.
"""
import pathlib
import struct
import sys

NONE = 0xFFFFFFFF
JUNK = 0xDEADBEEF
WORDS, IDENTIFIERS, PLACES, FUNCTIONS, BLOCKS, PHIS, INSTRUCTIONS, DECLARED, STEPS = range(1, 10)
COLUMNS = {WORDS: 2, IDENTIFIERS: 3, PLACES: 3, FUNCTIONS: 4, BLOCKS: 10, PHIS: 3, INSTRUCTIONS: 8, DECLARED: 4, STEPS: 2}
LIMITS = {0: 32768, WORDS: 1024, IDENTIFIERS: 2048, PLACES: 16384, FUNCTIONS: 32, BLOCKS: 1024, PHIS: 1024,
          INSTRUCTIONS: 4096, DECLARED: 1024, STEPS: 4096}

# columns of an instruction: kind, result, span, a, b, c, part first, part count
KIND, RESULT, SPAN, A, B, C, FIRST, COUNT = range(8)


def sound():
    """A unit that is accepted, with a row of every kind and each unused column full of junk."""
    return {
        0: b"propsitemsuseEffect",
        WORDS: [[0, 5], [5, 5], [10, 9], [19, 0]],
        IDENTIFIERS: [[1, 0, NONE], [0, 1, 3], [0, 0, 0]],
        PLACES: [[0, 7, 0], [1, NONE, 1], [2, JUNK, 0], [2, 0, 0], [0, 9, 1]],
        FUNCTIONS: [[0, 2, 0, 6], [5, 0, 6, 0]],
        BLOCKS: [
            [0, 1, 0, 8, 0, JUNK, JUNK, JUNK, 0, 5],
            [1, 1, 8, 7, 1, 4, JUNK, JUNK, 5, 0],
            [2, 0, 15, 0, 2, 1, JUNK, JUNK, 0, 0],
            [0, 2, 0, 15, 3, JUNK, JUNK, JUNK, 4, 1],
            [0, 0, 0, 0, 4, JUNK, JUNK, JUNK, 0, 0],
            [0, 0, 0, 0, 5, JUNK, JUNK, JUNK, 0, 0],
        ],
        PHIS: [[2, 0, 5], [0, 5, 0]],
        INSTRUCTIONS: [
            [1, 0, 3, 3, JUNK, JUNK, JUNK, JUNK],
            [2, 1, NONE, 4, JUNK, JUNK, JUNK, JUNK],
            [3, 2, JUNK, 4, JUNK, JUNK, JUNK, JUNK],
            [4, 2, 0, 4, JUNK, JUNK, JUNK, JUNK],
            [5, 2, 0, 4, 4, 1, JUNK, JUNK],
            [6, 2, 0, 4, 4, 0, JUNK, JUNK],
            [7, 2, 0, JUNK, 4, 1, 3, 2],
            [8, 2, 0, 4, 3, JUNK, JUNK, JUNK],
            [9, 2, 0, 1, JUNK, JUNK, JUNK, JUNK],
            [10, 2, 0, JUNK, JUNK, JUNK, 0, 2],
            [11, 2, 0, JUNK, 4, JUNK, JUNK, JUNK],
            [12, 2, 0, JUNK, JUNK, JUNK, 5, 0],
            [13, 2, 0, 4, JUNK, JUNK, 4, 1],
            [14, 2, 0, 4, JUNK, JUNK, 0, 5],
            [15, 2, 0, JUNK, 5, 0, 5, 0],
        ],
        DECLARED: [[0, 2, 0, 2], [1, 3, 2, 0]],
        STEPS: [[1, 0], [3, 1]],
    }


def packed(unit):
    return [unit[0]] + [b"".join(struct.pack(f"<{len(row)}I", *row) for row in unit[t]) for t in range(1, 10)]


def text(tables):
    return " ".join(table.hex() or "-" for table in tables)


def empty():
    return {0: b"", **{t: [] for t in range(1, 10)}}


def with_cells(*changes):
    """The sound unit with some cells changed: (table, row, column, value)."""
    unit = sound()
    for table, row, column, value in changes:
        unit[table][row][column] = value
    return text(packed(unit))


def with_rows(table, rows):
    unit = sound()
    unit[table] = rows
    return text(packed(unit))


def cut_short(*tables):
    """The sound unit, with one byte missing at the end of some tables."""
    packs = packed(sound())
    for table in tables:
        packs[table] = packs[table][:-1]
    return text(packs)


def blank(table, count):
    """Only zeros in one table of this many rows, and nothing else."""
    packs = [b""] * 10
    packs[table] = bytes(count * 4 * COLUMNS[table]) if table else bytes(count)
    return text(packs)


def full():
    """Every table at its limit, and every number and part at the last row that there is."""
    unit = empty()
    unit[0] = bytes(range(256)) * 128
    unit[WORDS] = [[32768 - i % 3, i % 3] for i in range(1024)]
    unit[IDENTIFIERS] = [[i % 2, 1, [1023, NONE][i % 2]] for i in range(2048)]
    unit[PLACES] = [[2047, i, i % 2] for i in range(16384)]
    unit[FUNCTIONS] = [[16384, 0, 0, 1024] for _ in range(32)]
    unit[BLOCKS] = [[1023, 1, 4095, 1, i % 6, [16383, 1][i % 6 == 2], 0, 0, 16383, 1] for i in range(1024)]
    unit[PHIS] = [[2047, 0, 16384] for _ in range(1024)]
    unit[INSTRUCTIONS] = [[13, 2047, i, 16383, 0, 0, 16383, 1] for i in range(4096)]
    unit[DECLARED] = [[i % 2, [2047, 1023][i % 2], 4096, 0] for i in range(1024)]
    unit[STEPS] = [[1023, i % 2] for i in range(4096)]
    return unit


def refused(number, table, row=None):
    return f"refused {number}, table {table}" + ("" if row is None else f", row {row}")


def lines_that_are_no_units():
    good = text(packed(sound()))
    fields = good.split(" ")
    yield "", "unreadable"
    yield "-", "unreadable"
    yield " ".join(fields[:9]), "unreadable"
    yield good + " -", "unreadable"
    yield good + " ", "unreadable"
    yield " " + good, "unreadable"
    yield good.replace(" ", "  ", 1), "unreadable"
    yield good.replace(" ", "\t", 1), "unreadable"
    yield good.upper(), "unreadable"
    yield good.replace("70726f7073", "70726F7073"), "unreadable"
    yield good.replace("70726f7073", "70726g7073"), "unreadable"
    yield good.replace("70726f7073", "70726f707"), "unreadable"
    yield good.replace("70726f7073", "70726f707é"), "unreadable"
    yield "--" + " -" * 9, "unreadable"
    yield "0" + " -" * 9, "unreadable"
    yield "0x00" + " -" * 9, "unreadable"
    yield "accepted", "unreadable"
    yield good + "\r", "accepted"
    yield good + "\r\r", "unreadable"


def sizes():
    for table in range(10):
        yield blank(table, LIMITS[table] + 1), refused(1, table)
    for table in range(1, 10):
        yield cut_short(table), refused(1, table)
    yield cut_short(2, 7), refused(1, 2)
    # the size of the last table comes before a row of the first
    packs = packed(sound())
    packs[WORDS] = struct.pack("<2I", 20, 0) + packs[WORDS][8:]
    packs[STEPS] += b"\0"
    yield text(packs), refused(1, 9)
    yield text(packed(full())), "accepted"


def words():
    yield with_cells((WORDS, 3, 0, 20)), refused(2, 1, 3)
    yield with_cells((WORDS, 2, 1, 10)), refused(2, 1, 2)
    yield with_cells((WORDS, 0, 0, NONE), (WORDS, 0, 1, 1)), refused(2, 1, 0)
    yield with_cells((WORDS, 1, 0, 1), (WORDS, 1, 1, NONE)), refused(2, 1, 1)
    yield with_rows(WORDS, [[0, 0]] * 4), "accepted"


def identifiers():
    yield with_cells((IDENTIFIERS, 0, 0, 2)), refused(3, 2, 0)
    yield with_cells((IDENTIFIERS, 1, 1, 2)), refused(3, 2, 1)
    yield with_cells((IDENTIFIERS, 1, 1, NONE)), refused(3, 2, 1)
    yield with_cells((IDENTIFIERS, 2, 2, 4)), refused(2, 2, 2)
    yield with_cells((IDENTIFIERS, 2, 2, NONE - 1)), refused(2, 2, 2)
    yield with_cells((IDENTIFIERS, 0, 1, 2), (IDENTIFIERS, 0, 2, 4)), refused(3, 2, 0)


def places():
    yield with_cells((PLACES, 4, 0, 3)), refused(2, 3, 4)
    yield with_cells((PLACES, 4, 0, NONE)), refused(2, 3, 4)
    yield with_cells((PLACES, 3, 2, 2)), refused(3, 3, 3)
    yield with_cells((PLACES, 3, 0, 3), (PLACES, 3, 2, 2)), refused(2, 3, 3)
    yield with_cells((PLACES, 3, 2, 2), (PLACES, 4, 0, 3)), refused(3, 3, 3)


def functions():
    yield with_cells((FUNCTIONS, 1, 0, 6)), refused(2, 4, 1)
    yield with_cells((FUNCTIONS, 0, 1, 6)), refused(2, 4, 0)
    yield with_cells((FUNCTIONS, 1, 2, 7)), refused(2, 4, 1)
    yield with_cells((FUNCTIONS, 0, 3, 7)), refused(2, 4, 0)
    yield with_cells((FUNCTIONS, 1, 2, NONE), (FUNCTIONS, 1, 3, 1)), refused(2, 4, 1)


def blocks():
    yield with_cells((BLOCKS, 0, 0, 2)), refused(2, 5, 0)
    yield with_cells((BLOCKS, 2, 0, 3)), refused(2, 5, 2)
    yield with_cells((BLOCKS, 1, 3, 8)), refused(2, 5, 1)
    yield with_cells((BLOCKS, 4, 2, 16)), refused(2, 5, 4)
    yield with_cells((BLOCKS, 0, 4, 6)), refused(3, 5, 0)
    yield with_cells((BLOCKS, 5, 4, NONE)), refused(3, 5, 5)
    yield with_cells((BLOCKS, 1, 5, 5)), refused(2, 5, 1)
    yield with_cells((BLOCKS, 2, 5, 2)), refused(3, 5, 2)
    for row in range(6):
        yield with_cells((BLOCKS, row, 8, 6), (BLOCKS, row, 9, 0)), refused(2, 5, row)
    yield with_cells((BLOCKS, 0, 4, 6), (BLOCKS, 0, 8, 6)), refused(3, 5, 0)
    yield with_cells((BLOCKS, 0, 1, 3), (BLOCKS, 0, 4, 6)), refused(2, 5, 0)
    yield with_cells((BLOCKS, 2, 5, 2), (BLOCKS, 2, 8, 6)), refused(3, 5, 2)
    many = [[0, 0, 0, 0, 0, 0, 0, 0, 0, 0] for _ in range(20)]
    many[17][0] = 3
    yield with_rows(BLOCKS, many), refused(2, 5, 17)


def phis():
    yield with_cells((PHIS, 0, 0, 3)), refused(2, 6, 0)
    yield with_cells((PHIS, 0, 2, 6)), refused(2, 6, 0)
    yield with_cells((PHIS, 1, 1, 6)), refused(2, 6, 1)


def instructions():
    def at(kind, *cells):
        return with_cells(*((INSTRUCTIONS, kind - 1, column, value) for column, value in cells))

    def no(number, kind):
        return refused(number, 7, kind - 1)

    yield at(1, (KIND, 0)), no(3, 1)
    yield at(15, (KIND, 16)), no(3, 15)
    yield at(15, (KIND, NONE)), no(3, 15)
    yield at(9, (KIND, 16), (RESULT, 3)), no(3, 9)
    for kind in range(1, 16):
        yield at(kind, (RESULT, 3)), no(2, kind)
        yield at(kind, (SPAN, JUNK)), "accepted"
    yield at(1, (A, 4)), no(2, 1)
    for kind in (2, 3, 4):
        yield at(kind, (A, 5)), no(2, kind)
    for kind in (5, 6):
        yield at(kind, (A, 5)), no(2, kind)
        yield at(kind, (B, 5)), no(2, kind)
        yield at(kind, (C, 2)), no(3, kind)
        yield at(kind, (B, 5), (C, 2)), no(2, kind)
    yield at(7, (B, 5)), no(2, 7)
    yield at(7, (C, 2)), no(3, 7)
    yield at(7, (COUNT, 3)), no(2, 7)
    yield at(7, (C, 2), (COUNT, 3)), no(3, 7)
    yield at(8, (A, 5)), no(2, 8)
    yield at(8, (B, 4)), no(2, 8)
    yield at(8, (B, NONE)), "accepted"
    yield at(8, (B, NONE - 1)), no(2, 8)
    yield at(9, (A, 2)), no(2, 9)
    yield at(10, (COUNT, 3)), no(2, 10)
    yield at(10, (FIRST, 3), (COUNT, 0)), no(2, 10)
    yield at(10, (FIRST, 2), (COUNT, 0)), "accepted"
    yield at(11, (B, 5)), no(2, 11)
    yield at(12, (FIRST, 6)), no(2, 12)
    yield at(12, (FIRST, NONE), (COUNT, 1)), no(2, 12)
    for kind in (13, 14):
        yield at(kind, (A, 5)), no(2, kind)
        yield at(kind, (COUNT, 6)), no(2, kind)
        yield at(kind, (FIRST, 0), (COUNT, 0)), no(3, kind)
        yield at(kind, (FIRST, 5), (COUNT, 0)), no(3, kind)
        yield at(kind, (FIRST, 6), (COUNT, 0)), no(2, kind)
        yield at(kind, (A, 5), (COUNT, 0)), no(2, kind)
    yield at(15, (B, 6)), no(2, 15)
    yield at(15, (B, 4), (C, 2)), no(2, 15)
    yield at(15, (B, 4), (C, 1)), "accepted"
    yield at(15, (FIRST, 6)), no(2, 15)
    yield at(12, (FIRST, 5), (COUNT, 1)), no(2, 12)


def declared():
    yield with_cells((DECLARED, 0, 0, 2)), refused(3, 8, 0)
    yield with_cells((DECLARED, 0, 1, 3)), refused(2, 8, 0)
    yield with_cells((DECLARED, 1, 1, 4)), refused(2, 8, 1)
    yield with_cells((DECLARED, 1, 1, 3)), "accepted"
    yield with_cells((DECLARED, 0, 3, 3)), refused(2, 8, 0)
    yield with_cells((DECLARED, 1, 2, 3)), refused(2, 8, 1)
    yield with_cells((DECLARED, 0, 0, 2), (DECLARED, 0, 1, 4)), refused(3, 8, 0)


def steps():
    yield with_cells((STEPS, 0, 0, 4)), refused(2, 9, 0)
    yield with_cells((STEPS, 1, 1, 2)), refused(3, 9, 1)
    yield with_cells((STEPS, 1, 0, 4), (STEPS, 1, 1, 2)), refused(2, 9, 1)


def two_faults():
    yield with_cells((WORDS, 3, 0, 20), (STEPS, 0, 0, 4)), refused(2, 1, 3)
    yield with_cells((IDENTIFIERS, 2, 0, 2), (PLACES, 0, 0, 3)), refused(3, 2, 2)
    yield with_cells((PHIS, 1, 0, 3), (INSTRUCTIONS, 0, KIND, 0)), refused(2, 6, 1)
    yield with_cells((INSTRUCTIONS, 14, KIND, 16), (DECLARED, 0, 0, 2)), refused(3, 7, 14)
    yield with_cells((BLOCKS, 3, 4, 6), (BLOCKS, 1, 5, 5)), refused(2, 5, 1)


def samples():
    yield text(packed(empty())), "accepted"
    yield text(packed(sound())), "accepted"
    for group in (lines_that_are_no_units, words, identifiers, places, functions, blocks, phis, instructions, declared,
                  steps, two_faults, sizes):
        yield from group()


def of_instructions(count):
    """A sound unit of this many instructions, with as many places, for measuring."""
    unit = sound()
    kinds = unit[INSTRUCTIONS]
    unit[INSTRUCTIONS] = [kinds[i % 15] for i in range(count)]
    unit[PLACES] = [[i % 3, i, i % 2] for i in range(max(count, 5))]
    unit[BLOCKS][0][3] = count
    unit[BLOCKS][1][2:4] = [0, 0]
    unit[BLOCKS][2][2:4] = [count, 0]
    unit[BLOCKS][3][3] = 0
    return unit


def main(words):
    if words[:1] == ["--speed"]:
        line = text(packed(of_instructions(int(words[2]))))
        for _ in range(int(words[1])):
            print(line)
        return
    folder = pathlib.Path(__file__).resolve().parent.parent / "crates" / "check_units"
    rows = list(samples())
    # the last line ends without LF
    (folder / "stdin").write_bytes("\n".join(line for line, _ in rows).encode())
    (folder / "stdout").write_text("".join(outcome + "\n" for _, outcome in rows))


main(sys.argv[1:])
