#!/usr/bin/env python3
"""Compares the listing program with the second program: on the cases below, and on images that the second program makes.

usage: compare.py PROGRAM PEER [IMAGES]      `PEER list < image` prints a listing, `PEER images FOLDER NUMBER` writes images
Texts that document 01 gives stand here and are held to both programs. The last line is 'N passed, M failed'.
"""
import os
import subprocess
import sys
import tempfile


def number(x):
    """Groups of seven bits, lowest first, the top bit set on all but the last."""
    out = []
    while x > 127:
        out.append(x % 128 + 128)
        x //= 128
    return bytes(out + [x])


def image(m, tables):
    """The image of tables (attributes, rows of codes); rows are put in their order. Above 255 rows the version is 2."""
    version = 2 if any(len(rows) > 255 for _, rows in tables) else 1
    out = number(version) + number(m) + number(len(tables))
    for attributes, rows in tables:
        out += number(sum(1 << a for a in attributes)) + number(len(rows))
        for row in sorted(rows):
            assert len(row) == len(attributes)
            out += b"".join(number(code) for code in row)
    return out


def star(*apart):
    """One row in the middle and six tables around it, four rows each that all fit: 4 to the power of 6 is 4,096 sets."""
    around = [([0, a], [(2, code) for code in range(2, 6)]) for a in range(1, 7)]
    return image(7 + len(apart), [([0], [(2,)])] + around + list(apart))


def wide(nines):
    """One table of 130 rows of 63 cells, each code of eight bytes but for some of nine: 65,534 bytes and one for each of these."""
    rows = [[2 ** 49 + r] + [2 ** 50 + a for a in range(62)] for r in range(130)]
    for a in range(nines):
        rows[129][a + 1] = 2 ** 56 + a
    return image(63, [(list(range(63)), rows)])


def ticks(*counts):
    """Tables of one attribute, the tick, with so many rows each: ticks from 1 on."""
    return image(1, [([0], [(code,) for code in range(2, count + 2)]) for count in counts])


def bare(text):
    return bytes.fromhex(text)


SAMPLE = """tables 3 3 6 14
set 1 1 1 | 1 10 7
set 2 0 2 | 2 20 -
set 0 2 0 | - 4294967306 9
end 3 18 160 28
"""

CASES = {
    # document 01's sample, and both sides of its edges
    "sample": (bare("01 03 03 03 02 02 0B 03 15 06 02 0B 08 8B 80 80 80 10 0A 05 02 02 08 03 00"), SAMPLE),
    "empty": (b"", "refused 1 0\n"),
    "version": (bare("03"), "refused 3 0\n"),
    "version_2": (bare("02"), "refused 1 1\n"),
    "attributes": (bare("01 40"), "refused 4 1\n"),
    "too_many_tables": (bare("01 01 09"), "refused 4 2\n"),
    "scheme": (bare("01 01 01 02"), "refused 5 3\n"),
    "too_many_rows": (bare("01 01 01 01 80 02"), "refused 6 4\n"),
    "most_rows": (bare("01 01 01 01 FF 01"), "refused 1 6\n"),
    "too_many_rows_2": (bare("02 01 01 01 80 20"), "refused 6 4\n"),
    "most_rows_2": (bare("02 01 01 01 FF 1F"), "refused 1 6\n"),
    "needless": (bare("02 01 01 01 00"), "refused 20 0\n"),
    "surplus_2": (bare("02 01 01 01 00 00"), "refused 9 5\n"),
    "null_row_2": (bare("02 01 01 01 01 00"), "refused 21 5\n"),
    "null_row_below": (bare("02 01 01 01 02 05 00"), "refused 21 6\n"),
    "equal_rows": (bare("01 01 01 01 02 05 05"), "refused 7 6\n"),
    "surplus": (bare("01 01 01 01 00 00"), "refused 9 5\n"),
    "no_row": (bare("01 01 01 01 00"), "tables 1 1 0 0\nend 0 0 0 0\n"),
    "null_row": (bare("01 01 01 01 01 00"), None),
    # a number's own faults: nine bytes 80, eight of them, and a form that is not the shortest
    "ninth_byte": (bytes([0x80] * 9), "refused 17 0\n"),
    "eight_bytes": (bytes([0x80] * 8), "refused 1 0\n"),
    "not_shortest": (bare("80 00"), "refused 2 0\n"),
    # a table of 63 attributes may have 130 rows (see `most`); 131 give 8, at the row count behind nine bytes of scheme
    "too_many_cells": (number(1) + number(63) + number(1) + number(2 ** 63 - 1) + number(131), "refused 8 12\n"),
    # 01: 'Where joins like this go astray', and values that differ only above 32 bits
    "product": (image(2, [([0], [(2,)]), ([1], [(2,)])]), None),
    "one_pass": (image(2, [([0], [(2,)]), ([1], [(2,)]), ([0, 1], [(2, 2)])]), None),
    "twins": (image(2, [([0, 1], [(2, 0)]), ([0, 1], [(2, 0)])]), None),
    "early_null": (image(3, [([0, 1], [(2, 6)]), ([0, 2], [(3, 8)]), ([1, 2], [(6, 8)])]), None),
    "high_bits": (image(1, [([0], [(11,)]), ([0], [(4294967307,)])]), None),
    # document 000, Example 2.3
    "example_2_3": (
        image(
            7,
            [
                ([0, 1, 2], [(2, 11, 2), (3, 22, 3), (2, 0, 4)]),
                ([0, 1, 3], [(2, 11, 2), (3, 23, 3)]),
                ([0, 4, 5], [(2, 12, 2), (3, 21, 3)]),
                ([0, 4, 6], [(2, 13, 2), (3, 21, 3)]),
            ],
        ),
        None,
    ),
    # tables of more than 255 rows, whose numbers stand in a key's first word and in its second
    "long_first": (ticks(256), None),
    "long_fifth": (ticks(0, 0, 1, 2, 257, 0), None),
    "long_sixth": (ticks(2, 0, 0, 1, 0, 258), None),
    "long_last": (ticks(0, 0, 0, 0, 0, 3, 0, 256), None),
    # a store that is just large enough, and one row apart too many
    "star": (star(), None),
    "full": (star(([7], [(2,)])), None),
    # the longest input that is read, and the same tables in one byte more
    "most": (wide(2), None),
    "long": (wide(3), "input too long\n"),
    "zeros": (bytes(65537), "input too long\n"),
}


def listing(command, data):
    """What a program prints for an image."""
    return subprocess.run(command, input=data, stdout=subprocess.PIPE, check=True).stdout


def images(peer, count):
    """Images that the second program makes, long and short, good and damaged."""
    with tempfile.TemporaryDirectory() as folder:
        subprocess.run([peer, "images", folder, str(count)], stdout=subprocess.DEVNULL, check=True)
        for name in sorted(os.listdir(folder)):
            with open(os.path.join(folder, name), "rb") as f:
                yield name, f.read(), None


def main():
    program, peer = sys.argv[1:3]
    count = int(sys.argv[3]) if len(sys.argv) > 3 else 3000
    passed = failed = 0
    cases = [(name, data, text) for name, (data, text) in CASES.items()]
    for name, data, text in [*cases, *images(peer, count)]:
        ours, theirs = listing([program], data), listing([peer, "list"], data)
        if ours == theirs and (text is None or ours == text.encode()):
            passed += 1
        else:
            failed += 1
            print(name, data.hex(" "), ours, theirs, sep="\n")
    print(f"{passed} passed, {failed} failed")
    sys.exit(1 if failed else 0)


main()
