#!/usr/bin/env python3
"""Compares a program that lists the sets of one row with a listing of all sets, on the sample and on images that the second program makes.

usage: holding.py PROGRAM LISTING PEER [IMAGES]      `PROGRAM TABLE ROW < image`, `LISTING < image`, `PEER images FOLDER NUMBER` writes images
The row's lines are those of the listing's lines that hold it, each once, and its trials are N for each of them. A row that is not there gives
`refused 19`, and an image that is not listed gives the listing's line. The last line is 'N passed, M failed'.
"""
import os
import subprocess
import sys
import tempfile

SAMPLE = bytes.fromhex("01 03 03 03 02 02 0B 03 15 06 02 0B 08 8B 80 80 80 10 0A 05 02 02 08 03 00")
# The sample's rows: open's row tests, the set, and the stream's row tests and looks.
SAMPLE_ROWS = {
    (0, 1): (14, "1 1 1 | 1 10 7", 44, 3),
    (0, 2): (12, "2 0 2 | 2 20 -", 54, 2),
    (1, 1): (12, "1 1 1 | 1 10 7", 44, 3),
    (1, 2): (6, "0 2 0 | - 4294967306 9", 62, 1),
    (2, 1): (10, "1 1 1 | 1 10 7", 44, 3),
    (2, 2): (8, "2 0 2 | 2 20 -", 54, 2),
}
HUGE = [(2 ** 32, 1), (0, 2 ** 32 + 1), (2 ** 64 - 1, 2 ** 64 - 1)]


def row_counts(data):
    """The row counts of a good image: of each number only its value is read."""
    numbers, value, weight = [], 0, 1
    for byte in data:
        value += byte % 128 * weight
        weight *= 128
        if byte < 128:
            numbers.append(value)
            value, weight = 0, 1
    counts, place = [], 3
    for _ in range(numbers[2]):
        counts.append(numbers[place + 1])
        place += 2 + numbers[place].bit_count() * numbers[place + 1]
    return counts


def lines(command, data):
    """The lines that a program prints for an image; it has to end with status 0."""
    return subprocess.run(command, input=data, stdout=subprocess.PIPE, check=True).stdout.decode().splitlines()


def rows(counts):
    """Rows to ask for: of each table the first, the middle one and the last; and of each two that are not there, and some far off."""
    there = sorted({(t, r) for t, count in enumerate(counts) for r in (1, (count + 1) // 2, count) if count > 0})
    n = len(counts)
    return there, [(t, r) for t, count in enumerate(counts) for r in (0, count + 1)] + [(n, 1), (n + 7, 0)] + HUGE


def listed(row, counts, ours, all_lines):
    """Whether the lines of a row are right, beside those of the listing. A listing that is cut short has only some of the sets."""
    n, total = len(counts), sum(counts)
    sets = ours[1:-1]
    holding = [line for line in all_lines if line.startswith("set ") and line.split()[1 + row[0]] == str(row[1])]
    first, last = ours[0].split(), ours[-1].split()
    good = first[:4] == all_lines[0].split()[:4] and total <= int(first[4]) <= n * total
    if last[0] == "refused":
        return good and last == ["refused", "12", "4096"] and len(set(sets)) == len(sets) == 4096
    count, trials, tests, looks = (int(word) for word in last[1:])
    good = good and last[0] == "end" and len(set(sets)) == len(sets) == count and trials == count * total
    good = good and trials * total <= tests <= trials * n * total and count <= looks <= trials * (12 * n + 1)
    if all_lines[-1].startswith("end "):
        return good and sorted(sets) == sorted(holding)
    return good and set(holding) <= set(sets)


def sample_row(program, row):
    """Whether the sample's lines for a row are those written above."""
    opened, line, tests, looks = SAMPLE_ROWS[row]
    wanted = [f"tables 3 3 6 {opened}", f"set {line}", f"end 1 6 {tests} {looks}"]
    return lines([program, *map(str, row)], SAMPLE) == wanted


def asked(program, listing, data):
    """Whether each row that is asked for of an image is answered rightly."""
    all_lines = lines([listing], data)
    if not all_lines[0].startswith("tables "):
        yield (0, 1), lines([program, "0", "1"], data) == all_lines
        return
    counts = row_counts(data)
    there, missing = rows(counts)
    for row in there:
        yield row, listed(row, counts, lines([program, *map(str, row)], data), all_lines)
    for row in missing:
        yield row, lines([program, *map(str, row)], data) == ["refused 19"]


def main():
    program, listing, peer = sys.argv[1:4]
    count = sys.argv[4] if len(sys.argv) > 4 else "300"
    results = [("sample", row, sample_row(program, row)) for row in SAMPLE_ROWS]
    with tempfile.TemporaryDirectory() as folder:
        subprocess.run([peer, "images", folder, count], stdout=subprocess.DEVNULL, check=True)
        for name in sorted(os.listdir(folder)):
            with open(os.path.join(folder, name), "rb") as f:
                data = f.read()
            results += [(data[:100].hex(" "), row, good) for row, good in asked(program, listing, data)]
    failed = [(name, row) for name, row, good in results if not good]
    for name, row in failed:
        print(name, *row)
    print(f"{len(results) - len(failed)} passed, {len(failed)} failed")
    sys.exit(1 if failed else 0)


main()
