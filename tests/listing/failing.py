#!/usr/bin/env python3
"""Runs the listing program where a read or a write fails: each is told in one line on standard error, and nothing of it on standard output.

usage: failing.py PROGRAM      The last line is 'N passed, M failed'.
"""
import os
import subprocess
import sys
import tempfile

SAMPLE = bytes.fromhex("01 03 03 03 02 02 0B 03 15 06 02 0B 08 8B 80 80 80 10 0A 05 02 02 08 03 00")


def told(command, what):
    """Whether a shell command ends by itself, prints nothing and tells one line that begins with the name of what failed."""
    done = subprocess.run(command, shell=True, executable="/bin/bash", stdout=subprocess.PIPE, stderr=subprocess.PIPE)
    lines = done.stderr.decode().splitlines()
    good = done.returncode == 0 and done.stdout == b"" and len(lines) == 1 and lines[0].startswith(what + ": ") and len(lines[0]) > len(what) + 2
    if not good:
        print(command, done.returncode, done.stdout, done.stderr, sep="\n")
    return good


def quiet(command, text):
    """Whether a shell command prints just this text and tells nothing."""
    done = subprocess.run(command, shell=True, executable="/bin/bash", stdout=subprocess.PIPE, stderr=subprocess.PIPE)
    good = done.returncode == 0 and done.stdout == text and done.stderr == b""
    if not good:
        print(command, done.returncode, done.stdout, done.stderr, sep="\n")
    return good


def main():
    program = os.path.abspath(sys.argv[1])
    with tempfile.TemporaryDirectory() as folder:
        image = os.path.join(folder, "image")
        with open(image, "wb") as f:
            f.write(SAMPLE)
        checks = [
            told(f"'{program}' < '{folder}'", "read"),
            told(f"'{program}' <&-", "read"),
            told(f"'{program}' < '{image}' >&-", "write"),
            told(f"'{program}' < '{image}' > /dev/full", "write"),
            told(f"'{program}' < /dev/null > /dev/full", "write"),
            quiet(f"'{program}' < /dev/null", b"refused 1 0\n"),
            # an input that comes byte by byte, and one that comes after a while, are read to their end
            quiet(f"(while read -r b; do printf \"\\\\x$b\"; done <<< '{SAMPLE.hex(chr(10))}') | '{program}' | head -n 1", b"tables 3 3 6 14\n"),
            quiet(f"(head -c 9 '{image}'; sleep 0.2; tail -c +10 '{image}') | '{program}' | tail -n 1", b"end 3 18 160 28\n"),
        ]
    print(f"{sum(checks)} passed, {len(checks) - sum(checks)} failed")
    sys.exit(0 if all(checks) else 1)


main()
