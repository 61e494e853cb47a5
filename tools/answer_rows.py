#!/usr/bin/env python3
"""Writes what the programs `answers` and `exported_calls` are given and must write: crates/NAME/stdin and crates/NAME/stdout. `rt ci` holds the
one to the other, byte for byte. Nothing of the port is read.

`answers` has every stored row: those of the four written rules with the answers of rules_rows.py; those of tools/oracle (its edges and random
rows), of named-rows.tsv and of the published check values (tools/published), with the oracle's answers; and at the end 23 bytes of a row, which
are not answered. `exported_calls` has a few of them for each exported function, some by a number that names none, and calls of the column run on columns of given lengths.
"""
import importlib.machinery
import importlib.util
import struct
import subprocess
import sys
import tempfile
from collections import defaultdict
from pathlib import Path

import rules_rows

TOP = Path(__file__).resolve().parent.parent
ROWS, SEED = 48000, 11
# The entries of the first list (0: rows that name none), and the lists of those that came later, each with its rows: a new entry has a list of its
# own behind the others, so that no row of before moves.
FIRST = "0,1,2,3,4,5,6,7,8,9,10,11,12,13,14,15,16,20,21,22,23,24,25,30"
LATER = (("34", 1500), ("18,19", 1500), ("26,27,28,35,36,37", 3000))
ROW, ANSWER = 24, 88


def script(name):
    """A script of this folder that has no suffix, as a module."""
    sys.dont_write_bytecode = True
    loader = importlib.machinery.SourceFileLoader(name, str(TOP / "tools" / name))
    module = importlib.util.module_from_spec(importlib.util.spec_from_loader(name, loader))
    loader.exec_module(module)
    return module


def named():
    """(row of 24 bytes, what it shows) of each row of named-rows.tsv."""
    for line in (TOP / "tools/named-rows.tsv").read_text().splitlines():
        if not line.startswith("#"):
            entry, n, a, b, shows = line.split("\t")
            yield struct.pack("<B3xidd", int(entry), int(n), float(a), float(b)), shows


def answered(program, rows):
    answers = subprocess.run([program, "answers"], input=b"".join(rows), stdout=subprocess.PIPE, check=True).stdout
    return [row + answers[ANSWER * i:ANSWER * (i + 1)] for i, row in enumerate(rows)]


def records(program):
    """The oracle's first list, the named rows, the later lists and the rows of the published values, each row with the oracle's answer."""
    out = listed(program, FIRST, ROWS) + answered(program, [row for row, _ in named()])
    for entries, count in LATER:
        out += listed(program, entries, count)
    return out + answered(program, list(dict.fromkeys(value.row for value in script("published").values())))


def listed(program, entries, count):
    with tempfile.TemporaryDirectory() as folder:
        to = str(Path(folder) / "rows.bin")
        words = [program, "store", "--entries", entries, "--rows", str(count), "--seed", str(SEED), "--to", to]
        subprocess.run(words, check=True, stdout=subprocess.DEVNULL)
        stored = Path(to).read_bytes()
    return [stored[i:i + ROW + ANSWER] for i in range(0, len(stored), ROW + ANSWER)]


# the entries that region3_c exports
EXPORTED = (1, 2, 3, 4, 5, 6, 8, 18, 19, 20, 21, 22, 23, 24, 25, 26, 27, 28, 30, 34, 35, 36, 37)


def exported(stored):
    """For each exported function the first three accepted rows and the first row of each refusal."""
    out = []
    for entry in EXPORTED:
        kinds = defaultdict(list)
        for record in stored:
            if record[0] == entry:
                kinds[record[ROW]].append(record)
        out += kinds[0][:3] + [kinds[k][0] for k in sorted(kinds) if k]
    return out


# Numbers that name no exported function, between and beside the others: `exported_calls` takes them for 25, a property by its number.
NONE = (0, 7, 9, 17, 29, 32, 33, 38, 255)


def unnamed(program):
    """The entropy at T = 650 and d = 500 by each of them."""
    [record] = answered(program, [struct.pack("<B3xidd", 25, 5, 650.0, 500.0)])
    return [bytes((entry,)) + record[1:] for entry in NONE]


# Each of the five columns a row shorter and a row longer than the others, equal ones, and none.
LENGTHS = [[4 + (by if k == which else 0) for k in range(5)] for by in (-1, 1) for which in range(5)] + [[4] * 5, [0] * 5]
FOUND_BYTE, FOUND = 90, -90.5  # what the cells hold before the call
CELLS = 5


def lent(program):
    """Calls of the column run, (p,T) = (24, 650) in each row, on columns of these lengths: number 31, the lengths of p, T, letters, densities and
    refusals, p, T. The answer is the call's refusal, and from bytes 8, 16 and 24 on the five cells of each lent column after it. By docs/SCOPE.md
    columns of unequal length are refused with 7 and nothing is written, and zero rows are accepted."""
    [record] = answered(program, [struct.pack("<B3xidd", 30, 0, 24.0, 650.0)])
    refusal, letter, density = struct.unpack("<BB6xd", record[ROW:ROW + 16])
    out = []
    for lengths in LENGTHS:
        unequal = len(set(lengths)) > 1
        rows = 0 if unequal else lengths[0]
        letters, refusals, densities = ([x] * rows + [found] * (CELLS - rows) for x, found in ((letter, FOUND_BYTE), (refusal, FOUND_BYTE), (density, FOUND)))
        row = struct.pack("<B5B2xdd", 31, *lengths, 24.0, 650.0)
        out.append(row + struct.pack("<B7x5B3x5B3x5d24x", 7 if unequal else 0, *letters, *refusals, *densities))
    return out


def store(name, stored, rest=b""):
    crate = TOP / "crates" / name
    (crate / "stdin").write_bytes(b"".join(record[:ROW] for record in stored) + rest)
    (crate / "stdout").write_bytes(b"".join(record[ROW:] for record in stored))
    print(name, len(stored))


def main():
    program = script("compare").build_oracle()
    rules, fresh = rules_rows.records(), records(program)
    store("answers", rules + fresh, rules[0][:ROW - 1])
    store("exported_calls", exported(fresh) + unnamed(program) + lent(program))


if __name__ == "__main__":
    main()
