#!/usr/bin/env python3
"""Writes what the program `check_sums` is given and must write: crates/check_sums/stdin and stdout.

The answers are worked here, from docs/SCOPE.md's words and the formulas of the Rust's algo/polynomial.rs and polynomial_steps.rs, by the
same rounded operations on Python's floats, which are IEEE doubles; the power is rules_rows.py's. Nothing of the port is read.
The three real tables are parsed from the Rust's text, found beside the repository at ../shared/docs/src or where SEUIF97_SRC says.

stdin has 96 tables, the last of them empty, and then the rows. A table is 1040 bytes: the lengths of its columns I, J and n in the first three,
then from byte 16 on 64 whole numbers I, 64 whole numbers J and 64 f64 n. A row is 24 bytes: the table and the sum in the first two, then from
byte 8 on vi and vj. The little end is first. stdout has a reply of 88 bytes for each row, as `answers` has them: the refusal, and from byte 8 on
the numbers. For each sum one row names a table that does not exist, and one row names no sum: 255.
"""
import math
import os
import random
import re
import struct
from pathlib import Path

from rules_rows import number, power

REPOSITORY = Path(__file__).resolve().parent.parent
RUST = Path(os.environ.get("SEUIF97_SRC", REPOSITORY.parent / "shared/docs/src")) / "src/r3"
MOST = 64
LOWEST, HIGHEST = -(2**31), 2**31 - 1


# ---- the sums: a list of numbers, or Refused


class Refused(Exception):
    """Its argument is the refusal's number."""


def step(x):
    """The number of a step, which must be finite."""
    if not math.isfinite(x):
        raise Refused(5)
    return x


def powi(v, n):
    refusal, x = power(v, n)
    if refusal:
        raise Refused(5)
    return x


def over(x, d):
    """x / d, where d is a step of its own."""
    if step(d) == 0.0:
        raise Refused(5)
    return step(x / d)


def product(x, *factors):
    """From left to right, each product a step. A factor is a number, or a (base, exponent), whose power is a step when its turn comes."""
    for f in factors:
        x = step(x * (powi(*f) if isinstance(f, tuple) else f))
    return x


def total(items):
    value = 0.0
    for x in items:
        value = step(value + x)
    return value


def poly(vi, vj, rows):
    return [total(product(n, (vi, i), (vj, j)) for i, j, n in rows)]


def poly_i(vi, vj, rows):
    return [total(product(n, float(i), (vi, i - 1), (vj, j)) for i, j, n in rows)]


def poly_ii(vi, vj, rows):
    return [total(product(n, float(i * (i - 1)), (vi, i - 2), (vj, j)) for i, j, n in rows)]


def poly_ij(vi, vj, rows):
    return [total(product(n, float(i), (vi, i - 1), float(j), (vj, j - 1)) for i, j, n in rows)]


def poly_j(vi, vj, rows):
    return [total(product(n, (vi, i), float(j), (vj, j - 1)) for i, j, n in rows)]


def poly_jj(vi, vj, rows):
    return [total(product(n, (vi, i), float(j * (j - 1)), (vj, j - 2)) for i, j, n in rows)]


def shared(vi, vj, rows):
    """The item that the joint sums share, with its exponents."""
    return [(i, j, product(n, (vi, i), (vj, j))) for i, j, n in rows]


def shared_i(vi, vj, rows):
    """And the one that is derived by vi."""
    return [(i, j, product(n, float(i), (vi, i - 1), (vj, j))) for i, j, n in rows]


def times(whole, x):
    return step(float(whole) * x)


def polys_0_j(vi, vj, rows):
    items = shared(vi, vj, rows)
    return [total(x for i, j, x in items), over(total(times(j, x) for i, j, x in items), vj)]


def polys_i_j(vi, vj, rows):
    items = shared(vi, vj, rows)
    return [over(total(times(i, x) for i, j, x in items), vi), over(total(times(j, x) for i, j, x in items), vj)]


def polys_i_ij(vi, vj, rows):
    items = shared_i(vi, vj, rows)
    return [total(x for i, j, x in items), over(total(times(j, x) for i, j, x in items), vj)]


def polys_i_ii(vi, vj, rows):
    items = shared_i(vi, vj, rows)
    return [total(x for i, j, x in items), over(total(times(i - 1, x) for i, j, x in items), vi)]


def polys_i_ii_ij_jj(vi, vj, rows):
    items = shared(vi, vj, rows)
    return [
        over(total(times(i, x) for i, j, x in items), vi),
        over(total(times(i - 1, times(i, x)) for i, j, x in items), vi * vi),
        over(total(times(j, times(i, x)) for i, j, x in items), vi * vj),
        over(total(times(j * (j - 1), x) for i, j, x in items), vj * vj),
    ]


# in the order of their numbers, 0 to 10
SUMS = [poly, poly_i, poly_ii, poly_ij, poly_j, poly_jj, polys_0_j, polys_i_j, polys_i_ij, polys_i_ii, polys_i_ii_ij_jj]


def answered(f, vi, vj, table):
    """(refusal, numbers)"""
    first, second, third = table
    try:
        if not len(first) == len(second) == len(third):
            raise Refused(7)
        return 0, f(step(vi), step(vj), list(zip(*table)))
    except Refused as why:
        return why.args[0], []


# ---- the tables: three columns each


def by_rows(rows):
    return tuple(list(column) for column in zip(*rows)) if rows else ([], [], [])


def printed(name, before):
    """The table that follows some words of a file of the Rust."""
    body = (RUST / name).read_text(encoding="utf8").split(before, 1)[1].split("];", 1)[0]
    rows = [(int(i), int(j), float(n)) for i, j, n in re.findall(r"\((-?\d+), (-?\d+), ([-+.\deE]+)\),", body)]
    assert len(rows) == int(re.search(r"\[\(i32, i32, f64\); (\d+)\]", body).group(1)), (name, before)
    return by_rows(rows)


def real_tables():
    """Each with the ranges of its reduced arguments: over the box of the port, and for letter u where the letter is."""
    return [
        (printed("region3_hfe.rs", "pub const IJn"), (100.0 / 322.0, 800.0 / 322.0), (647.096 / 863.15, 647.096 / 623.15)),
        (printed("region3_Tv_phps.rs", "fn ph2T_3a_reg3("), (16.529 / 100.0 + 0.240, 1.240), (1500.0 / 2300.0 - 0.615, 2100.0 / 2300.0 - 0.615)),
        (printed("region3_v_subregion_pT.rs", "fn pT2v_3u("), (21.0 / 23.0 - 0.902, 23.0 / 23.0 - 0.902), (642.2 / 650.0 - 0.988, 649.0 / 650.0 - 0.988)),
    ]


def unequal_tables():
    i, j, n = [1, -2, 3, 0], [0, 4, -1, 2], [1.5, -2.25, 0.125, 3.0]
    out = []
    for a, b, c in ((2, 3, 3), (3, 2, 3), (3, 3, 2), (4, 3, 3), (3, 4, 3), (3, 3, 4), (2, 3, 4), (4, 3, 2), (3, 4, 2)):
        out.append((i[:a], j[:b], n[:c]))
    for a, b, c in ((0, 1, 1), (1, 0, 1), (1, 1, 0), (1, 0, 0), (0, 1, 0), (0, 0, 1)):
        out.append((i[:a], j[:b], n[:c]))
    # the lengths come before the exponents and the numbers
    out.append(([65, HIGHEST], [LOWEST], [math.nan]))
    out.append(([1] * MOST, [1] * MOST, [1.0] * (MOST - 1)))
    return out


# Around what the power rule takes, -64 to 64, with 0, 1 and 2 taken off by a derivative.
EXPONENTS = (-67, -66, -65, -64, -63, -62, -61, 0, 1, 2, 61, 62, 63, 64, 65, 66, 67, LOWEST, LOWEST + 1, HIGHEST - 1, HIGHEST)


def exponent_tables():
    out = [by_rows([(k, 1, 1.5)]) for k in EXPONENTS] + [by_rows([(2, k, -0.75)]) for k in EXPONENTS]
    # the same exponent on both sides, and a row that is refused behind one that is not
    out += [by_rows([(k, k, 1.0)]) for k in (-64, -63, -62, 64, 65, 66)]
    out += [by_rows([(1, 1, 1.0), (k, 0, 0.0)]) for k in (-65, 65)] + [by_rows([(1, 1, 1.0), (0, k, 0.0)]) for k in (-65, 65)]
    # a factor of 0 takes no refusal away
    out.append(by_rows([(0, 0, 1.0), (1, 1, 2.0), (64, -64, 0.0)]))
    return out


def number_tables():
    """Sums that are lost in the middle, coefficients that are no numbers, and sums of zeros and subnormals."""
    return [
        by_rows([(0, 0, 1e308), (0, 0, 1e308), (0, 0, -1e308)]),
        by_rows([(1, 1, 1e308), (1, 1, -1e308), (1, 1, 1e308)]),
        by_rows([(2, 2, 1.7e308), (2, 2, 1.7e308), (2, 2, -1.7e308), (2, 2, -1.7e308)]),
        by_rows([(40, -40, 1e300), (-40, 40, 1e-300)]),
        by_rows([(64, 64, 1e-300), (-62, -62, 1e300)]),
        by_rows([(30, 2, 1e307), (2, 30, 1e-307)]),
        by_rows([(1, 1, math.nan)]),
        by_rows([(0, 0, math.inf)]),
        by_rows([(2, 1, 1.0), (0, 1, -math.inf)]),
        by_rows([(3, 2, 0.0), (2, 3, -0.0)]),
        by_rows([(0, 0, -0.0)]),
        by_rows([(1, 1, 5e-324), (2, 2, -5e-324), (3, 1, 2.2250738585072014e-308)]),
        by_rows([(0, 0, 1.0), (1, 0, 2.0), (0, 1, 3.0), (1, 1, 4.0), (2, 2, 5.0)]),
        by_rows([(-1, -1, 1.0), (-2, -2, -1.0), (-3, 1, 0.5)]),
        # the sum is zero where its divisor is lost
        by_rows([(2, 2, 1e-200), (2, 2, -1e-200)]),
        by_rows([(k % 9 - 4, 5 - k % 11, (-1.0) ** k / (k + 1)) for k in range(MOST)]),
    ]


# Tables whose sums are finite where vi*vi, vi*vj and vj*vj are subnormal: there a quotient by a product is another number than two quotients. Where a product
# is 0 it is refused.
SMALL_TABLES = (by_rows([(1, 1, 1e200)]), by_rows([(-1, -1, 1e-320)]))
SMALL_POINTS = ((1e-155, 1e-155), (-3e-155, 2e-155), (1e-160, 1e-160), (1e-160, -3e-155), (1e-200, 1e-200))


# ---- the rows

LEAST, SMALL, BIG, MAX = number(1), number(0x10000000000000), 1.3e154, number(0x7FEFFFFFFFFFFFFF)

# What a caller's numbers can be. Two of 1e200, or of 1.4e154 and more, have a product that is lost; two of 1e-170 one that is 0.
NUMBERS = (0.0, -0.0, 1.0, -1.0, 2.0, 0.5, -1.25, LEAST, -LEAST, SMALL, 1e-170, 1e-154, BIG, 1.4e154, 1e200, MAX, math.inf, -math.inf, math.nan)


def edge_points(draw):
    """Every number beside a plain one on either side, and some pairs of two that are not plain."""
    out = [(x, 1.25) for x in NUMBERS] + [(0.75, x) for x in NUMBERS]
    return out + [(draw.choice(NUMBERS), draw.choice(NUMBERS)) for _ in range(10)]


def few_points(draw):
    """For the tables whose refusal hangs on their columns."""
    out = [(1.0, 1.0), (1.25, -0.75), (0.0, 1.0), (2.0, 0.0), (math.nan, 1.0), (1.0, math.inf), (math.nan, math.nan)]
    return out + [(math.exp(draw.uniform(-12.0, 12.0)), math.exp(draw.uniform(-12.0, 12.0))) for _ in range(2)]


def wide_points(draw):
    """Any sign and size, and the edges."""
    out = [tuple(draw.choice((1.0, -1.0)) * math.exp(draw.uniform(-s, s)) for _ in "ij") for s in (1.0, 3.0, 30.0, 300.0) for _ in range(15)]
    return out + draw.sample(edge_points(draw), 20)


def points(draw, spans):
    (a, b), (c, d) = spans
    return [(draw.uniform(a, b), draw.uniform(c, d)) for _ in range(1000)] + wide_points(draw)


def table_bytes(table):
    lengths = [len(column) for column in table]
    i, j, n = (column + [0] * (MOST - len(column)) for column in table)
    return struct.pack(f"<3B13x{MOST}i{MOST}i{MOST}d", *lengths, *i, *j, *n)


def row_bytes(table, which, vi, vj):
    return struct.pack("<2B6x2d", table, which, vi, vj)


def reply_bytes(refusal, numbers):
    return struct.pack("<B7x10d", refusal, *numbers, *[0.0] * (10 - len(numbers)))


def listed():
    """The tables, and (table, vi, vj) of the points that every sum is asked at."""
    draw = random.Random(7)
    tables, asked = [], []

    def add(table, chosen):
        asked.extend((len(tables), vi, vj) for vi, vj in chosen)
        tables.append(table)

    for table, *spans in real_tables():
        add(table, points(draw, spans))
    for table in unequal_tables() + exponent_tables():
        add(table, few_points(draw))
    for table in [by_rows([])] + number_tables():
        add(table, edge_points(draw))
    for table in SMALL_TABLES:
        add(table, SMALL_POINTS)
    return tables, asked


ROOM, NO_TABLE, UNKNOWN = 96, 200, 255


def main():
    tables, asked = listed()
    assert len(tables) <= ROOM, len(tables)
    rows, replies = [], []

    def add(table, which, vi, vj, refusal, numbers):
        rows.append(row_bytes(table, which, vi, vj))
        replies.append(reply_bytes(refusal, numbers))

    for which, f in enumerate(SUMS):
        for table, vi, vj in asked:
            add(table, which, vi, vj, *answered(f, vi, vj, tables[table]))
        add(NO_TABLE, which, *asked[0][1:], UNKNOWN, [])
    add(asked[0][0], len(SUMS), *asked[0][1:], UNKNOWN, [])
    crate = REPOSITORY / "crates/check_sums"
    (crate / "stdin").write_bytes(b"".join(map(table_bytes, tables + [by_rows([])] * (ROOM - len(tables)))) + b"".join(rows))
    (crate / "stdout").write_bytes(b"".join(replies))
    print("tables", len(tables), "rows", len(rows), "refused", sum(reply[0] > 0 for reply in replies))


if __name__ == "__main__":
    main()
