"""The twelve boundaries of region 3, the saturation line and the border with region 2: each in f64, and exactly.

The decimals are read from the definitions, crates/distance/specs/Exact and crates/exact_lines/specs. In f64 the order of operations is that of the
definitions, with the logarithm of rules_rows.py. Exactly is in whole numbers of 2^-200: products, quotients and roots are cut off there, and the
logarithm's series, 2 (z + z^3/3 + ..) with z of at most 1/3, goes on until its terms are 0 there, so that less than two units are left out of it.
Each of at most 200 steps loses less than 50 units, and a line turns a unit into less than 2^30: what is lost is below 2^-150 K.
"""
import math
import re
from pathlib import Path

from rules_rows import logarithm

CRATES = Path(__file__).resolve().parent.parent / "crates"
BITS = 200
UNIT = 1 << BITS
FORMS = {"pos": 1, "negative": -1, "minus": -1}


# ---- the printed decimals


def text(crate, file):
    return (CRATES / crate / "specs" / file).read_text(encoding="utf-8")


def tables(crate, file):
    """{boundary: [(power, sign, digits, exponent)]} of the tables exact3xy of a file"""
    found = {}
    for name, body in re.findall(r"^exact3(\w\w) =\n((?:    .*\n)+)", text(crate, file), re.M):
        rows = re.findall(r"\b(plus|minus) (?:\((pos|negative) (\d)\)|(\d)) ([\d_]+) \((pos|negative) (\d)\)", body)
        assert len(rows) == body.count("∷") and rows, name
        found[name] = [
            (int(i or plain) * FORMS.get(side, 1), FORMS.get(kind, 1), int(n.replace("_", "")), int(e) * FORMS[form])
            for kind, side, i, plain, n, form, e in rows
        ]
    return found


def numbers(file):
    """{k: (sign, digits, exponent)} of the coefficients n1, n2, .. of a file, each 0.digits * 10^exponent with 14 digits"""
    found = {}
    for k, form, n, up, down in re.findall(
        r"^n(\d+) = (signed true|signed false|ratio) \(?([\d_]+)(?: \* 10 \^ (\d))?\)? \(10 \^ 14(?: \* 10 \^ (\d))?\)$", text("exact_lines", file), re.M
    ):
        found[int(k)] = (-1 if form == "signed true" else 1, int(n.replace("_", "")), int(up or 0) - int(down or 0))
    return found


def rounded(sign, digits, exponent, places):
    return float(f"{'-' if sign < 0 else ''}0.{digits:0{places}d}e{exponent}")


def whole(sign, digits, exponent, places):
    """in units"""
    return sign * digits * 10 ** max(exponent, 0) * UNIT // 10 ** (places - min(exponent, 0))


# ---- the exact steps, in units


def product(a, b):
    return a * b >> BITS


def quotient(a, b):
    return (a << BITS) // b


def root(a):
    return math.isqrt(a << BITS)


def series(z):
    """ln ((1 + z) / (1 - z))"""
    square, power, total, k = product(z, z), z, 0, 1
    while power not in (0, -1):
        total += power // k
        power, k = product(power, square), k + 2
    return 2 * total


LN2 = series(UNIT // 3)


def ln(p):
    """of a p above 0, in units"""
    e = p.bit_length() - 1 - BITS
    m = p >> e if e >= 0 else p << -e
    if 2 * m >= 3 * UNIT:
        m, e = m // 2, e + 1
    return e * LN2 + series(quotient(m - UNIT, m + UNIT))


# ---- the lines: each a function of the f64 p, and one of p in units


def powers_in_f64(x, lowest):
    square = x * x
    found = {0: 1.0, 1: x, 2: square, 3: x * square, 4: square * square}
    if lowest < 0:
        found |= {-1: 1.0 / x, -2: 1.0 / square}
    return found


def powers_exactly(x, lowest):
    square = product(x, x)
    found = {0: UNIT, 1: x, 2: square, 3: product(x, square), 4: product(square, square)}
    if lowest < 0:
        found |= {-1: quotient(UNIT, x), -2: quotient(UNIT, square)}
    return found


def tabled(rows, variable_in_f64, variable_exactly):
    floats = [(i, rounded(s, n, e, 15)) for i, s, n, e in rows]
    wholes = [(i, whole(s, n, e, 15)) for i, s, n, e in rows]
    lowest = min(i for i, *_ in rows)

    def in_f64(p):
        powers, total = powers_in_f64(variable_in_f64(p), lowest), 0.0
        for i, n in floats:
            total += n * powers[i]
        return total

    def exactly(p):
        powers = powers_exactly(variable_exactly(p), lowest)
        return sum(product(n, powers[i]) for i, n in wholes)

    return in_f64, exactly


def straight():
    """3ef: S05rev, equation 3"""

    def in_f64(p):
        return 3.727888004 * (p - 22.064) + 647.096

    def exactly(p):
        return 3727888004 * (p - 22064 * UNIT // 10**3) // 10**9 + 647096 * UNIT // 10**3

    return in_f64, exactly


def saturation():
    """R7-97, equation 31"""
    found = numbers("Saturation.antt")
    assert sorted(found) == list(range(1, 11))
    f = {k: rounded(*n, 14) for k, n in found.items()}
    w = {k: whole(*n, 14) for k, n in found.items()}

    def in_f64(p):
        b = math.sqrt(math.sqrt(p))
        e = b * (b + f[3]) + f[6]
        g = b * (f[1] * b + f[4]) + f[7]
        h = b * (f[2] * b + f[5]) + f[8]
        d = (2.0 * h) / (-g - math.sqrt(g * g - (4.0 * e) * h))
        return 0.5 * ((f[10] + d) - math.sqrt((f[10] + d) * (f[10] + d) - 4.0 * (f[9] + f[10] * d)))

    def exactly(p):
        b = root(root(p))
        e = product(b, b + w[3]) + w[6]
        g = product(b, product(w[1], b) + w[4]) + w[7]
        h = product(b, product(w[2], b) + w[5]) + w[8]
        d = quotient(2 * h, -g - root(product(g, g) - 4 * product(e, h)))
        s = w[10] + d
        return (s - root(product(s, s) - 4 * (w[9] + product(w[10], d)))) // 2

    return in_f64, exactly


def border():
    """R7-97, equation 6"""
    found = numbers("Border.antt")
    assert sorted(found) == [3, 4, 5]
    f = {k: rounded(*n, 14) for k, n in found.items()}
    w = {k: whole(*n, 14) for k, n in found.items()}
    return (lambda p: f[4] + math.sqrt((p - f[5]) / f[3])), (lambda p: w[4] + root(quotient(p - w[5], w[3])))


def lines():
    """{name: (in f64, exactly)}"""
    found = {"3ef": straight(), "T_saturation": saturation(), "B23": border()}
    for name, rows in tables("distance", "Exact.antt").items():
        found["3" + name] = tabled(rows, lambda p: p, lambda p: p)
    for name, rows in tables("exact_lines", "Line.antt").items():
        found["3" + name] = tabled(rows, lambda p: logarithm(p)[1], ln)
    assert len(found) == 14
    return found


def in_units(x):
    """an f64, exactly"""
    over, under = x.as_integer_ratio()
    assert UNIT % under == 0
    return over * (UNIT // under)
