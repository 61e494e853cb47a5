#!/usr/bin/env python3
"""The rows of the four written rules, and of numbers that name no entry, for answer_rows.py: records of 112 bytes, a row of 24 and its reply of 88.

The answers are worked here, from docs/SCOPE.md's words alone: the root by whole numbers (math.isqrt), the other rules by the same
rounded operations on Python's floats, which are IEEE doubles. Nothing of the port or of the oracle is read.
"""
import math
import random
import struct

L = 0.6931471805599453
TOP = 0x7FF0000000000000
SIGN = 0x8000000000000000
SMALLEST = math.ldexp(1.0, -1022)


def bits(x):
    return struct.unpack("<Q", struct.pack("<d", x))[0]


def number(b):
    return struct.unpack("<d", struct.pack("<Q", b))[0]


# ---- the rules: (0, value) or (refusal, 0.0)


def finite(x):
    return (0, x) if math.isfinite(x) else (5, 0.0)


def power(a, n):
    if not math.isfinite(a):
        return (1, 0.0)
    if not -64 <= n <= 64:
        return (3, 0.0)

    # of a base that is not 0, a number below the smallest normal one has lost digits
    def lost(r):
        return not math.isfinite(r) or base != 0.0 and abs(r) < SMALLEST

    base, r, left = a, 1.0, abs(n)
    while left:
        if left & 1:
            r = r * a
            if lost(r):
                return (5, 0.0)
        left >>= 1
        a = a * a
    if n < 0:
        if r == 0.0:
            return (5, 0.0)
        r = 1.0 / r
        if lost(r):
            return (5, 0.0)
    return (0, r)


def root(x):
    if not math.isfinite(x):
        return (1, 0.0)
    if x == 0.0:
        return (0, x)
    if x < 0.0:
        return (5, 0.0)
    m, d = x.as_integer_ratio()
    # x = m / 2^e. Of the root, 54 binary digits: the last of them says on which side of the middle between two f64 it lies, and it is
    # never the middle itself, whose square has more digits than x.
    e = d.bit_length() - 1
    k = 108 - m.bit_length()
    k += (k + e) % 2
    n = m << k if k >= 0 else m >> -k
    assert k >= 0 or n << -k == m
    q = math.isqrt(n)
    cut = q.bit_length() - 54
    middle = q >> cut
    assert cut >= 0 and not (middle & 1 and (middle << cut) ** 2 == n)
    return (0, math.ldexp(float((middle + 1) >> 1), 1 + cut - (k + e) // 2))


def logarithm(x):
    if not math.isfinite(x):
        return (1, 0.0)
    if x <= 0.0:
        return (5, 0.0)
    m, e = math.frexp(x)
    if m < 0.75:
        m, e = m * 2.0, e - 1
    z = (m - 1.0) / (m + 1.0)
    y = z * z
    q = 1.0 / 27.0
    for j in range(25, 0, -2):
        q = q * y + 1.0 / float(j)
    return finite(float(e) * L + (2.0 * z) * q)


def exponential(x):
    if not math.isfinite(x):
        return (1, 0.0)
    if not -700.0 <= x <= 700.0:
        return (2, 0.0)
    k = round(x / L)
    r = x - float(k) * L
    s = 1.0
    for j in range(14, 0, -1):
        s = 1.0 + (r * s) / float(j)
    return finite(s * math.ldexp(1.0, k))


RULES = {1: power, 2: lambda a, n: root(a), 3: lambda a, n: logarithm(a), 4: lambda a, n: exponential(a)}


# ---- the inputs, as bit patterns


def spread(pattern, reach=1):
    """A pattern and its neighbours."""
    return [p for p in range(pattern - reach, pattern + reach + 1) if 0 <= p < 2**64]


def common(draw):
    """What every rule meets: signs, NaN patterns, infinities, zeros, the subnormals' ends, powers of two, any pattern."""
    edges = [0, 1, 2, 3, 0xFFFFFFFFFFFFF, 0x10000000000000, 0x10000000000001, TOP - 1, TOP, TOP + 1, 0x7FF8000000000000, 0x7FFFFFFFFFFFFFFF]
    out = [s | e for e in edges for s in (0, SIGN)]
    out += [TOP + draw.randrange(1, 2**52) for _ in range(4)] + [SIGN + TOP + draw.randrange(1, 2**52) for _ in range(4)]
    out += [bits(math.ldexp(1.0, e)) for e in range(-1074, 1024, 19)]
    out += [draw.randrange(1, 2**52) for _ in range(60)]
    out += [draw.randrange(0, 2**64) for _ in range(60)]
    return out


def power_rows(draw):
    out = [(a, n) for a in common(draw) for n in (0, 1, -1, draw.randrange(-64, 65))]
    for n in range(-70, 71):
        for a in (2.0, -2.0, 0.5, 1.0, -1.0, 0.0, -0.0, 10.0, 3.0, draw.uniform(0.5, 2.0), draw.uniform(-1e5, 1e5)):
            out.append((bits(a), n))
        out.append((bits(math.exp(draw.uniform(-12.0, 12.0))), n))
    for n in (65, -65, 66, 100, -100, 1000, 2**31 - 1, -(2**31), -(2**31) + 1):
        out += [(bits(a), n) for a in (1.0, 2.0, 0.0, math.nan, math.inf)]
    # around the ends: the last finite power, and the reciprocal of a power that is lost
    for n in range(2, 65):
        for end in (1023.99, 1024.0, -1022.0, -1074.0, -1075.0):
            a = math.exp(end / n * math.log(2.0))
            out += [(p, m) for p in spread(bits(a)) for m in (n, -n)]
    return out


def root_rows(draw):
    out = [(a, draw.randrange(-(2**31), 2**31)) for a in common(draw)]
    squares = [n * n for n in range(1, 120)] + [draw.randrange(1, 2**26) ** 2 for _ in range(150)]
    out += [(p, 0) for n in squares for p in spread(bits(float(n)))]
    out += [(p, 0) for e in range(-537, 512, 7) for p in spread(bits(math.ldexp(1.0, 2 * e)))]
    # squares of 53 digits, rounded: the root lies close to an f64, on either side
    for _ in range(150):
        r = draw.randrange(2**52, 2**53)
        out += [(p, 0) for p in spread(bits(math.ldexp(float(r * r), 2 * draw.randrange(-500, 400))))]
    # close to the middle between two f64
    for _ in range(150):
        r = 2 * draw.randrange(2**52, 2**53) + 1
        out += [(p, 0) for p in spread(bits(math.ldexp(float(r * r), 2 * draw.randrange(-500, 400))))]
    out += [(draw.randrange(0, TOP), 0) for _ in range(200)]
    out += [(SIGN + draw.randrange(1, TOP), 0) for _ in range(40)]
    return out


def logarithm_rows(draw):
    out = [(a, draw.randrange(-(2**31), 2**31)) for a in common(draw)]
    out += [(p, 0) for m in (0.75, 1.0, 1.5) for e in range(-1020, 1020, 17) for p in spread(bits(math.ldexp(m, e)))]
    out += [(p, 0) for p in spread(bits(1.0), 40)]
    out += [(p, 0) for p in spread(bits(math.e), 5)]
    out += [(bits(draw.uniform(16.529, 100.0)), 0) for _ in range(200)]
    out += [(bits(draw.uniform(0.0, 3.0)), 0) for _ in range(200)]
    out += [(draw.randrange(0, TOP), 0) for _ in range(200)]
    out += [(SIGN + draw.randrange(0, TOP), 0) for _ in range(40)]
    return out


def exponential_rows(draw):
    out = [(a, draw.randrange(-(2**31), 2**31)) for a in common(draw)]
    for end in (700.0, -700.0, 709.78, -708.4, -745.2):
        out += [(p, 0) for p in spread(bits(end), 4)]
    # where k turns: the rounded x/L is a whole number and a half, or next to one
    for k in range(-1010, 1010, 8):
        out += [(p, 0) for p in spread(bits((k + 0.5) * L), 1)]
        out += [(p, 0) for p in spread(bits(k * L), 1)]
    ties = 0
    for k in range(-1010, 1010):
        for p in spread(bits((k + 0.5) * L), 3):
            if number(p) / L == k + 0.5:
                out.append((p, 0))
                ties += 1
                break
    assert ties > 1000, ties
    out += [(bits(draw.uniform(-700.0, 700.0)), 0) for _ in range(400)]
    out += [(bits(draw.uniform(-1.0, 1.0)), 0) for _ in range(200)]
    return out


def row(entry, n, a, b):
    return struct.pack("<B3xiQQ", entry, n, a, b)


def reply(refusal, value):
    return struct.pack("<BB6x10d", refusal, 0, value, *[0.0] * 9)


def records():
    draw = random.Random(1)
    out = []
    for entry, rows in ((1, power_rows), (2, root_rows), (3, logarithm_rows), (4, exponential_rows)):
        inputs = rows(draw)
        assert len(inputs) > 1000, (entry, len(inputs))
        for a, n in inputs:
            # the second argument is not looked at
            out.append(row(entry, n, a, draw.randrange(0, 2**64)) + reply(*RULES[entry](number(a), n)))
    for entry in (0, 17, 29, 31, 32, 33, 38, 255):
        out.append(row(entry, draw.randrange(-(2**31), 2**31), bits(draw.uniform(0.0, 100.0)), bits(650.0)) + reply(255, 0.0))
    return out
