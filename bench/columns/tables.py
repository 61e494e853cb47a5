#!/usr/bin/env python3
# Prints the 26 volume tables of the Rust (region3_v_subregion_pT.rs) for plain.rs: tables.py SOURCE. Each as a constant, and its sum with the powers
# of a base worked once and only those that the rows need, each product as the power rule has it. A table that its `steps` end early (letter l) is cut there.
import re
import sys

text = open(sys.argv[1] + "/src/r3/region3_v_subregion_pT.rs", encoding="utf8").read()


def name(base, n):
    return base if n == 1 else f"{base}{n}" if n > 0 else f"{base}_{-n}"


# Lines that work the powers of a base: a square, or what the lower bits give times the top bit's square.
def powers(base, exponents):
    lines, done = [], {0, 1}

    def work(n):
        if n in done:
            return
        done.add(n)
        if n < 0:
            work(-n)
            lines.append(f"    let {name(base, n)} = 1.0 / {name(base, -n)};")
            return
        top = 1 << (n.bit_length() - 1)
        left, right = (n // 2, n // 2) if n == top else (n - top, top)
        work(left)
        work(right)
        lines.append(f"    let {name(base, n)} = {name(base, left)} * {name(base, right)};")

    for n in sorted(set(exponents), key=abs):
        work(n)
    return lines


tables = re.findall(r"pub fn pT2v_3([a-z])\(p: f64, T: f64\) -> f64 \{(.*?)\n\}", text, re.S)
assert "".join(letter for letter, _ in tables) == "abcdefghijklmnopqrstuvwxyz", "26 tables in the order of their letters"
for letter, body in tables:
    rows = re.findall(r"\(\s*(-?\d+),\s*(-?\d+),\s*([-+0-9.eE]+)\),", body)
    steps = re.search(r"let steps.*?= \[(.*?)\];", body)
    if steps:
        rows = rows[: int(re.findall(r"\d+", steps.group(1))[-1])]
    rows = [(int(i), int(j), n) for i, j, n in rows]
    print(f"pub const {letter.upper()}: [(i32, i32, f64); {len(rows)}] = [")
    for i, j, n in rows:
        print(f"    ({i}, {j}, {n}),")
    print("];")
    print(f"pub fn sum_{letter}(x: f64, y: f64) -> f64 {{")
    print("\n".join(powers("x", [i for i, _, _ in rows]) + powers("y", [j for _, j, _ in rows])))
    print("    let mut v = 0.0;")
    for i, j, n in rows:
        print(f"    v += {' * '.join([n] + [name('x', i)] * (i != 0) + [name('y', j)] * (j != 0))};")
    print("    v\n}")
