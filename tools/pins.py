#!/usr/bin/env python3
# Pins each printed table to the text of the Rust: pins.py writes the proof files crates/*/proofs/Pins.antt, pins.py --check re-derives them
# and compares. The Rust is found at SEUIF97_SRC, or at ../shared/docs/src beside this repository.
# A pin is a number modulo 2^61 - 1, worked by Horner's rule over the rows in their order: I, J, and the sign, the odd whole part and the
# power of two of the f64 that the decimal rounds to (common/proofs/Pin.antt has the definition). A digit that moves an f64, or two rows
# exchanged, gives another number.
import os
import re
import sys

TOP = os.path.dirname(os.path.dirname(os.path.abspath(__file__)))
SOURCE = os.environ.get("SEUIF97_SRC") or os.path.join(TOP, "..", "shared", "docs", "src")
PRIME = 2**61 - 1
BASE = 1000003


def text(name):
    with open(os.path.join(SOURCE, "src", name), encoding="utf8") as f:
        return re.sub(r"//[^\n]*", "", f.read())


def parts(x):
    """The f64 x as sign, odd whole part and power of two; 0 is 0 * 2^0."""
    if x == 0.0:
        return 0, 0, 0
    m, d = abs(x).as_integer_ratio()
    e = 0
    while m % 2 == 0:
        m //= 2
        e += 1
    return int(x < 0), m, e - (d.bit_length() - 1)


def mix(h, codes):
    for c in codes:
        h = (h * BASE + c) % PRIME
    return h


def of_float(h, x):
    sign, m, e = parts(x)
    return mix(h, [sign + 1, m, e + 2000])


def pin_rows(rows):
    h = 0
    for i, j, n in rows:
        h = of_float(mix(h, [i + 2000, j + 2000]), n)
    return h


def pin_boundaries(rows):
    """Rows of a boundary each: 1 for a sum in p and 2 for one in ln p, then the terms."""
    h = 0
    for in_ln, terms in rows:
        h = mix(h, [1 + in_ln])
        for i, n in terms:
            h = of_float(mix(h, [i + 2000]), n)
    return h


def pin_numbers(ns):
    h = 0
    for n in ns:
        h = of_float(h, n)
    return h


ROW = re.compile(r"\(\s*(-?\d+),\s*(-?\d+),\s*([-+0-9.eE]+)\s*\)")
NUMBER = re.compile(r"[-+]?\d+\.\d*(?:[eE][-+]?\d+)?")


def rows_of(body):
    """The rows of the first IJn after here, as many as it says."""
    m = re.search(r"IJn: \[\(i32, i32, f64\); (\d+)\] = \[(.*?)\];", body, re.S)
    rows = [(int(i), int(j), float(n)) for i, j, n in ROW.findall(m.group(2))]
    assert len(rows) == int(m.group(1)), "a row was not read"
    return rows


def function(source, name):
    m = re.search(r"fn " + name + r"\(.*?\n\}", source, re.S)
    return m.group(0)


def numbers(source, name):
    m = re.search(r"const " + name + r": \[f64; (\d+)\] = \[(.*?)\];", source, re.S)
    ns = [float(x) for x in NUMBER.findall(m.group(2))]
    assert len(ns) == int(m.group(1)), name
    return ns


def exponents(source, name):
    m = re.search(r"const " + name + r": \[i32; (\d+)\] = \[(.*?)\];", source, re.S)
    return [int(x) for x in m.group(2).split(",")]


def boundary(source, name):
    """Whether the sum is in ln p, and the terms that are summed: from 1 to the loop's end."""
    m = re.search(r"for i in 1\.\.=(\d+) \{\s*T \+= n" + name + r"\[i\] \* (p|p\.ln\(\))\.powi\(I" + name + r"\[i\]\)", source)
    return m.group(2) != "p", list(zip(exponents(source, "I" + name), numbers(source, "n" + name)))[1 : int(m.group(1)) + 1]


def wanted():
    """For each crate its pins: the definition, where it stands and its number."""
    out = {}
    volumes = text("r3/region3_v_subregion_pT.rs")
    printed = [("table3" + c, pin_rows(rows_of(function(volumes, "pT2v_3" + c)))) for c in "abcdefghijklmnopqrstuvwxyz"]
    phps = text("r3/region3_Tv_phps.rs")
    hs = text("r3/region3_p_hs.rs")
    for pair in ("ph", "ps"):
        for what in ("T", "v"):
            for side in ("a", "b"):
                printed.append((f"table_{what.lower()}3{side}_{pair}", pin_rows(rows_of(function(phps, f"{pair}2{what}_3{side}_reg3")))))
    for side in ("a", "b"):
        printed.append((f"table_p3{side}_hs", pin_rows(rows_of(function(hs, f"hs2p3{side}_reg3")))))
    hfe = text("r3/region3_hfe.rs")
    first = float(re.search(r"const n1: f64 = ([-+0-9.eE]+);", hfe).group(1))
    out["printed"] = printed + [("table30", pin_rows(rows_of(hfe))), ("n1", pin_numbers([first]))]
    lines = text("r3/region3_v_pT.rs")
    out["printed_lines"] = [("table", pin_boundaries(boundary(lines, b) for b in re.findall(r"const I(3[a-z]{2}):", lines)))]
    out["r4"] = [("table34", pin_numbers(numbers(text("r4/region4_sat_pT.rs"), "n")))]
    return out


HEAD = """-- Each printed table is the Rust's, digit by digit and row by row: its pin (common/proofs/Pin.antt), computed of the definition, is the
-- number that tools/pins.py works from the text of the Rust. Written by that script.
"""

# what a crate's pins need
MORE = {
    "printed": """use mathlib.Core.Path.{◌≡◌, refl}
use mathlib.Core.List.{[], ◌∷◌}
use Rattle.common.specs.Decimal.{plus, minus, scaled}
use Rattle.common.proofs.Pin.{pin_from, pin_numbers}
use Rattle.algo.proofs.Pin.{pin_rows}
use Rattle.printed.specs.Volumes.{VOLUMES}
use Rattle.printed.specs.Backward.{BACKWARD}
use Rattle.printed.specs.Table30.{n1, table30}
""",
    "printed_lines": """use Prim.Native.Nat.{ℕ}
use mathlib.Core.Path.{◌≡◌, refl}
use mathlib.Core.List.{List, [], ◌∷◌}
use lib.Ieee.{Float}
use Rattle.common.specs.Decimal.{plus, minus, scaled}
use Rattle.common.proofs.Pin.{mix, shifted, mix_float, pin_from}
use Rattle.printed_lines.specs.Boundaries.{Term, term, Argument, in_p, in_ln, Row, row, table}

abbrev mix_term : ℕ → Term → ℕ
mix_term h (term i n) = mix_float (mix h (shifted i)) n

abbrev numbered : Argument → ℕ
numbered in_p = 1
numbered in_ln = 2

-- what the row's sum is in, and its terms
abbrev mix_row : ℕ → Row → ℕ
mix_row h (row a ts) = pin_from mix_term (mix h (numbered a)) ts

abbrev pin_rows : List Row → ℕ
pin_rows = pin_from mix_row 0
""",
    "r4": """use mathlib.Core.Path.{◌≡◌, refl}
use mathlib.Core.List.{List, [], ◌∷◌}
use lib.Ieee.{Float}
use Rattle.common.specs.Decimal.{plus, minus, scaled}
use Rattle.common.specs.Outcome.{value_in}
use Rattle.common.proofs.Pin.{pin_from, pin_numbers}
use Rattle.r4.specs.Saturation.{n1, n2, n3, n4, n5, n6, n7, n8, n9, n10}

-- table 34
abbrev table34 : List Float
table34 =
    value_in n1 ∷ value_in n2 ∷ value_in n3 ∷ value_in n4 ∷ value_in n5 ∷ value_in n6 ∷ value_in n7 ∷ value_in n8 ∷ value_in n9 ∷ value_in n10 ∷ []
""",
}


def statement(name, pin):
    said = {"n1": "pin_numbers (n1 ∷ [])", "table34": "pin_numbers table34"}.get(name, f"pin_rows {name}")
    return f"{said} ≡ {pin}"


def theorem(name, pins):
    """The pins of one document as one statement, a line each."""
    said = [statement(*pin) for pin in pins]
    head = f" {said[0]}" if len(said) == 1 else "\n    " + "\n    × ".join(f"({one})" for one in said)
    unfold = "".join(" " + n for n, _ in pins if n not in ("n1", "table34"))
    proof = "refl" if len(said) == 1 else f"({', '.join('refl' for _ in said)})"
    return f"\npub {name}_pin :{head}\nunfolding pin_from plus minus scaled{unfold}\n{name}_pin = {proof}\n"


def file_of(crate, pins):
    if crate != "printed":
        return HEAD + MORE[crate] + "".join(theorem(n, [(n, p)]) for n, p in pins)
    documents = {"volumes": pins[:26], "backward": pins[26:-2], "table30": pins[-2:]}
    names = {d: ", ".join(n for n, _ in some) for d, some in documents.items()}
    return HEAD + MORE[crate].replace("VOLUMES", names["volumes"]).replace("BACKWARD", names["backward"]) + "".join(theorem(d, some) for d, some in documents.items())


def main():
    bad = 0
    for crate, pins in wanted().items():
        path = os.path.join(TOP, "crates", crate, "proofs", "Pins.antt")
        new = file_of(crate, pins)
        if "--check" in sys.argv[1:]:
            old = open(path, encoding="utf8").read() if os.path.exists(path) else ""
            for n, p in pins:
                if not re.search(re.escape(statement(n, p)) + r"\b", old):
                    print(f"{crate}: {n} is not {p}")
                    bad += 1
            print(f"{crate}: {len(pins)} pins")
        else:
            with open(path, "w", encoding="utf8") as f:
                f.write(new)
    sys.exit(1 if bad else 0)


if __name__ == "__main__":
    main()
