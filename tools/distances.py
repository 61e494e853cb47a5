#!/usr/bin/env python3
"""The largest distance of each line in f64 from the exact one, over random p of its band of use, beside the distance that is proved.

The lines are those of exact_lines.py: the twelve boundaries, the saturation line and the border with region 2. The proved distances are read from
crates/distance/specs/Distance.antt and crates/exact/specs/Distance.antt. Prints a Markdown table, and ends with 1 if a distance is larger than
what is proved. What is found is a sample, no bound. Usage: distances.py [p for each line, default 200000]
"""
import random
import re
import sys

from exact_lines import UNIT, in_units, lines, text

SEED = 97
LIMIT = 21.0433673189753  # p_saturation(643.15)

# where the letter choice, or the border's test, uses a line, in MPa; and where its distance is proved
BANDS = {
    "3ab": (25.0, 100.0, "24 to 100"),
    "3cd": (19.00881189173929, 40.0, "16.529 to 40"),
    "3ef": (LIMIT, 40.0, "16.529 to 40"),
    "3gh": (22.5, 25.0, "16.529 to 25"),
    "3ij": (22.5, 25.0, "16.529 to 25"),
    "3jk": (20.5, 25.0, "16.529 to 25"),
    "3mn": (22.5, 23.0, "16.529 to 23"),
    "3op": (22.5, 23.0, "22 to 23"),
    "3qu": (LIMIT, 22.5, "16.529 to 23"),
    "3rx": (LIMIT, 22.5, "16.529 to 23"),
    "3uv": (LIMIT, 22.5, "16.529 to 23"),
    "3wx": (LIMIT, 22.5, "16.529 to 23"),
    "T_saturation": (16.529, 22.064, "16.529 to 22.064"),
    "B23": (16.529, 100.0, "16.529 to 100"),
}


def proved():
    """{line: distance in 1e-13 K}"""
    found = {"3" + b: int(n) for b, n in re.findall(r"^distance (\w\w) = (\d+)$", text("distance", "Distance.antt"), re.M)}
    own = text("exact", "Distance.antt")
    found |= {b: int(n) for b, n in re.findall(r"^distance(3\w\w) = (\d+)$", own, re.M)}
    names = {"saturation": "T_saturation", "border": "B23"}
    found |= {names[b]: int(n) for b, n in re.findall(r"^(saturation|border)_distance = (\d+)$", own, re.M)}
    assert sorted(found) == sorted(BANDS)
    return found


def largest(in_f64, exactly, low, high, count, draw):
    worst, at = -1, None
    for k in range(count):
        p = (low, high)[k] if k < 2 else draw.uniform(low, high)
        gap = abs(in_units(in_f64(p)) - exactly(in_units(p)))
        if gap > worst:
            worst, at = gap, p
    return worst, at


def main():
    count = int(sys.argv[1]) if len(sys.argv) > 1 else 200_000
    pairs, bounds, beyond = lines(), proved(), []
    print(f"{count} p for each line, seed {SEED}\n")
    print("| line | used from | to, MPa | proved from .. to, MPa | proved, K | largest found, K | at p |")
    print("|---|---|---|---|---|---|---|")
    for name, (low, high, where) in BANDS.items():
        gap, at = largest(*pairs[name], low, high, count, random.Random(f"{SEED} {name}"))
        print(f"| {name} | {low} | {high} | {where} | {bounds[name] * 1e-13:.2g} | {gap / UNIT:.2g} | {at!r} |", flush=True)
        if gap * 10**13 > bounds[name] * UNIT:
            beyond.append(name)
    if beyond:
        sys.exit(f"distances: farther than proved: {' '.join(beyond)}")


if __name__ == "__main__":
    main()
