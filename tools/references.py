#!/usr/bin/env python3
"""The document's side of docs/DIFFERENCES.md, beside the Rust's own formulas, where the two part.

Works in decimals of 40 digits from R7-97(2012): the equation of region 3 (28, with table 30, read from the Rust) and the ideal gas of
region 2 (16, with table 10, as printed). The first lines are of table 33, so that the equation itself is held to a printed value.
The Rust is looked for at SEUIF97_SRC, the folder that holds its src/, or at shared/docs/src beside the repository.
"""
import os
import re
import sys
from decimal import Decimal as D
from decimal import getcontext
from pathlib import Path

getcontext().prec = 40
BESIDE = Path(__file__).resolve().parent.parent.parent / "shared" / "docs" / "src"
RUST = Path(os.environ.get("SEUIF97_SRC", BESIDE)) / "src"

# kJ/(kg K), K, kg/m3, and the triple point's temperature in K
R, TC, DC, TT = D("0.461526"), D("647.096"), D("322"), D("273.16")

# R7-97 table 10: J, n
TABLE_10 = [
    (0, D("-0.96927686500217e1")),
    (1, D("0.10086655968018e2")),
    (-5, D("-0.56087911283020e-2")),
    (-4, D("0.71452738081455e-1")),
    (-3, D("-0.40710498223928")),
    (-2, D("0.14240819171444e1")),
    (-1, D("-0.43839511319450e1")),
    (2, D("-0.28408632460772")),
    (3, D("0.21268463753307e-1")),
]


def table_30():
    """n1, and I, J, n of rows 2 to 40"""
    path = RUST / "r3" / "region3_hfe.rs"
    if not path.is_file():
        sys.exit(f"The Rust crate seuif97 2.3.8 is not at {RUST.parent}. Set SEUIF97_SRC to the folder that holds its src/.")
    text = path.read_text(encoding="utf-8")
    n1 = re.search(r"const n1: f64 = ([\d.e+-]+);", text).group(1)
    rows = re.findall(r"\((\d+), (\d+), ([\d.E+-]+)\),", text)
    assert len(rows) == 39
    return D(n1), [(int(i), int(j), D(n)) for i, j, n in rows]


N1, TABLE_30 = table_30()


class State:
    """phi and its derivatives (R7-97 table 32) and the properties (table 31) at T and rho"""

    def __init__(self, T, rho):
        self.T, self.rho = T, rho
        self.tau, self.delta = tau, delta = TC / T, rho / DC
        terms = [(i, j, n * delta**i * tau**j) for i, j, n in TABLE_30]
        self.phi = N1 * delta.ln() + sum(x for _, _, x in terms)
        self.phi_d = N1 / delta + sum(i * x for i, _, x in terms) / delta
        self.phi_dd = -N1 / delta**2 + sum(i * (i - 1) * x for i, _, x in terms) / delta**2
        self.phi_t = sum(j * x for _, j, x in terms) / tau
        self.phi_tt = sum(j * (j - 1) * x for _, j, x in terms) / tau**2
        self.phi_dt = sum(i * j * x for i, j, x in terms) / (delta * tau)

        self.p = rho * R * T * delta * self.phi_d / 1000  # MPa
        self.h = R * T * (tau * self.phi_t + delta * self.phi_d)
        self.s = R * (tau * self.phi_t - self.phi)
        self.g = self.h - T * self.s
        self.above = self.phi_d - tau * self.phi_dt
        self.below = 2 * self.phi_d + delta * self.phi_dd
        self.cp = R * (-(tau**2) * self.phi_tt + delta * self.above**2 / self.below)


# ---- the document's side


def exergy(x):
    return x.h - TT * x.s


def dh_dp(x):
    """(dh/dp)_T in kJ/(kg MPa), by a central difference in rho"""
    step = D("1e-8")
    up, down = State(x.T, x.rho + step), State(x.T, x.rho - step)
    return (up.h - down.h) / (up.p - down.p)


def g_ideal(p, T):
    """equation 16: g/(RT) = ln(pi) + sum of n tau^J, pi = p / 1 MPa, tau = 540 K / T"""
    tau = 540 / T
    return R * T * (p.ln() + sum(n * tau**j for j, n in TABLE_10))


def fugacity_coefficient(x):
    return ((x.g - g_ideal(x.p, x.T)) / (R * x.T)).exp()


# ---- the Rust's formulas, of r3/region3_Td_ext.rs


def rust_e(x):
    return R * (x.T * (x.phi + x.delta * x.phi_d) + (x.T - TT) * x.tau * (x.phi_t - x.phi))


def rust_iJTC(x):
    joule = 1000 * (1 / x.rho / x.cp) * (x.T * (x.above / x.below / x.T) - 1)
    return -x.cp * joule / 1000


def rust_fi(x):
    return (x.g / R / x.T).exp()


def main():
    x, two_phase = State(D(750), D(500)), State(D(640), D(300))
    rows = [
        ("(750, 500)", "p, MPa", "78.3095639", x.p, None),
        ("", "h, kJ/kg", "2258.68845", x.h, None),
        ("", "s, kJ/(kg K)", "4.46971906", x.s, None),
        ("", "cp, kJ/(kg K)", "6.34165359", x.cp, None),
        ("", "OE, kJ/kg", "", exergy(x), rust_e(x)),
        ("", "OIJTC, kJ/(kg MPa)", "", dh_dp(x), rust_iJTC(x)),
        ("", "OFI", "", fugacity_coefficient(x), rust_fi(x)),
        ("", "OFU, MPa", "", x.p * fugacity_coefficient(x), x.p * rust_fi(x)),
        ("(640, 300)", "cp, kJ/(kg K)", "", two_phase.cp, None),
    ]
    print(f"{'(T, rho)':12}{'property':20}{'table 33':>14}{'by the document':>18}{'by the Rust':>18}")
    for state, name, printed, document, rust in rows:
        print(f"{state:12}{name:20}{printed:>14}{document:18.9g}{'' if rust is None else f'{rust:18.9g}'}")


if __name__ == "__main__":
    main()
