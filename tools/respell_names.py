#!/usr/bin/env python3
"""Brings the repository's own definitions and lemmas to the spelling of today's kit: words in snake case, types and facts in
camel case. Names of src/, exported names and what the kit makes keep their spelling.

usage: tools/respell_names.py [--list]     at the top of the repository, once, after the kit's port.py

--list prints old and new name of each and writes nothing. Names that fall together are refused, with the places.
"""

import os
import re
import sys
from collections import defaultdict

# What a name is made of in antt: all but white space, brackets and what separates.
WORD = r"[^\s(){}\[\],;.:«»\"`|/]+"
HEAD = re.compile(
    r"^(\s*)((?:(?:abbrev|unfoldable|opaque|irreducible|pub|record|data|struct|inductive|ruleset|instance) )*)(" + WORD + r") *(?=[:(\[{]|$)"
)
# Names of the Rust that have humps of their own.
SOURCE = ["T_atRegionBoundary"]
# Names that the rules below would spell badly, or where two would be one.
CHOSEN = {
    "perMPa": "per_MPa",
    "cpAndWRule": "cp_and_w_rule",
    "cpWReply": "cp_w_reply",
    "checkPRule": "check_p_rule",
    "checkHRule": "check_h_rule",
    "checkSRule": "check_s_rule",
    "saturatedPBox": "saturated_p_box",
    "saturatedTBox": "saturated_t_box",
    "zeroF": "zero_f",
    # what the kit's script had made one with another name
    "in-p": "in_p_lem",
    "from_zero": "from_zero_lem",
    "in-range": "in_range_lem",
    "mark-of": "mark_of_lem",
    "is-zero": "is_zero_lem",
    "sum-of": "sum_of",
    "near-lines": "near_lines_by",
    "near-letter": "near_letter_by",
    # constructors
    "inLn": "in_ln",
    "saturationLine": "saturation_line",
    "cq-rk": "cq_rk",
    "float-in": "float_in_lem",
    "of-fields": "of_fields_lem",
    "two_fields": "two_fields_lem",
}

# A constructor of two crates that has the name of a lemma elsewhere.
IN_CRATE = {("exact_lines", "in-p"): "in_p", ("exact", "in-p"): "in_p"}


def antt_files(root):
    for folder, dirs, files in os.walk(os.path.join(root, "crates")):
        dirs[:] = sorted(d for d in dirs if d != "out")
        for f in sorted(files):
            if f.endswith(".antt") and re.search(r"/(specs|proofs)(/|$)", folder):
                yield os.path.join(folder, f)


def is_type(text_after):
    """Whether what stands after the name's colon ends in a type of types, so that the name is a type or a fact."""
    return re.search(r"(^|[→\s])Type( [0-9a-z(]|$)", text_after.split(" = ")[0].strip()[-24:]) is not None


def snake(name):
    held = name.replace("-", "_")
    for k, source in enumerate(SOURCE):
        held = held.replace(source, f"\0{k}\0")
    # a hump: a capital that is no first letter, with small letters behind, or the last one or two behind a small letter
    held = re.sub(r"(?<=[a-z0-9])([A-Z])(?=[a-z])|(?<=[A-Z])([A-Z])(?=[a-z]{2})", lambda m: "_" + m[0].lower(), held)
    held = re.sub(r"(?<=[a-z])(I{1,2}|IJ|J{1,2}|D|P|H|S|T|W)$", lambda m: "_" + m[1].lower(), held)
    return re.sub("\0(\\d)\0", lambda m: SOURCE[int(m[1])], held)


def camel(name):
    return "".join(part[:1].upper() + part[1:] for part in re.split(r"[-_]", name))


def declared(root):
    """Every declared name with whether it is a type, and where."""
    found = defaultdict(list)
    for path in antt_files(root):
        with open(path, encoding="utf-8") as f:
            lines = f.read().split("\n")
        for at, line in enumerate(lines):
            m = HEAD.match(line)
            if not m:
                continue
            name, words, rest = m[3], m[2], line[m.end():]
            if name in ("use", "where", "module", "let", "in", "λ", "--", "unfolding", "infixl", "infixr", "infix", "=", "_"):
                continue
            if not rest.strip().startswith(":") and not ("record" in words or "data" in words):
                # a signature whose arguments stand before the colon
                if not re.match(r"\s*[({]", rest) or " : " not in rest or "=" in rest.split(" : ")[0]:
                    continue
            signature = rest
            k = at + 1
            while k < len(lines) and lines[k].startswith("    ") and lines[k].strip() and not HEAD.match(lines[k]):
                signature += " " + lines[k].strip()
                k += 1
            kind = "record" in words or "data" in words or is_type(signature)
            found[name].append((path, at + 1, kind, len(m[1])))
    return found


def renames(root):
    table = {}
    for name, places in declared(root).items():
        if "◌" in name or not re.match(r"[A-Za-zμδτπφ]", name):
            continue
        if re.match(r"(invariant|decreases|returns|loop|Need|overflow|bounds|nonzero|prove)(-|$)", name):
            continue
        kind = any(k for _, _, k, _ in places)
        if name in CHOSEN:
            new = CHOSEN[name]
        elif kind:
            new = camel(name) if "-" in name else name
        else:
            new = snake(name)
            # a constant of the documents: the ends of a range, else its name
            if re.fullmatch(r"[A-Z]-(FROM|TO)", name):
                new = name[0].lower() + "_range_" + name[2:].lower()
            elif re.fullmatch(r"[A-Z0-9]+(-[A-Z0-9]+)+", name) and not re.match(r"[A-Z]-\d", name):
                new = new.lower()
        if new != name:
            table[name] = new
    table.update((name, new) for name, new in CHOSEN.items() if name in ("inLn", "saturationLine", "cq-rk"))
    # A definition and a lemma that would now have one name: the lemma is the one that was written with dashes.
    taken = defaultdict(list)
    for old, new in table.items():
        taken[new].append(old)
    for new, olds in taken.items():
        if len(olds) > 1:
            for old in olds:
                if "-" in old and old != old.upper() and old not in CHOSEN:
                    table[old] = new + "_lem"
    return table


def respelled(text, table, proof):
    """The text under the new names. In a proof that walks the code a name behind a dot is a step, which the source spells."""

    def word(m):
        name = m[0]
        if proof and m.start() and text[m.start() - 1] == ".":
            return table[name] if name in table and not table[name].endswith("_lem") else name.replace("-", "_") if name in table else name
        return table.get(name, name)

    return re.sub(WORD, word, text)


USE = re.compile(r"^\s*(?:pub )?use ([^\s{]+?)\.\{([^}]*)\}", re.M)


def brought(text, crates):
    """The names that a file brings from a library that is not the repository's: they keep the library's spelling."""
    found = set()
    for m in USE.finditer(text):
        parts = m[1].split(".")
        if not (parts[0] == "Rattle" and len(parts) > 1 and parts[1] in crates):
            found.update(w.strip().split(" as ")[0] for w in m[2].split(","))
    return found


def touched(root):
    for folder, dirs, files in os.walk(os.path.join(root, "crates")):
        dirs[:] = sorted(d for d in dirs if d != "out")
        for f in sorted(files):
            if f.endswith((".antt", ".rt", ".edit")):
                yield os.path.join(folder, f)
    for top in ("docs", "README.md"):
        for folder, dirs, files in os.walk(os.path.join(root, top)):
            for f in sorted(files):
                if f.endswith(".md") and not f.startswith("PORT"):
                    yield os.path.join(folder, f)
    yield os.path.join(root, "README.md")


def main():
    root = os.getcwd()
    table = renames(root)
    names = declared(root)
    back = defaultdict(list)
    for old, new in table.items():
        back[new].append(old)
    if "--list" in sys.argv[1:]:
        for old, new in sorted(table.items()):
            print(old, "->", new)
        return
    bad = [f"{new}: {olds}" for new, olds in sorted(back.items()) if len(olds) > 1]
    if bad:
        sys.exit("fall together: " + "; ".join(bad))
    crates = set(os.listdir(os.path.join(root, "crates")))
    for path in touched(root):
        with open(path, encoding="utf-8") as f:
            text = f.read()
        kept = brought(text, crates) if path.endswith(".antt") else set()
        crate = os.path.relpath(path, root).split(os.sep)[1] if os.sep in os.path.relpath(path, root) else ""
        here = table | {name: new for (c, name), new in IN_CRATE.items() if c == crate}
        new = respelled(text, {k: v for k, v in here.items() if k not in kept}, path.endswith("Proof.antt"))
        if path.endswith(".md"):
            # of a page only what stands between backticks
            new = re.sub(r"`[^`\n]*`", lambda m: respelled(m[0], {k: v for k, v in table.items() if "-" in k or re.search("[a-z][A-Z]", k)}, False), text)
        if new != text:
            with open(path, "w", encoding="utf-8") as f:
                f.write(new)


if __name__ == "__main__":
    main()
