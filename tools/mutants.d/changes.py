"""The changes of code that tools/mutants makes, one at a time: where they stand, what they are, and which are chosen."""
import collections
import random
import re

import trial

Change = collections.namedtuple("Change", "crate file line function kind old new pairs")
# pairs: the changes of texts, (crate, file, start, end, text); old and new: the changed lines, for people and for lists

FN = re.compile(r'^( *)(?:pub )?(?:extern "C" )?fn ([A-Za-z_0-9]+)')
CONST = re.compile(r"^ *(?:pub )?const ([A-Za-z_0-9]+):")


def owners(lines):
    """What each line stands in: ('body' or 'const', name) or None, by the layout that rt fmt gives."""
    out, state, indent, name = [], "", "", ""
    for line in lines:
        if state == "body" and line == indent + "}":
            state = ""
        starts = FN.match(line)
        if state == "" and starts:
            indent, name = starts[1], starts[2]
            state = "line" if line.endswith("}") else "head"
        elif state == "" and CONST.match(line):
            name, state = CONST.match(line)[1], "const"
        out.append(("body" if state == "line" else state, name) if state in ("body", "line", "const") else None)
        if state == "line" or (state == "const" and line.endswith(";")):
            state = ""
        if state == "head" and (line == indent + "{" or (line.endswith("{") and (starts or line.startswith(indent + ")")))):
            state = "body"
    return out


def bare(line):
    """The line with its comment and its byte strings blanked, at the same length."""
    line = re.sub(r'b"(\\.|[^"\\])*"|b\'(\\.|[^\'\\])\'', lambda m: "b" + "\x01" * (len(m[0]) - 1), line)
    at = line.find("//")
    return line if at < 0 else line[:at] + " " * (len(line) - at)


def enums():
    """Of each enum of the repository by its crate: its variants with what they hold."""
    found = {}
    for crate in trial.crates():
        for name, text in trial.files(crate).items():
            if name.startswith("src/"):
                for m in re.finditer(r"^pub enum (\w+)[^{]*\{\n(.*?)^\}", text, re.M | re.S):
                    rows = re.findall(r"^    (\w+)(\([^)]*\))?(?: = \d+)?,$", m[2], re.M)
                    found.setdefault(m[1], {})[crate] = rows
    return found


COMPARE = {"<": "<=", "<=": "<", ">": ">=", ">=": ">", "==": "!=", "!=": "=="}
OPERATE = {"+": "-", "-": "+", "*": "/", "/": "*", "%": "/", "&&": "||", "||": "&&", "&": "|", "|": "&", "<<": ">>", ">>": "<<",
           "+=": "-=", "-=": "+=", "*=": "/=", "/=": "*="}
NUMBER = re.compile(r"(?<![\w.])(0x[0-9a-fA-F_]+|\d[\d_]*(?:\.(?!\.)\d+)?(?:e-?\d+)?)(?![\w.]*\w)")


def near(number):
    """Numbers next to one that is printed: the last digit, one more, one less."""
    if number.startswith("0x"):
        return [number[:-1] + "%x" % ((int(number[-1], 16) + 1) % 16)]
    mantissa, e, exponent = number.partition("e")
    if "." in mantissa or e:
        digit = int(mantissa[-1])
        out = [mantissa[:-1] + str(digit + 1 if digit < 9 else 8) + e + exponent]
        if e:
            out.append(mantissa + e + str(int(exponent) + 1))
        return out
    value = int(number.replace("_", ""))
    return [str(value + 1)] + ([str(value - 1)] if value else [])


def parts(text):
    """The arguments of a call, (start, end) each, and where they end; nothing where the line does not hold them all."""
    depth, start, found = 0, 0, []
    for i, c in enumerate(text):
        if c in "([{":
            depth += 1
        elif c in ")]}":
            depth -= 1
            if depth < 0:
                found.append((start, i))
                return found
        elif c == "," and depth == 0:
            found.append((start, i))
            start = i + 1
    return []


def in_line(line, known, crate):
    """The changes within one line of a body: (kind, start, end, new text)."""
    code = bare(line)
    for m in re.finditer(r"(?<= )(<=|>=|<|>|==|!=)(?= )", code):
        yield "comparison", m.start(), m.end(), COMPARE[m[0]]
    for m in re.finditer(r"(?<= )(<<|>>|&&|\|\||\+=|-=|\*=|/=|[-+*/%&|])(?= )", code):
        yield "operator", m.start(), m.end(), OPERATE[m[0]]
    for m in NUMBER.finditer(code):
        for text in near(m[0]):
            yield "number", m.start(), m.end(), text
    for m in re.finditer(r"b'([a-y0-8])'", line):
        if code[m.start()] == "b":
            yield "number", m.start(), m.end(), f"b'{chr(ord(m[1]) + 1)}'"
    for m in re.finditer(r"(?<=[(\[ ])-(?=[\w(])", code):
        if re.search(r"([(\[,=]|=>|return|[-+*/<>{]) ?$", code[: m.start()]):
            yield "sign", m.start(), m.end(), ""
    for m in re.finditer(r"\b(?!if\b|while\b|match\b|fn\b)\w+\(", code):
        args = parts(code[m.end():])
        for (a, b), (c, d) in zip(args, args[1:]):
            one, two = line[m.end() + a: m.end() + b].strip(), line[m.end() + c: m.end() + d].strip()
            if one != two and one and two:
                yield "arguments", m.end() + a, m.end() + d, (" " if a and code[m.end() + a] == " " else "") + f"{two}, {one}"
    for m in re.finditer(r"(?<=[\w)\]])\.\.(=?)(?=[\w(])", code):
        yield "bound", m.start(), m.end(), ".." if m[1] else "..="
    for m in re.finditer(r"\b[\w.]+\.len\(\)", code):
        yield "bound", m.end(), m.end(), " - 1"
    for m in re.finditer(r"(?<=\w)\[([a-z]\w*(?: \+ \w+)?)\]", code):
        yield "index", m.start(1), m.end(1), "0"
    for m in re.finditer(r"\b(true|false)\b", code):
        yield "truth", m.start(), m.end(), "false" if m[0] == "true" else "true"
    m = re.match(r"^(.*\bif .* \{ )(.*)( \} else \{ )(.*)( \}.*)$", code)
    if m and m[2] != m[4]:
        yield "branches", m.start(2), m.end(4), line[m.start(4): m.end(4)] + line[m.start(3): m.end(3)] + line[m.start(2): m.end(2)]
    arrow = code.find("=>")
    for m in re.finditer(r"\b([A-Z]\w*)::([A-Z]\w*)", code):
        if m.start() < arrow or m[1] not in known:
            continue
        where = known[m[1]]
        rows = where.get(crate) or next(iter(where.values()))
        held = dict(rows).get(m[2])
        others = [name for name, holds in rows if holds == held]
        if held is not None and len(others) > 1:
            yield ("refusal" if m[1] == "Refusal" else "variant"), m.start(2), m.end(2), others[(others.index(m[2]) + 1) % len(others)]


def changes(crate):
    """Every change of a crate's code, in a fixed order."""
    known = enums()
    found = []
    for name, text in trial.files(crate).items():
        if not name.startswith("src/"):
            continue
        lines = text.split("\n")
        owner = owners(lines)
        starts, at = [], 0
        for line in lines:
            starts.append(at)
            at += len(line) + 1

        def add(kind, first, last, new_lines):
            old_lines = lines[first: last + 1]
            end = starts[last] + len(lines[last])
            function = owner[first][1]
            found.append(Change(crate, name, first + 1, function, kind, " / ".join(s.strip() for s in old_lines),
                                " / ".join(s.strip() for s in new_lines), ((crate, name, starts[first], end, "\n".join(new_lines)),)))

        call = None
        for i, line in enumerate(lines):
            if owner[i] is None:
                call = None
                continue
            if owner[i][0] == "const":
                for m in NUMBER.finditer(bare(line.partition("=")[2] if "=" in line else line)):
                    shift = line.index("=") + 1 if "=" in line else 0
                    for new in near(m[0])[:1]:
                        add("constant" if "=" in line else "column", i, i, [line[: shift + m.start()] + new + line[shift + m.end():]])
                continue
            for kind, start, end, new in in_line(line, known, crate):
                add(kind, i, i, [line[:start] + new + line[end:]])
            code = bare(line).rstrip()
            if code.endswith(";") and code.count("(") == code.count(")") and not re.match(r"\s*(let|use|const)\b|\s*[})\]]", code):
                add("statement", i, i, [""])
            # a call whose arguments stand on lines of their own
            if code.endswith("("):
                call = i
            elif call is not None and not code.endswith(","):
                call = None
            elif call is not None and i + 1 < len(lines) and bare(lines[i + 1]).rstrip().endswith(",") and code.strip() != bare(lines[i + 1]).strip():
                add("arguments", i, i + 1, [lines[i + 1], line])
            # two arms of a match, what they give exchanged
            one, two = (re.match(r"^(\s+)(.*\S) => (.*),$", s) for s in (line, lines[i + 1] if i + 1 < len(lines) else ""))
            if one and two and one[1] == two[1] and one[3] != two[3]:
                add("arms", i, i + 1, [f"{one[1]}{one[2]} => {two[3]},", f"{two[1]}{two[2]} => {one[3]},"])
    return found


def chosen(found, count, seed):
    """`count` of them, the kinds in turn, by the seed alone; the same seed gives the same ones in the same order."""
    kinds = {}
    for change in found:
        kinds.setdefault(change.kind, []).append(change)
    for kind, some in kinds.items():
        random.Random(f"{seed}/{kind}").shuffle(some)
    out = []
    while len(out) < count and any(kinds.values()):
        for kind in sorted(kinds):
            if kinds[kind] and len(out) < count:
                out.append(kinds[kind].pop())
    return out


def made(change):
    """The texts of each changed crate with the change in them."""
    out = {}
    for crate, name, start, end, text in sorted(change.pairs, key=lambda p: -p[2]):
        texts = out.setdefault(crate, trial.files(crate))
        texts[name] = texts[name][:start] + text + texts[name][end:]
    return out


# ---- the same change in definition and code

SPEC_NUMBER = re.compile(r"(?<![\w.])(\d+(?:_\d+)?)(?![\w.])")


def digits(number):
    """The digits of a decimal, wherever its point stands."""
    return re.sub(r"\D", "", number).lstrip("0")


def decimals(crate):
    """Each decimal that the crate's code and its definitions both print, with its last digit changed in both."""
    texts = trial.files(crate)
    code, spec = {}, {}
    for name, text in texts.items():
        if name.startswith("src/"):
            for i, line in enumerate(text.split("\n")):
                for m in NUMBER.finditer(bare(line)):
                    if "." in m[0]:
                        code.setdefault(digits(m[0].partition("e")[0]), []).append((name, i, m[0]))
        elif name.startswith("specs/"):
            for i, line in enumerate(text.split("\n")):
                for m in SPEC_NUMBER.finditer(line.partition("--")[0]):
                    if "_" in m[1]:
                        spec.setdefault(digits(m[1]), []).append((name, i, m[1]))
    found = []
    for key in sorted(code):
        there = spec.get(key, [])
        if len(there) != len(code[key]) or len(key) < 3:
            continue
        new = str(int(key[-1]) + 1 if key[-1] != "9" else 8)
        for (name, i, printed), (other, j, told) in zip(code[key], there):
            pairs, shown = [], []
            mantissa, e, exponent = printed.partition("e")
            for file, row, old, text in ((name, i, printed, mantissa[:-1] + new + e + exponent), (other, j, told, told[:-1] + new)):
                lines = texts[file].split("\n")
                start = sum(len(s) + 1 for s in lines[:row]) + lines[row].index(old)
                pairs.append((crate, file, start, start + len(old), text))
                shown.append((old, text))
            found.append(Change(crate, f"{name} and {other}", i + 1, "", "decimal", " / ".join(s[0] for s in shown), " / ".join(s[1] for s in shown), tuple(pairs)))
    return found


SERIES = (("src/exp.rt", "    let s{j} = 1.0 + r * {later} / {j}.0;", "    let s{j} = 1.0 + r * ({later} / {j}.0);"),
          ("specs/Exp.antt", "foldl (next_sum r) (number 1) from14",
           "foldl (next_sum r) (number 1 ⊕ r ⊗ (foldl (next_sum r) (number 1) {before} ⊘ number {j})) {after}"),
          ("specs/RawExp.antt", "use mathlib.Core.List.{{foldl}}", "use mathlib.Core.List.{{[], ◌∷◌, foldl}}"),
          ("specs/RawExp.antt", "foldl (λ s j. add binary64 (float 1) (div binary64 (mul binary64 r s) (float j))) (float 1) from14",
           "foldl (λ s j. add binary64 (float 1) (div binary64 (mul binary64 r s) (float j))) (add binary64 (float 1) (mul binary64 r (div binary64 "
           "(foldl (λ s j. add binary64 (float 1) (div binary64 (mul binary64 r s) (float j))) (float 1) {before}) (float {j})))) {after}"),
          ("proofs/Exps.antt", "use mathlib.Core.Path.{{", "use mathlib.Core.List.{{[], ◌∷◌}}\nuse mathlib.Core.Path.{{"),
          ("proofs/Exps.antt", "raw_fold (λ _ _ j p. raw_add_from (float 1) (raw_by (float j) (r *ʳ p))) (raw_value (float 1) one_finite) from14",
           "raw_fold (λ _ _ j p. raw_add_from (float 1) (raw_by (float j) (r *ʳ p))) (raw_add_from (float 1) (r *ʳ raw_by (float {j}) "
           "(raw_fold (λ _ _ j p. raw_add_from (float 1) (raw_by (float j) (r *ʳ p))) (raw_value (float 1) one_finite) {before}))) {after}"))


def regrouped():
    """The exponential with r*(s/j) for (r*s)/j at one j, in definition, code and proof alike. Not at 1, 2, 4, 8, by which a quotient is exact."""
    texts, found = trial.files("rules"), []
    for j in (14, 13, 12, 11, 10, 9, 7, 6, 5, 3):
        before, after = ("(" + " ∷ ".join([str(k) for k in some] + ["[]"]) + ")" for some in (range(14, j, -1), range(j - 1, 0, -1)))
        words = {"j": j, "later": "1.0" if j == 14 else f"s{j + 1}", "before": before, "after": after}
        pairs = []
        for file, old, new in SERIES:
            old, new = old.format(**words), new.format(**words)
            if texts[file].count(old) != 1:
                raise trial.Bad(f"crate rules, {file}: the text {old!r} is there {texts[file].count(old)} times, and must be once")
            at = texts[file].index(old)
            pairs.append(("rules", file, at, at + len(old), new))
        found.append(Change("rules", "src/exp.rt and specs/Exp.antt", 0, f"j = {j}", "regrouped", f"(r*s)/{j}", f"r*(s/{j})", tuple(pairs)))
    return found


def written(path):
    """The changes of a list: blocks that start with 'name:', each with lines crate:, file:, old:, new:."""
    found, problems = [], []
    block = None

    def end():
        if block and block["rows"]:
            pairs, olds, news, first = [], [], [], block["rows"][0]
            for crate, name, old, new in block["rows"]:
                texts = trial.files(crate)
                if texts.get(name, "").count(old) != 1:
                    problems.append(f"{block['name']}: crate {crate}, {name}: the text {old!r} is there {texts.get(name, '').count(old)} times, and must be once")
                    return
                at = texts[name].index(old)
                pairs.append((crate, name, at, at + len(old), new))
                olds.append(old.strip())
                news.append(new.strip())
            found.append(Change(first[0], first[1], 0, block["name"], "written", " / ".join(olds), " / ".join(news), tuple(pairs)))

    for line in path.read_text().splitlines():
        word, sep, rest = line.partition(": ")
        if line.startswith("name: "):
            end()
            block = {"name": rest, "rows": [], "crate": "", "file": "", "old": ""}
        elif block is not None and word in ("crate", "file", "old") and sep:
            block[word] = rest
        elif block is not None and line.startswith("new:"):
            block["rows"].append((block["crate"], block["file"], block["old"], line[5:]))
    end()
    return found, problems
