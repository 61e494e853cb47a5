"""One must-fail edit, what it changes, and what the log of its check shows of each function or file that it names: for tools/bundles and tools/edits."""
import re
from dataclasses import dataclass, field
from pathlib import Path

FN = re.compile(r' *(pub(\([a-z]+\))? )?(extern "C" )?fn ')
CONST = re.compile(r" *(pub(\([a-z]+\))? )?const (?!fn )")
IMPL = re.compile(r"impl(?:<[^{]*?>)? (?:(\w+)(?:<(.*)>)? for )?(\S.*?)(?: where.*)? \{$")


@dataclass
class Pair:
    file: str
    old: str
    new: str
    of: str = ""  # the one function that it changes, or nothing


@dataclass
class Edit:
    crate: str
    pairs: list = field(default_factory=list)
    names: list = field(default_factory=list)  # what is named as refused: functions, and files as proofs/Pins
    alike: dict = field(default_factory=dict)  # a function whose contract and body change alike, and the file that refuses that
    together: bool = False
    faults: list = field(default_factory=list)

    def parts(self):
        """Whether the pairs are each of one function's body, so that some of them are an edit too."""
        return len(self.pairs) > 1 and all(pair.of for pair in self.pairs) and not self.together and not self.alike


def module(crate, file):
    """The path of a file below src/ as a function's path begins: src/lib.rt and src/main.rt are the crate's own."""
    name = re.sub(r"/mod$", "", file.removeprefix("src/").removesuffix(".rt"))
    return crate if name in ("lib", "main") else crate + "::" + name.replace("/", "::")


def owners(text):
    """What each line of a text stands in: (body NAME), (head NAME), (const NAME), or nothing. rt fmt has laid the text out: a body ends at the brace
    below the first letter of its function, and a function with a clause opens its body on a line of its own. A method has the impl before its name, as the
    prover calls it: Interval::contains, and of a trait's impl the type, the trait and its arguments in one word, U8FromRefusal::from."""
    state = name = indent = block = ""
    found = []
    for line in text.split("\n"):
        if state == "body" and line == indent + "}":
            state = ""
        if not state and line == "}":
            block = ""
        opened = IMPL.match(line)
        if not state and opened:
            words = [re.sub(r"\W+", " ", (it or "").replace("[", "array ", (it or "").startswith("["))).split() for it in (opened[3], opened[1], opened[2])]
            block = ("".join(it[:1].upper() + it[1:] for word in words for it in word) if opened[1] else words[0][0]) + "::"
        starts = FN.match(line)
        if not state and starts:
            indent = line[:len(line) - len(line.lstrip(" "))]
            name = block + re.match(r"\w*", line[starts.end():])[0]
            state = "line" if line.endswith("}") else "head"
        elif not state and CONST.match(line):
            name = re.match(r"\w*", line[CONST.match(line).end():])[0]
            state = "const"
        found.append((("body" if state == "line" else state), name) if state else ("", ""))
        if state == "line" or state == "const" and line.endswith(";") or state == "head" and line.endswith("};"):
            state = ""
        elif state == "head" and (line == indent + "{" or line.endswith("{") and (starts or line.startswith(indent + ")"))):
            state = "body"
    return found


def changes(edit, texts, file, at):
    """The one function that a change changes, as its path: the one in whose body it stands, or that alone reads the constant; or in whose contract, where
    the edit says that contract and body change alike."""
    if not file.startswith("src/"):
        return ""
    kind, name = owners(texts[file])[texts[file].count("\n", 0, at)]
    path = f"{module(edit.crate, file)}::{name}"
    if kind == "body" or kind == "head" and path in edit.alike:
        return path
    if kind != "const":
        return ""
    users = set()
    for other, text in texts.items():
        if not other.startswith("src/"):
            continue
        for (kind, user), line in zip(owners(text), text.split("\n")):
            line = re.sub(r"//.*|^ *(pub )?use .*", "", line)
            line = re.sub(CONST.pattern + r"\w+", "", line)
            if re.search(rf"\b{name}\b", line):
                if kind != "body":
                    return ""
                users.add(f"{module(edit.crate, other)}::{user}")
    return users.pop() if len(users) == 1 else ""


def read(crate, path, texts):
    """Reads the edit as rt does, and makes its changes to a copy of the texts, to see what each stands in."""
    edit, texts = Edit(crate), dict(texts)
    file = old = ""
    for line in path.read_text(encoding="utf8").split("\n"):
        if re.match(r"# *refused:", line):
            for name in line.partition(":")[2].split(","):
                if name.strip() in edit.names:
                    edit.faults.append(f"{name.strip()} is listed twice")
                elif name.strip():
                    edit.names.append(name.strip())
        elif re.fullmatch(r"# *alike: [^ ]+ in [^ ]+", line):
            words = line.split()
            edit.alike[words[-3]] = words[-1]
            edit.names.append(words[-1])
        elif re.match(r"# *one change", line):
            edit.together = True
        elif line.startswith("file: "):
            file = line[len("file: "):].strip()
        elif line.startswith("old: "):
            old = line[len("old: "):]
        elif line.startswith("new:"):
            new = line[len("new:"):].removeprefix(" ")
            pair = Pair(file, old, new)
            edit.pairs.append(pair)
            number, count = len(edit.pairs), texts.get(file, "").count(old) if old else 0
            if count != 1:
                edit.faults.append(f"pair {number}: its old text is in {file} {count} times, and must be once")
            elif old == new:
                edit.faults.append(f"pair {number}: its old text and its new one are the same")
            else:
                pair.of = changes(edit, texts, file, texts[file].index(old))
                texts[file] = texts[file].replace(old, new)
            old = ""
    return edit


def words_hold(edit):
    """What is wrong with the edit's own lines."""
    faults, edited = list(edit.faults), {pair.of for pair in edit.pairs if pair.of}
    shared = any(not pair.of for pair in edit.pairs)
    if not edit.names:
        faults.append("no line '# refused: ..' says which proof the edit breaks" + (f"; it changes {', '.join(sorted(edited))}" if edited else ""))
    if not edit.pairs:
        faults.append("it has no 'old:' and 'new:' pair")
    if shared and len(edit.pairs) > 1 and not edit.together:
        faults.append("a pair changes what is no function's body (a constant, a type, a contract or a definition), which stands in an edit of its own, or with '# one change'")
    if not shared and edit.names:
        faults += [f"{name} is changed, and no line '# refused:' names it" for name in sorted(edited) if name not in edit.names and name not in edit.alike]
        faults += [f"{name} is said to change alike, and no pair changes it" for name in edit.alike if name not in edited]
        faults += [f"{name} is named, and no pair changes its body" for name in edit.names if name not in edited and name not in edit.alike.values()]
    return faults


def applied(edit, texts, some=None):
    """The texts that the edit changes, with the pairs of the functions `some` alone where they are given, or nothing where these cannot be told apart."""
    made, left = {}, {}
    for number, pair in enumerate(edit.pairs):
        text = made.get(pair.file, texts.get(pair.file, ""))
        if text.count(pair.old) != 1:
            return None
        new = pair.new
        if some is not None and pair.of not in some:
            # (what is left out gives way to a mark until all are made, so that each old text is found where the whole edit has it)
            new = f"\0{number}\0"
            left[new] = pair.old
        made[pair.file] = text.replace(pair.old, new)
    for mark, old in reversed(left.items()):
        made = {file: text.replace(mark, old) for file, text in made.items()}
    return {file: text for file, text in made.items() if text != texts[file]}


@dataclass
class Log:
    states: dict
    errors: list  # each a file, its place and the text
    opened: dict  # of a function the goals that are not proved, each with its place in src/
    reached: bool


def log_of(said, texts, crate):
    """What the prover said of the crate with these texts."""
    states, errors, opened, lines = {}, [], {}, {}
    for line in said.split("\n"):
        fn = re.match(r"fn (\S+): (.*)", line)
        error = re.match(r"(?:\./)?((?:src|specs|proofs)/\S+?):(\d+:\d+): error: (.*)", line)
        if fn:
            states[fn[1]] = fn[2]
        elif error:
            errors.append((error[1], error[2], error[3]))
        note = re.match(r"note: (src/\S+?):(\d+):(\d+): (it is not proved that .*)", line)
        if note and note[1] in texts:
            if note[1] not in lines:
                lines[note[1]] = owners(texts[note[1]])
            _, name = lines[note[1]][int(note[2]) - 1]
            opened.setdefault(f"{module(crate, note[1])}::{name}", []).append(f"{note[1]}:{note[2]}:{note[3]}: {note[4]}")
    return Log(states, errors, opened, re.search(r"^logic=not-proved", said, re.M) is not None)


def cycles(texts):
    """The functions, as (file, name), that are in a cycle of calls, each with the cycle's name, which is that of its folder of proofs."""
    found = {}
    for file, text in texts.items():
        for name, fn in re.findall(r"#\[cycle\((\w+)\)\](?:\s|//[^\n]*\n|#\[[^\n]*\n)*(?:pub(?:\([a-z]+\))? )?fn (\w+)", text):
            found[file, fn] = name
    return found


def own(crate, name, file, texts):
    """Whether an error in this file is the own one of what is named: for a file that file, for a function a file below its folder in proofs/."""
    if re.match(r"(proofs|specs|src)/", name):
        return file in (name, name + ".antt")
    path = name.split("::")[1:]
    above, last = "".join(f"{it}/" for it in path[:-1]), path[-1]
    if not file.startswith("proofs/" + above):
        return False
    folder, slash, _ = file[len("proofs/" + above):].partition("/")
    if not slash:
        return False
    ring = {cycle for (at, fn), cycle in cycles(texts).items() if fn == last and module(crate, at) == name.rpartition("::")[0]}
    return folder == last or folder[:1] == "+" and (folder[1:] in ring or last in folder[1:].split("+"))


def passed_over(text):
    """Why an error says nothing of the change: nothing where it does."""
    if re.search(r"was not admitted|which was rejected, (?:was|were) not checked|is not proved, so", text):
        return "waits on another"
    # a goal, a place or a lemma that the proof names is gone: the needs are more or fewer than it answers, or stand in another order
    if re.search(r"that can be named from here|has no field `|is not in scope|has no `[^`]*`|is no name|expected type `[^`]*Need-[^`]*`, but this has type `[^ `]*Need-", text):
        return "the proof no longer fits"
    return ""


def shape(text):
    """How many branches, calls, indexes and statements a text has. Where an edit changes that, the needs of a function are others, and a proof that answers
    them by name can fail where the code is right."""
    return [text.count(it) for it in ("{", ";", "=>", "[")] + [len(re.findall(r"\b[a-z_]\w*\(", text))]


UNFIT = "its proof no longer fits, and that is all"
STALE = "say only that the proof no longer fits"
WAITS = "its proof only waits on one that is refused, so its own change is accepted or hidden behind that: put it where what it calls is right, or give the need that breaks a name of its own"


def show(edit, name, log, texts):
    """Whether the log shows that what is named is refused by itself: (how, or nothing; why not; notes)."""
    first, unfit, waits, notes = "", [], 0, []
    for file, place, text in log.errors:
        if own(edit.crate, name, file, texts):
            why = passed_over(text)
            if why == "waits on another":
                waits += 1
            elif why:
                unfit.append(f"{file}:{place}: {text}")
            else:
                first = first or f"{file}:{place}: {text}"
    if "::" in name:
        state = log.states.get(name)
        if state is None:
            return "", "the log has no such function", []
        open_goals = re.search(r"`search` did not prove .*", state)
        first = first or (f"no proof: {open_goals[0].partition('; it calls')[0]}" if open_goals and re.match(r"no proof|not proved", state) else "")
        false = [it for it in log.opened.get(name, []) if "allow values at which" in it]
        first = next(iter(false), "") if false and (not first or unfit) else first or next(iter(log.opened.get(name, [])), "")
        waits += bool(re.search(r"it calls .*, which (is|are) not proved|waits? for", state))
    if first:
        if unfit:
            notes.append(f"{len(unfit)} more of its errors {STALE}")
        was, now = (" ".join(it) for it in ([pair.old for pair in edit.pairs if pair.of == name], [pair.new for pair in edit.pairs if pair.of == name]))
        if shape(was) != shape(now):
            notes.append("the code has another shape now, a branch, call or statement more or less: read its error")
        return first if len(first) <= 150 else first[:150] + " ..", "", notes
    if waits:
        return "", WAITS, []
    if unfit:
        return "", f"{UNFIT}: keep the code's shape. {unfit[0][:300]}", []
    return "", f"it is {log.states[name]}" if "::" in name else "no error stands there", []


OPERATORS = {"<": "lt", "<=": "le", ">": "gt", ">=": "ge", "==": "eq", "!=": "ne"}
FLIPPED = {"<": ">", "<=": ">=", ">": "<", ">=": "<=", "==": "==", "!=": "!="}
LITERAL = r"-?(?:0x[0-9a-fA-F_]+|\d[\d_]*)(?![\w.])"


def compared(code):
    """How the prover names the comparisons with a whole number in this code, in order: `lt38` of k < 38."""
    found = []
    for m in re.finditer(rf"(?:(?<![-%*/+&|^] )(?<![\w.])({LITERAL})|[\w)\]]) (<=|>=|<|>|==|!=) (?:({LITERAL})|\S)", code):
        number = m[3] or m[1]
        if number and not (m[1] and m[3]):
            value = int(number.replace("_", ""), 0)
            found.append(OPERATORS[m[2] if m[3] else FLIPPED[m[2]]] + (f"minus{-value}" if value < 0 else str(value)))
    return found


def fitted(edit, texts, name):
    """The proof files of a function with the names that its goals and places have under the edit: a name has the number of a comparison in it, and where the
    edit changes that number the proof would name what is gone."""
    turns = {}
    for pair in edit.pairs:
        if pair.of == name:
            was, now = compared(pair.old), compared(pair.new)
            turns |= {a: b for a, b in zip(was, now) if a != b and len(was) == len(now)}
    made = {}
    for file, text in texts.items():
        if turns and own(edit.crate, name, file, texts):
            other = re.sub(r"[A-Za-z]\w*(?:-\w+)+", lambda m: re.sub(r"(?<=-)[a-z]+\d+", lambda n: turns.get(n[0], n[0]), m[0]), text)
            if other != text:
                made[file] = other
    return made


def tried(crate, edit, texts, kept, check, log_to):
    """What is seen of each name of the edit: {name: (how, why not, notes)}. Names that wait are tried again with their own changes alone; and where a proof
    names what the edit took away, the function is tried once more with the names that the edit gave. What the prover says at each turn is left in log_to."""
    found = {}

    def turn(names, some, proofs):
        """One check with the changes of the functions `some`, or all, over these proof files: what it shows of the names, or nothing where it refuses nothing."""
        changed = applied(edit, texts, some)
        if changed is None:
            return {name: ("", f"{WAITS}; and its own changes cannot be made alone", []) for name in names}
        changed = {**changed, **proofs}
        said, status = check(crate, changed, kept)
        turn.count += 1
        Path(f"{log_to}.{turn.count}.log").write_text(said, encoding="utf8")
        log = log_of(said, {**texts, **changed}, crate.name)
        if status == 0 or not log.reached:
            last = said.rstrip().split("\n")[-1][:200]
            why = "NOT REFUSED: the crate is still proved with its change" if status == 0 else f"the prover refused nothing, and ended with status {status}: {last}"
            return {name: ("", why, []) for name in names}
        return {name: show(edit, name, log, texts) for name in names}

    turn.count = 0
    wait, some = list(edit.names), None
    while wait:
        now = turn(wait, some, {})
        found |= now
        left = [name for name, (how, why, _) in now.items() if not how and why == WAITS]
        if len(left) == len(wait) and some is not None or not edit.parts():
            break
        wait, some = left, {*left}
    proofs = {name: fitted(edit, texts, name) for name, (how, why, notes) in found.items() if "::" in name and (why.startswith(UNFIT) or any(STALE in it for it in notes))}
    proofs = {name: files for name, files in proofs.items() if files}
    if proofs:
        now = turn(list(proofs), {*proofs} if edit.parts() else None, {file: text for files in proofs.values() for file, text in files.items()})
        for name, (how, why, notes) in now.items():
            if how or why != WAITS:
                found[name] = how, why, [*notes, "its proof has the names that the edit gave"]
    return found
