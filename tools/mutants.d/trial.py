"""A copy of one crate, changed and checked over kept work, in seconds; and a copy of the repository, for what stands above it. For tools/edits and
tools/mutants.

A check here is that of rt ci for a must-fail edit (tools/kit.py), over the libraries as rt built them. What the check of the unchanged crate left is kept,
and each change starts from that. A copy of the repository lies among the temporary files, since rt ci refuses a second repository within its own; rt check
begins there with what this checkout has kept. Nothing here is a verdict: rt ci is.
"""
import hashlib
import os
import pathlib
import re
import shutil
import signal
import subprocess
import sys
import tempfile
import time

ROOT = pathlib.Path(__file__).resolve().parents[2]
sys.path.insert(0, str(ROOT / "tools"))
sys.dont_write_bytecode = True
import kit  # noqa: E402
import shown  # noqa: E402

TARGET = ROOT / "out"
PARTS = ("src", "specs", "proofs")
MADE = []


def trials():
    """The folder of this run's copies."""
    if not MADE:
        MADE.append(tempfile.TemporaryDirectory(prefix="trials-"))
    return pathlib.Path(MADE[0].name)


def crates():
    """The crates in the order of crates.txt, each with those that it names."""
    listed = {}
    for line in (ROOT / "crates.txt").read_text().splitlines():
        line = line.split("#")[0]
        if ":" in line:
            name, deps = line.split(":", 1)
            listed[name.split()[0]] = deps.split()
    return listed


def above(changed):
    """The crates that reach one of `changed`, each after those that it names; `changed` itself is not among them."""
    listed = crates()
    reach, grown = set(changed), True
    while grown:
        grown = False
        for name, deps in listed.items():
            if name not in reach and reach.intersection(deps):
                reach.add(name)
                grown = True
    order, done = [], set()

    def visit(name):
        if name in done or name not in listed:
            return
        done.add(name)
        for dep in listed[name]:
            visit(dep)
        order.append(name)

    for name in listed:
        visit(name)
    return [name for name in order if name in reach and name not in changed]


def files(crate):
    """The texts of a crate, by their paths below it."""
    base = ROOT / "crates" / crate
    found = {}
    for part in PARTS:
        for path in sorted((base / part).rglob("*")):
            if path.suffix in (".rt", ".antt"):
                found[str(path.relative_to(base))] = path.read_text()
    return found


def digest(crate):
    h = hashlib.sha256()
    for name, text in files(crate).items():
        h.update(name.encode() + b"\0" + text.encode() + b"\0")
    return h.hexdigest()[:12]


class Bad(Exception):
    pass


def apply(texts, pairs):
    """The changes (file, old, new) made to a copy of `texts`, as rt makes them: each old text is in its file once."""
    changed = dict(texts)
    for name, old, new in pairs:
        if name not in changed:
            raise Bad(f"there is no file {name}")
        if not old or changed[name].count(old) != 1:
            raise Bad(f"in {name} the text {old!r} is there {changed[name].count(old) if old else 0} times, and must be once")
        changed[name] = changed[name].replace(old, new)
    return changed


def read_edit(path):
    """The pairs (file, old, new) of an edit file, read as rt reads it."""
    pairs, name, old = [], "", ""
    for line in path.read_text().splitlines():
        if line.startswith("file: "):
            name = line[6:]
        elif line.startswith("old: "):
            old = line[5:]
        elif line.startswith("new:"):
            new = line[4:]
            pairs.append((name, old, new[1:] if new.startswith(" ") else new))
            old = ""
    if not pairs:
        raise Bad("it has no pair")
    return pairs


def run(words, cwd, limit):
    """What a command said, its status (None: it was stopped at the limit) and its seconds."""
    began = time.time()
    process = subprocess.Popen(words, cwd=cwd, stdin=subprocess.DEVNULL, stdout=subprocess.PIPE, stderr=subprocess.STDOUT, start_new_session=True)
    try:
        said, _ = process.communicate(timeout=limit)
        status = process.returncode
    except subprocess.TimeoutExpired:
        os.killpg(process.pid, signal.SIGKILL)
        said, _ = process.communicate()
        status = None
    except BaseException:
        os.killpg(process.pid, signal.SIGKILL)
        raise
    return said.decode(errors="replace"), status, time.time() - began


def errors(said, crate):
    """The errors of a log, (place below the crate, text, kind): 'own', 'waits' on another, or the proof is 'unfit'."""
    kinds = {"waits on another": "waits", "the proof no longer fits": "unfit", "": "own"}
    log = shown.log_of(said, {}, crate)
    found = [(f"{file}:{place}", text, kinds[shown.passed_over(text)]) for file, place, text in log.errors]
    for name, state in log.states.items():
        goals = re.search(r"`search` did not prove .*", state)
        if goals:
            found.append((name, goals[0].partition("; it calls")[0], "own"))
        elif "it calls" in state:
            found.append((name, state, "waits"))
    return found


def verdict(said, status):
    """'proved', 'refused' by the prover, 'not compiled', 'stopped' at the limit, or 'no verdict'."""
    if status is None:
        return "stopped"
    if status == 0 and "\nlogic=proved" in said:
        return "proved"
    if status == 1 and "\nlogic=not-proved" in said:
        return "refused"
    return "not compiled" if status == 1 else "no verdict"


class Trial:
    """One crate, checked over kept work."""

    every = {}

    def __init__(self, crate, slot=0):
        if not Trial.every:
            Trial.every.update(kit.crates())
        if crate not in Trial.every:
            raise Bad(f"there is no crate {crate}")
        self.crate, self.of = crate, Trial.every[crate]
        self.room = trials() / f"{crate}.{slot}"
        self.kept = trials() / f"{crate}.kept"
        self.texts = files(crate)
        shutil.rmtree(self.room, ignore_errors=True)
        self.room.mkdir(parents=True)

    def check(self, texts, limit):
        """Checks the crate with these texts, from what the check of the unchanged crate left."""
        over = self.room / "kept"
        shutil.rmtree(over, ignore_errors=True)
        if self.kept.is_dir():
            kit.rt.linked(str(self.kept), str(over))
        else:
            kit.begin(self.of, str(self.room))
        began = time.time()
        said, status = kit.check(self.of, texts, str(over), limit=limit)
        return said, verdict(said, status), time.time() - began

    def ready(self, limit):
        """Checks the unchanged crate and keeps what that leaves. Says whether it is proved."""
        lost = kit.build_below([self.of], False)
        if lost:
            return "not proved below", f"not proved: {' '.join(lost)}", 0.0
        said, result, seconds = self.check(self.texts, limit)
        if result == "proved":
            shutil.rmtree(self.kept, ignore_errors=True)
            shutil.move(self.room / "kept", self.kept)
        return result, said, seconds

    def close(self):
        shutil.rmtree(self.room, ignore_errors=True)


def lay(room):
    """A copy of the repository's crates, without what rt made there."""
    shutil.copytree(ROOT / "crates", room / "crates", ignore=shutil.ignore_patterns("out"))
    shutil.copy(ROOT / "crates.txt", room / "crates.txt")
    if (ROOT / "HANDLES").is_file():
        shutil.copy(ROOT / "HANDLES", room / "HANDLES")
    # (it is the top of a repository)
    (room / ".git").mkdir()
