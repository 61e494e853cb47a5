"""The kit's own rt as a module: what rt ci does to try a must-fail edit, for tools/bundles, tools/edits and tools/must_not_compile.

A check here is the one of rt ci: rattle over a copy of the crate's files, with the libraries below it as rt built them. Nothing here is a verdict."""
import importlib.machinery
import importlib.util
import os
import shutil
import subprocess
import sys
import tempfile
from pathlib import Path

TOP = Path(__file__).resolve().parent.parent
sys.dont_write_bytecode = True


def load():
    found = shutil.which("rt")
    if found is None:
        sys.exit("there is no rt here: put the bin folder of the Rattle kit on PATH")
    loader = importlib.machinery.SourceFileLoader("rt_of_the_kit", os.path.realpath(found))
    module = importlib.util.module_from_spec(importlib.util.spec_from_loader("rt_of_the_kit", loader))
    loader.exec_module(module)
    lacking = [name for name in ("in_lanes", "linked", "need", "own_sum", "share_work", "stamp_of", "rtlib") if not hasattr(module, name)]
    if lacking:
        sys.exit(f"the rt of this kit is another than the tools were written for: it lacks {', '.join(lacking)}")
    return module


rt = load()


def crates():
    """The crates by their names, lowest first."""
    os.chdir(TOP)
    # (its first call sets a signal's handler, which only the main thread may)
    rt.rtlib.guarded()
    return {crate.name: crate for crate in rt.rtlib.crates_below(str(TOP))}


def as_ci_left(crates):
    """Whether the libraries of these crates are those that rt ci left, which have no stamp: right after it they are of this text."""
    return all(os.path.isfile(f"{it.rlib}/format") and not os.path.exists(f"{it.folder}/out/rlib/stamp") for it in crates)


def build_below(wanted, after_ci, themselves=False):
    """Builds the libraries below the wanted crates, and they themselves where that is asked, where they are not built of this text, and returns the names of
    those that are not proved."""
    below = list(dict.fromkeys(it for crate in wanted for it in [*crate.below(), *[crate] * (themselves and crate.makes_rlib())]))
    if after_ci and as_ci_left(below):
        return []
    rt.share_work(False)
    failed = []
    for crate in below:
        if crate.is_built():
            continue
        if {it.name for it in crate.below()} & {*failed}:
            failed.append(crate.name)
            continue
        print(f"proves {crate.name} first", file=sys.stderr, flush=True)
        with tempfile.TemporaryFile("w+", errors="replace") as crate.out:
            status = crate.build_rlib([], anew=False)
            if status:
                crate.out.seek(0)
                print(f"{crate.name} is not proved:\n" + "".join(f"    {it}" for it in crate.out.readlines()[-8:]), file=sys.stderr, flush=True)
                failed.append(crate.name)
        crate.out = sys.stdout
    return failed


def texts_of(crate):
    """The texts of a crate, by their paths below it."""
    found = {}
    for part in rt.rtlib.PARTS:
        for at, folders, names in os.walk(f"{crate.folder}/{part}"):
            folders.sort()
            for name in sorted(names):
                if name.endswith((".rt", ".antt")):
                    found[os.path.relpath(f"{at}/{name}", crate.folder)] = Path(at, name).read_text(encoding="utf8")
    return found


def begin(crate, room):
    """A new folder of kept work below room for checks of the crate, begun with what a check of this checkout kept, if one did."""
    kept, start = f"{room}/kept", f"{crate.folder}/out/incremental"
    try:
        if os.path.isdir(start):
            rt.linked(start, kept)
    except (OSError, shutil.Error):
        # (another command may write what this one copies)
        shutil.rmtree(kept, ignore_errors=True)
    os.makedirs(kept, exist_ok=True)
    return kept


def check(crate, texts, kept, flags=("--jobs", "1"), limit=None):
    """What a check of the crate with these texts in place of its own says, and its status: rt ci's of an edit. Once more where it was killed, most likely
    for memory; where it takes longer than `limit` seconds it is stopped, and the status is None."""
    words = [*rt.rtlib.guarded(), rt.rtlib.RATTLE, "check", *crate.words([*flags], keeps=False), "--incremental", kept]
    with tempfile.TemporaryDirectory(prefix="check-") as room:
        for part in rt.rtlib.PARTS:
            if os.path.isdir(f"{crate.folder}/{part}"):
                shutil.copytree(f"{crate.folder}/{part}", f"{room}/{part}")
        for path, text in texts.items():
            Path(room, path).write_text(text, encoding="utf8")
        for _ in range(2):
            process = subprocess.Popen(words, cwd=room, stdin=subprocess.DEVNULL, stdout=subprocess.PIPE, stderr=subprocess.STDOUT, text=True, errors="replace")
            try:
                said, _ = process.communicate(timeout=limit)
            except subprocess.TimeoutExpired:
                process.kill()
                return process.communicate()[0], None
            except BaseException:
                process.kill()
                raise
            if process.returncode != -9:
                break
    return said, process.returncode


def snippet(name, text_files, deps, room):
    """What the compiler says of a library of these texts that lists these crates, and its status: no proof is tried."""
    for path, text in text_files.items():
        file = Path(room, "src", path)
        file.parent.mkdir(parents=True, exist_ok=True)
        file.write_text(text, encoding="utf8")
    kit, below = rt.KIT, list(dict.fromkeys(it for dep in deps for it in [*dep.below(), dep]))
    words = [rt.rtlib.RATTLE, "check", "--crate-name", name, "src/lib.rt", "--extern", f"std={kit}/rlibs/std.rlib", "-L", f"dependency={kit}/rlibs"]
    for dep in deps:
        words += ["--extern", f"{dep.name}={dep.rlib}"]
    for dep in below:
        words += ["-L", f"dependency={os.path.dirname(dep.rlib)}"]
    words += ["--antt-project", f"{kit}/rattle/logic/antt-project.json", "--logic-built", f"{kit}/logic_built", "--jobs", "1", "--only", ""]
    ran = subprocess.run(words, cwd=room, stdin=subprocess.DEVNULL, stdout=subprocess.PIPE, stderr=subprocess.STDOUT, text=True, errors="replace")
    return ran.stdout, ran.returncode


def build(crate, to, module=None):
    """Proves and builds a program's object or a static library over the libraries below it, which stand, and with `module` keeps a copy of the LLVM module that rattle hands to
    its compiler. What was said, and the status."""
    with tempfile.TemporaryDirectory(prefix="archive-") as room:
        toolchain = f"{rt.KIT}/toolchain"
        if module:
            # a toolchain like the kit's but for its clang, which keeps the module
            own = Path(room, "toolchain")
            (own / "bin").mkdir(parents=True)
            for part in Path(toolchain).iterdir():
                if part.name != "bin":
                    (own / part.name).symlink_to(part)
            for part in Path(toolchain, "bin").iterdir():
                if part.name != "clang":
                    (own / "bin" / part.name).symlink_to(part)
            (own / "bin/clang").write_text(f"#!/bin/sh\nfor word in \"$@\"; do case $word in *.bc | *.ll) cp \"$word\" '{module}' ;; esac; done\nexec '{toolchain}/bin/clang' \"$@\"\n")
            (own / "bin/clang").chmod(0o755)
            toolchain = str(own)
        words = [rt.rtlib.RATTLE, "build", *crate.words(["--jobs", "2"], keeps=False), "--toolchain", toolchain, "--backend", "llvm", "-o", str(to)]
        ran = subprocess.run([*rt.rtlib.guarded(), *words], cwd=crate.folder, stdin=subprocess.DEVNULL, stdout=subprocess.PIPE, stderr=subprocess.STDOUT, text=True, errors="replace")
    return ran.stdout, ran.returncode


def main(words):
    """python3 tools/kit.py build [--after-ci] [CRATE..]: builds what is not built of these libraries and those below them, or of all; snippet FOLDER CRATE..: compiles
    FOLDER/src over these, and says what rattle says."""
    every = crates()
    if words[:1] == ["build"]:
        names = [it for it in words[1:] if it != "--after-ci"]
        lost = build_below([every[it] for it in names or every], "--after-ci" in words, themselves=True)
        for name in lost:
            print(f"{name} is not proved")
        return 1 if lost else 0
    if words[:1] == ["snippet"] and len(words) > 2:
        said, status = snippet("snippet", {}, [every[name] for name in words[2:]], words[1])
        print(said, end="")
        return status
    print(main.__doc__, file=sys.stderr)
    return 2


if __name__ == "__main__":
    sys.exit(main(sys.argv[1:]))
