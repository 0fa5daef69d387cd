"""What the tools share that ask the kit's prover: the crates as rt reads them, libraries that are built, a check of a copy of a crate, and logs.

A log is what the prover said of a crate as it is, or with an edit. It is kept under the sum of all that the check read: the kit, the crate's
files and those of every crate below it, and the edit. So one that is found is never stale. Logs are in target/logs of the checkout and, for other
checkouts on the machine, in the user's cache folder (XDG_CACHE_HOME); what wasn't used there for a month goes.
"""
import functools
import hashlib
import importlib.util
import os
import pathlib
import re
import shutil
import subprocess
import sys
import tempfile
import time

root = pathlib.Path(__file__).resolve().parent.parent
LOGS = root / "target/logs"
CACHE = pathlib.Path(os.environ.get("XDG_CACHE_HOME") or pathlib.Path.home() / ".cache") / "bankcore-logs"
MONTH = 30 * 24 * 3600
PARTS = ("src", "specs", "proofs")
AS_IT_IS = "as-it-is"
MEMORY = 2_500_000_000  # of one check, roughly


@functools.lru_cache(None)
def rtlib():
    """The kit's own reader of crates.txt, by which rt makes the prover's words."""
    found = shutil.which("rt")
    if not found:
        sys.exit("the Rattle kit's command rt is not on the path")
    sys.dont_write_bytecode = True
    spec = importlib.util.spec_from_file_location("rtlib", pathlib.Path(found).resolve().parent / "rtlib.py")
    made = importlib.util.module_from_spec(spec)
    sys.modules["rtlib"] = made
    spec.loader.exec_module(made)
    return made


@functools.lru_cache(None)
def crates():
    """The crates of crates.txt by name, lowest first."""
    return {c.name: c for c in rtlib().crates_below(str(root)) if c.folder == str(root / "crates" / c.name)}


def jobs():
    """How many checks at a time: as many as processors, if the memory is there."""
    free = re.search(r"MemAvailable: +(\d+) kB", pathlib.Path("/proc/meminfo").read_text(encoding="utf-8"))
    return max(1, min(len(os.sched_getaffinity(0)), int(free[1]) * 1024 // MEMORY if free else 1))


# The libraries below a crate.

def newest(crate):
    return max(p.stat().st_mtime for part in PARTS for p in pathlib.Path(crate.folder, part).rglob("*"))


def is_from_ci(crate):
    """Whether its library is what `rt ci` built here of these files. Such a library has no stamp, and other commands of rt don't take it."""
    rlib = pathlib.Path(crate.rlib)
    return rlib.is_dir() and not (rlib.parent / "stamp").exists() and rlib.stat().st_mtime >= newest(crate)


def ready(crate):
    """Builds the libraries below the crate, where neither rt ci nor another command has done so; whether they are there."""
    below = crate.below()
    if all(map(is_from_ci, below)) or all(it.is_built() for it in below):
        return True
    for dep in crate.deps:
        run = subprocess.run(["rt", "lib"], cwd=dep.folder, stdout=subprocess.PIPE, stderr=subprocess.STDOUT, text=True, errors="replace")
        if run.returncode:
            print("\n".join(run.stdout.rstrip("\n").split("\n")[-20:]))
            return False
    return all(it.is_built() for it in below)


# A check.

def copy(crate, room, texts=()):
    """A copy of the crate's files, with these texts in place of its own."""
    for part in PARTS:
        if pathlib.Path(crate.folder, part).is_dir():
            shutil.copytree(pathlib.Path(crate.folder, part), room / part)
    for path, text in dict(texts).items():
        (room / path).write_text(text, encoding="utf-8")


def linked(folder, to):
    """A copy of kept work, by links: the prover replaces such a file and changes none."""
    def one(source, target):
        try:
            return os.link(source, target)
        except OSError:
            return shutil.copy2(source, target)

    shutil.copytree(folder, to, copy_function=one)


def check(crate, texts=(), kept=None):
    """Checks a copy of the crate with these texts, over kept work if it is given; the exit status and what was said."""
    with tempfile.TemporaryDirectory(prefix="bankcore-") as room:
        copy(crate, pathlib.Path(room), texts)
        words = [rtlib().RATTLE, "check", *crate.words(["--jobs", "1"], keeps=False), *(["--incremental", str(kept)] if kept else [])]
        run = subprocess.run(words, cwd=room, stdin=subprocess.DEVNULL, stdout=subprocess.PIPE, stderr=subprocess.STDOUT, text=True, errors="replace")
        return run.returncode, run.stdout


def is_proved(status, said):
    return status == 0 and re.search(r"^logic=proved ", said, re.M)


def is_refused(status, said):
    return status == 1 and re.search(r"^logic=not-proved", said, re.M)


def seed(crate, room):
    """Proves the crate as it is into room/seed, begun with what `rt check` kept, if it did; keeps the log, and returns whether it is proved."""
    begun = pathlib.Path(crate.folder, "out/incremental")
    for start in ([begun] if begun.is_dir() else []) + [None]:
        shutil.rmtree(room / "seed", ignore_errors=True)
        try:
            if start:
                linked(start, room / "seed")
            else:
                (room / "seed").mkdir()
            status, said = check(crate, kept=room / "seed")
        except (OSError, shutil.Error):  # another command wrote there meanwhile
            continue
        if is_proved(status, said):
            keep(crate, AS_IT_IS, key(crate), status, said)
            return True
    return False


def archive(name, built):
    """Builds a static library over the libraries that rt ci built here of these files; False where there are none, or where that fails."""
    crate = crates().get(name) if shutil.which("rt") else None
    if not crate or not all(map(is_from_ci, crate.below())):
        return False
    built.parent.mkdir(exist_ok=True)
    words = crate.words(["--jobs", str(min(2, jobs()))], keeps=False)
    run = subprocess.run([rtlib().RATTLE, "build", *words, "--toolchain", f"{rtlib().KIT}/toolchain", "--backend", "llvm", "-o", str(built)],
                         cwd=crate.folder, stdin=subprocess.DEVNULL, stdout=subprocess.PIPE, stderr=subprocess.STDOUT, text=True, errors="replace")
    if run.returncode:
        print("\n".join(run.stdout.rstrip("\n").split("\n")[-20:]))
    return run.returncode == 0


# Logs.

@functools.lru_cache(None)
def own_sum(crate):
    sum = hashlib.sha256(repr((crate.name, crate.said, [d.name for d in crate.deps])).encode())
    for part in PARTS:
        for path in sorted(pathlib.Path(crate.folder, part).rglob("*")):
            if path.is_file():
                sum.update(repr((str(path.relative_to(crate.folder)), path.read_bytes())).encode())
    return sum.hexdigest()


def key(crate, edit=""):
    """The sum of what a check reads of the crate with this edit's text."""
    kit = [pathlib.Path(rtlib().KIT, name).read_text(encoding="utf-8") for name in ("KIT-ID", "WHAT")]
    return hashlib.sha256(repr((kit, own_sum(crate), [own_sum(d) for d in crate.below()], edit)).encode()).hexdigest()


def keep(crate, name, sum, status, said):
    for path in (LOGS / crate.name / f"{name}.log", CACHE / sum):
        try:
            path.parent.mkdir(parents=True, exist_ok=True)
            part = path.with_name(f"{path.name}.{os.getpid()}")
            part.write_text(f"{sum} {status}\n{said}", encoding="utf-8")
            part.replace(path)
        except OSError:
            if path.parent != CACHE:
                raise


def log(crate, name, sum):
    """The status and the output of a check that was tried with the same files, or None."""
    for path in (LOGS / crate.name / f"{name}.log", CACHE / sum):
        try:
            first, _, said = path.read_text(encoding="utf-8").partition("\n")
            of, status = first.split(" ")
            if of == sum:
                if path.parent == CACHE:
                    os.utime(path)
                    keep(crate, name, sum, int(status), said)
                return int(status), said
        except (OSError, ValueError):
            pass
    return None


def clean():
    """Removes logs that no run has used for a month."""
    for path in CACHE.iterdir() if CACHE.is_dir() else []:
        if time.time() - path.stat().st_mtime > MONTH:
            path.unlink(missing_ok=True)


def verdict(crate):
    """What the prover says of the crate as it is, or None where it isn't proved."""
    found = log(crate, AS_IT_IS, key(crate))
    if not found and ready(crate):
        with tempfile.TemporaryDirectory(prefix="bankcore-") as room:
            seed(crate, pathlib.Path(room))
        found = log(crate, AS_IT_IS, key(crate))
    return found[1] if found and is_proved(*found) else None
