#!/usr/bin/env python3
"""Runs the proved programs for ./run: builds them where a source is newer, passes arguments on, and gives the exit status.

Usage: boards.py build PROGRAM..         proves and builds what is missing or older than its sources
       boards.py library CRATE           the same of a static library's archive, crates/CRATE/out/libCRATE.a
       boards.py inspect [ARGUMENT..]    inspect over one image or several; --summary is a table of one line a board
       boards.py powercut [ARGUMENT..]   powercut over one image

What a program was asked can't be told from its own exit status. So that is read from what the program says:
0 it did what was asked; 1 powercut: a cut was wrong; 2 the arguments or an image are wrong; 3 a write failed; 4 a proof or a build failed.
"""
import errno
import json
import os
import pathlib
import re
import shutil
import signal
import subprocess
import sys
import threading
import time

import prover

root = pathlib.Path(__file__).resolve().parent.parent
SAMPLE = root / "samples" / "two-good.img"
RIGHT, CUT_WRONG, BAD_INPUT, WRITE_FAILED, BUILD_FAILED = 0, 1, 2, 3, 4
# How many arguments follow an option of inspect and of powercut.
INSPECT_OPTIONS = {"--now": 1, "--days": 1, "--wanted": 1, "--identity": 1, "--pick": 5, "--match": 0, "--rows": 2, "--bank": 1,
                   "--offset": 1, "--json": 0}
POWERCUT_OPTIONS = {"--leftover": 1, "--update": 1, "--torn": 1, "--svg": 1, "--offset": 1, "--progress": 0}
CHUNK = 65536


def say(text):
    print(text, file=sys.stderr, flush=True)


# Building.

def dependencies():
    deps = {}
    for line in (root / "crates.txt").read_text(encoding="utf-8").split("\n"):
        name, colon, uses = line.split("#")[0].partition(":")
        if colon:
            deps[name.split()[0]] = uses.split()
    return deps


def program(name):
    return root / "crates" / name / "out" / name


def needed(name):
    """The crates of the repository that a crate needs, itself included."""
    deps, found, left = dependencies(), set(), [name]
    while left:
        crate = left.pop()
        if crate in deps and crate not in found:
            found.add(crate)
            left += deps[crate]
    return found


def is_fresh(name, built):
    """Whether what is built is there, and no file or folder that its crates are proved from is newer."""
    if not built.exists():
        return False
    made = built.stat().st_mtime
    for crate in needed(name):
        for part in ("src", "specs", "proofs"):
            for folder, _, files in os.walk(root / "crates" / crate / part):
                if any(os.stat(os.path.join(folder, f)).st_mtime > made for f in files) or os.stat(folder).st_mtime > made:
                    return False
    return (root / "crates.txt").stat().st_mtime <= made


def clock(seconds):
    return f"{int(seconds) // 60}:{int(seconds) % 60:02d}"


def prove(words, name, what, ended):
    """Runs rt in the crate's folder, with a line for each crate that is proved, until it says what it says once all is built; False if that fails."""
    if not shutil.which("rt"):
        say(f"run: {what} has to be built, and the Rattle kit's command rt is not on the path")
        return False
    crates, done, begun, kept, crate = len(needed(name)), 0, time.monotonic(), [], ""
    say(f"proving {what}: {crates} crates; from nothing this takes some minutes, later runs need none")
    child = subprocess.Popen(["rt", *words], cwd=root / "crates" / name, stdin=subprocess.DEVNULL, stdout=subprocess.PIPE, stderr=subprocess.STDOUT,
                             text=True, errors="replace")
    whole = False
    try:
        for line in child.stdout:
            kept.append(line.rstrip("\n")[:400])
            of = re.match(r"crate (\w+): modules", line)
            crate = of[1] if of else crate
            if line.startswith("logic=proved "):
                done += 1
                say(f"  {done:2} of {crates}  {clock(time.monotonic() - begun)}  {crate}")
            whole = whole or line.startswith(ended)
    finally:
        child.stdout.close()
        status = child.wait()
    if not whole or status and words[0] != "run":
        say("\n".join(kept[-40:]))
        say(f"run: that failed, with the status {status}: rt {' '.join(words)}")
        return False
    say(f"  proved and built in {clock(time.monotonic() - begun)}")
    return True


def build(name):
    """Builds a program unless it is there and newer than its sources; False if that fails."""
    if is_fresh(name, program(name)):
        return True
    # rt builds a program to run it, so it is asked for its help
    if not prove(["run", "--", "--help"], name, f"the program {name} and what it needs", f"rt: running out/{name};"):
        return False
    os.utime(program(name))
    return True


def library(name):
    built = root / "crates" / name / "out" / f"lib{name}.a"
    if is_fresh(name, built):
        return True
    # over the libraries of a run of `rt ci`, of which `rt lib` makes no use
    if not prover.archive(name, built) and not prove(["lib"], name, f"the core's library {name}", "logic=proved "):
        return False
    return is_fresh(name, built)


# Running.

def closed_output():
    """Whether standard output is closed, with a line that says so."""
    try:
        os.fstat(1)
        return False
    except OSError:
        say("run: can't write standard output: it is closed")
        return True


def command(name, arguments):
    return [str(program(name)), *arguments]


def told(name, code, words):
    """The exit status of a run, by what it said on standard error."""
    if code < 0:
        return 128 - code
    if re.search(rf"(?:^|\n|\x1b\[K)(?:{name}: )?can't write\b", words):
        return WRITE_FAILED
    return BAD_INPUT if f"{name}: " in words else code


def split(arguments, known):
    """The options as they are, the images, and the words that neither program knows but ./run does; None where an option lacks an argument."""
    options, images, own, i = [], [], [], 0
    while i < len(arguments):
        word = arguments[i]
        if word == "--":
            images += arguments[i + 1:]
            break
        if word == "--sample":
            images.append(str(SAMPLE))
        elif word == "--summary":
            own.append(word)
        elif word in known and i + known[word] >= len(arguments):
            return None
        elif word in known:
            options += arguments[i:i + 1 + known[word]]
            i += known[word]
        elif word.startswith("-") and word != "-":
            options.append(word)
        else:
            images.append(word)
        i += 1
    return options, images, own


def show(name, arguments):
    """Runs a program with our standard output; its exit status."""
    run = subprocess.run(command(name, arguments), stderr=subprocess.PIPE)
    words = run.stderr.decode("utf-8", "backslashreplace")
    sys.stderr.write(words)
    sys.stderr.flush()
    return told(name, run.returncode, words)


def object_of(image, options=()):
    """What inspect says of an image, as an object; else its message. Nothing else is asked of the image."""
    run = subprocess.run(command("inspect", [*options, "--json", "--", image]), stdout=subprocess.PIPE, stderr=subprocess.PIPE)
    words = run.stderr.decode("utf-8", "backslashreplace").strip()
    if words or run.returncode:
        return None, words or f"inspect ended with the status {run.returncode}"
    return json.loads(run.stdout), ""


def summary(images, options):
    """A line for each board: what inspect says, in columns."""
    table, status = [("file", "load", "bank 0", "bank 1", "generation", "checked")], RIGHT
    for image in images:
        board, words = object_of(image, options)
        if board is None:
            table.append((image, words))
            status = BAD_INPUT
            continue
        given = board["load"]
        header = None if given is None else board["banks"][given]["header"]
        table.append((image, "none" if given is None else f"bank {given}", board["banks"][0]["words"], board["banks"][1]["words"],
                      "-" if header is None else str(header["generation"]), "-" if header is None else header["checked"]["utc"] or str(header["checked"]["seconds"])))
    widths = [max(len(row[i]) for row in table if len(row) > 2) for i in range(len(table[0]))]
    widths[0] = max(len(row[0]) for row in table)
    lines = ["  ".join(cell.ljust(width) for cell, width in zip(row, widths)).rstrip() for row in table]
    return write("\n".join(lines) + "\n") or status


def write(text):
    """Writes to standard output; the status of a write that failed, else 0."""
    try:
        sys.stdout.buffer.write(text.encode("utf-8", "surrogateescape"))
        sys.stdout.buffer.flush()
    except OSError as error:
        if error.errno == errno.EPIPE:
            raise
        say(f"run: can't write standard output: {error.strerror}")
        return WRITE_FAILED
    return RIGHT


def inspect(arguments):
    parts = split(arguments, INSPECT_OPTIONS)
    if closed_output():
        return WRITE_FAILED
    if parts is None:
        return show("inspect", arguments)
    options, images, own = parts
    if "--help" in options or "-h" in options:
        return show("inspect", ["--help"])
    if own and images:
        return summary(images, options)
    if len(images) < 2:
        return show("inspect", [*options, *(["--", *images] if images else [])])
    status = RIGHT
    for i, image in enumerate(images):
        if i and "--json" not in options:
            status = max(status, write("\n"))
        status = max(status, show("inspect", [*options, "--", image]))
        if status == WRITE_FAILED:
            break
    return status


def pass_on(stream, kept):
    """Passes what a program says on standard error on, and keeps it."""
    while True:
        piece = os.read(stream.fileno(), CHUNK)
        if not piece:
            return
        kept.append(piece)
        os.write(2, piece)


def started(words):
    """Starts a program, and a function that lets signals through again and gives those that came meanwhile: who starts it cleans up after it."""
    came = []
    old = {n: signal.signal(n, lambda number, _: came.append(number)) for n in (signal.SIGINT, signal.SIGTERM, signal.SIGHUP)}
    child = subprocess.Popen(words, stdout=subprocess.PIPE, stderr=subprocess.PIPE)

    def early():
        for number, handler in old.items():
            signal.signal(number, handler)
        return came
    return child, early


def picture_of(options):
    """The name after the last --svg, which is the one that powercut takes."""
    picture, i = None, 0
    while i < len(options):
        if options[i] == "--svg":
            picture = options[i + 1]
        i += 1 + POWERCUT_OPTIONS.get(options[i], 0)
    return picture


def powercut(arguments):
    parts = split(arguments, POWERCUT_OPTIONS)
    if closed_output():
        return WRITE_FAILED
    if parts is None:
        return show("powercut", arguments)
    options, images, own = parts
    if own:
        say(f"powercut: {own[0]} is no option; see ./run powercut --help")
        return BAD_INPUT
    if os.isatty(2):
        options.append("--progress")
    picture = picture_of(options)
    if picture is not None and os.path.exists(picture) and not os.path.isfile(picture):
        say(f"powercut: {picture} is there already and isn't an SVG picture; it is left as it is")
        return BAD_INPUT
    part = None if picture is None else pathlib.Path(f"{picture}.part")
    is_older = part is not None and os.path.lexists(part)
    child, early = started(command("powercut", [*options, *(["--", *images] if images else [])]))
    kept, words, failed = b"", [], None
    reader = threading.Thread(target=pass_on, args=(child.stderr, words), daemon=True)
    try:
        reader.start()
        for number in early():
            os.kill(os.getpid(), number)
        while True:
            piece = os.read(child.stdout.fileno(), CHUNK)
            if not piece:
                break
            kept = (kept + piece)[-CHUNK:]
            while piece:
                piece = piece[os.write(1, piece):]
    except OSError as error:
        failed = error
    finally:
        if failed or sys.exc_info()[0]:
            child.terminate()
        code = child.wait()
        if reader.ident:
            reader.join()
        if part and code and not is_older:
            part.unlink(missing_ok=True)
    if failed:
        if failed.errno == errno.EPIPE:
            raise failed
        say(f"powercut: can't write standard output: {failed.strerror}")
        return WRITE_FAILED
    status = told("powercut", code, b"".join(words).decode("utf-8", "backslashreplace"))
    if status == WRITE_FAILED and is_older:
        say(f"run: {part} was there before: if a run that was ended left it, remove it")
    if status:
        return status
    lines = kept.decode("utf-8", "replace").rstrip("\n").split("\n")
    wrong = re.search(r" begun again, ([\d,]+) wrong$", lines[-1])
    if wrong:
        return RIGHT if wrong[1] == "0" else CUT_WRONG
    return RIGHT if lines[0].startswith("powercut [options]") else BAD_INPUT


def stop(number, _):
    raise SystemExit(128 + number)


def main():
    words = sys.argv[1:]
    if words[:1] in (["--help"], ["-h"]) or not words:
        print(__doc__)
        return 0 if words else BAD_INPUT
    signal.signal(signal.SIGTERM, stop)
    signal.signal(signal.SIGHUP, stop)
    task, rest = words[0], words[1:]
    if task == "build":
        return RIGHT if all(build(name) for name in rest) else BUILD_FAILED
    if task == "library" and len(rest) == 1:
        return RIGHT if library(rest[0]) else BUILD_FAILED
    if task not in ("inspect", "powercut"):
        say(f"boards.py: there is no task {task}; see boards.py --help")
        return BAD_INPUT
    if not build(task):
        return BUILD_FAILED
    return {"inspect": inspect, "powercut": powercut}[task](rest)


if __name__ == "__main__":
    try:
        sys.exit(main())
    except KeyboardInterrupt:
        sys.exit(128 + signal.SIGINT)
    except BrokenPipeError:
        # Who read our output has ended: we end as other programs do then.
        signal.signal(signal.SIGPIPE, signal.SIG_DFL)
        os.kill(os.getpid(), signal.SIGPIPE)
