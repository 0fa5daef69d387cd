"""The wrong programs of crates/CRATE/must-fail/*.edit, as the tools read them, and what a log says of one."""
import re

from sources import functions_of, impl_at

# What an error says where a name is gone or a text can't be read: that is no fact.
FORM = re.compile(r"can be named from here|is not in scope|has no field|is no name|has no `|error\[(?!proof)")
# What is told of a function that fails for a callee's sake alone.
CALLEE = re.compile(r"(?:not proved|no proof): it calls ")


class Program:
    """One wrong program: its name, the promises that '# of:' names, and its changes: file, old text, new text."""

    def __init__(self, crate, edit, name):
        self.crate, self.edit, self.name, self.of, self.places = crate, edit, name, [], []


def edits_of(root, crate):
    return sorted((root / "crates" / crate / "must-fail").glob("*.edit"))


def each_of(text):
    """The functions and claims of an edit's '# each:' line."""
    found = re.search(r"^# each: (.*)", text, re.M)
    return found[1].split() if found else []


def programs_of(root, crate, edit, wrong):
    """The wrong programs of an edit; what can't be read is added to `wrong`."""
    text = edit.read_text(encoding="utf-8")
    several = re.search(r"^# each: ", text, re.M) and re.search(r"^# (?!each:|of:)[a-z]\w*: ", text, re.M)
    out = [] if several else [Program(crate, edit, edit.stem)]
    file = old = ""
    for line in text.split("\n"):
        named = re.match(r"# (?!each:|of:)([a-z]\w*): ", line)
        if several and named:
            out.append(Program(crate, edit, named[1]))
        elif line.startswith("# of: "):
            if out:
                out[-1].of += line[6:].split()
            else:
                wrong.append(f"{edit.relative_to(root)}: '# of:' before the first of its programs")
        elif line.startswith("file: "):
            file = line[6:]
        elif line.startswith("old: "):
            old = line[5:]
        elif line.startswith("new:"):
            if out:
                out[-1].places.append((file, old, line[4:].removeprefix(" ")))
            else:
                wrong.append(f"{edit.relative_to(root)}: a change before the first of its names")
    return out


def edited(folder, places):
    """The texts of the files that the changes make others, by their path in the crate; or what is wrong with the changes."""
    texts = {}
    for file, old, new in places:
        if not re.match(r"(src|specs|proofs)/", file) or ".." in file.split("/") or not (folder / file).is_file():
            return None, "a 'file:' line names no file of the crate under src/, specs/ or proofs/"
        text = texts.get(file) or (folder / file).read_text(encoding="utf-8")
        if not old or text.count(old) != 1:
            return None, f"an 'old:' text is in {file} {text.count(old) if old else 0} times"
        texts[file] = text.replace(old, new)
    return (texts, "") if places else (None, "it has no 'old:' and 'new:' pair")


def alone(root, programs, name):
    """The changes of the programs of an edit that a name of its '# each:' line stands for: by their '# of:' line, or by the function they are in."""
    function, dot, _ = name.partition(".")
    *inner, last = function.split("::")

    def is_meant(p):
        of = p.of if dot else [o.partition(".")[0] for o in p.of]
        if any(o == name or o.endswith(f"::{name}") or name.endswith(f"::{o}") for o in of):
            return True
        for file, old, _ in [] if dot else p.places:
            path = root / "crates" / p.crate / file
            text = path.read_text(encoding="utf-8") if path.is_file() else ""
            at = text.find(old)
            there = file.endswith(f"{'/'.join(inner)}.rt") or (inner and inner[-1] == impl_at(text, at))
            if there and any(b <= at < e and n == last for b, e, n, *_ in functions_of(text)):
                return True
        return False

    return [place for p in programs if is_meant(p) for place in p.places]


# What a log says.

def line_of(said, crate, name):
    """What is told of a function, named as in an '# each:' line or by its whole path."""
    path = name if name.startswith(f"{crate}::") else rf"{crate}::(?:\w+::)*" + name.replace("::", r"::(?:[A-Z]\w*::)?")  # of a type's method, the type too
    found = re.search(rf"^fn {path}: (.*)", said, re.M)
    return found[1] if found else ""


def is_refused(line):
    return line.startswith(("not proved", "no proof"))


def facts_of(said):
    """The lines that tell of a fact that doesn't hold, not of a name that is gone."""
    told = re.findall(r"^\S*:\d+:\d+: error: .*|^note: \S+:\d+:\d+: it is not proved .*|^fn \S+: no proof: expected .*", said, re.M)
    return [t for t in told if not FORM.search(t) and not re.search(r"error: \d+ declarations? that depends? on ", t)]


def proofs_of(folder, function):
    """The files of a function's proof."""
    return [p for name in ("Answers", "Proof", "Invariants") for p in sorted(folder.glob(f"proofs/**/{function.replace('::', '/')}/{name}.antt"))]


def term_of(folder, name):
    """The term of a claim in the proof of the function that promises it, as a match, and that file."""
    function, field = name.split(".")
    for path in proofs_of(folder, function):
        term = re.search(rf"(?<![\w·'-]){re.escape(field)} = ([^;}}]*)", path.read_text(encoding="utf-8"))
        if term:
            return path, term
    return None, None


def words_of(term):
    return re.findall(r"[\w·'-]+", term[1]) if term else []


def claim_refused(folder, said, name, others):
    """What is wrong with how a claim was refused, if anything: an error has to be at its field in the proof, or in the law that is named there, or
    in one that this law uses; not in the law of another of the edit's claims."""
    proof, term = term_of(folder, name)
    if not term:
        return "is no field of a proof"
    errors, uses = {}, {}
    for path, at, column, rest in re.findall(r"proofs/(\S+):(\d+):(\d+): error: (.*)", said):
        law = re.match(r"`([^`]+)`: (.*)", rest)
        if law:
            errors.setdefault(law[1], []).append((path, int(at), int(column), law[2]))
        depends = re.match(r"\d+ declarations? that depends? on `([^`]+)`, which was (?:not admitted|rejected), (?:was|were) not checked: (.*)", rest)
        for user in depends[2].split(", ") if depends else []:
            uses.setdefault(user, []).append(depends[1])
    theirs = {law for other in others for law in words_of(term_of(folder, other)[1])}

    def wrong(law, seen=frozenset()):
        """Whether a law has an error of its own, or uses one that has."""
        if law in theirs or law in seen:
            return False
        own = any(not FORM.search(e[3]) and "was not admitted" not in e[3] for e in errors.get(law, []))
        used = uses.get(law, []) + [m[1] for e in errors.get(law, []) for m in [re.match(r"`([^`]+)` was not admitted", e[3])] if m]
        return own or any(wrong(u, seen | {law}) for u in used)

    if any(wrong(law) for law in words_of(term)):
        return ""
    lines = term.string.split("\n")
    for path, at, column, text in (e for es in errors.values() for e in es):
        offset = sum(len(line) + 1 for line in lines[: at - 1]) + column - 1
        if proof.match(f"proofs/{path}") and term.start(1) <= offset < term.end(1) and "was not admitted" not in text and not FORM.search(text):
            return ""
    return "is not refused"


def function_refused(said, crate, name):
    """The same of a function: it is refused by its own contract, by a fact."""
    line = line_of(said, crate, name)
    if not is_refused(line):
        return "is not refused"
    if CALLEE.match(line):
        return "is refused for a callee's sake"
    folder = name.replace("::", r"/(?:[A-Z]\w*/)?")
    own = re.findall(rf"proofs/(?:\w+/)*{folder}/(?:Answers|Invariants|Proof)\.antt:\S+ error: (.*)", said)
    if own and all(FORM.search(e) for e in own) and "did not prove" not in line:
        return f"is refused for its form: {own[0][:120]}"
    return ""


def refused_by_itself(folder, said, crate, name, names):
    """What is wrong with how a function or a claim of an '# each:' line was refused beside the others, if anything."""
    if "." in name:
        return claim_refused(folder, said, name, [n for n in names if "." in n and n != name])
    return function_refused(said, crate, name)


def answers_of(folder, name):
    """The file of a function's answers, by its path in the crate, and its parts: the head, then one for each answer."""
    for path in [p for p in proofs_of(folder, name.partition(".")[0]) if p.name == "Answers.antt"]:
        return path.relative_to(folder).as_posix(), re.split(r"\n(?=pub )", path.read_text(encoding="utf-8"))
    return None, []


def gone_of(said, file):
    """The goals and the fields that answers name and that are gone; a field with those that are nearest."""
    errors = re.findall(rf"{re.escape(file)}:\S+ error: (.*)", said)
    goals = [m[1] for e in errors for m in [re.match(r"`([^`]+)`: `goal\.\1`: .*can be named from here", e)] if m]
    fields = [(m[1], re.findall(r"\.([\w-]+)", m[2])) for e in errors for m in [re.search(r"has no field `([^`]+)` \(nearest: ([^)]*)\)", e)] if m]
    return goals, fields


def searched(line):
    """The goals of a function that have no answer and that the check doesn't find."""
    return re.findall(r"`([^`]+)`", line.partition("`search` did not prove ")[2].partition(";")[0])


def respelled(parts, old, new):
    return [re.sub(rf"(?<![\w-]){re.escape(old)}(?![\w-])", new, p) for p in parts]


def renamed(answers, goals):
    """The answers, each for another goal."""
    return [respelled([a], a.split(" ")[1], g)[0] for a, g in zip(answers, goals)]


def refused_alone(said, crate, name):
    """The same where its own changes were the only ones: then a claim is refused if the function that promises it is, by a fact."""
    return function_refused(said, crate, name.partition(".")[0]) or ("" if facts_of(said) else "is refused for its form alone")
