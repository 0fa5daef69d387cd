"""The functions of a .rt file and their contracts, as the tools read them."""
import re

HEAD = re.compile(r'^(?P<indent> *)(?P<pub>pub )?(?:pub\([^)]*\) )?(?:extern "C" )?fn (?P<name>\w+)', re.M)
END = re.compile(r"^(?P<indent> *)\{?\}", re.M)
PAIRS = {"(": ")", "[": "]", "{": "}"}
IMPL = re.compile(r"^impl(?:<[^>{]*>)? (?:(?P<trait>[^{]*?) for )?(?P<type>[^{]*?) \{$", re.M)


def impl_at(text, at):
    """The name that Rattle gives the impl that a place of a file is in, as KeyNumbersFromResultUsizeRefusal; none outside of one."""
    before = [m for m in IMPL.finditer(text) if m.start() <= at < text.index("\n}", m.end())]
    return "".join(w[0].upper() + w[1:] for part in (before[0]["type"], before[0]["trait"] or "") for w in re.findall(r"(?<!')\b\w+", part)) if before else ""


def functions_of(text):
    """Each function of a file: where it begins and ends, its name, whether it is public, its text."""
    out = []
    for m in HEAD.finditer(text):
        end = next((e for e in END.finditer(text, m.end()) if e["indent"] == m["indent"]), None)
        out.append((m.start(), end.end() if end else len(text), m["name"], bool(m["pub"]), text[m.start() : end.end() if end else len(text)]))
    return out


def conversions_of(text):
    """Each function of an impl that promises by a ghost member, as `From` does: where it begins and ends, and its name with the impl's."""
    out = []
    for m in IMPL.finditer(text):
        end = text.index("\n}", m.end())
        if m["trait"] and re.search(r"^    ghost \w+ = ", text[m.end() : end], re.M):
            out += [(m.start(), e, f"{impl_at(text, b)}::{name}") for b, e, name, *_ in functions_of(text) if m.end() <= b < end]
    return out


def after(text, at):
    """The index after the bracket that closes the one at `at`."""
    close = []
    for i in range(at, len(text)):
        if text[i] in PAIRS:
            close.append(PAIRS[text[i]])
        elif close and text[i] == close[-1]:
            close.pop()
            if not close:
                return i + 1
    return len(text)


def contract_of(whole):
    """A function's head and its clauses, each with its kind (requires or ensures), its name or "", and its text."""
    whole = re.sub(r"//.*", "", whole)
    begin, clauses = whole.find("{"), []
    head = re.sub(r"\s*\b(?:requires|ensures)(?: \w+)?\s*\Z", "", whole[:begin])
    at = len(head)
    while m := re.match(r"\s*(requires|ensures)(?: (\w+))?\s*(?=\{)", whole[at:]):
        end = after(whole, at + m.end())
        clauses.append((m[1], m[2] or "", whole[at + m.end() + 1 : end - 1].strip()))
        at = end
    return head, clauses


def claimed_by(clauses):
    """The first names of the clauses of a function that promises claims."""
    return [m[0] for kind, _, text in clauses if kind == "ensures" for m in [re.match(r"\w+", text)] if m]
