"""The functions and the structs of the libraries, read from their sources; for tests/once and tests/contracts."""
import dataclasses
import pathlib
import re

CRATES = pathlib.Path(__file__).resolve().parents[2] / "crates"
CLOSING = {"(": ")", "[": "]", "{": "}", "<": ">"}


@dataclasses.dataclass
class Function:
    path: pathlib.Path
    crate: str
    module: str  # the path of its file below src/ with points between, and '' for lib.rt
    owner: str  # the type of a method, or ''
    name: str
    public: bool  # other crates can call it, or a host
    exported: bool
    parameters: list  # of (name, type)
    result: str  # the type, or ''
    requires: list
    ensures: list

    @property
    def called(self):
        return f"{self.owner}::{self.name}" if self.owner else self.name

    @property
    def lent(self):
        """The numbers of the parameters that are lent to be changed."""
        return [i for i, (_, type_) in enumerate(self.parameters) if re.match(r"&('\w+ )?mut ", type_)]


def code(path):
    """A source without its comments. A text or a byte may have '//' in it."""
    text = path.read_text()
    if "/*" in text:
        raise SystemExit(f"{path}: a comment that begins with '/*' is not read here; write '//'")
    return re.sub(r"""(b?"(?:\\.|[^"\\])*"|b?'(?:\\.|[^'\\])')|//[^\n]*""", lambda m: m[1] or "", text)


def closed(text, at):
    """The place after the bracket that closes the one at this place. An arrow ends in no bracket."""
    opening, depth = text[at], 0
    for i in range(at, len(text)):
        depth += (text[i] == opening) - (text[i] == CLOSING[opening] and text[i - 1 : i + 1] != "->")
        if depth == 0:
            return i + 1
    raise SystemExit(f"a bracket is not closed: {text[at:at + 80]}")


def split(text, separator=","):
    """The parts of a text between separators that stand in no brackets."""
    parts, depth = [""], 0
    for c in text:
        depth += (c in "([{<") - (c in ")]}>")
        if c == separator and depth == 0:
            parts.append("")
        else:
            parts[-1] += c
    return [part.strip() for part in parts if part.strip()]


def typed(text, owner):
    """A parameter as its name and its type."""
    name, _, type_ = text.partition(":")
    if not type_:
        return "self", name.strip().replace("self", owner)
    return name.replace("mut ", "").strip(), " ".join(type_.split())


def functions_of(path, crate, module):
    text = code(path)
    owners = [(m.start(), closed(text, m.end() - 1), m[1]) for m in re.finditer(r"^impl(?:<[^>]*>)? (\w+)[^{]*\{", text, re.M)]
    for m in re.finditer(r'((?:#\[[^\]]*\]\s*)*)\b(pub\s+)?((?:const |unsafe |extern |"C" )*)fn (\w+)', text):
        exported = "extern" in m[3] or "no_mangle" in m[1]
        owner = next((name for begin, end, name in owners if begin < m.start() < end), "")
        at = closed(text, m.end()) if text[m.end()] == "<" else m.end()
        end = closed(text, at)
        parameters = [typed(p, owner) for p in split(text[at + 1 : end - 1])]
        head = re.compile(r"\s*(?:->\s*(.*?))?\s*(?:\bwhere\b.*?)?(?=\b(?:requires|ensures|ghost)\b|\{)", re.S).match(text, end)
        at, clauses = head.end(), {"requires": [], "ensures": [], "ghost": []}
        while clause := re.compile(r"\s*(requires|ensures|ghost)\b[^{]*\{").match(text, at):
            at = closed(text, clause.end() - 1)
            clauses[clause[1]].append(" ".join(text[clause.end() : at - 1].split()))
        contract = clauses["requires"], clauses["ensures"]
        yield Function(path, crate, module, owner, m[4], bool(m[2]) or exported, exported, parameters, head[1] or "", *contract)


def sources(root):
    """The sources of the crates with this root, lib.rt or main.rt, each with its crate and its module."""
    for found in sorted(CRATES.glob(f"*/src/{root}")):
        for path in sorted(found.parent.rglob("*.rt")):
            module = ".".join(path.relative_to(found.parent).with_suffix("").parts)
            yield path, found.parts[-3], "" if path == found else module


def functions():
    return [f for path, crate, module in sources("lib.rt") for f in functions_of(path, crate, module)]


def public_functions():
    return [f for f in functions() if f.public]


def structs():
    """The fields of each struct of the libraries, by its name."""
    fields = {}
    for path, _, _ in sources("lib.rt"):
        text = code(path)
        for m in re.finditer(r"\bstruct (\w+)(?:<[^>]*>)?\s*\{", text):
            fields[m[1]] = [typed(f.removeprefix("pub "), "") for f in split(text[m.end() : closed(text, m.end() - 1) - 1])]
    return fields
