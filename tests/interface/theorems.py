"""Imports and statements, read from a file of antt; for tests/once."""
import re


def plain(text):
    return " ".join(text.split())


def lines(text):
    """The lines of a file without its comments, each with those that go on with it: they are indented."""
    if "{-" in text:
        raise SystemExit("a comment that begins with '{-' is not read here; write '--'")
    return [plain(line) for line in re.split(r"\n(?=\S)", re.sub(r"--.*", "", text))]


def imports(text):
    """Where each imported name comes from, under the name that it has in the file; an operator is under its word."""
    found = {}
    for line in lines(text):
        use = re.fullmatch(r"(?:ghost |pub |unfoldable )*use ([^\s{;]+?)(?:\.\{([^}]*)\})?(?: as (\S+?))?;?", line)
        if use and use[2]:
            for item in use[2].split(","):
                name, _, other = item.strip().partition(" as ")
                found[(other or name).strip("◌")] = f"{use[1]}.{name}"
        elif use:
            found[use[3] or use[1].rpartition(".")[2]] = use[1]
    return found


def statement(text, theorem):
    """What the theorem says, if it is there, public and followed by its proof; else ''."""
    read = [line for line in lines(text) if not line.startswith("unfolding ")]
    for line, proof in zip(read, read[1:]):
        if line.startswith(f"pub {theorem} : ") and proof.startswith(f"{theorem} "):
            return line.partition(" : ")[2]
    return ""
