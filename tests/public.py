"""The public functions of the crates, as the source has them."""
import glob, re
from collections import namedtuple

# `of` is the type that a method belongs to, or ''; `takes` is a list of (name, type), the const parameters first; `requires` and `ensures`
# are '' where there is none
Function = namedtuple("Function", "path crate of name takes requires ensures")

# a block that methods stand in, its end, or the head of a public function up to its parameters
PARTS = re.compile(r'^(?:impl (\w+)|(\})|\s*pub (?:extern "C" )?fn (\w+)(?:<([^(]*)>)?\()', re.M)


def parameters(words, holder):
    """What stands between a function's brackets, as (name, type)."""
    takes = []
    for part in re.split(r",(?![^\[]*\])", words):
        name, _, kind = (piece.strip() for piece in part.partition(":"))
        if name:
            takes.append((re.sub(r"^&?(mut )?", "", name), kind or holder))
    return takes


def contract(behind):
    """The clauses between a function's parameters and its body: what it requires and what it ensures."""
    result, _, rest = behind.partition("\n")
    if result.endswith("{"):
        return "", ""
    clauses = rest[: re.search(r"^\s*\{$", rest, re.M).start()]
    said = {"requires": "", "ensures": ""}
    for word, clause in re.findall(r"^\s*(requires|ensures)\b[^{]*\{((?:.|\n)*?)\}\s*(?=^\s*(?:requires|ensures)\b|\Z)", clauses, re.M):
        said[word] += clause.strip()
    return said["requires"], said["ensures"]


def functions():
    for path in sorted(glob.glob("crates/*/src/*.rt")):
        with open(path, encoding="utf-8") as source:
            text = source.read()
        crate, holder = path.split("/")[1], ""
        for part in PARTS.finditer(text):
            block, end, name, generic = part.groups()
            if not name:
                holder = block or ""
                continue
            close = text.index(")", part.end())
            consts = re.findall(r"const (\w+): (\w+)", generic or "")
            takes = consts + parameters(text[part.end() : close], holder)
            yield Function(path, crate, holder, name, takes, *contract(text[close:]))
