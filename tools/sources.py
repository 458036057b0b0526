"""What stands in the files of crates/*/src, as `rt fmt` lays them out: types, traits and functions with their contracts.

The other scripts of this folder read it. It reads files alone.
"""
import re
from dataclasses import dataclass, field
from pathlib import Path

ROOT = Path(__file__).resolve().parent.parent
VISIBLE = r"(?P<public>pub(?:\(\w+\))? )?"
FUNCTION = re.compile(rf"(?P<indent> *){VISIBLE}(?:final |const |unsafe )*fn (?P<name>\w+)")
BLOCK = re.compile(rf"{VISIBLE}(?:unsafe )?(?P<kind>impl|trait|struct|enum)\b")
CLAUSE = re.compile(r"\s*(?:requires|ensures)\*?(?: \w+)? \{")


@dataclass
class Block:
    """An `impl`, a trait, a struct or an enum: its first and last line, and the lines between."""

    crate: str
    file: Path
    first: int
    last: int
    kind: str
    header: str
    names: list
    is_public: bool
    doc: str
    derives: str
    lines: list

    @property
    def type(self):
        """The name of the type or trait. It stands last, after the trait of an `impl`."""
        return self.names[-1]

    @property
    def trait(self):
        """The trait of an `impl`, if it has one."""
        return self.names[0] if len(self.names) > 1 else ""


@dataclass
class Function:
    """A function: where it stands, and its contract, a string for each clause."""

    crate: str
    file: Path
    first: int
    last: int
    name: str
    is_public: bool
    doc: str
    cycle: str
    signature: str
    clauses: list = field(default_factory=list)
    block: Block = None

    @property
    def path(self):
        """The name, after that of its type or trait."""
        return f"{self.block.type}::{self.name}" if self.block else self.name


def crates():
    """The crates of crates.txt, in its order, each with those that it stands on."""
    lines = re.findall(r"^(\w+)[^:#\n]*:(.*)$", (ROOT / "crates.txt").read_text(encoding="utf-8"), re.M)
    return {crate: below.split() for crate, below in lines}


def files(crate="*"):
    """The files of code, each with its crate."""
    for file in sorted(ROOT.glob(f"crates/{crate}/src/**/*.rt")):
        yield file.relative_to(ROOT / "crates").parts[0], file


def module_of(file):
    """The path of a module in its crate, as `pending` or `files/text`; that of the root is empty."""
    parts = file.relative_to(ROOT).with_suffix("").parts[3:]
    return "" if parts[0] in ("lib", "main") else "/".join(parts)


def squeezed(lines):
    """Several lines as one line."""
    return " ".join(" ".join(lines).split())


def squeezed_head(lines):
    """The lines of a head as one, without the commas that end lists."""
    return re.sub(r",? ([)>])|([(<]) (?=\S)", lambda it: it[1] or it[2], squeezed(lines)).removesuffix(",")


def without_parameters(text):
    """A type without what stands in angle brackets."""
    while (less := re.sub(r"<[^<>]*>", "", text.replace("->", ""))) != text:
        text = less
    return text


def names_of(header):
    """The trait and the type of an `impl`, or the name of the type or trait that a header begins."""
    if not header.startswith("impl"):
        return [re.search(r"(?:trait|struct|enum) (\w+)", header)[1]]
    bare = re.sub(r"&('\w+ )?(mut )?", "", without_parameters(header).split(" where ")[0])
    return [re.sub(r"\W", "", part.split("::")[-1]) for part in bare.removeprefix("impl").split(" for ")]


def doc_above(lines, at):
    """The first paragraph of the doc comment above a line, and the derives between."""
    derives, above = "", at - 1
    while above >= 0 and lines[above].strip().startswith("#["):
        derives = lines[above].strip() if "derive" in lines[above] else derives
        above -= 1
    last = above
    while above >= 0 and lines[above].strip().startswith("///"):
        above -= 1
    text = " ".join(line.strip()[3:].strip() or "\n" for line in lines[above + 1 : last + 1])
    return text.partition("\n")[0].strip(), derives


def end_of(lines, at, indent):
    """The line of the closing brace of what begins here, at the same indent."""
    end = at
    while end < len(lines) and lines[end].rstrip() != f"{indent}}}":
        end += 1
    return end


def block_at(crate, file, lines, at):
    """The `impl`, trait, struct or enum that begins at a line."""
    found, end = BLOCK.match(lines[at]), at
    while not lines[end].rstrip().endswith(("{", "{}", ";")):
        end += 1
    header = squeezed_head([re.sub(r" ?(\{\}?|;)$", "", it) for it in lines[at : end + 1]])
    bare = re.sub(r"^pub(\(\w+\))? |unsafe ", "", header)
    last = end if not lines[end].rstrip().endswith("{") else end_of(lines, end, "")
    doc, derives = doc_above(lines, at)
    public = found["public"] == "pub "
    body = lines[end + 1 : last]
    return Block(crate, file, at + 1, last + 1, found["kind"], header, names_of(bare), public, doc, derives, body)


def head_of(lines, at):
    """The lines of a function's head, those of each of its clauses, and the line that ends both."""
    head, clauses, depth, end = [], [], 0, at
    while end < len(lines):
        line = lines[end].rstrip()
        if CLAUSE.match(line) and depth == 0:
            clauses.append([])
        elif depth == 0 and (not clauses and line.endswith(("{", "{}")) or line.strip() in ("{", "{}")):
            return [*head, re.sub(r" ?\{\}?$", "", line)], clauses, end
        (clauses[-1] if clauses else head).append(line)
        depth += line.count("{") - line.count("}")
        if depth == 0 and line.endswith(";"):
            break
        end += 1
    return head, clauses, end


def function_at(crate, file, lines, at, cycle):
    """The function that begins at a line."""
    found = FUNCTION.match(lines[at])
    head, clauses, end = head_of(lines, at)
    is_bodiless = lines[end].rstrip().endswith((";", "{}"))
    last = end if is_bodiless else end_of(lines, end, found["indent"])
    public, doc = found["public"] == "pub ", doc_above(lines, at)[0]
    signature = squeezed_head([it.removesuffix(";") for it in head])
    contract = [squeezed(it).removesuffix(";") for it in clauses]
    return Function(crate, file, at + 1, last + 1, found["name"], public, doc, cycle, signature, contract)


def read(crate, file):
    """The blocks of a file, and its functions."""
    lines = file.read_text(encoding="utf-8").split("\n")
    blocks, functions, cycle = [], [], ""
    for at, line in enumerate(lines):
        named = re.match(r"\s*#\[cycle\((\w+)\)\]", line)
        cycle = named[1] if named else cycle
        if BLOCK.match(line):
            blocks.append(block_at(crate, file, lines, at))
        elif found := FUNCTION.match(line):
            functions.append(function_at(crate, file, lines, at, cycle))
            cycle = ""
            around = [it for it in blocks if it.first <= at <= it.last]
            functions[-1].block = around[-1] if found["indent"] and around else None
    return blocks, functions
