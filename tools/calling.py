#!/usr/bin/env python3
"""Writes crates/comemo/CALLING.md: what callers of the crate `comemo` find there, with its contracts.

    python3 tools/calling.py

It has what src/lib.rt and src/internal.rt hand on, in their order: each type or trait with its public methods, each function,
with the first paragraph of its doc comment, its signature, and a line for each clause. It reads the sources alone.
"""
import re

import sources
from sources import ROOT

PAGE = ROOT / "crates" / "comemo" / "CALLING.md"
LIBRARY = ["comemo", *sources.crates()["comemo"]]
HEAD = """# Calling `comemo`

By `tools/calling.py`. What each item is for, its signature, and a line for each clause of its contract. [CLAUSES](../../docs/CLAUSES.md) says the clauses in words, [GUIDE](../../docs/GUIDE.md) how the items are used.

In a clause `x.old` and `x.new` are what a borrowed value was and became, `x.now` what it is throughout. `⟦T as Trait⟧.member` is a ghost member of a trait. `tools/where NAME` prints the files of the other words.
"""


def handed_on(file):
    """The names that a file hands on, each with the crate where it stands."""
    for path, listed, name in re.findall(r"^pub use ([\w:]+)::(?:\{([^}]*)\}|(\w+));", file.read_text(encoding="utf-8"), re.M):
        first = path.partition("::")[0]
        for it in re.findall(r"\w+", listed or name):
            yield first if first in LIBRARY else "comemo", it


def members(block):
    """What a block shows besides its functions: public fields, variants, associated types, and ghost members."""
    shown, at = [], 0
    kinds = {"enum": r"[^#]", "struct": r"pub ", "trait": r"// |type |const |ghost (?!use)", "impl": r"ghost (?!use)"}
    while at < len(block.lines):
        end = at
        while block.lines[at].startswith("    ghost ") and not block.lines[end].endswith(";"):
            end += 1
        line = sources.squeezed(block.lines[at : end + 1])
        if re.match(kinds[block.kind], line) and (block.kind == "enum" or re.match(r" {4}\S", block.lines[at])):
            shown.append(f"    {line}")
        at = end + 1
    return [f"{block.header} {{", *shown, "}"] if shown else [block.header]


def entry(title, doc, lines):
    """A heading, what the item is for, and its lines as code."""
    return "\n".join([f"{title}\n", *([f"{doc}\n"] if doc else []), "```rust", *lines, "```\n"])


def entry_of(function, title):
    return entry(title, function.doc, [function.signature, *(f"    {it}" for it in function.clauses)])


def entries_of(crate, name, blocks, functions):
    """The entries of an item: a function; a type with its public methods; a trait with its methods; a module's functions."""
    for function in functions:
        if not function.block and function.is_public and (function.crate, function.name) == (crate, name):
            yield entry_of(function, f"## `{name}`")
        elif not function.block and function.is_public and (function.crate, function.file.stem, name) == (crate, name, name.lower()):
            yield entry_of(function, f"## `{name}::{function.name}`")
    for block in blocks:
        if block.kind != "impl" and block.is_public and (block.crate, block.type) == (crate, name):
            # A trait that each type has says in its impl what its members are.
            for_all = [it for it in blocks if it.trait == name and re.search(r" for [A-Z]( where|$)", it.header)]
            lines = [line for it in [block, *for_all] for line in members(it)]
            yield entry(f"## `{name}`", block.doc, [*([block.derives] if block.derives else []), *lines])
    for function in functions:
        block = function.block
        if block and block.type == name and not block.trait and (function.is_public or block.kind == "trait"):
            yield entry_of(function, f"### `{function.path}`")


def page():
    """The text of CALLING.md."""
    files = [sources.read(*it) for crate in LIBRARY for it in sources.files(crate)]
    blocks, functions = [it for found, _ in files for it in found], [it for _, found in files for it in found]
    parts = [HEAD]
    for file, title in (("lib.rt", ""), ("internal.rt", "# `comemo::internal`\n\nFew callers name any of it.\n")):
        parts += [title] if title else []
        for crate, name in handed_on(ROOT / "crates" / "comemo" / "src" / file):
            parts += entries_of(crate, name, blocks, functions)
    return "\n".join(parts)


def written():
    """The file that this script writes, with its text."""
    return {PAGE: page()}


if __name__ == "__main__":
    PAGE.write_text(page(), encoding="utf-8")
