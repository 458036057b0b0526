#!/usr/bin/env python3
"""Checks that what the documents name is there.

- Each path, crate, file of definitions or of lemmas, and edit that they name exists; an edit of the gate, unless the line names `tools/planted` or begins with *Planted*.
- Each `Type::member` and `module::item` that they name exists in crates/*/src, and so does the function of each
  `CRATE/src/FILE.rt:FUNCTION`. The first column of docs/DIFFERENCES.md and its last section name the
  original's items, and are left out.
- docs/ARCHITECTURE.md names each crate of crates.txt, and no crate or module names in its code what the table of layers there forbids.
- Each module of a crate has a comment at its head.
- Each README.md of crates/NAME/must-fail and crates/NAME/planted lists the edits of its folder, all and no others. README.md
  says how many there are.
- No crate but those named `*_tests`, and the small `weather`, has a test, not even in a comment: `rt` would prove it
  twice.
- Each line of code that README.md, docs/GUIDE.md and docs/BY_HAND.md quote stands in a file of crates/, laid out so or otherwise, and each
  file that docs/START.md shows is shown whole.
- Each block of docs/PROMISES.md stands so in a file of definitions of `comemo_theorems`, but for how far it is indented.
- The `old:` text of each edit stands exactly once in its file, as the earlier pairs of that edit leave it.
- Each lemma is cited by code, by a proof or by a document.
- crates/comemo/CALLING.md is as `tools/calling.py` writes it, and each picture as `tools/pictures.py` does.
- No document has more words than its budget. The marks of tables and lists are no words.

Prints what is missing, a line for each, and exits with 1; or prints one line of counts and exits with 0.
"""
import re
import sys
from collections import Counter

import calling
import pictures
import sources
from sources import ROOT, names_of

missing, paths, cited, hops = [], set(), set(), set()
# What rt makes, and what is the original's: neither stands in the repository.
ELSEWHERE = ("out", "examples")
# How many words a document may have.
BUDGETS = {
    "README.md": 800,
    "CONTRIBUTING.md": 750,
    "CHANGELOG.md": 300,
    "docs/START.md": 1000,
    "docs/GUIDE.md": 3500,
    "docs/BY_HAND.md": 700,
    "docs/LEMMAS.md": 640,
    "docs/PROMISES.md": 2050,
    "docs/CLAUSES.md": 3320,
    "docs/ARCHITECTURE.md": 2010,
    "docs/DECISIONS.md": 3470,
    "docs/DIFFERENCES.md": 1400,
    "docs/MEASUREMENTS.md": 1290,
    "docs/gate.md": 820,
}


def say(where, what):
    missing.append(f"{where}: {what}")


def read(path):
    return path.read_text(encoding="utf-8")


def name_of(path):
    return str(path.relative_to(ROOT))


CRATES = sources.crates()


def items():
    """For each type, trait, module and crate the names that stand in it; and the names that come from std."""
    named, foreign = {}, set()
    for crate, file in sources.files():
        text = read(file)
        for names in re.findall(r"^use std::([^;]*);", text, re.M):
            foreign |= set(re.findall(r"\w+", names))
        for names in re.findall(r"^pub use ([^;]*);", text, re.M):
            named.setdefault(crate, set()).update(re.findall(r"\w+", names))
        for item in re.findall(r"^(?:pub(?:\(\w+\))? )?(?:const )?(?:fn|struct|enum|trait|type|const) (\w+)", text, re.M):
            named.setdefault(file.stem, set()).add(item)
            named.setdefault(crate, set()).add(item)
        blocks = re.findall(
            r"^((?:pub(?:\(\w+\))? )?(?:unsafe )?(?:impl|trait|struct|enum)\b[^;{]*\{)\n(.*?)^\}", text, re.M | re.S
        )
        for header, body in blocks:
            members = re.findall(r"^    (?:pub(?:\(\w+\))? )?(?:final )?(?:(?:const|fn|type|ghost) )?(\w+)", body, re.M)
            for owner in names_of(re.sub(r"^pub(\(\w+\))? |unsafe |\{$", "", " ".join(header.split()))):
                named.setdefault(owner, set()).update(members)
    return named, foreign


NAMED, FOREIGN = items()


def check_item(where, code):
    """`Type::member`, `Type::{A, B}` or `module::item`, perhaps with what it is called with."""
    found = re.fullmatch(r"(?:\w+::)*(\w+)::(\w+|\{[\w, ]+\})(\(.*)?", code)
    if not found or found[1] in FOREIGN - set(NAMED):
        return
    for name in re.findall(r"\w+", found[2]):
        cited.add(f"{found[1]}::{name}")
        if name not in NAMED.get(found[1], ()):
            say(where, f"no {found[1]}::{name}")


def check_hop(where, code):
    """`CRATE/src/FILE.rt:FUNCTION`, the file perhaps in a folder of src/."""
    path, _, function = code.partition(":")
    file = ROOT / "crates" / path
    hops.add(code)
    if not file.is_file():
        say(where, f"no file {path}")
    elif not re.search(rf"\bfn {function}\b", read(file)):
        say(where, f"{path} has no function {function}")


def has_lemmas(crate, folder, name, seen=()):
    """Whether `Rattle.CRATE.FOLDER.NAME` is a file of that crate, or one that its Lib.antt passes on."""
    lib = ROOT / "crates" / crate / folder / "Lib.antt"
    if not lib.is_file():
        return False
    if re.search(rf"^(pub )?mod {name}$", read(lib), re.M):
        return (lib.parent / f"{name}.antt").is_file()
    passed = re.search(rf"^pub use Rattle\.(\w+)\.{folder}\.{name}$", read(lib), re.M)
    return bool(passed) and passed[1] not in seen and has_lemmas(passed[1], folder, name, (*seen, crate))


def check_path(where, text, at):
    """A path from the top, from the document's folder, or from `crates`; `src/..` is of the crate `at`."""
    text = text.rstrip("/")
    first = text.partition("/")[0]
    if first in ELSEWHERE:
        return
    if first in ("src", "specs", "proofs", "must-fail", "planted") and at is None:
        if "." in text:
            say(where, f"{text} names no crate")
        return
    bases = [ROOT / "crates" / at] if at and first in ("src", "specs", "proofs") else [ROOT, ROOT / "crates"]
    paths.add(text)
    if not any((base / text).exists() for base in bases):
        say(where, f"no file {text}")


def check_document(path):
    where, text = name_of(path), read(path)
    folder = path.parent.name if path.parent.name in ("must-fail", "planted") else None
    at = path.parent.parent.name if folder else None
    for link in re.findall(r"\]\(([^)#:]+)\)", text):
        paths.add(link)
        if not (path.parent / link).exists():
            say(where, f"no file {link}")
    prose = re.sub(r"^```.*?^```$", "", text, flags=re.M | re.S)
    ours = prose
    if where == "docs/DIFFERENCES.md":
        ours = re.sub(r"^\|[^|]*\|", "|", prose.partition("## Not carried")[0], flags=re.M)
    for code in re.findall(r"`([^`\n]+)`", ours):
        check_item(where, code)
    for code in re.findall(r"`([^`\n]+)`", prose):
        if re.fullmatch(r"\w+/src/[\w/]+\.rt:\w+", code):
            check_hop(where, code)
        if re.fullmatch(r"[\w.-]+(/[\w.+-]+)+/?", code):
            check_path(where, code, at)
        elif re.fullmatch(r"[a-z]\w*\.(rt|antt|md|py|txt)", code):
            if not (ROOT / code).is_file() and not (path.parent / code).is_file():
                say(where, f"{code} is named without its folder")
        elif re.fullmatch(r"[a-z]\w*\.[a-z0-9]+(_[a-z0-9]+)+", code):
            # Such a line names edits that `tools/planted` tries.
            line = next(it for it in prose.splitlines() if f"`{code}`" in it)
            kind = folder or ("planted" if "`tools/planted`" in line or line.startswith("*Planted:*") else "must-fail")
            if not any(ROOT.glob(f"crates/{at or '*'}/{kind}/{code}.edit")):
                say(where, f"no edit {code}")
    for word in re.findall(r"(?<![\w/.])(?:docs|tools)/[\w./-]*\w", text):
        check_path(where, word, None)
    for word in re.findall(r"(?<![\w/.-])crates/[\w./+-]*\w", text):
        check_path(where, word, None)
    for crate in re.findall(r"(?<![\w.$])(?:comemo|calc)(?:_[a-z]+)+\b(?!\()", text):
        if crate not in CRATES:
            say(where, f"no crate {crate}")
    for crate, folder, name in re.findall(r"\bRattle\.(\w+)\.(specs|proofs)\.([A-Z]\w*)", text):
        if crate != "std" and not has_lemmas(crate, folder, name):
            say(where, f"no Rattle.{crate}.{folder}.{name}")


def cells(line):
    return [it.strip() for it in line.strip().strip("|").split("|")] if line.startswith("|") else []


def check_crates():
    """Each crate has a folder and is named in docs/ARCHITECTURE.md, and each of its modules has a comment at its head."""
    where = "docs/ARCHITECTURE.md"
    named = set(re.findall(r"`(\w+)`", read(ROOT / where)))
    for crate in CRATES:
        if not (ROOT / "crates" / crate / "src").is_dir():
            say("crates.txt", f"no folder of {crate}")
        if crate not in named:
            say(where, f"the crate {crate} is not named")
    for folder in (ROOT / "crates").iterdir():
        if folder.is_dir() and folder.name not in CRATES:
            say("crates.txt", f"{folder.name} is not listed")
    for _, file in sources.files():
        if not read(file).startswith("//! "):
            say(name_of(file), "has no comment at its head")


def check_layers():
    """The rows of the table of layers: the code of these crates and modules, but for what they hand on, has none of these words."""
    where = "docs/ARCHITECTURE.md"
    table = read(ROOT / where).partition("| Crates | Never name |")[2].partition("\n\n")[0]
    rows = [re.findall(r"`([\w/]+)`", cell) for row in map(cells, table.splitlines()) if len(row) > 1 for cell in row[:2]]
    if not rows:
        say(where, "no table of layers")
    for crates, words in zip(rows[::2], rows[1::2]):
        for _, file in sources.files():
            module = str(file.relative_to(ROOT / "crates").with_suffix("")) + "/"
            if not any(module.startswith(f"{it}/") for it in crates) or file.stem in ("lib", "main"):
                continue
            code = re.sub(r"\bpub use [^;]*;", "", re.sub(r"//.*", "", read(file)))
            for word in words:
                if re.search(rf"\b{word}\b", code):
                    say(name_of(file), f"names {word}, which {where} forbids")


def check_budgets():
    for where, budget in BUDGETS.items():
        words = sum(bool(re.search(r"\w", it)) for it in read(ROOT / where).split())
        if words > budget:
            say(where, f"{words} words, {words - budget} more than its budget of {budget}")


def check_tests():
    """`rt` takes a crate for one of tests at the first test attribute that it reads, also in a comment."""
    for crate, file in sources.files():
        if crate != "weather" and not crate.endswith("_tests") and re.search(r"#\s*\[[^]]*\btest\b", read(file)):
            say(name_of(file), "has a test attribute, and is not of a crate of tests")


def check_edit(edit):
    where, texts, path, old = name_of(edit), {}, None, None
    for line in read(edit).split("\n"):
        if line.startswith("file: "):
            path = line[len("file: "):].strip()
            file = edit.parent.parent / path
            if path not in texts:
                texts[path] = read(file) if file.is_file() else ""
                if not file.is_file():
                    say(where, f"no file {path}")
        elif line.startswith("old: "):
            old = line[len("old: "):]
        elif line.startswith("new:"):
            if path is None or not old:
                say(where, "a 'new:' line stands before any 'file:' or 'old:' line")
                return
            if texts[path].count(old) != 1:
                say(where, f"'{old.strip()}' stands {texts[path].count(old)} times in {path}")
            texts[path] = texts[path].replace(old, line[len("new:"):].removeprefix(" "), 1)
            old = None
    if path is None:
        say(where, "it names no file")


def check_edits():
    edits = sorted([*ROOT.glob("crates/*/must-fail/*.edit"), *ROOT.glob("crates/*/planted/*.edit")])
    for folder in sorted({edit.parent for edit in edits}):
        list_of = folder / "README.md"
        if not list_of.is_file():
            say(name_of(folder), "no README.md")
            continue
        listed = re.findall(r"^ *- `([a-z]\w*\.\w+)`", read(list_of), re.M)
        there = {edit.stem for edit in edits if edit.parent == folder}
        for name in sorted(there - set(listed)):
            say(name_of(list_of), f"{name} is not listed")
        for name in sorted(set(listed) - there):
            say(name_of(list_of), f"no edit {name}")
        for name in sorted({it for it in listed if listed.count(it) > 1}):
            say(name_of(list_of), f"{name} is listed twice")
    for edit in edits:
        check_edit(edit)
    for kind, told in (("must-fail", r"tries (\d+) wrong bodies"), ("planted", r"# (\d+) more, after")):
        count, found = sum(it.parent.name == kind for it in edits), re.search(told, read(ROOT / "README.md"))
        if not found or int(found[1]) != count:
            say("README.md", f"the folders {kind} have {count} edits")
    return len(edits)


def squeezed(text):
    """Without layout: comments, blanks, and commas at the end of a list."""
    text = re.sub(r"^\s*(//|--).*$", "", text, flags=re.M)
    return re.sub(r",(?=[)}\]>])", "", re.sub(r"\s+", "", text))


def check_quotes():
    """What a document shows of the code is there."""
    files = [it for kind in ("rt", "antt") for it in sorted(ROOT.glob(f"crates/*/*/**/*.{kind}")) if "/out/" not in str(it)]
    there = "\n".join(squeezed(read(it)) for it in files)
    lines, end = 0, 0
    blocks = [
        (where, block)
        for where in ("README.md", "docs/GUIDE.md", "docs/BY_HAND.md")
        for block in re.findall(r"^```(?:rust|antt)\n(.*?)^```$", read(ROOT / where), re.M | re.S)
    ]
    for where, block in blocks:
        # calls that the reader is to make
        if re.fullmatch(r"(?:let .*\n)+|loop [^\0]*", block):
            continue
        for line in block.splitlines():
            # two dots leave something out
            parts = [squeezed(it).rstrip(",{") for it in re.split(r"(?<!\.)\.\.(?![.\w])", line)]
            lines += 1
            if not all(it in there for it in parts):
                say(where, f"no file has the line: {line.strip()}")
    text = read(ROOT / "docs/START.md")
    for block in re.finditer(r"^```(?:rust|antt)\n(.*?)^```$", text, re.M | re.S):
        shown = re.findall(r"`(crates/[\w./+-]+)`", text[end:block.start()])
        end = block.end()
        if not shown or not (ROOT / shown[-1]).is_file() or read(ROOT / shown[-1]) != block[1]:
            say("docs/START.md", f"{shown[-1] if shown else 'a block'} is not shown as it is")
    return lines


def unindented(text):
    return "".join(line.strip() + "\n" for line in text.splitlines())


def check_theorems():
    """A theorem that docs/PROMISES.md shows is one that is proved."""
    where = "docs/PROMISES.md"
    there = [unindented(read(it)) for it in sorted(ROOT.glob("crates/comemo_theorems/specs/*.antt"))]
    blocks = re.findall(r"^```antt\n(.*?)^```$", read(ROOT / where), re.M | re.S)
    for block in blocks:
        if not any("\n" + unindented(block) in it for it in there):
            say(where, f"no definition begins so: {block.splitlines()[0]}")
    return len(blocks)


def check_lemmas():
    """A name that is declared and defined in a file of lemmas or definitions, and stands nowhere else, is of no use."""
    files = [it for kind in ("rt", "antt") for it in sorted(ROOT.glob(f"crates/*/*/**/*.{kind}")) if "/out/" not in str(it)]
    texts = {it: re.sub(r"(^|\s)(--|//).*", "", read(it)) for it in [*files, *ROOT.glob("docs/*.md")]}
    counts = Counter(word for text in texts.values() for word in re.findall(r"[\w'-]+", text))
    for file, text in texts.items():
        if file.suffix == ".antt" and file.parent.name in ("specs", "proofs"):
            for name in re.findall(r"^ *(?:abbrev )?(?:pub )?([\w'-]+) : .*\n *\1(?![\w'-])", text, re.M):
                if counts[name] == 2:
                    say(name_of(file), f"nothing cites {name}")


def check_written():
    """What a script writes is as it would write it now."""
    for script in (calling, pictures):
        for file, text in script.written().items():
            if not file.is_file() or read(file) != text:
                say(name_of(file), f"is not as tools/{script.__name__}.py writes it")


def main():
    for pattern in ("*.md", "docs/*.md", "crates/*/README.md", "crates/*/must-fail/README.md", "crates/*/planted/README.md"):
        for document in sorted(ROOT.glob(pattern)):
            check_document(document)
    check_crates()
    check_layers()
    check_tests()
    check_budgets()
    check_lemmas()
    check_written()
    edits = check_edits()
    lines = check_quotes()
    theorems = check_theorems()
    if missing:
        print("\n".join(dict.fromkeys(missing)))
        return 1
    counts = f"{len(paths)} paths, {len(cited)} items, {len(hops)} hops, {edits} edits, {len(CRATES)} crates, {lines} lines and {theorems} theorems quoted"
    print(f"{counts}: all is there")
    return 0


if __name__ == "__main__":
    sys.exit(main())
