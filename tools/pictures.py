#!/usr/bin/env python3
"""Draws the pictures of README, from what the documents say.

    python3 tools/pictures.py

docs/times.svg has the times of calls from the first table of docs/MEASUREMENTS.md, a bar for each of the two programs; each
pair of bars has a scale of its own. docs/tree.svg is the tree that docs/ARCHITECTURE.md prints, with the path of a look-up.
"""
import re
from html import escape
from pathlib import Path

DOCS = Path(__file__).resolve().parent.parent / "docs"
DARK, PALE, BLUE = "#222", "#aaa", "#1f5fa8"


def text(x, y, words, anchor="start", size=13, fill=DARK, weight="normal"):
    return f'<text x="{x}" y="{y}" font-size="{size}" text-anchor="{anchor}" fill="{fill}" font-weight="{weight}">{escape(words)}</text>'


def bar(x, y, width, fill, height=14):
    return f'<rect x="{x}" y="{y}" width="{width:.1f}" height="{height}" fill="{fill}"/>'


def picture(width, height, title, shapes):
    """An SVG with dark text on white."""
    head = f'<svg xmlns="http://www.w3.org/2000/svg" width="{width}" height="{height}" viewBox="0 0 {width} {height}" '
    lines = [f'{head}font-family="sans-serif" role="img">', f"<title>{escape(title)}</title>", bar(0, 0, width, "#fff", height)]
    return "\n".join([*lines, *shapes, "</svg>\n"])


def times():
    """The rows of the table of calls: the questions, and for hits and first runs comemo's time and that here."""
    page = (DOCS / "MEASUREMENTS.md").read_text(encoding="utf-8")
    for row in re.findall(r"^\| [\d,]+ \|.*→.*→.*\|$", page.partition("| Questions | Hit | First run |")[2].partition("\n\n")[0], re.M):
        questions, *cells = [cell.strip() for cell in row.strip("|").split("|")]
        # Of two times of comemo's the first is the lower: calls by one view.
        yield questions, [[side.split(", ")[0] for side in cell.split("→")] for cell in cells]


def bars():
    """The times of hits, and of first runs."""
    full, shapes = 150, [bar(20, 16, 14, PALE), text(40, 28, "comemo"), bar(120, 16, 14, BLUE), text(140, 28, "Nilgushan")]
    shapes.append(text(660, 28, "nanoseconds a call; each pair has its own scale", "end"))
    for column, name in ((120, "A hit"), (430, "A first run")):
        shapes.append(text(column, 62, name, weight="bold"))
    for number, (questions, kinds) in enumerate(times()):
        y = 78 + 48 * number
        shapes.append(text(108, y + 20, f"{questions} question{'' if questions == '1' else 's'}", "end"))
        for column, (theirs, ours) in zip((120, 430), kinds):
            share = float(ours.replace(",", "")) / float(theirs.replace(",", ""))
            shapes += [bar(column, y, full, PALE), text(column + full + 8, y + 12, theirs)]
            shapes += [bar(column, y + 16, full * share, BLUE), text(round(column + full * share + 8), y + 28, ours)]
    return picture(680, 86 + 48 * (number + 1), "Times of hits and first runs, comemo and Nilgushan", shapes)


def printed_tree():
    """The lines of the printed tree: how deep each is, its call, its answer, and the output that this leads to, if any."""
    page = (DOCS / "ARCHITECTURE.md").read_text(encoding="utf-8")
    for line in page.partition("```text\nkey 1\n")[2].partition("```")[0].splitlines():
        indent, call, answer, output = re.fullmatch(r"( *)('\w') = (\d+)(?:: (\"\w+\"))?", line).groups()
        yield len(indent) // 2 - 1, call, answer, output


class Tree:
    """The tree, drawn from left to right. A look-up takes the first answer of each call."""

    def __init__(self, lines):
        self.lines, self.shapes, self.rows = list(lines), [], 0

    def box(self, x, y, words, is_found):
        colour, stroke = (BLUE, 3) if is_found else (DARK, 1)
        place = f'x="{x}" y="{y - 16}" width="90" height="32" rx="6"'
        self.shapes.append(f'<rect {place} fill="#fff" stroke="{colour}" stroke-width="{stroke}"/>')
        self.shapes.append(text(x + 45, y + 5, words, "middle", 14, colour))

    def edge(self, x, y, end, answer, is_found):
        colour, stroke = (BLUE, 3) if is_found else (DARK, 1)
        ends = f'x1="{x + 90}" y1="{y}" x2="{x + 200}" y2="{end}"'
        self.shapes.append(f'<line {ends} stroke="{colour}" stroke-width="{stroke}"/>')
        middle = (y + end) // 2
        self.shapes += [bar(x + 131, middle - 9, 30, "#fff", 18), text(x + 146, middle + 5, answer, "middle", 13, colour)]

    def draw(self, first, last, is_found):
        """Draws the call of some lines, with all that follows from its answers. Returns how high it stands."""
        depth, call, _, _ = self.lines[first]
        starts = [at for at in range(first, last) if self.lines[at][0] == depth]
        x, ends = 20 + 200 * depth, []
        for at, after in zip(starts, [*starts[1:], last]):
            is_next, output = is_found and at == first, self.lines[at][3]
            if output:
                ends.append(40 + 50 * self.rows)
                self.rows += 1
                self.box(x + 200, ends[-1], output, is_next)
            else:
                ends.append(self.draw(at + 1, after, is_next))
        y = (ends[0] + ends[-1]) // 2
        for at, end in zip(starts, ends):
            self.edge(x, y, end, self.lines[at][2], is_found and at == first)
        self.box(x, y, f"asks {call}", is_found)
        return y


def tree():
    """The printed tree, and how a call finds an output in it."""
    drawn = Tree(printed_tree())
    drawn.draw(0, len(drawn.lines), True)
    found = next(it for it in drawn.lines if it[3])
    path = [it for it in drawn.lines[: drawn.lines.index(found) + 1] if it[0] <= found[0]]
    asked = ", then ".join(f"{call}, which answers {answer}" for _, call, answer, _ in path)
    bottom = 40 + 50 * drawn.rows
    words = [f"A hit asks {asked}: the output is {found[3]}.", "Where no line has the answer, the function runs."]
    captions = [text(20, bottom + 20 * at, line) for at, line in enumerate(words)]
    return picture(560, bottom + 36, "How a hit is found", [*drawn.shapes, *captions])


def written():
    """The files that this script writes, each with its text."""
    return {DOCS / "times.svg": bars(), DOCS / "tree.svg": tree()}


if __name__ == "__main__":
    for file, drawn in written().items():
        file.write_text(drawn, encoding="utf-8")
