#!/usr/bin/env python3
"""Draws the pictures of the documents: `tools/gate/pictures.py [--check]` writes docs/pictures/*.svg, or only looks
whether they are what it would write. Each picture has a ground of its own, so it can be read on a light and on a dark
page."""
import pathlib
import sys
from xml.sax.saxutils import escape

FOLDER = pathlib.Path(__file__).resolve().parents[2] / "docs" / "pictures"
SANS = "DejaVu Sans, Verdana, Arial, sans-serif"
MONO = "DejaVu Sans Mono, Menlo, Consolas, monospace"
GROUND, INK, GREY, PALE = "#fdfcf8", "#1f2933", "#66727f", "#e4e7eb"
BLUE, BLUE_PALE = "#1d5fa8", "#d8e7f7"
GREEN, GREEN_PALE = "#23703b", "#d9efdf"
ORANGE, ORANGE_PALE = "#a84e0b", "#fbe6d3"
BLOCK = 4096


class Picture:
    """An SVG that grows by its shapes. Lengths are in its own units, which are pixels at its own size."""

    def __init__(self, name, width, height, tells):
        self.name, self.width, self.height = name, width, height
        self.parts = [f"<title>{escape(tells)}</title>"]
        for colour in (INK, GREY, BLUE, GREEN, ORANGE):
            self.parts.append(
                f'<marker id="to{colour[1:]}" viewBox="0 0 10 10" refX="9" refY="5" markerWidth="8" markerHeight="8"'
                f' orient="auto"><path d="M0,0 L10,5 L0,10 z" fill="{colour}"/></marker>'
            )
        self.rect(0.5, 0.5, width - 1, height - 1, GROUND, PALE, radius=10)

    def rect(self, x, y, width, height, fill, line=INK, radius=4, dashes=""):
        dashed = f' stroke-dasharray="{dashes}"' if dashes else ""
        self.parts.append(
            f'<rect x="{x}" y="{y}" width="{width}" height="{height}" rx="{radius}" fill="{fill}" stroke="{line}"'
            f' stroke-width="1.5"{dashed}/>'
        )

    def dot(self, x, y, colour, radius=6, fill=None):
        paint = f'fill="{fill or colour}" stroke="{colour}" stroke-width="2"'
        self.parts.append(f'<circle cx="{x}" cy="{y}" r="{radius}" {paint}/>')

    def line(self, points, colour=INK, width=1.5, dashes="", arrow=False):
        way = " ".join(f"{x},{y}" for x, y in points)
        more = f' stroke-dasharray="{dashes}"' if dashes else ""
        more += f' marker-end="url(#to{colour[1:]})"' if arrow else ""
        self.parts.append(f'<polyline points="{way}" fill="none" stroke="{colour}" stroke-width="{width}"{more}/>')

    def text(self, x, y, text, size=14, colour=INK, at="start", mono=False, bold=False):
        paint = f'font-family="{MONO if mono else SANS}" font-size="{size}" fill="{colour}" text-anchor="{at}"'
        weight = ' font-weight="bold"' if bold else ""
        self.parts.append(
            f'<text x="{x}" y="{y}" {paint}{weight}>{escape(text)}</text>'
        )

    def texts(self, x, y, lines, size=14, step=18, **how):
        for at, text in enumerate(lines):
            self.text(x, y + at * step, text, size, **how)

    def box(self, x, y, width, height, lines, fill, line, size=14, mono=False, bold=False, colour=INK):
        """A rectangle with lines in its middle."""
        self.rect(x, y, width, height, fill, line)
        first = y + height / 2 - (len(lines) - 1) * (size + 4) / 2 + size * 0.36
        self.texts(x + width / 2, first, lines, size, size + 4, at="middle", mono=mono, bold=bold, colour=colour)

    def svg(self):
        size = f'width="{self.width}" height="{self.height}" viewBox="0 0 {self.width} {self.height}"'
        head = f'<svg xmlns="http://www.w3.org/2000/svg" {size}>'
        return "\n".join([head, *self.parts, "</svg>", ""])


def designs():
    """Designs over time, with a merge and a post."""
    it = Picture("designs", 960, 430, "Designs over time: two alternatives under top, two posts, a merge and a commit")
    top, south, north = 110, 215, 320
    it.text(24, 36, "Designs over time", 18, bold=True)
    it.text(936, 36, "time goes to the right", 13, GREY, at="end")
    lanes = [(top, "top", "as it is built"), (south, "south", "a design"), (north, "north", "another design")]
    for y, name, tells in lanes:
        it.text(24, y - 2, name, 15, mono=True, bold=True)
        it.text(24, y + 17, tells, 12, GREY)
    it.line([(150, top), (920, top)], BLUE, 4)
    it.line([(245, south), (455, south)], GREEN, 4)
    it.line([(220, north), (800, north)], ORANGE, 4)
    it.line([(180, top), (245, south)], GREEN, 2, arrow=True)
    it.line([(165, top), (220, north)], ORANGE, 2, arrow=True)
    it.dot(165, top, BLUE)
    it.dot(182, top, BLUE)
    it.text(174, top - 16, "new", 13, at="middle", mono=True)
    # south: two changes, then its post
    for x in (300, 380):
        it.dot(x, south, GREEN)
    it.text(300, south + 25, "put", 13, at="middle", mono=True)
    it.text(380, south + 25, "put", 13, at="middle", mono=True)
    it.line([(455, south), (520, top + 8)], GREEN, 2, arrow=True)
    it.dot(525, top, BLUE)
    it.text(478, south - 4, "post south", 13, mono=True)
    it.texts(525, top - 34, ["top now shows", "what south shows"], 12, 16, at="middle", colour=GREY)
    # north: changes, a checkpoint, the merge, the post
    for x in (280, 350, 430, 500):
        it.dot(x, north, ORANGE, fill=GROUND if x == 350 else None)
    it.text(280, north + 25, "put", 13, at="middle", mono=True)
    it.text(350, north + 25, "checkpoint", 13, at="middle", mono=True)
    it.text(430, north + 25, "put", 13, at="middle", mono=True)
    it.text(500, north + 25, "put", 13, at="middle", mono=True)
    it.line([(430, north - 9), (430, north - 30), (350, north - 30), (350, north - 10)], GREY, 1.5, "4 3", arrow=True)
    it.text(390, north - 37, "back", 13, GREY, at="middle", mono=True)
    it.line([(560, top + 6), (640, north - 8)], BLUE, 2, arrow=True)
    it.dot(645, north, ORANGE, 8)
    it.text(645, north + 28, "merge north", 13, at="middle", mono=True)
    tells = ["what changed in top since the base comes in;", "what both changed differently is settled here"]
    it.texts(645, north + 48, tells, 12, 16, at="middle", colour=GREY)
    it.dot(730, north, ORANGE)
    it.line([(800, north), (845, top + 8)], ORANGE, 2, arrow=True)
    it.dot(848, top, BLUE)
    it.text(800, north - 60, "post north", 13, at="end", mono=True)
    it.line([(890, 60), (890, 385)], INK, 1.5, "6 4")
    it.text(890, 404, "commit", 13, at="middle", mono=True, bold=True)
    it.text(24, 404, "Nothing is durable until a commit; then everything so far is.", 12, GREY)
    return it


def put():
    """One put copies one path, while two versions share the rest."""
    it = Picture("put", 960, 416, "A put writes the three blocks of one path anew; both versions share the other five")
    it.text(24, 36, "One put copies one path", 18, bold=True)
    it.text(936, 36, "put north 7 43 pipe", 14, ORANGE, at="end", mono=True)
    old = {"root": (330, 90), "left": (190, 190), "right": (420, 190)}
    holds = ["7:1 to 9", "7:10 to 25", "7:26 to 40", "7:41 to 55", "7:56 to 70"]
    leaves = {name: (60 + 130 * n, 290) for n, name in enumerate(holds)}
    new = {"root": (640, 90), "right": (700, 190), "leaf": (750, 290)}
    width, height = 112, 44

    def foot(at):
        return at[0] + width / 2, at[1] + height

    def head(at):
        return at[0] + width / 2, at[1] - 2

    places = list(leaves.values())
    for above, below in (("root", old["left"]), ("root", old["right"]), ("left", places[0]), ("left", places[1])):
        it.line([foot(old[above]), head(below)], BLUE, 1.8, arrow=True)
    for below in places[2:]:
        it.line([foot(old["right"]), head(below)], BLUE, 1.8, arrow=True)
    it.line([foot(new["root"]), head(new["right"])], ORANGE, 2.2, arrow=True)
    it.line([foot(new["right"]), head(new["leaf"])], ORANGE, 2.2, arrow=True)
    it.line([foot(new["root"]), (old["left"][0] + width, old["left"][1] + 8)], ORANGE, 1.6, "6 4", arrow=True)
    it.line([foot(new["right"]), (places[2][0] + width - 12, places[2][1] - 2)], ORANGE, 1.6, "6 4", arrow=True)
    it.line([foot(new["right"]), (places[4][0] + width - 20, places[4][1] - 2)], ORANGE, 1.6, "6 4", arrow=True)
    for at in old.values():
        it.box(*at, width, height, ["NODE"], BLUE_PALE, BLUE, mono=True)
    for name, at in leaves.items():
        it.box(*at, width, height, ["LEF3", name], BLUE_PALE, BLUE, 12, mono=True)
    it.box(*new["root"], width, height, ["NODE"], ORANGE_PALE, ORANGE, mono=True)
    it.box(*new["right"], width, height, ["NODE"], ORANGE_PALE, ORANGE, mono=True)
    it.box(*new["leaf"], width, height, ["LEF3", "7:41 to 55"], ORANGE_PALE, ORANGE, 12, mono=True)
    it.text(318, 118, "top", 15, BLUE, at="end", mono=True, bold=True)
    it.text(764, 118, "north", 15, ORANGE, mono=True, bold=True)
    tells = [
        "Orange: the three blocks that the put writes, into free blocks, from the leaf up. Dashed: what both share.",
        "No block of the old version is written, so top shows what it showed, also after a crash in the middle of it.",
        "Drawn small: a leaf has up to 340 records, an inner block up to 256 children, a tree up to 8 levels.",
    ]
    it.texts(24, 366, tells, 12, 17, colour=GREY)
    return it


def three_way():
    """What a merge gives at each record."""
    it = Picture("three-way", 960, 400, "The three-way rule: what a merge gives at a record, by base, parent and mine")
    it.text(24, 36, "The three-way rule, at each record", 18, bold=True)
    it.text(936, 36, "~ stands for no value", 13, GREY, at="end")
    heads = [(24, "base", INK), (158, "parent", BLUE), (292, "mine", ORANGE), (470, "after the merge", GREEN)]
    for x, name, colour in heads:
        it.text(x + 2, 74, name, 14, colour, bold=True)
    rows = [
        ("duct", "duct", "pipe", "pipe", "only mine changed: it stays"),
        ("duct", "hose", "duct", "hose", "only the parent's changed: it comes in"),
        ("duct", "hose", "hose", "hose", "both changed to the same value"),
        ("duct", "~", "duct", "~", "a removal is a change like any other"),
        ("duct", "hose", "pipe", "conflict", "both changed, differently: a person settles it,"),
    ]
    for n, (base, parent, mine, merged, tells) in enumerate(rows):
        y = 88 + n * 56
        it.box(24, y, 122, 42, [base], PALE, GREY, mono=True)
        for x, value, pale, colour in ((158, parent, BLUE_PALE, BLUE), (292, mine, ORANGE_PALE, ORANGE)):
            fill, line = (pale, colour) if value != base else ("#eef0f2", GREY)
            it.box(x, y, 122, 42, [value], fill, line, mono=True, bold=value != base)
        it.line([(420, y + 21), (464, y + 21)], INK, arrow=True)
        if merged == "conflict":
            it.rect(470, y, 122, 42, GROUND, ORANGE, dashes="6 4")
            it.text(531, y + 26, merged, 14, ORANGE, at="middle", bold=True)
            it.text(606, y + 18, tells, 13, GREY)
            it.text(606, y + 36, "=mine gives pipe, =theirs gives hose", 13, GREY)
        else:
            it.box(470, y, 122, 42, [merged], GREEN_PALE, GREEN, mono=True, bold=True)
            it.text(606, y + 26, tells, 13, GREY)
    note = "The base is what mine last took in from the parent; a merge makes the parent's records the new base."
    it.text(24, 386, note, 12, GREY)
    return it


def merge_blocks():
    """Which blocks a merge and a post write, and which they give up."""
    it = Picture(
        "merge", 960, 430,
        "Where the blocks of a merge go: it writes what stays of north over the map of top, and a post writes nothing",
    )
    it.text(24, 36, "Where the blocks of a merge go", 18, bold=True)
    it.text(936, 36, "two leaves and a root: A, B, R", 13, GREY, at="end")
    names = ["A", "B", "R", "A'", "R'", "B*", "R*", "B+", "R+"]
    stages = [
        (
            ("north was made, then", "both sides changed"), "bbbttnn..",
            "top: A' B R';   north: A B* R*;   its base: A B R",
        ),
        (
            ("merge north: its change", "is made over top's map"), "xsxttxxmm",
            "top: A' B R';   north: A' B+ R+;   its base: A' B R'",
        ),
        (("commit,", "and the next marking"), ".s.tt..mm", "the blocks that no version needs are free"),
        (
            ("post north: top shows", "what north shows"), ".x.sx..ss",
            "top, north and its base: A' B+ R+; no block is written",
        ),
    ]
    looks = {
        "b": (PALE, GREY, ""), "t": (BLUE_PALE, BLUE, ""), "n": (ORANGE_PALE, ORANGE, ""), "m": (GREEN_PALE, GREEN, ""),
        "s": (PALE, GREY, ""), "x": (GROUND, GREY, "4 3"), ".": (GROUND, PALE, ""),
    }
    for n, (tells, kinds, needs) in enumerate(stages):
        y = 62 + n * 84
        it.texts(24, y + 18, tells, 13, 18, bold=True)
        for at, kind in enumerate(kinds):
            fill, line, dashes = looks[kind]
            it.rect(216 + at * 80, y, 72, 40, fill, line, dashes=dashes)
            name = "free" if kind == "." else names[at]
            it.text(
                252 + at * 80, y + 25, name, 14, GREY if kind in ".x" else INK, at="middle", mono=True, bold=kind == "m"
            )
        it.text(216, y + 58, needs, 12, GREY)
    x = 24
    legend = [
        ("b", "of the base"), ("t", "changed in top"), ("n", "changed in north"), ("m", "written by the merge"),
        ("x", "no longer needed"),
    ]
    for kind, tells in legend:
        fill, line, dashes = looks[kind]
        it.rect(x, 396, 22, 16, fill, line, dashes=dashes)
        it.text(x + 30, 409, tells, 12, GREY)
        x += 56 + 8 * len(tells)
    return it


def commit():
    """Slots and selector around the two syncs of a commit."""
    it = Picture(
        "commit", 960, 424, "A commit: slot B, a sync, the selector, a sync; what a crash shows at each moment"
    )
    it.text(24, 36, "A commit: a slot, a sync, the selector, a sync", 18, bold=True)
    left, step, top, row = 150, 158, 66, 58
    heads = [("before",), ("slot B is", "written"), ("the first sync", "is done")]
    heads += [("the selector", "is written"), ("the second sync", "is done: ok")]
    for n, lines in enumerate(heads):
        lower = 8 if len(lines) == 1 else 0
        it.texts(left + n * step + step / 2 - 4, top + lower, lines, 13, 17, at="middle", bold=True)
    names = {"slot A": "old entries", "slot B": "new entries", "selector": "names a slot", "a crash": "then shows"}
    for n, (name, tells) in enumerate(names.items()):
        y = top + 42 + n * (row + 10)
        it.text(24, y + 24, name, 14, bold=True)
        it.text(24, y + 42, tells, 12, GREY)
    cells = [
        [("in use", BLUE)] * 3 + [("whole, clean", BLUE), ("not in use", GREY)],
        [("not in use", GREY), ("any bytes", ORANGE), *[("whole, clean", GREEN)] * 2, ("in use", GREEN)],
        [("A", BLUE)] * 3 + [("A or B", ORANGE), ("B", GREEN)],
        [("the old tree", BLUE)] * 3 + [("old or new", ORANGE), ("the new tree", GREEN)],
    ]
    pale = {BLUE: BLUE_PALE, GREEN: GREEN_PALE, ORANGE: ORANGE_PALE, GREY: "#eef0f2"}
    for n, line in enumerate(cells):
        for m, (tells, colour) in enumerate(line):
            y = top + 42 + n * (row + 10)
            it.box(left + m * step, y, step - 8, row, [tells], pale[colour], colour, 14, bold=n == 3)
    tells = "Data blocks are written before, and made durable by the first sync. The next commit goes from B to A."
    it.text(24, 404, tells, 12, GREY)
    return it


def strip():
    """The file as a strip of blocks."""
    it = Picture("file", 960, 420, "The file as a strip of blocks: header, selector, slot A, slot B, data")
    it.text(24, 36, "The file: blocks of 4,096 bytes", 18, bold=True)
    it.text(936, 36, "64 to 67,108,864 blocks: 256 KiB to 256 GiB", 13, GREY, at="end")
    parts = [
        (24, 92, "0", "header", "ALTSTORE", 0, "#eef0f2", GREY),
        (116, 92, "1", "selector", "bit 0: A or B", 1, ORANGE_PALE, ORANGE),
        (208, 168, "2 to 17", "slot A", "SLOT, entries", 2, BLUE_PALE, BLUE),
        (376, 168, "18 to 33", "slot B", "SLOT, entries", 18, GREEN_PALE, GREEN),
        (544, 392, "34 and up", "data", "LEF3 and NODE, or free", 34, GROUND, INK),
    ]
    for x, width, numbers, name, holds, first, fill, line in parts:
        it.text(x + width / 2, 76, numbers, 14, at="middle", bold=True)
        it.box(x, 88, width, 60, [name], fill, line, 15, bold=True)
        it.text(x + width / 2, 170, holds, 12, at="middle", mono=len(holds) == 8, colour=INK)
        it.text(x + 2, 192, f"byte {first * BLOCK:,}", 11, GREY)
    for x in range(600, 936, 56):
        it.line([(x, 88), (x, 148)], PALE, 1)
    # an entry of a slot, a leaf, an inner block
    it.text(24, 236, "An entry of a slot: 128 bytes", 14, bold=True)
    cells = [("tag A or C", 88), ("name", 88), ("owner", 88), ("current root", 104), ("base root", 88)]
    x = 24
    for tells, width in cells:
        it.box(x, 248, width, 34, [tells], BLUE_PALE, BLUE, 12)
        x += width
    it.text(24, 300, "A: an alternative. C: a checkpoint. A root is the number of a data block, or 0.", 12, GREY)
    it.text(544, 236, "A leaf: for each record 12 bytes, then the values", 14, bold=True)
    x = 544
    for tells, width in [("LEF3", 64), ("table", 64), ("number", 76), ("end", 58), ("values,|one after another", 130)]:
        fill, line = (GREEN_PALE, GREEN) if x > 544 else (PALE, GREY)
        it.box(x, 248, width, 34, tells.split("|"), fill, line, 11 if "|" in tells else 12)
        x += width
    it.text(544, 300, "end: where the record's value ends among the values", 12, GREY)
    it.text(24, 340, "Where a tree begins", 14, bold=True)
    lines = [
        "Only the slot that the selector names counts. Its entries name",
        "the roots. A block that no version needs is free after a marking.",
        "In the file each block from 2 on has a checksum.",
    ]
    it.texts(24, 360, lines, 12, 17, colour=GREY)
    it.text(544, 322, "An inner block: up to 256 children of 14 bytes", 14, bold=True)
    x = 544
    for tells, width in [("NODE", 64), ("table", 84), ("number", 110), ("child block", 134)]:
        it.box(x, 334, width, 34, [tells], GREEN_PALE if x > 544 else PALE, GREEN if x > 544 else GREY, 12)
        x += width
    it.text(544, 388, "table and number: the lowest key under the child", 12, GREY)
    return it


def border():
    """What is proved, what is tested, what is assumed."""
    it = Picture("border", 960, 500, "The border between what is proved, what is tested and what is assumed")
    it.text(24, 36, "Proved, tested, assumed", 18, bold=True)
    it.rect(24, 56, 600, 52, "#eef0f2", GREY, dashes="6 4")
    it.text(40, 78, "outside: main, standard input, output and error, your shell", 13, bold=True)
    it.text(40, 97, "of main it is proved that it is safe and ends, and no more", 12, GREY)
    it.rect(24, 124, 600, 216, GREEN_PALE, GREEN)
    it.text(40, 150, "proved, for every input, and every disk that keeps its model", 15, GREEN, bold=True)
    rows = [
        ("vm_cli", "the job of the words, each line and its answer, statuses, files"),
        ("vm_store", "commands do what the model says; the headline over whole lists"),
        ("vm_tree, vm_diff, vm_check", "maps in trees; differences; what is reached"),
        ("vm_catalog, vm_block, vm_alloc", "a publish; every block form; held blocks"),
        ("vm_disk", "a disk in memory, over a file, with a cache; what a crash leaves"),
    ]
    for n, (names, tells) in enumerate(rows):
        y = 162 + n * 34
        it.rect(40, y, 568, 28, GROUND, GREEN)
        it.text(50, y + 19, names, 12, mono=True, bold=True)
        it.text(598, y + 19, tells, 11, GREY, at="end")
    it.rect(24, 356, 600, 62, ORANGE_PALE, ORANGE, dashes="6 4")
    it.text(40, 377, "assumed, of a real file", 15, ORANGE, bold=True)
    it.text(40, 395, "Between two openings nobody else writes it,", 12)
    it.text(40, 410, "and it keeps what the disk model says that a crash may leave.", 12)
    it.rect(24, 434, 912, 48, ORANGE_PALE, ORANGE, dashes="6 4")
    tells = "trusted below all of it: the toolchain (logic, compilers, clang), the C library, ported crates' contracts"
    it.text(40, 463, tells, 13)
    it.rect(648, 56, 288, 362, BLUE_PALE, BLUE)
    it.text(664, 84, "tested, beside the proofs", 15, BLUE, bold=True)
    it.texts(664, 114, [
        "tests of the crates, on memory", "random sessions beside the model", "a device that stops at each call", "",
        "scripts over real files:", "– sessions of lines", "– killed at random moments", "– no room on the device",
        "– each block call failing", "– each allocation refused", "– every byte of the file", "",
        "texts of help, flushed answers,", "closed standard streams,", "memory found if there is some",
    ], 13, 19.5)
    return it


def main():
    stale = []
    FOLDER.mkdir(exist_ok=True)
    for draw in (designs, three_way, put, merge_blocks, commit, strip, border):
        picture = draw()
        file = FOLDER / f"{picture.name}.svg"
        if "--check" not in sys.argv[1:]:
            file.write_text(picture.svg())
        elif not file.exists() or file.read_text() != picture.svg():
            stale.append(file.name)
    for name in stale:
        print(f"pictures: {name} is not what tools/gate/pictures.py draws")
    return 1 if stale else 0


if __name__ == "__main__":
    sys.exit(main())
