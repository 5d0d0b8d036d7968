#!/usr/bin/env python3
"""Draws docs/layers.svg from crates.txt: python3 docs/layers.py >docs/layers.svg

A group of crates.txt is a column, and the programs are a strip at the top. A crate stands higher than all that it rests
on. A line is drawn where no other way leads to the same crate: what it rests on by way of another isn't drawn again.
"""

from functools import cache
from pathlib import Path
from xml.sax.saxutils import escape

ROOT = Path(__file__).resolve().parent.parent
PROGRAMS = "programs"

# Where a crate stands in its column, from the left; others take the first free place of their height.
SLOTS = {
    "utf8": 0,
    "text": 1,
    "cbor": 2,
    "base": 1,
    "refusal": 2,
    "rfc8990": 1,
    "description": 0,
    "encode": 0,
    "forms": 1,
    "writer": 0,
    "writer_laws": 0,
    "names": 0,
    "node_state": 1,
    "negotiation": 2,
    "node": 0,
    "node_laws": 0,
}

COLOURS = {
    "standards": ("#eef3f8", "#4a6f94"),
    "reading": ("#eff6ee", "#4f8057"),
    "writing": ("#f9f4e9", "#94752f"),
    "node": ("#f8efee", "#9a544c"),
    "C": ("#f2eff8", "#6a5a98"),
    PROGRAMS: ("#f3f3f3", "#666666"),
}
BOX_WIDTH, BOX_HEIGHT, SLOT_WIDTH, ROW_HEIGHT = 102, 28, 114, 64
MARGIN, GAP, HEADER, STRIP_ROW, BEND = 16, 10, 28, 48, 6


def crates():
    """The crates in the order of crates.txt: name, group, and what each rests on."""
    found, group = {}, ""
    for line in (ROOT / "crates.txt").read_text().splitlines():
        if line.startswith("# -- "):
            group = line.removeprefix("# -- ")
        elif line and not line.startswith("#"):
            name, rests_on = line.split(":")
            name = name.split()[0]
            found[name] = (group, rests_on.split())
    return found


CRATES = crates()


@cache
def beneath(name):
    """All that a crate rests on, also by way of others."""
    rests_on = CRATES[name][1]
    return frozenset(rests_on).union(*(beneath(crate) for crate in rests_on))


def drawn(name):
    """What a crate rests on, but for what others of these rest on."""
    rests_on = CRATES[name][1]
    return [crate for crate in rests_on if not any(crate in beneath(other) for other in rests_on)]


@cache
def height(name):
    """How many crates stand below, one on the other."""
    return max((height(crate) + 1 for crate in CRATES[name][1]), default=0)


def has_code(name):
    """Whether a crate has code of its own: functions, conversions, or modules of them."""
    source = ROOT / "crates" / name / "src"
    return any(line.startswith(("fn ", "pub fn ", "pub extern ", "impl ", "pub mod ", "mod "))
               for file in source.glob("*.rt") for line in file.read_text().splitlines())


def places(libraries):
    """The place of each library in its column."""
    slots, taken = {}, set()
    for name in sorted(libraries, key=lambda name: name not in SLOTS):
        key = (CRATES[name][0], height(name))
        slot = SLOTS.get(name, 0)
        while (key, slot) in taken:
            slot += 1
        taken.add((key, slot))
        slots[name] = slot
    return slots


def text(x, y, words, size=13, colour="#222", weight="normal", anchor="middle", mono=True):
    family = "DejaVu Sans Mono, Menlo, Consolas, monospace" if mono else "DejaVu Sans, Verdana, sans-serif"
    return (f'<text x="{x}" y="{y}" font-family="{family}" font-size="{size}" fill="{colour}" '
            f'font-weight="{weight}" text-anchor="{anchor}">{escape(words)}</text>')


def box(x, y, width, name):
    """A crate, its middle at x and its top at y; dashed where it has no code."""
    colour = COLOURS[CRATES[name][0]][1]
    dash = "" if has_code(name) else ' stroke-dasharray="5 3"'
    return [f'<rect x="{x - width / 2:g}" y="{y}" width="{width}" height="{BOX_HEIGHT}" rx="5" fill="white" '
            f'stroke="{colour}" stroke-width="1.4"{dash}/>',
            text(x, y + 18.5, name, size=12)]


def line(x, y, across, x_end, y_end, colour):
    """From a crate's top up, across, and up to the crate that rests on it."""
    if x == x_end:
        return f'<path d="M{x} {y}V{y_end}" stroke="{colour}"/>'
    side = 1 if x < x_end else -1
    return (f'<path d="M{x} {y}V{across + BEND}Q{x} {across} {x + side * BEND} {across}H{x_end - side * BEND}'
            f'Q{x_end} {across} {x_end} {across - BEND}V{y_end}" stroke="{colour}"/>')


def picture():
    libraries = [name for name in CRATES if CRATES[name][0] != PROGRAMS]
    programs = [name for name in CRATES if CRATES[name][0] == PROGRAMS]
    groups = list(dict.fromkeys(CRATES[name][0] for name in libraries))
    slots = places(libraries)

    # the columns, from left to right
    left, x = {}, MARGIN
    wide = {group: 1 + max(slots[name] for name in libraries if CRATES[name][0] == group) for group in groups}
    for group in groups:
        left[group] = x
        x += wide[group] * SLOT_WIDTH + GAP
    width = x - GAP + MARGIN

    # the strip of programs, the columns under it, a line of words at the end
    per_row = 3
    strip = HEADER + STRIP_ROW * -(-len(programs) // per_row)
    top = MARGIN + strip + GAP
    rows = 1 + max(height(name) for name in libraries)
    bottom = top + HEADER + rows * ROW_HEIGHT
    whole = bottom + 60

    def middle(name):
        return left[CRATES[name][0]] + slots[name] * SLOT_WIDTH + SLOT_WIDTH // 2

    def upper(name):
        return top + HEADER + (rows - 1 - height(name)) * ROW_HEIGHT + (ROW_HEIGHT - BOX_HEIGHT) // 2

    out = [f'<svg xmlns="http://www.w3.org/2000/svg" width="{width}" height="{whole}" '
           f'viewBox="0 0 {width} {whole}">',
           f'<rect width="{width}" height="{whole}" fill="white"/>']
    for group in groups:
        fill, colour = COLOURS[group]
        across = wide[group] * SLOT_WIDTH
        out.append(f'<rect x="{left[group]}" y="{top}" width="{across}" height="{bottom - top}" rx="8" '
                   f'fill="{fill}"/>')
        out.append(text(left[group] + across / 2, top + 20, group, colour=colour, weight="bold", mono=False))

    # lines to crates of one height run beside each other
    out.append('<g fill="none" stroke-width="1.4">')
    for level in range(rows):
        to = [name for name in libraries if height(name) == level]
        for number, name in enumerate(to):
            y_end = upper(name) + BOX_HEIGHT
            across = y_end + 9 + 18 * (len(to) - 1 - number) // max(1, len(to) - 1) if len(to) > 1 else y_end + 18
            for below in drawn(name):
                colour = COLOURS[CRATES[name][0]][1]
                out.append(line(middle(below), upper(below), across, middle(name), y_end, colour))
    out.append("</g>")
    for name in libraries:
        out += box(middle(name), upper(name), BOX_WIDTH, name)

    # the programs, with what each rests on
    fill, colour = COLOURS[PROGRAMS]
    out.append(f'<rect x="{MARGIN}" y="{MARGIN}" width="{width - 2 * MARGIN}" height="{strip}" rx="8" '
               f'fill="{fill}"/>')
    out.append(text(width / 2, MARGIN + 20, PROGRAMS, colour=colour, weight="bold", mono=False))
    each = (width - 2 * MARGIN) // per_row
    for number, name in enumerate(programs):
        x = MARGIN + number % per_row * each + 12
        y = MARGIN + HEADER + number // per_row * STRIP_ROW + 4
        out += box(x + 80, y, 160, name)
        out.append(text(x + 170, y + 18.5, "over " + ", ".join(drawn(name)), size=12, anchor="start"))

    words = ("A crate rests on those that its lines lead down to, and on what these rest on. "
             "Dashed: no code, only definitions and laws.")
    out.append(text(MARGIN, bottom + 26, words, size=13, colour="#444", anchor="start", mono=False))
    out.append(text(MARGIN, bottom + 46, "Drawn by docs/layers.py from crates.txt.", size=13, colour="#444",
                    anchor="start", mono=False))
    out.append("</svg>")
    return "\n".join(out)


if __name__ == "__main__":
    print(picture())
