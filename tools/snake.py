#!/usr/bin/env python3
"""Brings the names that this repository declares in specs/ and proofs/ to snake case, in code, edits and pages.

Run once, at the top, after the toolchain's port script. Types, modules and names from Rattle source keep their
spelling. In comments and pages a name is turned where it stands in backquotes."""
import collections
import glob
import re
import sys

TOKEN = re.compile(r"\w[\w'-]*")
DECLARES = re.compile(r"\s*(?:(?:pub|unfoldable|abbrev|data|record)\s+)*((?:\w[\w'-]*\s+)*\w[\w'-]*)\s*:(?!:)(.*)")
BINDS = re.compile(r"[({]\s*((?:\w[\w'-]*\s+)+):")
ANTT = sorted(glob.glob("crates/*/specs/**/*.antt", recursive=True)
              + glob.glob("crates/*/proofs/**/*.antt", recursive=True))
RT = sorted(glob.glob("crates/*/src/**/*.rt", recursive=True))
EDITS = sorted(glob.glob("crates/*/must-fail/*.edit"))
PAGES = sorted(glob.glob("*.md") + glob.glob("docs/*.md") + glob.glob("bench/*.md") + glob.glob("fuzz/*.md")
               + glob.glob("include/*.h") + glob.glob("tests/c/*"))


def snake(name):
    parts = []
    for part in name.split("-"):
        if part[:1].isupper() or not re.search("[A-Z]", part):
            parts.append(part)
        else:
            part = re.sub(r"([a-z0-9₀-₉])([A-Z])", r"\1_\2", part)
            parts.append(re.sub(r"([A-Z])(?=[A-Z]|_|$|[a-z])", lambda m: m.group(1).lower(), part))
    return "_".join(parts)


def split_comment(line):
    """The code of a line of antt, and its comment."""
    at = line.find("--")
    return (line, "") if at < 0 else (line[:at], line[at:])


def declared():
    """The names that the files declare or bind, but for those of the goals of a walk."""
    names = collections.defaultdict(set)
    for path in ANTT:
        for line in open(path):
            code = split_comment(line)[0]
            if re.match(r"\s*(use|mod|pub mod) ", code):
                continue
            m = DECLARES.match(code)
            if m and not re.match(r"\s*tie\.", m.group(2)):
                for name in m.group(1).split():
                    names[name].add(path)
            for m in BINDS.finditer(code):
                for name in m.group(1).split():
                    names[name].add(path)
    return names


# Lemmas that would get the name of a definition which their files may name.
LEMMAS = {
    "crates/writer_laws/proofs/Pairs.antt": {"pair_row": "pair_row_lem"},
    "crates/writer_laws/proofs/Drafts.antt": {"head_bytes": "head_bytes_lem"},
    "crates/message_laws/proofs/Flood.antt": {"one_more": "one_more_lem"},
    "crates/message_laws/proofs/Locators.antt": {"one_more": "one_more_lem"},
}


def renames(names):
    turned = {}
    for name in names:
        if name[:1].isupper() and "-" not in name:
            continue
        new = snake(name)
        if new != name:
            turned[name] = new
    # `in_place` is a field in the file that names this definition
    turned["inPlace"] = "in_place_form"
    # a lemma that would have its definition's name gets `_lem`
    for new, olds in together(names, turned).items():
        dashed = [old for old in olds if "-" in old]
        if len(dashed) < len(olds):
            for old in dashed:
                # a constructor is named behind its type
                if old != "is-null":
                    turned[old] = new + "_lem"
    return turned


def together(names, turned):
    """Names that fall together: in one file two names, or a name and one that stood there, become one."""
    new_of = collections.defaultdict(set)
    for name in names:
        new_of[turned.get(name, name)].add(name)
    return {new: olds for new, olds in new_of.items() if len(olds) > 1}


def in_backquotes(text, turn):
    return re.sub(r"`[^`\n]*`", lambda m: turn(m.group(0)), text)


def main():
    names = declared()
    turned = renames(names)
    for new, olds in sorted(together(names, turned).items()):
        print("together:", new, {o: sorted(names[o])[:3] for o in olds})
    if "--list" in sys.argv:
        for old in sorted(turned):
            print(old, turned[old])
        return

    def turn(text):
        return TOKEN.sub(lambda m: turned.get(m.group(0), m.group(0)), text)

    for path in ANTT:
        lines = []
        own = LEMMAS.get(path, {})
        for line in open(path):
            code, comment = split_comment(line)
            code = TOKEN.sub(lambda m: own.get(m.group(0), m.group(0)), code)
            lines.append(turn(code) + in_backquotes(comment, turn))
        put(path, "".join(lines))
    for path in RT:
        lines = []
        for line in open(path):
            at = line.find("//")
            code, comment = (line, "") if at < 0 else (line[:at], line[at:])
            lines.append((code if '"' in code else turn(code)) + in_backquotes(comment, turn))
        put(path, "".join(lines))
    for path in EDITS:
        put(path, turn(open(path).read()))
    for path in PAGES:
        put(path, in_backquotes(open(path).read(), turn))


def put(path, text):
    if text != open(path).read():
        open(path, "w").write(text)


main()
