#!/usr/bin/env python3
"""Brings crates that were written over an earlier layout of this repository to the present one.

usage: python3 docs/studies.py FOLDER     (FOLDER has crates/ and crates.txt; its files are rewritten in place, once)

It rewrites paths of definitions, laws and proofs, paths of code, names and dependencies. It leaves a crate of the
folder's own whose name is taken here, laws that are gone (names-apart, sent-never), and what was restated: `Targets`,
with a first locator; the readers of locators, diverts and outcomes, each over its part; demand 3's sentences, over
relays as they are seen (`node_laws Relays`); `host`'s `stateOf`, without a side.
"""
import os
import re
import sys

# crate: the crates that it became
CRATES = """
syntax: rfc8990 | grammar: message_laws rfc8990 | exact: message_laws reader rfc8990 | contents: message text
describe: forms | blocks: forms | roundtrip: writer_laws writer | rewrite: writer_laws
own_names: node_laws | history: node_laws | verdicts: node_laws
"""
# crate, part and module: what became of it; the longest beginning of a path counts
MODULES = """
grammar specs Cddl: rfc8990 specs Cddl
grammar specs Limits: rfc8990 specs Limits
grammar proofs Locators: message_laws proofs Locator
grammar proofs Objectives: message_laws proofs Objective
grammar proofs Pairs: message_laws proofs Pair
exact specs Accepted: rfc8990 specs Accepted
exact specs Rows: rfc8990 specs Refusals
exact proofs Answers: reader proofs Placed
exact proofs Exact: reader proofs Exact
exact proofs Refused: reader proofs Refused
message specs Read: message specs Examined
message declared Reading: reader declared Reading
contents specs Line: read_message specs Line
contents proofs line: text proofs line
contents proofs Numbered: text proofs Numbered
contents declared line: text declared line
description specs Encoding: rfc8990 specs Encoding
description specs Describe: description specs Meaning
describe proofs rows: forms proofs rows
describe proofs Turns: forms proofs Turns
describe proofs: forms proofs describe
blocks specs Told: forms specs Described
blocks declared told: forms declared described
blocks proofs told: forms proofs described
roundtrip specs Lower: writer specs Lower
roundtrip proofs Hand: writer proofs HandedOver
own_names specs Own: node_laws specs OwnNames
own_names proofs Exact: node_laws proofs OwnNames
own_names proofs Texts: node_laws proofs NameTexts
own_names proofs Judged: node_laws proofs NamesJudged
verdicts specs Rows: node_laws specs RelayRows
verdicts proofs Rows: node_laws proofs RelayRows
node specs History: node_laws specs History
node specs Demand: node_laws specs Demand
node proofs call.quiet: node proofs quiet
node proofs links: node proofs mask
node_state proofs Rows: node_state proofs TableRows
encode proofs Rows: encode proofs PutRows
encode proofs Copies: cbor proofs Copies
encode proofs put.all: cbor proofs put.all
encode proofs put.copy: cbor proofs put.copy
writer proofs lower: writer proofs relay.lower
writer proofs put_lowered: writer proofs relay.put_lowered
writer proofs answer: writer proofs answer.answer
writer proofs ok_initiator: writer proofs answer.ok_initiator
names proofs are_same: base proofs bytes.are_same
options declared Outcome: options declared outcome.Outcome
message declared sequence.LocatorsRead: options declared locators.LocatorsRead
"""
# single names that stand in another module than the rest of theirs
ITEMS = """
message specs Read.mostBytes: rfc8990 specs Limits
message specs Read.framed readPlaced placeless readOf: reader specs Read
options specs Objective.mostName: rfc8990 specs Limits
names specs Names.sameBytes: base specs Bytes
names proofs Walks.same-lengths same-differ same-next same-end: base proofs SameBytes
message proofs Parts.read-parts read-number: reader proofs ReadParts
roundtrip proofs Relay.lowered-shorter lowered-given lowers-by: writer proofs Onward
message specs Sequence.textLed locatorThen locatorsFrom: options specs Locators
node specs History.Told numberIn toldReading told interfacesIn copiesOf: node_laws specs Relays
node specs History.SameKey apartBy Apart GoesOut Near Few: node_laws specs Relays
contents specs Line.decimal numbered padded withText kindWord kindLine refusedWord refusedLine: text specs Line
"""
# paths of code
CODE = """
contents::fields message::fields | contents::line text::line | message::Reading reader::Reading
names::are_same base::bytes::are_same | writer::lower writer::relay::lower | writer::answer( writer::answer::answer(
blocks::block forms::block | blocks::told forms::described | describe::rows forms::rows
describe::description_of forms::describe::description_of | encode::put::all cbor::put::all
"""
# names
WORDS = """
Aim Tgts | aim tgts | AimIs TargetsIs | AimItems TgtsItems | aimTexts tgtsTexts
Ending Outc | EndingItem OutcItem | encodeEnding encodeOutc | endingTexts outcTexts
Goal GivenObjective | goalOf givenOf | goal_of given_of | goal-of given-of | saidExtra givenExtra | ok_goal ok_given
Entry ObjectiveRow | entryOf objectiveRowOf | entryAt objectiveRowAt | entryRow objectiveRow
EntrySays ObjectiveRowSays | okEntry okObjectiveRow | entry_of objective_row_of | entry_at objective_row_at
told_by described_by | told-by described-by | toldBy describedBy
Kept RecordAnswer | Called CallAnswer
"""
PARTS = {"specs.declared": "declared", "specs": "specs", "proofs": "proofs"}
PATH = re.compile(r"Rattle·(\w+)(?:·(?:specs|proofs))?\.(specs\.declared|specs|proofs)((?:\.[\w«»]+)*)")
USE = re.compile(r"^([ \t]*(?:pub |ghost )*use )(Rattle·[^ {;]+)\.\{([^}]*)\}(;?)$", re.M)


def table(text):
    return [tuple(x.strip() for x in row.split(": ")) for line in text.strip().split("\n") for row in line.split(" | ")]


def pairs(text):
    return [tuple(row.split()) for line in text.strip().split("\n") for row in line.split(" | ")]


crates = {old: new.split() for old, new in table(CRATES)}
modules = {tuple(old.split()): new.split() for old, new in table(MODULES)}
items = {}
for before, after in table(ITEMS):
    module, names = before.split(".", 1)
    for each in names.split():
        items[tuple(module.split()) + (each,)] = after.split()


def place(crate, part, path):
    """Where a module, or what is below it, stands now: crate, part, path."""
    steps = path.split(".") if path else []
    for n in range(len(steps), -1, -1):
        key = (crate, part, ".".join(steps[:n])) if n else (crate, part)
        if key in modules:
            new = modules[key]
            return new[0], new[1], ".".join(new[2:] + steps[n:])
    return crates.get(crate, [crate])[0], part, path


def spelled(crate, part, path, own):
    """The path of a module, as a file of the crate `own` names it."""
    folder = "proofs" if part == "proofs" else "specs"
    inside = {"declared": "specs.declared"}.get(part, part)
    return f"Rattle·{crate}{'·' + folder if crate == own else ''}.{inside}{'.' + path if path else ''}"


def parted(use):
    """One list of imports as several, by where each name stands now."""
    at = PATH.fullmatch(use[2])
    groups = {}
    for name in (x.strip() for x in use[3].split(",") if x.strip()):
        known = at and items.get((at[1], PARTS[at[2]], at[3][1:], name))
        groups.setdefault(tuple(known or ()), []).append(name)
    path = lambda new: spelled(*new, own=None) if new else use[2]
    return "\n".join(f"{use[1]}{path(new)}.{{{', '.join(names)}}}{use[4]}" for new, names in groups.items())


def rewritten(text, own):
    text = USE.sub(parted, text)
    text = PATH.sub(lambda m: spelled(*place(m[1], PARTS[m[2]], m[3][1:]), own), text)
    for old, new in pairs(CODE):
        text = re.sub(rf"\b{re.escape(old)}" + ("" if old.endswith("(") else r"\b"), new, text)
    for old, new in pairs(WORDS):
        text = re.sub(rf"(?<!cbor\.proofs\.)\b{old}\b", new, text)
    return text


def main(folder):
    top = os.path.join(folder, "crates")
    for here, _, names in os.walk(top):
        for path in (os.path.join(here, n) for n in names if n.endswith((".antt", ".rt", ".edit"))):
            own = os.path.relpath(path, top).split(os.sep)[0]
            with open(path, encoding="utf-8") as file:
                text = file.read()
            with open(path, "w", encoding="utf-8") as file:
                file.write(rewritten(text, own))
    lists = os.path.join(folder, "crates.txt")
    with open(lists, encoding="utf-8") as file:
        lines = file.read().split("\n")
    for i, line in enumerate(lines):
        name, colon, rest = line.partition(":")
        if colon and not line.startswith("#"):
            known = [new for old in rest.split() for new in crates.get(old, [old])]
            lines[i] = f"{name}: {' '.join(dict.fromkeys(known))}".rstrip()
    with open(lists, "w", encoding="utf-8") as file:
        file.write("\n".join(lines))


if __name__ == "__main__":
    main(sys.argv[1])
