#!/usr/bin/env python3
"""Brings the repository's own words of specs/ and proofs/ to today's spelling, after the kit's port.py.

Words are in snake case. A dash joins two names, as in length-splice; a plain word is added with `_`, as in part_past.
Names of types and modules, names from Rattle source and names that Rattle makes stay. Run once, at the top.
With --table it only prints the rows, old and new.
"""

import os
import pathlib
import re
import subprocess
import sys

NAME = r"[A-Za-z_][A-Za-z0-9_'-]*"
GHOST_USE = re.compile(r"^(?:ghost )?use [^{\n]*\{[^}]*\}", re.M)
DECLARED = re.compile(rf"^ *(?:(?:abbrev|unfoldable) )?(?:pub )?(?:record )?({NAME})((?: {NAME})*) :", re.M)
GOAL = re.compile(rf"^ *(?:abbrev )?(?:pub )?({NAME}) : (?:tie|goal)\.", re.M)
ALIAS = re.compile(rf"\bas ({NAME})(?=[,}}])")
USED = re.compile(r"^use [^{\n]*\{([^}]*)\}", re.M)

# Names that are also plain words, and join others as these do.
PLAIN = set(
    "a above after and as at back below by end every first handed in inside is last never next no nor not of on out"
    " part_of past read reads sign to write written".split()
)

# A word of the library that a proof also gives to a lemma of its own.
LIBRARY = {"and-false"}

# Words whose new spelling would be another's, or the name of a function in a file that cites them.
BY_HAND = {
    "all-below": "all_below_lem",
    "atEnd": "at_the_end",
    "bothEnd": "both_stop",
    "edition-above": "edition_above_lem",
    "every-row": "every_row_lem",
    "in-record": "in_record_lem",
    "in_place": "in_place_lem",
    "moved_by": "moved_by_lem",
    "no-fault": "no_fault_lem",
    "no_other": "no_other_lem",
    "octets-after": "octets_after_lem",
    "on-field": "on_field_lem",
    "own-at": "own_at_lem",
    "read-fixed": "read_fixed_lem",
    "read-words": "read_words_lem",
    "record-judged": "record_judged_lem",
    "tally-of": "tally_of_lem",
    "words-for": "words_for_lem",
    "write-refused": "write_refused_lem",
}


def snake(word):
    return re.sub(r"(?<=[a-z0-9])([A-Z])", lambda m: "_" + m[1].lower(), word)


def table(top):
    files = [p for p in sorted(top.glob("crates/*/*/**/*.antt")) if "out" not in p.parts]
    texts = {p: p.read_text(encoding="utf-8") for p in files}
    declared, goals, names = set(), set(), set()
    for p, text in texts.items():
        goals |= set(GOAL.findall(text))
        for used in USED.findall(text):
            names |= {item.split(" as ")[0].strip() for item in used.split(",")}
        for m in DECLARED.finditer(text):
            declared |= {m[1], *m[2].split()}
    for p in [*files, *sorted(top.glob("crates/*/src/**/*.rt"))]:
        declared |= {a for used in GHOST_USE.findall(p.read_text(encoding="utf-8")) for a in ALIAS.findall(used)}
    declared = {d for d in declared if d[0].islower()} - goals - LIBRARY
    names = {snake(n) for n in names | declared if "-" not in n and not n[:1].isupper()}
    rows = {}
    for old in sorted(declared):
        parts = [snake(p) for p in old.split("-")]
        if parts[-1] == "spec":
            parts = ["_".join(parts)]
        new = parts[0]
        for before, part in zip(parts, parts[1:]):
            new += ("-" if {before, part} <= names - PLAIN else "_") + part
        new = BY_HAND.get(old, new)
        if new != old:
            rows[old] = new
    return rows


def main():
    top = pathlib.Path.cwd()
    rows = table(top)
    if "--table" in sys.argv:
        for old, new in rows.items():
            print(f"{old}\t{new}")
        return
    doc = subprocess.run(["rt", "doc"], capture_output=True, text=True, check=True).stdout.split()[0]
    kit = pathlib.Path(doc).parent
    snake_py = kit / "port/notes/2026-11-18-names-are-in-snake-case/snake.py"
    listed = pathlib.Path(os.environ.get("TMPDIR", "/tmp")) / "respell.tsv"
    listed.write_text("".join(f"{old}\t{new}\n" for old, new in rows.items()), encoding="utf-8")
    subprocess.run([sys.executable, str(snake_py), "--table", str(listed), "crates"], check=True)


main()
