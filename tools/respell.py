#!/usr/bin/env python3
"""Brings the repository's own definitions and lemmas to one spelling: words in snake case.

usage: python3 tools/respell.py [--list]     at the top of the repository, once, after the language's own script

A name is the repository's own where a file of specs/ or proofs/ defines it and no library has it. It is turned wherever
it stands: in definitions, laws, proofs, clauses, comments, must-fail edits and the pages of docs/. The functions of src/ and
all text of inputs and outputs keep their names. `--list` prints old and new names and writes nothing.
"""
import collections
import glob
import os
import re
import sys

TOKEN = r"[A-Za-zα-ωΑ-Ω_][\w'₀-₉]*(?:-[\w'₀-₉]+)*"
NAME = re.compile(TOKEN)
TWO_WORDS = re.compile(r"[a-z][a-z0-9_]*[A-Z]")
# Where two names would fall together, or a function of src/ has the name in the same file.
OTHER = {
    "badPairs": "has_bad_pairs",
    "badRaw": "is_bad_raw",
    "by-steps": "by_steps_is",
    "course-on": "course_on_is",
    "degreeOf": "named_degree",
    "entries-above": "entries_above_is",
    "entry-fields": "entry_fields_is",
    "fewWords": "too_few_words",
    "firstStep": "first_step_of",
    "fromPlace": "rest_from",
    "graph-after": "graph_after_is",
    "is-pairing": "is_pairing_is",
    "leaf-names": "leaf_names_is",
    "left-file": "left_file_is",
    "less-all": "less_each",
    "lift-file": "lift_file_is",
    "lifted-room": "lifted_room_is",
    "name-word": "name_word_is",
    "nearEnd": "nearest_end",
    "noRule": "is_no_rule",
    "order-at": "order_at_is",
    "origin-file": "origin_file_is",
    "origin-list": "origin_list_is",
    "origin-room": "origin_room_is",
    "originWord": "word_of_origin",
    "pair-fields": "pair_fields_is",
    "part-marks": "part_marks_is",
    "pointsAt": "points_between",
    "put-down": "put_down_is",
    "record-at": "record_at_is",
    "record-in": "record_in_is",
    "row-pairs": "row_pairs_is",
    "rowWords": "words_of_row",
    "ruleOf": "rule_named",
    "short-file": "short_file_is",
    "short-list": "short_list_is",
    "short-of": "short_file_of",
    "short-room": "short_room_is",
    "shortWord": "word_of_short",
    "slip-file": "slip_file_is",
    "slip-room": "slip_room_is",
    "solve-each": "solve_each_is",
    "stampOf": "stamp_for",
    "tooLarge": "is_too_large",
    "trail-room": "room_on_trail",
    "with-pairs": "with_pairs_is",
    "with-partner": "with_partner_is",
    "word-key": "word_key_is",
    "words-at": "words_at_is",
}
KEPT = {"xC0"}


def snake(name):
    if re.fullmatch(r"[a-z]+T", name):
        return name[:-1] + "_test"
    name = re.sub(r"(?<=[a-z0-9])(?=[A-Z])", "_", name).replace("-", "_").lower()
    return name


def code(text):
    return re.sub(r"--.*", "", text)


def own_names(root):
    crates = set(os.listdir(os.path.join(root, "crates")))
    library, seen, defined = set(), set(), set()
    for path in glob.glob(os.path.join(root, "crates/**/*.antt"), recursive=True):
        text = code(open(path).read())
        for m in re.finditer(r"^use ([\w.·]+?)\.\{([^}]*)\}", text, re.M):
            parts = m.group(1).split(".")
            if parts[0] != "Rattle" or parts[1] not in crates:
                library |= {x.strip() for x in m.group(2).split(",")}
        if path.endswith("Proof.antt"):
            continue
        seen |= set(NAME.findall(text))
        for m in re.finditer(rf"(?:^|[\s(\[{{])({TOKEN})(?: {TOKEN})*\s*:(?=\s|$)", text, re.M):
            defined |= set(NAME.findall(m.group(0)))
        defined |= {m.group(1) for m in re.finditer(rf"({TOKEN})\s*=\s", text)}
        defined |= {m.group(1) for m in re.finditer(rf" as ({TOKEN})", text)}
        for m in re.finditer(r"λ ([^.]*)\.", text):
            defined |= set(NAME.findall(m.group(1)))
    turned = {n for n in seen & defined if "-" in n or TWO_WORDS.match(n)}
    return turned - library - KEPT


def defined_names(root, names):
    """The words of specs/ and proofs/ as they are spelled after the turn."""
    words = set()
    for path in glob.glob(os.path.join(root, "crates/*/specs/**/*.antt"), recursive=True):
        words |= set(NAME.findall(code(open(path).read())))
    for path in glob.glob(os.path.join(root, "crates/*/proofs/*.antt")):
        words |= set(NAME.findall(code(open(path).read())))
    return {names.get(w, w) for w in words}


def main(argv):
    root = "."
    names = {n: OTHER.get(n, snake(n)) for n in own_names(root)}
    if "--list" in argv:
        by = collections.defaultdict(list)
        for n, s in names.items():
            by[s].append(n)
        for s in sorted(by):
            print(s, *sorted(by[s]))
        return 0

    def turn(m):
        return names.get(m.group(0), m.group(0))

    known = defined_names(root, names)

    def turn_outside(m):
        """In an edit or a page: also a name that the language's script has turned in the crates already."""
        name = names.get(m.group(0), m.group(0))
        two = "-" in name or TWO_WORDS.match(name)
        return snake(name) if two and snake(name) in known and name not in known else name

    for path in sorted(glob.glob("crates/**/*", recursive=True)):
        if path.endswith((".antt", ".rt", ".edit")):
            old = open(path).read()
            new = NAME.sub(turn_outside if path.endswith(".edit") else turn, old)
            if new != old:
                open(path, "w").write(new)
    for path in sorted(glob.glob("docs/*.md") + ["README.md"]):
        old = open(path).read()
        new = re.sub(r"`[^`\n]+`", lambda m: NAME.sub(turn_outside, m.group(0)), old)
        if new != old:
            open(path, "w").write(new)
    return 0


if __name__ == "__main__":
    raise SystemExit(main(sys.argv[1:]))
