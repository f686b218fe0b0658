#!/usr/bin/env python3
"""Respells the names that specs/ and proofs/ define: words in snake case, types and facts in camel case.

usage: python3 tools/snake_case.py [--dry]      at the top of the repository

A name is what a file of specs/ or proofs/ declares (definitions, lemmas, fields of records, variants), but for the names
that the check makes: answers to goals, invariants, measures. Names of src/ keep their spelling. Two names that would fall
together in a file are told apart by OTHER; where that leaves a clash the script says so and changes nothing.
"""
import os
import re
import sys

# names that would fall together with another in some file
OTHER = {
    "after-all": "left_by_all",
    "at-once": "closed_at_once",
    "at-once-row": "at_once_by_row",
    "bare-tables": "bare_tables_sound",
    "bit-and": "bit_at_and",
    "bit-or": "bit_at_or",
    "closed-in": "kept_closed_in",
    "drawn-in": "kept_drawn_in",
    "if-accepted": "accepted_or_not",
    "in-range": "within_range",
    "once-left": "left_at_once",
    "put-session": "session_put",
    "role-gone": "role_is_gone",
    "row-after": "after_by_row",
    "row-refused": "refused_by_row",
    "same-consent": "consents_equal",
}
# the same for a name that port.py respelled already, in the files named
IN_FILE = {
    "crates/ledger/proofs/Closings.antt": {"is_open": "found_open"},
    "crates/ledger/proofs/ledger/Ledger/settle/Answers.antt": {"is_open": "found_open"},
}
# functions, methods and fields of src/ that a definition is named after
MIRRORED = {
    "above_or_equal", "answer_line", "bad_line", "command_line", "count_line", "end_line", "family_name", "field_count",
    "handed_back", "is_meant", "is_open", "juniors_of", "layer_name", "no_line", "ok_line", "put_session", "record_head",
    "record_lines", "sessions_that", "without_role",
}
DECLARED = re.compile(
    r"(?m)^[ \t]*(?:abbrev |unfoldable )?(?:pub )?(?:record |data )?([^\s:(){};,.]+)"
    r"(?: \([^)]*\)| \{[^}]*\})*[ \t]*:[ \t]+(\S+)")
HEAD = re.compile(r"(?m)^[ \t]*(?:abbrev |unfoldable )?(?:pub )?(?:record|data) ([^\s:(){};,.]+)")
WORD = re.compile(r"(?<![\w\-'′])(\.?)([A-Za-z][\w\-'′]*)")
MADE = ("goal.", "given.", "need.")


def files(endings):
    for top in ("crates", "planted"):
        for folder, dirs, names in os.walk(top):
            dirs[:] = sorted(d for d in dirs if d != "out")
            for name in sorted(names):
                if name.endswith(endings):
                    yield os.path.join(folder, name)


def read(path):
    with open(path, encoding="utf-8") as f:
        return f.read()


def respelled(name):
    if name in OTHER:
        return OTHER[name]
    if name[0].isupper():
        return "".join(p[0].upper() + p[1:] for p in name.split("-"))
    words = re.sub(r"(?<=[a-z0-9])(?=[A-Z])", "_", name).replace("-", "_").replace("′", "'")
    return words.lower()


def declared():
    names, made, fields = set(), set(), set()
    for path in files(".antt"):
        text = read(path)
        for m in DECLARED.finditer(text):
            (made if m.group(2).startswith(MADE) else names).add(m.group(1))
        names.update(m.group(1) for m in HEAD.finditer(text))
        block = None
        for line in text.split("\n"):
            if re.match(r"(?:abbrev |unfoldable )?(?:pub )?record ", line):
                block = True
            elif line and not line[0].isspace():
                block = None
            m = block and re.match(r"\s+(?:pub )?([^\s:(){};,.]+)\s*:\s", line)
            if m:
                fields.add(m.group(1))
    return {n: respelled(n) for n in names - made if respelled(n) != n}, fields


def main():
    dry = "--dry" in sys.argv
    names, fields = declared()
    out, clashes = {}, []
    for path in files((".antt", ".rt", ".edit")):
        text = read(path)
        for old, new in IN_FILE.get(path, {}).items():
            text = re.sub(rf"(?<![\w.'-]){old}(?![\w'-])", new, text)
        seen = {m.group(2) for m in WORD.finditer(text)}
        to = {}
        for n in seen:
            if n in names:
                to.setdefault(names[n], set()).add(n)
        for new, olds in sorted(to.items()):
            if len(olds) > 1 or (new in seen and new not in MIRRORED):
                clashes.append(f"{path}: {' '.join(sorted(olds))} -> {new}" + (" (is there)" if new in seen else ""))

        def turn(m):
            dot, word = m.groups()
            return dot + (names[word] if word in names and (not dot or word in fields) else word)

        turned = WORD.sub(turn, text)
        if turned != read(path):
            out[path] = turned
    for line in clashes:
        print(line)
    if clashes and not dry:
        raise SystemExit("names fall together: tell them apart in OTHER")
    if not dry:
        for path, text in out.items():
            with open(path, "w", encoding="utf-8") as f:
                f.write(text)
    print(f"{len(names)} names, {len(out)} files")


main()
