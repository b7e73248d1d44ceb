#!/usr/bin/env python3
"""Brings the repository's own definitions and lemmas to one spelling: words in snake case.

Run once, at the top, after the toolchain's own respelling. A word is renamed where an .antt file of
the repository declares it, and then wherever it stands as a word: in .antt files, in the ghost parts
of .rt files and in must-fail edits. Functions, strings and file names keep theirs. In comments only
camel case is respelled, since hyphens stand in plain English too. `--list` prints the names alone.
"""
import pathlib
import re
import sys

WORD = re.compile(r"[A-Za-z_][A-Za-z0-9_'₀-₉]*(?:-[A-Za-z0-9_'₀-₉]+)*")
DECLARED = re.compile(r"^\s*(?:(?:abbrev|unfoldable|private|pub|instance)\s+)*((?:[a-z][A-Za-z0-9_'₀-₉-]*\s+)+)(?:\{ℓ\}\s+)?:(?:\s|$)")
# Rattle's own names in a proof file: a loop's invariant, and its measure
RATTLE = re.compile(r"^(invariant|decreases)-")

# Lemmas and fields whose name would fall together with that of a definition
APART = {
    "addresses-of": "addresses_read",
    "answer-number": "number_of_answer",
    "bad-records": "records_refused",
    "bytes-end": "bytes_put",
    "can-go": "able_to_go",
    "cut-argument": "argument_cut",
    "demands-at": "demands_there",
    "end-at": "ends",
    "file-of": "the_file",
    "is-entry": "an_entry",
    "is-new": "new_name",
    "last-blank": "last_blank_in",
    "low-byte": "low_half",
    "ran-text": "ran_text_of",
    "rank-after": "rank_behind",
    "read-row": "reads_row",
    "roll-position": "position_in_roll",
    "rules-at": "rules_hold_at",
    "run-checks": "checks_of_run",
    "sheet-size": "whole_sheet",
    "shown-at": "is_shown_at",
    "time-number": "number_of_time",
    "times-in": "times_listed",
    "with-destination": "has_destination",
    "Read-or-longer": "ReadOrLonger",
}
# The same, where the toolchain's script has put the lemma into snake case already: in these crates alone
APART_IN = {
    "executions": {"count_at": "count_adds"},
    "files": {"high_byte": "high_half"},
    "drawings": {"high_byte": "high_half", "goes_on": "going_on"},
    "seats": {"goes_on": "going_on"},
    "seating": {"goes_on": "going_on"},
}


def snake(name):
    """firstBroken and first-broken become first_broken."""
    joined = name.replace("-", "_")
    return re.sub(r"(?<=[a-z0-9'])([A-Z])", lambda m: "_" + m.group(1), joined).lower()


def is_mixed(name):
    return "-" in name or name != name.lower()


def declared(folder):
    names = set()
    for path in folder.rglob("*.antt"):
        for line in path.read_text().splitlines():
            found = DECLARED.match(line.split("--")[0])
            if found:
                names.update(found.group(1).split())
    words = {"pub", "abbrev", "unfoldable", "private", "data", "record", "module"}
    return {n for n in names if n not in words and is_mixed(n) and not RATTLE.match(n)}


def respelled(text, names, camel_only=False):
    def one(match):
        word = match.group(0)
        if word in names and not (camel_only and "-" in word):
            return names[word]
        return word
    return WORD.sub(one, text)


def line_respelled(line, names, comment, quotes):
    """One line: its comment and its strings apart from the rest."""
    parts = re.split(r'("(?:[^"\\]|\\.)*")', line) if quotes else [line]
    out, in_comment = [], False
    for part in parts:
        if in_comment:
            out.append(respelled(part, names, True))
        elif quotes and part.startswith('"'):
            out.append(part)
        elif comment in part:
            head, tail = part.split(comment, 1)
            out.append(respelled(head, names) + comment + respelled(tail, names, True))
            in_comment = True
        else:
            out.append(respelled(part, names))
    return "".join(out)


def borrowed(text):
    """The words that a file imports from the toolchain's libraries."""
    words = set()
    for line in re.findall(r"^(?:ghost )?use (?!Rattle\.(?!std\.|core\.))\S+\.\{(.*)\};?$", text, re.M):
        words.update(w.strip() for w in line.split(","))
    return words


def rewrite(path, names, comment, quotes):
    old = path.read_text()
    names = {k: v for k, v in names.items() if k not in borrowed(old)}
    new = "\n".join(line_respelled(l, names, comment, quotes) for l in old.split("\n"))
    if new != old:
        path.write_text(new)


def main():
    crates = pathlib.Path("crates")
    names = {n: snake(n) for n in sorted(declared(crates))} | APART
    by_new = {}
    for old, new in names.items():
        by_new.setdefault(new, []).append(old)
    together = {k: v for k, v in by_new.items() if len(v) > 1}
    for new, olds in sorted(together.items()):
        print(f"fall together: {' '.join(olds)} -> {new}")
    if "--list" in sys.argv:
        for old, new in names.items():
            print(old, new)
        return
    if together:
        sys.exit("give these names of their own first")
    for path in crates.rglob("*.antt"):
        rewrite(path, names | APART_IN.get(path.parts[1], {}), "--", False)
    for path in crates.rglob("*.rt"):
        rewrite(path, names, "//", True)


if __name__ == "__main__":
    main()
