#!/usr/bin/env python3
"""Brings the repository's own definitions and lemmas to one spelling: words in snake case, types and modules in camel case.

usage: python3 tools/respell.py             at the top of the repository, once, on files that the toolchain's own script has turned
       python3 tools/respell.py definitions  the second half of that alone: definitions of specs/ that had dashes

Every lower camel case word of crates/ is turned, in .antt and .rt files, and the same words in must-fail edits and pages. A dash
joins the words of a lemma and stays. Where a turned word would fall together with a lemma of that spelling, the lemma gets its dash back.
"""
import os
import re
import sys

CAMEL = re.compile(r"[a-z0-9][A-Z]")
WORD = re.compile(r"[A-Za-z_][A-Za-z0-9_']*")

# Lemmas that a turned word would fall together with, by the crates in which they stand.
DASHED = {
    "answers_next": ["plain_record"],
    "by_place": ["vacuum"],
    "dedup_from": ["delete_vector"],
    "line_on": ["replay"],
    "line_read": ["recovery"],
    "pair_row": ["replay"],
    "read_at": ["replay"],
    "reads_first": ["plain_record"],
    "said_read": ["recovery"],
    "too_short": ["plain_record", "show"],
    "vector_row": ["replay"],
}

# Words that would take the name of a parameter of clauses that cite them.
OTHER = {
    "pairTables": "tables_of_pairs",
    "pairRowsets": "rowsets_of_pairs",
    "pairAdded": "added_of_pairs",
    "pairDeleted": "deleted_of_pairs",
}

# No names: how a byte is written in a list of calls.
KEPT = {"xHH"}

# Definitions and fields of specs/ that had dashes: underscores for them, but where a word of that spelling is there already.
DEFINED = re.compile(r"^\s*(?:abbrev |unfoldable )?(?:pub )?([a-z][A-Za-z0-9_']*(?:-[A-Za-z0-9_']+)+) :", re.M)
RENAMED = {
    "add-rowset": "snapshot_add_rowset",
    "delete-rowset": "snapshot_delete_rowset",
    "add-dv": "snapshot_add_dv",
    "delete-dv": "snapshot_delete_dv",
    "second-begin": "has_second_begin",
    "orphan-vector": "has_orphan_vector",
    "live-id": "takes_live_id",
    "over-limits": "is_over_limits",
    "last-id": "has_last_id",
    "vacuum-order": "lists_unordered",
    "next-ids": "has_forgotten_ids",
    "rowset-id": "sized_rowset_id",
}


def files(root, endings):
    for folder, dirs, names in os.walk(root):
        dirs[:] = sorted(d for d in dirs if d not in ("out", "target", ".git"))
        for name in sorted(names):
            if name.endswith(endings):
                yield os.path.join(folder, name)


def snake(word):
    return re.sub(r"([a-z0-9])([A-Z]+)", lambda m: m.group(1) + "_" + m.group(2).lower(), word)


def read(path):
    with open(path, encoding="utf-8") as f:
        return f.read()


def definitions():
    """Words with dashes that specs/ defines, by crates; a field of that spelling keeps its word."""
    for crate in sorted(os.listdir("crates")):
        root = os.path.join("crates", crate)
        dashed = set()
        for path in files(os.path.join(root, "specs"), (".antt",)):
            dashed.update(DEFINED.findall(read(path)))
        if not dashed:
            continue
        word = re.compile(r"(?<![\w'-])(" + "|".join(sorted(map(re.escape, dashed), key=len, reverse=True)) + r")(?![\w'-])( = (?!=)| : ℕ$)?", re.M)

        def turned(m):
            field = m.string[: m.start()].endswith(".") or (m.group(2) and m.group(1) == "rowset-id")
            to = m.group(1).replace("-", "_") if field else RENAMED.get(m.group(1), m.group(1).replace("-", "_"))
            return to + (m.group(2) or "")

        users = [path for path in files("crates", (".antt", ".rt", ".edit")) if f"Rattle.{crate}." in read(path) or path.startswith(root + os.sep) or (crate == "transaction" and path.startswith(os.path.join("crates", "version_manager")))]
        for path in users:
            before = read(path)
            lines = before.split("\n")
            for i, line in enumerate(lines):
                code, dash, comment = line.partition("-- ") if path.endswith(".antt") else (line, "", "")
                lines[i] = word.sub(turned, code) + dash + comment
            text = "\n".join(lines)
            if text != before:
                with open(path, "w", encoding="utf-8") as f:
                    f.write(text)


def main():
    words = set()
    for path in files("crates", (".antt", ".rt")):
        for word in WORD.findall(read(path)):
            if word[0].islower() and CAMEL.search(word) and word not in KEPT:
                words.add(word)
    turned = {w: OTHER.get(w, snake(w)) for w in words}
    for path in list(files("crates", (".antt", ".rt", ".edit"))) + list(files("docs", (".md",))) + ["README.md", "CONTRIBUTING.md", "oracle/README.md"]:
        before = read(path)
        text = before
        crate = path.split(os.sep)[1] if os.sep in path else ""
        if path.endswith(".antt"):
            for lemma, crates in DASHED.items():
                if crate in crates:
                    text = re.sub(rf"(?<![\w'.-]){lemma}(?![\w'-])(?!\.Statement|\.Tie)", lemma.replace("_", "-"), text)
        text = WORD.sub(lambda m: turned.get(m.group(0), m.group(0)), text)
        if text != before:
            with open(path, "w", encoding="utf-8") as f:
                f.write(text)


if sys.argv[1:] != ["definitions"]:
    main()
definitions()
