#!/usr/bin/env python3
"""Brings the repository's own words to today's spelling: a word of specs/ or proofs/ in camel case (as isWorking) gets snake case (is_working),
also inside the name of a law (isWorking-next). Types and modules keep theirs, and so do the names of src/. Its types become Copy, which they were.

usage: python3 tools/respell.py [--dry]        at the top of the repository, once, after the kit's port.py
"""
import os
import re
import subprocess
import sys

# A word that begins small and has a capital after a small letter or a digit: one that has it only after _ or - (as is_T, is-F) is the kit's.
TOKEN = re.compile(r"(?<![A-Za-z0-9_'-])[a-z][A-Za-z0-9_'-]*")
KIT = {"is_T", "is-F", "walk_Meets", "uint_Makes", "uint_Lawful", "mut_Tells", "is_Signed", "after_Line", "shr_slice_Lawful", "shr_slice_Tells"}


# Words that would fall together with another word of the same file: what gives way, and to what.
APART = {
    "crates/funds/specs/BoundLaws.antt": {"allMost": "most_for_all"},
    "crates/day_end/proofs/close/Proof.antt": {"is_open": "still_open"},
    "crates/scan/proofs/number_in/Proof.antt": {"is_digit": "digit_there"},
    "crates/standing/specs/CloseRowLaws.antt": {"moved_up": "rows_moved_up"},
}


def set_apart(text, words):
    for old, new in words.items():
        text = re.sub(r"(?<![A-Za-z0-9_'.-])" + re.escape(old) + r"(?![A-Za-z0-9_'-])", new, text)
    return text


def turned(word):
    if word in KIT:
        return word
    return re.sub(r"(?<=[a-z0-9])[A-Z]", lambda m: "_" + m.group(0).lower(), word)


def files():
    out = subprocess.run(["git", "ls-files", "crates"], capture_output=True, text=True, check=True).stdout.split("\n")
    return [f for f in out if f.endswith((".rt", ".antt"))]


def respelled(text, rt, seen):
    def one(m):
        w = m.group(0)
        t = turned(w)
        if t != w:
            seen.setdefault(w, t)
        return t

    if not rt:
        return TOKEN.sub(one, text)
    # In src/ only what is ghost has such words: comments and strings stay as they are.
    lines = []
    for line in text.split("\n"):
        at = line.find("//")
        code, rest = (line, "") if at < 0 else (line[:at], line[at:])
        parts = re.split(r'("(?:[^"\\]|\\.)*")', code)
        lines.append("".join(p if p.startswith('"') else TOKEN.sub(one, p) for p in parts) + rest)
    return "\n".join(lines)


def main():
    dry = "--dry" in sys.argv
    seen, words = {}, {}
    turned_texts = {}
    for f in files():
        with open(f, encoding="utf-8") as it:
            read = it.read()
        text = set_apart(read, APART.get(f, {}))
        for m in TOKEN.finditer(text):
            words.setdefault(m.group(0), set()).add(f)
        t = respelled(text, f.endswith(".rt"), seen)
        if f.endswith(".rt"):
            # Every type of this book is plain data that was copied at each use.
            t = t.replace("#[derive(Drop)]", "#[derive(Clone, Copy)]")
        if t != read:
            turned_texts[f] = t
    for w, t in sorted(seen.items()):
        if t in words:
            where = sorted(words[t])
            print(f"together: {w} -> {t}, in {len(where)} files, as {where[0]}")
    if not dry:
        for f, t in turned_texts.items():
            with open(f, "w", encoding="utf-8") as it:
                it.write(t)
    print(f"{len(seen)} words, {len(turned_texts)} files")


main()
