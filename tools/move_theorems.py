#!/usr/bin/env python3
"""Moves files of theorems from a crate's specs/ to its proofs/, with all files of specs/ that rest on them, and names them there everywhere.

usage: python3 tools/move_theorems.py CRATE FILE ..     FILE without .antt, as TallyLaws

A must-fail edit of a definition shows something only where what rests on the definition stands in proofs/.
"""
import os
import re
import subprocess
import sys


def tracked():
    out = subprocess.run(["git", "ls-files", "crates"], capture_output=True, text=True, check=True).stdout.split("\n")
    return [f for f in out if f.endswith((".antt", ".rt")) and os.path.isfile(f)]


def main():
    crate, names = sys.argv[1], set(sys.argv[2:])
    specs, proofs = f"crates/{crate}/specs", f"crates/{crate}/proofs"
    files = {f[:-5]: open(os.path.join(specs, f), encoding="utf-8").read() for f in os.listdir(specs) if f.endswith(".antt") and f != "Lib.antt"}
    while True:
        more = {f for f, t in files.items() if f not in names and any(re.search(rf"Rattle\.{crate}\.specs\.{n}\b", t) for n in names)}
        if not more:
            break
        names |= more
    missing = names - set(files)
    if missing:
        sys.exit(f"no such file: {missing}")
    os.makedirs(proofs, exist_ok=True)
    lib = os.path.join(specs, "Lib.antt")
    order = [m for m in re.findall(r"(?m)^pub mod (\w+)", open(lib, encoding="utf-8").read()) if m in names]
    with open(lib, encoding="utf-8") as f:
        text = f.read()
    for n in order:
        text = re.sub(rf"(?m)^pub mod {n}\n", "", text)
    with open(lib, "w", encoding="utf-8") as f:
        f.write(text)
    with open(os.path.join(proofs, "Lib.antt"), "a", encoding="utf-8") as f:
        f.write("".join(f"pub mod {n}\n" for n in order))
    for n in order:
        subprocess.run(["git", "mv", f"{specs}/{n}.antt", f"{proofs}/{n}.antt"], check=True)
    word = re.compile(rf"\bRattle\.{crate}\.specs\.({'|'.join(order)})\b")
    for f in set(tracked()) | {f"{proofs}/{n}.antt" for n in order}:
        with open(f, encoding="utf-8") as it:
            t = it.read()
        u = word.sub(rf"Rattle.{crate}.proofs.\1", t)
        if u != t:
            with open(f, "w", encoding="utf-8") as it:
                it.write(u)
    print(crate, *order)


main()
