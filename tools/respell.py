#!/usr/bin/env python3
"""Spells this repository's own definitions and lemmas as the library does: types and facts in upper camel case, all other
names in snake case. Run once, at the top, on a tree whose proof files are in today's spelling otherwise. What it renames is
what specs/ and the lemma files of proofs/ name; the names that Rattle makes for a function's proof, the library's names,
comments and the functions of src/ stay."""
import re
import subprocess
import sys
from pathlib import Path

WORD = r"[A-Za-z][A-Za-z0-9_']*(?:-[A-Za-z0-9_']+)+"
TOKEN = re.compile(r"(?<![A-Za-z0-9_'-])" + WORD)
# what a function's proof file declares beside its answers
HELPER = re.compile(r"^(?:pub )?(" + WORD + r") :(?! goal\.)")
USE = re.compile(r"^\s*(?:pub )?(?:ghost )?use ([\w.'+-]+)\.\{(.*)\}")


def code_part(path, line):
    """The line without its comment."""
    if path.suffix == ".antt":
        cut = re.search(r"(?:^|\s)--(?=\s|$)", line)
    else:
        cut = re.search(r"//", line)
    return (line, "") if cut is None else (line[: cut.start()], line[cut.start() :])


def respelled(name):
    if name[0].isupper():
        return "".join(part[:1].upper() + part[1:] for part in re.split(r"[-_]", name))
    return name.replace("-", "_")


def main():
    listed = subprocess.run(["git", "ls-files", "-z", "crates"], capture_output=True, check=True).stdout.decode()
    files = [Path(p) for p in listed.split("\0") if p and Path(p).exists()]
    crates = {p.parts[1] for p in files}
    texts = {p: p.read_text() for p in files if p.suffix in (".antt", ".rt", ".edit")}

    library = set()
    own = set()
    for path, text in texts.items():
        lines = [code_part(path, line)[0] for line in text.split("\n")]
        for line in lines:
            used = USE.match(line)
            if used and not (used.group(1).startswith("Rattle.") and used.group(1).split(".")[1] in crates):
                library.update(TOKEN.findall(used.group(2)))
        # the proof of one function lies deeper, as proofs/MODULE/FUNCTION/Answers.antt
        if path.suffix == ".antt":
            of_function = path.name in ("Answers.antt", "Invariants.antt", "Proof.antt")
            for line in lines:
                found = HELPER.match(line)
                own.update(([found.group(1)] if found else []) if of_function else TOKEN.findall(line))
    own -= library

    spelled = {}
    for name in sorted(own):
        new = respelled(name)
        if new in spelled.values():
            sys.exit(f"two names fall together: {name} and {[n for n, s in spelled.items() if s == new]}")
        spelled[name] = new

    def turn(found):
        return spelled.get(found.group(0), found.group(0))

    def turned(path, line):
        if path.suffix == ".edit":
            return line if line.startswith("file:") else TOKEN.sub(turn, line)
        code, comment = code_part(path, line)
        return TOKEN.sub(turn, code) + comment

    changed = 0
    for path, text in texts.items():
        new = "\n".join(turned(path, line) for line in text.split("\n"))
        if new != text:
            path.write_text(new)
            changed += 1
    left = sorted({t for p in texts for line in p.read_text().split("\n") for t in TOKEN.findall(code_part(p, line)[0])} - library)
    print(f"{len(spelled)} names, {changed} files; left: {' '.join(left)}")


main()
