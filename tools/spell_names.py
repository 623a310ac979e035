#!/usr/bin/env python3
"""Spells the repository's own definitions and lemmas as today's Rattle does: types in upper camel case, all else in snake case.

usage: spell_names.py, once, at the top of a repository that the kit's port.py has turned.

Only names with a dash change. A dash before an operator stays, since it joins two names (followed_by-++).
Names that std defines, and names that the check makes for goals and steps, stay as they are.
Names that would fall together with another name of the same file are printed, and then nothing is written.
"""
import re
import subprocess
import sys
from pathlib import Path

TOKEN = re.compile(r"(?<![\w\-'])[A-Za-z_][\w']*(?:-(?:[\w']+|\+\+))+(?![\w'])")
WORD = re.compile(r"(?<![\w\-'])[A-Za-z_][\w']*(?:-(?:[\w']+|\+\+))*")
SIGNATURE = re.compile(r"^\s*(?:(?:abbrev|unfoldable|pub|data|record|ruleset) )*([^\s:(){}.,;]+)(?: [^:=\n]*)?\s*:(?!:)", re.M)
IMPORT = re.compile(r"^(?:pub |ghost )?use (?:Rattle\.std|borrow|denote|native|lib|mathlib)\b[^\n]*", re.M)
# What the check names: goals in the answers of a function, and what its author chooses.
GOAL = re.compile(r"^(?:returns|loop|invariant|decreases|overflow|index|offset|slice|nonzero|push|put|remove|begin|insert)-.*")


def text_files(*patterns):
    return sorted(p for pattern in patterns for p in Path(".").glob(pattern))


def comment_free(text):
    return re.sub(r"--(?!\w).*", "", text)


def is_for_a_function(path):
    return "proofs" in path.parts and len(path.parts) > path.parts.index("proofs") + 2


def own_names():
    """The names with a dash that specs/ and proofs/ define, and the other names with a dash in lemma files."""
    names, of_std = set(), set()
    for path in text_files("crates/*/specs/**/*.antt", "crates/*/proofs/**/*.antt"):
        text = comment_free(path.read_text())
        for line in IMPORT.findall(text):
            of_std.update(TOKEN.findall(line))
        for name in SIGNATURE.findall(text):
            is_goal = is_for_a_function(path) and (f"goal.{name}" in text or ("goal." in text and GOAL.match(name)))
            if TOKEN.fullmatch(name) and not is_goal:
                names.add(name)
        if not is_for_a_function(path):
            names.update(TOKEN.findall(re.sub(r"\.[\w'-]+", "", IMPORT.sub("", text))))
    # The names under which a contract or a proof brings another one in.
    for path in text_files("crates/*/src/**/*.rt", "crates/*/specs/**/*.antt", "crates/*/proofs/**/*.antt"):
        for line in re.findall(r"^(?:pub |ghost )?use [^\n]*", path.read_text(), re.M):
            names.update(re.findall(rf" as ({TOKEN.pattern})", line))
    return names - of_std


def spelled(name):
    head, plus, _ = name.partition("-++")
    if head[0].isupper():
        head = "".join(part[0].upper() + part[1:] for part in head.split("-"))
    else:
        head = head.replace("-", "_")
    return head + plus


# port.py gave a local name the capital of a type.
SPECIAL = {"Quiet-all": "quiet_all"}
# A type that port.py spelled as a library's function of the same name.
TYPES = {"Goes_on": "GoesOn"}


def turned(text, names):
    for old, new in TYPES.items():
        text = re.sub(rf"\b{old}\b", new, text)
    return TOKEN.sub(lambda m: SPECIAL.get(m[0]) or (spelled(m[0]) if m[0] in names else m[0]), text)


def code_turned(text, names, mark):
    """Turns all but comments."""
    lines = []
    for line in text.split("\n"):
        found = re.search(mark, line)
        cut = found.start() if found else len(line)
        lines.append(turned(line[:cut], names) + line[cut:])
    return "\n".join(lines)


def ticked(text, names):
    """Turns what stands in backticks, in a page."""
    return re.sub(r"`[^`\n]*`", lambda m: turned(m[0], names), text)


def main():
    if len(sys.argv) > 1:
        print(__doc__)
        return 0
    names = own_names() | set(SPECIAL)
    clashes = []
    writes = {}
    for path in text_files("crates/*/specs/**/*.antt", "crates/*/proofs/**/*.antt", "crates/*/src/**/*.rt", "crates/*/must-fail/*.edit"):
        text = path.read_text()
        mark = r"--(?!\w)" if path.suffix == ".antt" else r"(?<!:)//"
        bare = re.sub(mark + r".*", "", text)
        here = set(WORD.findall(bare))
        made = {}
        for name in here & names:
            new = SPECIAL.get(name) or spelled(name)
            made.setdefault(new, set()).add(name)
        for new, olds in made.items():
            # In a .rt file clauses and code have their names apart.
            is_taken = path.suffix == ".antt" and new in here and new not in olds
            if len(olds) > 1 or is_taken:
                clashes.append(f"{path}: {new} from {', '.join(sorted(olds))}")
        writes[path] = code_turned(text, names, mark)
    for path in text_files("README.md", "docs/*.md"):
        if path.name.startswith("PORT"):
            continue
        writes[path] = ticked(path.read_text(), names)
    if clashes:
        print("\n".join(clashes))
        print(f"{len(clashes)} names fall together; nothing is written")
        return 1
    for path, text in writes.items():
        path.write_text(text)
    print(f"{len(names)} names spelled anew")
    return 0


if __name__ == "__main__":
    sys.exit(main())
