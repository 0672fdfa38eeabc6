#!/usr/bin/env python3
"""Brings the definitions and lemmas of crates/ to snake case, once, after port.py: lengthOf is length_of, and a dash still joins two names.
It renames each definition whose name has a capital inside it, the library's getD in lemma names to its name of today, and a function's proof to f_spec.

usage: python3 tools/port-names.py     at the top of the repository
"""

import collections
import os
import re
import subprocess
import sys

NAME = r"[^\W\d][\w'₀-₉]*(?:-[\w'₀-₉]+)*"
HEAD = re.compile(rf"^\s*((?:(?:pub|abbrev|unfoldable)\s+)*)({NAME}) :(?!:)")
TOKEN = re.compile(rf"(?<![\w'-]){NAME}")


# Two names that would fall together with one of the library or with a field.
OTHERS = {"setAt": "set_entry", "isOpen": "is_open_at"}
# Lemmas that would have the name of their function, and the folder where they are cited.
LEMMAS = {"apart_by": "crates/", "insert_all": "crates/variety/", "in_order": "crates/near_list/", "pick_next": "crates/road_judge/"}


def snake(name):
    if name in OTHERS:
        return OTHERS[name]
    name = re.sub(r"\bgetD\b", "get_or", name)
    return "-".join(re.sub(r"([a-z0-9])([A-Z])", lambda m: m[1] + "_" + m[2].lower(), part) if part[:1].islower() else part for part in name.split("-"))


def main():
    listed = subprocess.run(["git", "ls-files", "-z", "crates"], capture_output=True, text=True, check=True).stdout.split("\0")
    files = [f for f in listed if f.endswith((".rt", ".antt", ".edit")) and os.path.exists(f)]
    texts = {f: open(f, encoding="utf-8").read() for f in files}
    names = set()
    for f, text in texts.items():
        if f.endswith(".antt"):
            for line in text.split("\n"):
                m = HEAD.match(line)
                if m:
                    names.add(m[2])
    new = {n: snake(n) for n in names if snake(n) != n}
    together = collections.defaultdict(set)
    for n in names:
        together[new.get(n, n)].add(n)
    changed = 0
    for f, text in texts.items():
        before = set(TOKEN.findall(text))
        turn = dict(new) | {n: n + "_lem" for n, folder in LEMMAS.items() if f.endswith(".antt") and f.startswith(folder)}
        if os.path.basename(f) == "Proof.antt":
            function = os.path.basename(os.path.dirname(f)).lstrip("+")
            turn[function.replace("_", "-") + "-spec"] = function + "_spec"
        made = TOKEN.sub(lambda m: turn.get(m[0], m[0]), text)
        for n in sorted(before):
            if n in turn and turn[n] in before and not turn[n].endswith("_lem") and n not in LEMMAS and not f.endswith(".edit"):
                print(f"look: {f}: {n} falls together with {turn[n]}")
        if made != text:
            with open(f, "w", encoding="utf-8") as out:
                out.write(made)
            changed += 1
    for n, olds in sorted(together.items()):
        if len(olds) > 1:
            print(f"look: {' '.join(sorted(olds))} are all {n} now")
    print(f"{len(new)} names, {changed} files")
    return 0


if __name__ == "__main__":
    sys.exit(main())
