#!/usr/bin/env python3
"""Brings the repository's own definitions and lemmas to the library's spelling: words in snake case, types in camel case, an apostrophe for a prime.

usage: python3 tools/respell.py            in the repository, once, right after the port of the library's names
       python3 tools/respell.py --check    shows what would change, and which names would fall together; writes nothing

It goes by tokens: the antt of specs/, proofs/ and must-fail/, and the clauses and ghost lines of src/. Strings keep their text.
"""

import os
import re
import sys

# A module that the library now makes itself has another name.
MOVED = [("crates/contracts/specs/Contracts.antt", "crates/contracts/specs/Promises.antt"), ("crates/contracts/specs/Contracts", "crates/contracts/specs/Promises")]
PATHS = [("contracts.specs.Contracts", "contracts.specs.Promises"), ("pub mod Contracts", "pub mod Promises"), ("contracts/specs/Contracts.antt", "contracts/specs/Promises.antt")]
# Facts, whose names are types.
TYPES = {"noFault": "NoFault", "tidy": "IsTidy", "slotted": "IsSlotted"}
# Lemmas that would have the respelled name of what they speak of, and a local alias of a module.
LEMMAS = {"at_last": ("comparing", "at_last_lem"), "key_meets": ("free_runs", "key_meets_lem"), "gone_at": ("free_runs", "gone_at_lem"), "one_more": ("report", "one_more_lem"), "in_order": ("region_table", "in_order_lem"), "key_of": ("region_table", "key_of_contract")}
# Library words inside own names.
WORDS = {"getD": "get_or"}
TOKEN = re.compile(r"[^\s(){}\[\].,;:«»\"|`]+")
STRING = re.compile(r'"(?:[^"\\\n]|\\.)*"')


def snake(word):
    """camelCase with a small first letter to snake_case; a word that begins with a capital is a type's name and stays."""
    if word in WORDS:
        return WORDS[word]
    if not re.match(r"[a-z]", word) or not re.search(r"[A-Z]", word):
        return word
    return re.sub(r"(?<=[a-z0-9'])([A-Z])", lambda m: "_" + m.group(1).lower(), word)


def respelled(token):
    return "-".join(snake(part) for part in token.replace("′", "'").split("-"))


def turned(text, renames, crate, is_antt):
    def one(m):
        word = m.group(0)
        if re.match(r"b?'.*'$", word):
            return word
        behind_dot = m.string[max(m.start() - 1, 0) : m.start()] == "."
        if is_antt and not behind_dot and LEMMAS.get(word, ("", ""))[0] == crate:
            return LEMMAS[word][1]
        new = TYPES.get(word, respelled(word)) if is_antt and not behind_dot else respelled(word)
        if is_antt and word in TYPES and "--" in m.string[m.string.rfind("\n", 0, m.start()) + 1 : m.start()]:
            return respelled(word)
        if new != word:
            renames.setdefault(word, new)
        return new

    out, at = [], 0
    for s in STRING.finditer(text):
        out += [TOKEN.sub(one, text[at : s.start()]), s.group(0)]
        at = s.end()
    out.append(TOKEN.sub(one, text[at:]))
    text = "".join(out)
    for old, new in PATHS:
        text = text.replace(old, new)
    return text


def files():
    for folder, dirs, names in os.walk("crates"):
        dirs[:] = sorted(d for d in dirs if d != "out")
        for name in sorted(names):
            if name.endswith((".antt", ".rt", ".edit")):
                yield os.path.join(folder, name)


def main(check):
    every, changed = {}, {}
    for path in files():
        with open(path, encoding="utf-8") as f:
            text = f.read()
        renames = {}
        new = turned(text, renames, path.split(os.sep)[1], path.endswith(".antt"))
        before = {m.group(0) for m in TOKEN.finditer(text)}
        for old, word in renames.items():
            every[old] = word
            if word in before:
                print(f"together: {path}: {old} and {word}")
        if new != text:
            changed[path] = new
    for old in sorted(every):
        print(f"{old} -> {every[old]}")
    print(f"{len(every)} names in {len(changed)} files")
    if check:
        return
    for path, new in changed.items():
        with open(path, "w", encoding="utf-8") as f:
            f.write(new)
    for old, new in MOVED:
        if os.path.exists(old):
            os.rename(old, new)


if __name__ == "__main__":
    main("--check" in sys.argv[1:])
