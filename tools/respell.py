#!/usr/bin/env python3
"""Spells the repository's own definitions, lemmas and record fields in snake case, and names the crate of byte fields.

usage: tools/respell.py [--list]     at the top of the repository; --list prints the names and changes nothing

A name is the repository's own where an .antt file declares it: at the head of a signature, as a field of a record or as
a constructor. Names of types and modules, of goals and of functions in src/ stay. Where two names would fall together, or
a new one stands already, it says so.
"""
import os
import re
import sys

TOKEN = r"[A-Za-z_][A-Za-z0-9_'₀-₉-]*"
EDGE = r"[A-Za-z0-9_'₀-₉-]"
DECLARED = re.compile(rf"^[ ]*(?:(?:abbrev|unfoldable|pub)\s+)*((?:{TOKEN}\s+)*{TOKEN})\s+:\s(.*)$", re.M)
WORDS = {"let", "record", "data", "use", "where", "module", "in", "pub", "abbrev", "unfoldable"}
# A lemma that would have its definition's name, and two fields that would have a definition's.
OTHERWISE = {
    "all_read": "all_read_lem",
    "by-letter": "by_letter_lem",
    "data_head": "data_head_lem",
    "event-read": "event_is_read",
    "job_read": "job_is_read",
    "load-fault": "load_fault_lem",
    "pass-terms": "pass_terms_lem",
    "unless-used": "unless_used_lem",
}
# the kit has a library named bytes
CRATE = ("bytes", "byte_fields")


def snake(name):
    if name in OTHERWISE:
        return OTHERWISE[name]
    name = re.sub(r"([a-z0-9₀-₉])([A-Z])", lambda m: m[1] + "_" + m[2].lower(), name)
    return name.replace("-", "_")


def files(ends):
    for top in ("crates", "docs", "README.md"):
        for folder, dirs, names in os.walk(top) if os.path.isdir(top) else [(".", [], [top])]:
            dirs[:] = sorted(d for d in dirs if d not in ("out", "target"))
            for name in sorted(names):
                if name.endswith(ends):
                    yield os.path.normpath(os.path.join(folder, name))


def read(path):
    with open(path, encoding="utf-8") as f:
        return f.read()


def mapping():
    declared, seen = {}, set()
    for path in files((".antt", ".rt")):
        text = read(path)
        seen |= set(re.findall(TOKEN, text))
        if not path.endswith(".antt"):
            continue
        for names, of in DECLARED.findall(text):
            if of.startswith(("goal.", "given.")):
                continue
            for name in names.split():
                if name not in WORDS and not name[0].isupper() and snake(name) != name:
                    declared.setdefault(name, path)
    new, said = {}, []
    for name in sorted(declared):
        to = snake(name)
        if to in new.values():
            said.append(f"{name}: {to} is the name of another one now")
            continue
        if to in seen and to not in OTHERWISE:
            said.append(f"{name}: {to} stands already (a function's name may)")
        new[name] = to
    return new, said


def rename_crate():
    old, new = CRATE
    if os.path.isdir(f"crates/{old}"):
        os.rename(f"crates/{old}", f"crates/{new}")
    for path in list(files((".antt", ".rt", ".edit"))) + ["crates.txt"]:
        text = read(path)
        if path == "crates.txt":
            done = re.sub(rf"(?<![\w]){old}(?![\w])", new, text)
        else:
            done = re.sub(rf"Rattle\.{old}\.", f"Rattle.{new}.", text)
            done = re.sub(rf"^(\s*(?:pub )?use ){old}::", rf"\1{new}::", done, flags=re.M)
        if done != text:
            with open(path, "w", encoding="utf-8") as f:
                f.write(done)


def main():
    new, said = mapping()
    print("\n".join(said))
    if "--list" in sys.argv:
        for name in sorted(new):
            print(name, "->", new[name])
        return
    whole = re.compile(rf"(?<!{EDGE})(" + "|".join(re.escape(n) for n in sorted(new, key=len, reverse=True)) + rf")(?!{EDGE})")
    for path in files((".antt", ".rt", ".edit", ".md")):
        text = read(path)
        if path.endswith(".md"):
            done = re.sub(r"`[^`\n]+`", lambda m: whole.sub(lambda n: new[n[1]], m[0]), text)
        else:
            done = whole.sub(lambda m: new[m[1]], text)
        if done != text:
            with open(path, "w", encoding="utf-8") as f:
                f.write(done)
    rename_crate()
    print(f"{len(new)} names")


if __name__ == "__main__":
    main()
