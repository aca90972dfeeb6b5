#!/usr/bin/env python3
"""Brings the repository's own definitions and lemmas to today's spelling, after the port.py of the kit.

usage: python3 tools/spell_names.py [--look]      at the top of the repository; --look writes nothing and prints the names

Functions, fields and lemmas are in snake case: pointsOf is points_of, in-range is in_range. A dash stays where it joins the names of
two functions, as in length-half. Types and modules keep their names, and so do names of src/, of the library and of what Rattle makes.
"""
import os
import re
import subprocess
import sys

W = re.compile(r"[^\s(){}.;,@\"«»\[\]\\`:]+")
TOKEN = re.compile(r"[^\s(){}.;,@\"«»\[\]\\`|*]+")
CAMEL = re.compile(r"^[a-z][A-Za-z0-9']*[A-Z]")
DECLARED = re.compile(r"^(\s*)((?:(?:pub|abbrev|unfoldable|let)\s+)*)([^:(){}=|λ]+?)\s*:(?:\s|$)")
OF_LISTS = set("length take drop map reverse append flatten part put".split())

# port.py joined these names of two functions by '_', as names of the library that are spelled alike
JOINED = {"length_digits": "length-digits", "take_part": "take-part", "take_put": "take-put"}
# port.py gave these lemmas the name that a function gets here
LEMMAS = {"whole_in": "whole_in_lem", "no_room": "no_room_lem", "whole_below": "whole_below_lem", "whole_above": "whole_above_lem", "by_tests": "by_tests_lem", "both_hold": "both_hold_lem", "goes_on": "goes_on_lem"}
# a local name of a module that a function gets here, by file
ALIASES = {"crates/run/specs/Answers.antt": {"ran_to": "ran_case"}}
SOURCES = (".rt", ".antt", ".edit")


def files(endings):
    out = subprocess.run(["git", "ls-files", "-co", "--exclude-standard"], capture_output=True, text=True, check=True).stdout.splitlines()
    return [f for f in out if f.endswith(endings) and os.path.isfile(f) and not f.startswith("tools/") and f not in ("docs/PORT.md",)]


def snake(name):
    return re.sub(r"(?<=[a-z0-9'])(?=[A-Z])", "_", name).lower()


def declared(paths):
    """The names that antt files declare: at the top or in a record, and where or let; and those of goals."""
    names, functions, goals = set(), set(), set()
    for path in paths:
        for line in open(path, encoding="utf-8"):
            m = DECLARED.match(line)
            if not m or line.lstrip().startswith("--"):
                continue
            if re.search(r":\s*(?:tie|goal)\.", line):
                goals.update(m.group(3).split())
                continue
            for name in m.group(3).split():
                names.add(name)
                if "-" not in name and "/specs/" in path and not m.group(1):
                    functions.add(snake(name) if CAMEL.match(name) else name)
    return names, functions, goals


def spelled(name, functions):
    parts = [snake(p) if CAMEL.match(p) else p for p in name.split("-")]
    out = parts[0]
    for left, right in zip(parts, parts[1:]):
        out += ("-" if left in functions and (right in OF_LISTS or "_" in right and right in functions) else "_") + right
    return out


def main():
    look = "--look" in sys.argv
    antt = files((".antt",))
    names, functions, goals = declared(antt)
    functions |= OF_LISTS
    new = dict(JOINED)
    for name in names - goals:
        if re.match(r"^[a-z]\S*-\S", name) and not name.endswith("-spec") and re.fullmatch(r"[a-z][A-Za-z0-9'-]*", name):
            it = spelled(name, functions)
            if it != name:
                new[name] = it
    camels = set()
    for path in antt:
        for line in open(path, encoding="utf-8"):
            camels.update(snake(t) for t in TOKEN.findall(line.split("--")[0]) if "-" not in t and CAMEL.match(t))
    for name, it in list(new.items()):
        if it in functions | camels:
            new[name] = it + "_lem"
    proofs = {}
    for path in antt:
        if path.endswith("/Proof.antt"):
            own = path.split("/")[-2]
            proofs[path] = {own.replace("_", "-") + "-spec": own + "_spec"}
    seen = {}
    for path in antt:
        for line in open(path, encoding="utf-8"):
            for t in TOKEN.findall(line.split("--")[0]):
                if "-" not in t and CAMEL.match(t):
                    new[t] = snake(t)
                seen.setdefault(path, set()).add(t)
    clash = 0
    for path, tokens in seen.items():
        by = {}
        for t in tokens:
            by.setdefault(new.get(t, t), set()).add(t)
        for it, olds in by.items():
            if len(olds) > 1:
                clash += 1
                print(f"falls together in {path}: {' '.join(sorted(olds))} -> {it}")
    everywhere = {}
    for t, it in new.items():
        everywhere.setdefault(it, set()).add(t)
    for it, olds in sorted(everywhere.items()):
        if len(olds) > 1:
            print(f"look: {' '.join(sorted(olds))} -> {it}")
    if look:
        print(" ".join(f"{a}>{b}" for a, b in sorted(new.items())))
        print("dash stays:", " ".join(sorted(b for b in new.values() if "-" in b)))
        return clash
    changed = 0
    for path in files(SOURCES + (".md",)):
        text = open(path, encoding="utf-8").read()
        code = path.endswith(".antt")
        own = proofs.get(path, {})

        def put(m):
            t = m.group(0)
            if t in ALIASES.get(path, {}):
                return ALIASES[path][t]
            if t in LEMMAS and code and m.string[: m.start()][-1:] != ".":
                return LEMMAS[t]
            return own.get(t) or new.get(t, t)

        out = []
        for line in text.split("\n"):
            if path.endswith(".md"):
                line = re.sub(r"`[^`]*`", lambda m: TOKEN.sub(put, m.group(0)), line)
            elif code:
                at = re.search(r"(?:^|\s)--(?:\s|$)", line)
                head, tail = (line[: at.start()], line[at.start() :]) if at else (line, "")
                line = TOKEN.sub(put, head) + re.sub(r"`[^`]*`", lambda m: TOKEN.sub(put, m.group(0)), tail)
            elif path.endswith(".edit"):
                line = TOKEN.sub(put, line) if re.match(r"(old|new): ", line) else re.sub(r"`[^`]*`", lambda m: TOKEN.sub(put, m.group(0)), line)
            else:
                head, sep, tail = line.partition("//")
                if '"' not in head:
                    head = TOKEN.sub(put, head)
                line = head + sep + re.sub(r"`[^`]*`", lambda m: TOKEN.sub(put, m.group(0)), tail)
            out.append(line)
        it = "\n".join(out)
        if it != text:
            changed += 1
            open(path, "w", encoding="utf-8").write(it)
    print(f"{len(new)} names, {changed} files")
    return clash


if __name__ == "__main__":
    raise SystemExit(1 if main() else 0)
