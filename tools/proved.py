#!/usr/bin/env python3
"""Compares the calls and clauses that docs/PROVED.md names under the heading of each crate with those of its sources.

usage: python3 -m tools.proved

A bullet under a crate's heading begins with the calls of which it speaks, each with its clauses in brackets; none
there means all. Prints what the page names and the crate doesn't have, and the functions that the crate gives to
others, and their clauses, that the page doesn't name.

Exit status: 0; 1 where a line is printed.
"""
import re
import sys
from pathlib import Path

TOP = Path(__file__).resolve().parents[1]
NAME = r"`(\w+)`"
CALL = re.compile(rf"{NAME}(?: of {NAME}| of both objects in memory)?(?: \(({NAME}(?:, {NAME})*)\))?")
DECLARED = r"^ *(?:pub(?:\(crate\))? )?(?:const )?fn "
FUNCTION = re.compile(rf"{DECLARED}(\w+)(.*?)(?={DECLARED}|\Z)", re.DOTALL | re.MULTILINE)
TYPE = re.compile(r"^ *(?:pub )?(?:trait|struct|enum) (\w+)", re.MULTILINE)
ALL = "all"


def bullets(page):
    """(crate, bullet) of each bullet under the headings of crates, in order."""
    proved = page.split("## Only tested")[0]
    for part in re.split(r"^### ", proved, flags=re.MULTILINE)[1:]:
        crate = re.match(NAME, part)[1]
        for bullet in re.findall(r"^- (.*(?:\n  .*)*)", part, re.MULTILINE):
            yield crate, " ".join(bullet.split())


def calls(bullet):
    """The calls with which a bullet begins: name, type or None, clauses."""
    found, place = [], 0
    while call := CALL.match(bullet, place):
        found.append((call[1], call[2], re.findall(NAME, call[3] or "")))
        place = call.end()
        if not bullet.startswith(", ", place):
            break
        place += 2
    return found


def declared(crate):
    """The functions of a crate, each with the clauses of all that have its name, and the crate's types."""
    functions, types = {}, set()
    for source in sorted((TOP / "crates" / crate / "src").rglob("*.rt")):
        text = source.read_text(encoding="utf-8")
        types.update(TYPE.findall(text))
        for name, rest in FUNCTION.findall(text):
            functions.setdefault(name, set()).update(re.findall(r"\bensures (\w+) \{", rest))
    return functions, types


def exported(crate):
    """The names in small letters that a crate's root gives on."""
    root = (TOP / "crates" / crate / "src/lib.rt").read_text(encoding="utf-8")
    given = re.findall(r"^pub use [^;]*?::(\{[^;]*\}|\w+);", root, re.MULTILINE)
    return sorted({name for names in given for name in re.findall(r"\b[a-z]\w*\b", names)})


def gone(page):
    """What the page names under a crate's heading, and the crate doesn't have."""
    for crate, bullet in bullets(page):
        functions, types = declared(crate)
        named = calls(bullet)
        if not named:
            yield f"{crate}: no call in front of '{bullet[:40]}'"
        for name, owner, clauses in named:
            if name not in functions and name not in types or owner and owner not in types:
                yield f"{crate}: no {name}" + (f" of {owner}" if owner else "")
            there = functions.get(name, ())
            yield from (f"{crate}: no {clause} of {name}" for clause in clauses if clause not in there)


def untold(page):
    """The functions that crates give to others, and their clauses, that the page doesn't name."""
    named = {}
    for crate, bullet in bullets(page):
        for name, _, clauses in calls(bullet):
            named.setdefault(crate, {}).setdefault(name, set()).update(clauses or [ALL])
    for crate, told in named.items():
        functions, _ = declared(crate)
        given = [name for name in exported(crate) if name in functions]
        yield from (f"{crate}: {name} isn't named" for name in given if name not in told)
        for name, clauses in told.items():
            left = set() if ALL in clauses else functions.get(name, set()) - clauses
            yield from (f"{crate}: {clause} of {name} isn't named" for clause in sorted(left))


if __name__ == "__main__":
    text = (TOP / "docs/PROVED.md").read_text(encoding="utf-8")
    lines = [*gone(text), *untold(text)]
    print("".join(f"{line}\n" for line in lines), end="")
    sys.exit(1 if lines else 0)
