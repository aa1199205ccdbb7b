#!/usr/bin/env python3
"""Makes crates/README.md: what each crate does and what it stands on, floor by floor.

usage: python3 -m tools.crates_page > crates/README.md

Floors and what a crate stands on are those of crates.txt; what it does is the first sentence of its lib.rt or main.rt.
Exit status: 0; 1 and one line where a crate has no such sentence.
"""
import re
from pathlib import Path

from gpscover.command import run_tool
from gpscover.errors import Error

ROOT = Path(__file__).resolve().parents[1]

HEAD = """# The crates

By floors, the lowest first: a crate stands on crates of its own floor and of those before it. What a crate does is the first
sentence of its `lib.rt` or `main.rt`. What it stands on is told without the crates below those that are named, and libraries of
the kit come last, without a link. What flows from crate to crate, and what the files of each hold, is in
[ARCHITECTURE](../docs/ARCHITECTURE.md). Made by `tools/crates_page.py` from [crates.txt](../crates.txt).
"""


class Missing(Error):
    """A crate doesn't say what it does."""


def floors():
    """Floor by floor its name and, crate by crate, what the crate stands on, as crates.txt has them."""
    found = []
    for line in (ROOT / "crates.txt").read_text(encoding="utf-8").splitlines():
        if line.startswith("# ") and ":" not in line:
            found.append((line[2:], {}))
        elif ":" in line and not line.startswith("#"):
            name, _, below = line.partition(":")
            found[-1][1][name.split()[0]] = below.split()
    return found


def upward():
    """The pairs of a crate and one on a higher floor that it stands on."""
    floor_of = {name: at for at, (_, crates) in enumerate(floors()) for name in crates}
    return [
        (name, other)
        for at, (_, crates) in enumerate(floors())
        for name, below in crates.items()
        for other in below
        if floor_of.get(other, at) > at
    ]


def first_sentence(name):
    """What a crate does, by the comment at the top of its root file."""
    for root in ("lib.rt", "main.rt"):
        path = ROOT / "crates" / name / "src" / root
        if path.is_file():
            comment = re.match(r"(//! .*\n)+", path.read_text(encoding="utf-8"))
            words = " ".join(line[4:] for line in comment[0].splitlines()) if comment else ""
            sentence = re.match(r".*?\.(?= |$)", words)
            if sentence:
                return sentence[0]
    raise Missing(f"crates/{name} has no first sentence in lib.rt or main.rt")


def without_lower(below, crates):
    """These crates without those that another one of them stands on."""

    def all_below(name):
        return {it for other in crates.get(name, ()) for it in (other, *all_below(other))}

    lower = {it for name in below for it in all_below(name)}
    return [name for name in below if name not in lower]


def row(name, crates):
    """A crate's row of the table."""
    own = without_lower([it for it in crates[name] if it in crates], crates)
    named = [f"[`{it}`]({it})" for it in own] + [f"`{it}`" for it in crates[name] if it not in crates]
    return f"| [`{name}`]({name}) | {first_sentence(name)} | {', '.join(named) or 'none'} |"


def page():
    """The whole page."""
    crates = {name: below for _, floor in floors() for name, below in floor.items()}
    parts = [HEAD]
    for title, floor in floors():
        rows = "\n".join(row(name, crates) for name in floor)
        parts.append(f"## {title}\n\n| crate | does | stands on |\n|---|---|---|\n{rows}\n")
    return "\n".join(parts)


def main():
    print(page(), end="")
    return 0


if __name__ == "__main__":
    run_tool(main)
