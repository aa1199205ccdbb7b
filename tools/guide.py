#!/usr/bin/env python3
"""Types the commands of the guide's pages, and compares what they print with what the pages show.

usage: python3 -m tools.guide [--write] [PAGE ..]

The pages are docs/GUIDE.md, docs/GUIDE_TRACKS.md and docs/GUIDE_PLACES.md, in this order where none is named; each
begins with the commands that make what it wants. Run it at the top of a fresh clone where ./gpscover is built, and
convbin, rnx2rtkp and parallel are installed, and matplotlib and pandas for the python3 of the path: the commands
leave their files there. A block of commands is a frame `sh`; where a plain frame comes right behind it, that is its
output, standard error included. A block that names receiver.ubx, a raw file of the user's, isn't run. With --write
the pages get what was printed.

Exit status: 0; 1 where an output differs, or a command isn't there.
"""
import argparse
import difflib
import re
import subprocess
from pathlib import Path

from gpscover.command import run_tool

PAGES = ("docs/GUIDE.md", "docs/GUIDE_TRACKS.md", "docs/GUIDE_PLACES.md")
BLOCK = re.compile(r"```sh\n(.*?)\n```(?:\n\n```\n(.*?)\n```)?", re.DOTALL)
NOT_RUN = "receiver.ubx"


def typed(commands):
    """What the commands print."""
    ran = subprocess.run(["bash", "-c", commands], stdout=subprocess.PIPE, stderr=subprocess.STDOUT, text=True)
    return ran.stdout.rstrip()


def block(commands, output):
    """A block of commands as the page has it."""
    shown = f"```sh\n{commands}\n```"
    return shown if output is None else f"{shown}\n\n```\n{output}\n```"


def renewed(found):
    """The block with what its commands print now; without an output the commands are run alone."""
    commands, output = found.groups()
    if NOT_RUN in commands:
        return found[0]
    printed = typed(commands)
    return block(commands, None if output is None else printed)


def is_as_shown(path, write):
    """Types a page's commands and prints what differs; says whether nothing does, or the page has got it."""
    page = path.read_text(encoding="utf-8")
    new = BLOCK.sub(renewed, page)
    for line in difflib.unified_diff(
        page.splitlines(), new.splitlines(), f"{path}, shown", "printed", lineterm="", n=0
    ):
        print(line)
    if write:
        path.write_text(new, encoding="utf-8")
    return write or new == page


def main():
    words = argparse.ArgumentParser(description=__doc__, formatter_class=argparse.RawDescriptionHelpFormatter)
    words.add_argument("--write", action="store_true", help="write what was printed into the pages")
    words.add_argument("pages", metavar="PAGE", nargs="*", default=PAGES, help="all three where none is named")
    told = words.parse_args()
    answers = [is_as_shown(Path(page), told.write) for page in told.pages]
    return 0 if all(answers) else 1


if __name__ == "__main__":
    run_tool(main)
