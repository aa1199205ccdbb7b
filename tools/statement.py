#!/usr/bin/env python3
"""Counts the definitions on which a task of a run rests: how long the statement is that a reader has to trust.

usage: python3 -m tools.statement [DEFINITION ...]
       python3 -m tools.statement --page > docs/STATEMENT.md

DEFINITION is CRATE.FILE.NAME of a definition in specs/, as `cover_run.Checking.checking`; without one it is that of `check`
and that of its yes. For each it prints how many files and lines are reached by imports, how many definitions and lines by the
names that they use, and how many types of the sources, and lines of their declarations, by the same names. Comments above a
definition are among its lines, those above a type aren't. With --page it writes these definitions and types out, each file's
together, in the order in which a reader needs them. A name is followed through `use .. as`, of a name, of a file and
of a type's variants. It reads text: a name that stands in two files is taken from the one that is imported. Exit status: 0; 1 and
one line where a definition is gone.
"""
import re
import sys
import textwrap
from collections import deque
from pathlib import Path

from gpscover.command import run_tool
from gpscover.errors import Error

CRATES = Path(__file__).resolve().parents[1] / "crates"
STARTS = ("cover_run.Runs.checking", "cover_run.Checking.Accepts", "paving_log_check.FileCover.FileCover")
USE = re.compile(r"^use Rattle\.(\w+)\.specs\.([\w.]+?)(?:\.\{([^}]*)\}| as (\w+))\s*$", re.M)
BEGINS = re.compile(r"^\s*(?:abbrev |unfoldable )?(?:pub )?(?:record |data )?(?:pub )?([A-Za-z_]\w*)\b")
WORD = re.compile(r"[A-Za-z_]\w*(?:\.[A-Za-z_]\w*)*")


def renamed(names):
    """The pairs (name here, name there) of a list of imported names."""
    for each in filter(None, (part.strip() for part in names.split(","))):
        there, _, here = each.partition(" as ")
        yield here or there, there


class File:
    """A file of specs/: what it imports, and its definitions by name, each with its lines."""

    def __init__(self, crate, name):
        text = spec_path(crate, name).read_text(encoding="utf-8")
        self.lines = [line for line in text.splitlines() if line.strip() and not line.lstrip().startswith("use ")]
        self.imports = {}  # by the name here: the crate, the file and the name there
        self.files = {}  # by the name of a whole file here: the crate and the file
        self.types = (
            {}
        )  # by the name of a type, of a variant, or of all variants: the crate, the source's file and the type
        self.definitions = dict(blocks(text))
        for found, path, names, whole in USE.findall(text):
            self.add(found, path.split("."), list(renamed(names)), whole)

    def add(self, crate, path, names, whole):
        """Takes an import: of names of a file or a type, or of a whole file, or of the variants of a type."""
        if path[0] == "declared":
            *folders, kind = path[1:-1] if path[-1] == "TheVariants" else path[1:]
            self.types |= dict.fromkeys(
                [whole] if whole else [here for here, _ in names], (crate, "/".join(folders), kind)
            )
        elif spec_path(crate, path[0]).exists():
            self.imports |= {here: (crate, path[0], there) for here, there in names}
            self.files |= {whole: (crate, path[0])} if whole else {}

    def files_there(self):
        """The files that it imports from."""
        return {key[:2] for key in self.imports.values()} | set(self.files.values())

    def meant(self, word):
        """What a word, perhaps with a dot, stands for among what is imported: ("name" or "type", key), or None."""
        first, _, rest = word.partition(".")
        if first in self.files:
            return "name", (*self.files[first], rest.partition(".")[0])
        if first in self.types:
            return "type", self.types[first]
        return ("name", self.imports[first]) if first in self.imports else None


def spec_path(crate, name):
    """Where a file of specs/ stands."""
    return CRATES / crate / "specs" / f"{name}.antt"


def blocks(text):
    """The definitions of a text, each with its lines, the comment above it among them."""
    for block in re.split(r"\n\s*\n", text):
        lines = [line for line in block.splitlines() if not line.startswith("use ")]
        for name in names_in(line for line in lines if not line.lstrip().startswith("--")):
            yield name, lines


def names_in(lines):
    """The names that lines define, but for the fields of records, which no other definition can use by their names alone."""
    record = None
    for line in lines:
        depth = len(line) - len(line.lstrip())
        if record is not None and depth > record:
            continue
        record = depth if re.match(r"\s*(pub )?record\b", line) else None
        if re.match(r"\s*(abbrev|unfoldable|pub|record|data)\b", line) and (found := BEGINS.match(line)):
            yield found.group(1)


def type_lines(crate, file, name):
    """The declaration of a type in a source, or None where the source isn't the project's own."""
    path = CRATES / crate / "src" / f"{file}.rt"
    text = path.read_text(encoding="utf-8") if path.exists() else ""
    found = re.search(rf"(?ms)^(?:pub )?(?:struct|enum) {name}\b(?:[^{{;]*;$|.*?^}}$)", text)
    return found and found[0].splitlines()


def reached(start):
    """The files that are reached by imports, and the definitions and the types that are reached by names, nearest first."""
    files, seen, names, types, waiting = {}, set(), {}, {}, deque([start])

    def file(key):
        if key not in files:
            files[key] = File(*key)
        return files[key]

    while waiting:
        crate, module, name = key = waiting.popleft()
        if key in seen:
            continue
        seen.add(key)
        here = file((crate, module))
        lines = here.definitions.get(name)
        if lines is None:
            continue
        names[(crate, module, id(lines))] = lines
        for word in dict.fromkeys(
            WORD.findall("\n".join(line for line in lines if not line.lstrip().startswith("--")))
        ):
            kind, there = here.meant(word) or ("name", (crate, module, word.partition(".")[0]))
            if kind == "name":
                waiting.append(there)
            elif there not in types and (declared := type_lines(*there)):
                types[there] = declared
    open_files = list(files)
    while open_files:
        for key in file(open_files.pop()).files_there():
            if key not in files:
                file(key)
                open_files.append(key)
    return files, names, types


def lines_of(parts):
    """How many lines some parts have."""
    return sum(map(len, parts))


def told(start):
    """The line of a definition. Error where it isn't there."""
    key = tuple(start.split("."))
    if len(key) != 3 or not spec_path(*key[:2]).exists() or key[2] not in File(*key[:2]).definitions:
        raise Error(f"no definition {start}")
    files, names, types = reached(key)
    return (
        f"{start}: {len(files)} files, {lines_of(each.lines for each in files.values())} lines by imports;"
        f" {len(names)} definitions, {lines_of(names.values())} lines by name;"
        f" {len(types)} types, {lines_of(types.values())} lines"
    )


PAGE = """# What a yes of `check` says, whole

Every definition that the yes of `check` rests on, copied from its file by `tools/statement.py`: nothing else has to be
read to know what is claimed, and what is left to trust is on [PROVED](PROVED.md#trusted). [HEADLINE](HEADLINE.md) leads through
the main ones. Files come in the order in which they are needed, the nearest to the yes first; what a definition uses of another
file stands further down. `×` reads 'and', `⊎` reads 'or', `→` reads 'implies' or 'for all', `≡` reads 'is', `⊥` reads 'never',
`Unit {0}` reads 'always', `(x : T) ×` reads 'there is an x', and a record is the conjunction of its fields. Words that stand in
none of these files are those of lists, numbers and options of the standard library.
"""
PARTS = (
    (
        "cover_run.Checking.Accepts",
        "What is accepted, and what that covers",
        "`Accepts` is what the line `yes` says of what was read: observations, records, settings and log.",
    ),
    (
        "cover_run.Runs.checking",
        "How files are read, and how the answer is told",
        "`checking` is a run of `check`: which bytes give which observations, records, settings and log, and what is printed, of a"
        " no too.",
    ),
)


def code(lines):
    """Lines as a frame."""
    return "\n".join(["```", *lines, "```", ""])


def by_file(keys):
    """What keys name, in lists by their first two parts, in the order in which these come first."""
    files = {}
    for crate, module, *rest in keys:
        files.setdefault((crate, module), []).append(rest[0])
    return files


def heads(text):
    """By the lines of a definition, the heads of the modules that it stands in which aren't among these lines."""
    found, open_heads = {}, []
    for block in re.split(r"\n\s*\n", text):
        lines = [line for line in block.splitlines() if not line.startswith("use ")]
        for at, line in enumerate(lines):
            depth = len(line) - len(line.lstrip())
            if not line.lstrip().startswith("--"):
                open_heads = [head for head in open_heads if head[0] < depth]
            if line.lstrip().startswith("module "):
                end = next(k for k in range(at, len(lines)) if lines[k].endswith("where"))
                open_heads.append((depth, lines[at : end + 1]))
        found["\n".join(lines)] = [head for _, head in open_heads if head[0] not in lines]
    return found


def definitions(crate, module, ids, names):
    """The definitions of a file that are reached, in its own order, below the heads of their modules."""
    text = spec_path(crate, module).read_text(encoding="utf-8")
    above, taken, shown = heads(text), [], set()
    wanted = {"\n".join(names[(crate, module, each)]) for each in ids}
    for block in dict.fromkeys("\n".join(lines) for _, lines in blocks(text)):
        if block in wanted:
            new = [line for head in above[block] if head[0] not in shown for line in head]
            shown.update(head[0] for head in above[block])
            taken += [*([""] if taken else []), *new, *block.splitlines()]
    return taken


def part(title, text, names, types):
    """A part of the page: its definitions file by file, then the types of the sources."""
    lines = [f"## {title}\n", textwrap.fill(text, 118) + "\n"]
    for (crate, module), ids in by_file(names).items():
        lines += [f"`crates/{crate}/specs/{module}.antt`\n", code(definitions(crate, module, ids, names))]
    lines += ["### Types of the sources\n"] if types else []
    for (crate, module), kinds in by_file(types).items():
        declared = [[*types[(crate, module, kind)], ""] for kind in kinds]
        lines += [f"`crates/{crate}/src/{module}.rt`\n", code([line for each in declared for line in each][:-1])]
    return lines


def page():
    """The whole page: of each part what no part before it has."""
    lines, known = [PAGE], set()
    for start, title, text in PARTS:
        _, names, types = reached(tuple(start.split(".")))
        plain = lambda key: (*key[:2], "\n".join(names[key]))
        new = {key: each for key, each in names.items() if plain(key) not in known}
        kinds = {key: each for key, each in types.items() if key not in known}
        lines += part(title, text, new, kinds)
        known |= {plain(key) for key in names} | set(types)
    return "\n".join(lines)


def main():
    if sys.argv[1:] == ["--page"]:
        print(page(), end="")
        return 0
    for start in sys.argv[1:] or STARTS:
        print(told(start))
    return 0


if __name__ == "__main__":
    run_tool(main)
