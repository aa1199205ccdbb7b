"""The command `gpslog` and its subcommands."""

from __future__ import annotations

import argparse
import sys
from collections.abc import Sequence

from gpscover import (
    begin,
    bounded,
    bounds,
    evidence,
    export,
    files,
    frames,
    known,
    observed,
    page,
    pictures,
    risk,
    shapes,
    summary,
    suspects,
    zones,
)
from gpscover.command import Command, run_tool
from gpscover.errors import UsageError

MODULES = (
    begin,
    summary,
    pictures,
    page,
    export,
    frames,
    known,
    suspects,
    bounds,
    observed,
    bounded,
    risk,
    shapes,
    zones,
    evidence,
    files,
)
COMMANDS = {module.COMMAND.name: module.COMMAND for module in MODULES}
ABOUT = "Reads, draws and judges the logs of gpscover. `gpslog COMMAND --help` tells of each."


def given(parser: argparse.ArgumentParser, command: Command) -> argparse.ArgumentParser:
    """A parser with the words of a command, and with the command itself."""
    parser.formatter_class = argparse.RawDescriptionHelpFormatter
    parser.description = command.text or command.about
    command.arguments(parser)
    parser.set_defaults(command=command, parser=parser)
    return parser


def all_commands() -> argparse.ArgumentParser:
    """The parser of `gpslog`."""
    parser = argparse.ArgumentParser(prog="gpslog", description=ABOUT)
    ways = parser.add_subparsers(required=True, metavar="COMMAND")
    for command in COMMANDS.values():
        given(ways.add_parser(command.name, help=command.about), command)
    return parser


def status_of(args: argparse.Namespace) -> int:
    """Does what the words say. Words that don't go together end with 2."""
    try:
        status: int = args.command.run(args)
    except UsageError as error:
        args.parser.error(str(error))
    return status


def main(words: Sequence[str] | None = None) -> None:
    """Runs `gpslog`, and ends with its status."""
    given_words = sys.argv[1:] if words is None else list(words)
    named = given_words[0] if given_words and given_words[0] in COMMANDS else None

    def work() -> int:
        return status_of(all_commands().parse_args(given_words))

    run_tool(work, f"gpslog {named}" if named else "gpslog")
