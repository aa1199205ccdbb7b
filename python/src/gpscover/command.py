"""What the commands have in common: numbers among words, written files, statuses."""

from __future__ import annotations

import argparse
import contextlib
import math
import os
import sys
from collections.abc import Callable, Iterator
from dataclasses import dataclass
from pathlib import Path
from typing import TextIO

from gpscover.errors import Error, NumberError
from gpscover.log import PathLike

GREATEST = 10**15  # what a number that is taken is at most in amount


@dataclass(frozen=True)
class Command:
    """A subcommand: its name, a line on it, its words, and what does it and gives a status."""

    name: str
    about: str
    arguments: Callable[[argparse.ArgumentParser], None]
    run: Callable[[argparse.Namespace], int]
    text: str = ""  # the whole of its help, behind the usage


def measure(word: object) -> float:
    """A number among the words of a command line or of a file: finite, at most 10^15 in amount."""
    try:
        value = float(word)  # type: ignore[arg-type]
    except (ValueError, OverflowError):
        value = math.nan
    if not abs(value) <= GREATEST:
        raise NumberError(f"{word} isn't a number of at most 10^15 in amount")
    return value


def name_ending(*endings: str, told: str) -> Callable[[str], str]:
    """A reader of a file's name with one of these endings; `told` is what a user hears of them."""

    def name_of(word: str) -> str:
        if not word.endswith(endings):
            raise argparse.ArgumentTypeError(f"OUT ends with {told}")
        return word

    return name_of


def absent(library: str, rest: str = "") -> Error:
    """The error of a library that isn't there, with how to get it and what to call then."""
    return Error(
        f"{sys.executable} has no {library}; Debian: apt-get install python3-{library}, then /usr/bin/python3 {rest}.."
    )


def work_of(args: argparse.Namespace) -> int:
    """Does the work of the way that the words named. The status."""
    args.work(args)
    return 0


def read_text(path: PathLike) -> str:
    """The text of a file. Error where it isn't UTF-8."""
    try:
        return Path(path).read_text(encoding="utf-8")
    except UnicodeDecodeError:
        raise Error(f"{path}: it isn't a text in UTF-8") from None


@contextlib.contextmanager
def whole_file(path: PathLike) -> Iterator[TextIO]:
    """A text file that is written. Where that fails, or what is to stand in it, none is left."""
    file = open(path, "w", encoding="utf-8", newline="\n")
    try:
        with file:
            yield file
    except BaseException:
        if Path(path).is_file():
            Path(path).resolve().unlink()
        raise


def finished(work: Callable[[], int]) -> int:
    """The status of a command's work, once all that it printed is written."""
    if sys.stdout is None:
        raise Error("standard output is closed")
    try:
        return work()
    except BrokenPipeError as error:
        raise Error(f"standard output can't be written: {error.strerror}") from None
    finally:
        try:
            print(end="", flush=True)
        except OSError as error:
            raise Error(f"standard output can't be written: {error.strerror}") from None


def drop_output() -> None:
    """Lets what standard output doesn't take go nowhere, so that Python doesn't try it again."""
    nowhere = os.open(os.devnull, os.O_WRONLY)
    os.dup2(nowhere, 1)
    os.close(nowhere)


def run_tool(work: Callable[[], int], name: str | None = None) -> None:
    """Does a command's work and ends with its status.

    That is 1, behind one line, where a file can't be read or written, standard output among them.
    A wrong command line ends with 2, by argparse.
    """
    try:
        sys.exit(finished(work))
    except (Error, OSError) as error:
        drop_output()
        print(f"{name or Path(sys.argv[0]).name}: {error}", file=sys.stderr)
        sys.exit(1)
