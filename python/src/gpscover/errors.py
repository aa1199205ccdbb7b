"""The errors of the package. The text of each is one line for the user."""

from __future__ import annotations

import argparse


class Error(Exception):
    """What can't be read, written or done."""


class LogError(Error):
    """A log that can't be read."""


class NumberError(ValueError, argparse.ArgumentTypeError):
    """A text that isn't a number that is taken."""


class UsageError(Error):
    """Words of a command line that don't go together."""
