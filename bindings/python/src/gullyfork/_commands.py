"""How a module adds its sub-command to `gullyfork`: a function that takes the sub-commands, and one that runs it and gives the status."""
from __future__ import annotations

import argparse
from typing import TYPE_CHECKING, Callable

if TYPE_CHECKING:
    Commands = argparse._SubParsersAction[argparse.ArgumentParser]
    Run = Callable[[argparse.Namespace], int]

DONE, FAULTS, UNREAD = 0, 1, 2
STATUSES = """status: 0 it is done, clean, or holds; 1 faults were found, or a certificate does not hold; 2 wrong usage, a file that cannot be read
or written, or a call that was refused."""


def added(commands: Commands, name: str, run: Run, description: str) -> argparse.ArgumentParser:
    """A new sub-command. The first line of its description is what `gullyfork --help` says of it."""
    short = description.strip().split("\n")[0].rstrip(".")
    parser = commands.add_parser(name, help=short[0].lower() + short[1:], description=description, epilog=STATUSES,
                                 formatter_class=argparse.RawDescriptionHelpFormatter)
    parser.set_defaults(run=run)
    return parser
