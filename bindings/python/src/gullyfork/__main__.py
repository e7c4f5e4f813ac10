"""The command: python -m gullyfork COMMAND .., or gullyfork COMMAND .. where the package is installed."""
from __future__ import annotations

import argparse
import sys
from typing import Callable, Dict, List, Optional, Tuple

import gullyfork as gf
from gullyfork import _desk, certificate, check, crystal, picture
from gullyfork._commands import STATUSES, UNREAD

COMMANDS = (check.command, picture.command, certificate.verify_command, certificate.certify_command, crystal.command)
"""Each adds its sub-command to the parser."""

OWN_WORDS: Dict[str, Tuple[Callable[[List[str]], int], str]] = {"roll": (_desk.main, "the dispatch desk's roll; gullyfork roll help says more")}
"""Sub-commands that read their words themselves, by name: a function of the words that gives the status, and what --help says of it."""


def parser() -> argparse.ArgumentParser:
    """The parser with every sub-command."""
    made = argparse.ArgumentParser(
        prog="gullyfork", description="Force constants: judged, drawn and certified. gullyfork COMMAND --help says more.", epilog=STATUSES,
        formatter_class=argparse.RawDescriptionHelpFormatter)
    made.add_argument("--version", action="version", version=f"gullyfork {gf.version()}")
    commands = made.add_subparsers(dest="command", metavar="COMMAND", required=True)
    for add in COMMANDS:
        add(commands)
    for name, (_, words) in OWN_WORDS.items():
        commands.add_parser(name, help=words)
    return made


def main(words: Optional[List[str]] = None) -> int:
    """Run the command.

    Parameters
    ----------
    words : list of str, optional
        Its arguments; those of the program, if left out.

    Returns
    -------
    int
        The status.
    """
    words = sys.argv[1:] if words is None else words
    try:
        if words and words[0] in OWN_WORDS:
            return OWN_WORDS[words[0]][0](words[1:])
        a = parser().parse_args(words)
        status: int = a.run(a)
        return status
    except (ValueError, OSError, ImportError) as e:  # Unreadable, Unknown and Refused are ValueErrors
        print(f"gullyfork: {e}", file=sys.stderr)
        return UNREAD


if __name__ == "__main__":
    sys.exit(main())
