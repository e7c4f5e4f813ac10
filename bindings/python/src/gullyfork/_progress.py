"""How far a command is, on standard error where that is a terminal."""
from __future__ import annotations

import sys
from typing import Callable

Tell = Callable[[str], None]


def quiet(_: str) -> None:
    """Says nothing: what calls of the package do."""


def terminal() -> Tell:
    """Names the step that begins, each over the one before; no words wipe the line. Says nothing where nobody looks."""
    if not sys.stderr.isatty():
        return quiet

    def tell(words: str) -> None:
        sys.stderr.write(f"\r{'':78}\r{words}" + (" .." if words else ""))
        sys.stderr.flush()

    return tell
