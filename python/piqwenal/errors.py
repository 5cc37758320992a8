"""What can be wrong with a file, and how it is told."""

from __future__ import annotations


class FormatError(ValueError):
    """A line that has no place in a file of this format.

    `line` is its number, counted from 1, `cause` the name that docs/format.md gives to what is wrong.
    """

    def __init__(self, line: int, cause: str, message: str) -> None:
        super().__init__(f"line {line}: {cause}: {message}")
        self.line = line
        self.cause = cause
        self.message = message
