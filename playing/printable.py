"""Text from outside, as a terminal may be sent it."""

from __future__ import annotations


def printable(text: str) -> str:
    """The text with `?` for each character that isn't printable, so that no name and no word steers the terminal."""
    return ''.join(character if character.isprintable() else '?' for character in text)
