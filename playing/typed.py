"""Numbers as they are typed, or stand in a file."""

from __future__ import annotations


def is_number(text: str) -> bool:
    """Whether it is a number of nine digits at most. A keyboard has other digits, as ², that are none."""
    return text.isascii() and text.isdigit() and len(text) < 10
