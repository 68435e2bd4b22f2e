"""Texts: decimals and digits (docs/FORMATS.md, "Words"), and what is said of a text that is refused (section 10)."""

import re
from functools import lru_cache
from typing import Optional

DECIMAL = re.compile(rb'0|[1-9][0-9]*')


class Refused(Exception):
    """Raised by readers, with what a save is refused by: why an ID or a move is, is told by the programs' own tests. `index` counts state records from 1,
    and is 0 for each other name."""

    def __init__(self, name: str, index: int = 0) -> None:
        super().__init__(name)
        self.name = name
        self.index = index

    def text(self) -> str:
        return f'{self.name} {self.index}' if self.index else self.name


@lru_cache(maxsize=1024)
def number(text: bytes, least: int, most: int) -> Optional[int]:
    """A decimal without leading zeros in a range, or nothing."""
    if not DECIMAL.fullmatch(text):
        return None
    value = int(text)
    return value if least <= value <= most else None


def digit(text: bytes, least: int, most: int) -> int:
    """That of a text which is one digit in a range. A description without it is refused."""
    if not re.fullmatch(b'[%d-%d]' % (least, most), text):
        raise Refused('BadDesc')
    return int(text)
