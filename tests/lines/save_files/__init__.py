"""Texts that are loaded as saves, as tables: what is written of each, or its refusal."""

from tests.lines.save_files import refusals, spellings

ROWS = [*spellings.ROWS, *refusals.ROWS]
