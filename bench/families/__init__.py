"""Families of puzzles that are made to be hard for a search. A maker is a function of a source of random numbers and a size; it asks no
solver, so a puzzle may have one solution, several or none.

squares   random Latin squares, and squares by a formula
signs     the makers for Unequal
clues     the makers for Towers
listed    all families by name, and the lines of their puzzles

Puzzles are those of `tests/second_implementation`, which writes their descriptions.
"""

import sys
from pathlib import Path

sys.path.append(str(Path(__file__).resolve().parent.parent.parent))
