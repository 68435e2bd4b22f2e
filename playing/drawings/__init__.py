"""Puzzles as people draw or copy them.

Each drawing is read in all the ways that are known: exactly one puzzle is taken; where there are several, both are told; where there is none, why. The page
in a browser reads the same in page/drawings.js. From below upwards:

tables     the letters of drawings, and what a table of them means: Towers, Unequal, or squares alone
ruled, signed, copied   ways to read lines as tables
readings   the other ways, and all puzzles that the lines of a drawing may be
titles     lines of words, IDs, and clues with the names of their sides
sentences  why lines are no drawing
splitting  which lines belong together
reader     a text, line by line as it comes
writing    a puzzle as a drawing
"""

from playing.drawings.reader import Read, Reader, read
from playing.drawings.tables import Puzzle

__all__ = ['Puzzle', 'Read', 'Reader', 'read']
