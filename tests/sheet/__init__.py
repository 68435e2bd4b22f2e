"""Puzzles on paper: the command puzzles-sheet over the program (`making`), the pictures read back to puzzles (`reading`), and the page in a browser
and on paper (`printing`)."""
