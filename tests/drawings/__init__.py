"""Puzzles as people draw them: the forms in which they do (`towers`, `unequal`, of puzzles by chance, `puzzles`), drawings by hand (`rows.txt`, read by `rows`), and
damaged ones. The reader of the commands is tried here, and that of the page gives the same."""
