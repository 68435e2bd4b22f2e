"""Puzzles checked in bulk: the command puzzles-check, which says of each how many solutions it has.

main, words    the words of the command line; the run, and its status
reading        files and standard input, as they come: IDs, drawings (by playing/drawings), saves
asking, bulk   what the program says of each puzzle; many lines at once through one run of it
blaming        what is to blame where there is no solution
certificates   the certificates of all puzzles, and where they go
certificate    one certificate, by hints of the program
learning       where there is no hint, by suppositions, from which lemmas are learned
narrowing      what follows from the numbers that are left
telling        a line or an object for each puzzle, and how far it is

How many solutions there are, by which steps one follows, and which items could go, the program says: no form of an ID is here, and no rule of play but in
`narrowing`, which nobody has to believe, since certificates are checked by other programs.
"""
