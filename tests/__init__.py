"""All that tries the programs from outside: a folder for each thing that is tried, and the `harness` that they share. `run` runs what `make test`
asks for, or the gate; `elsewhere` types README's commands on other systems.

lines                  commands, and what is replied: words, games, puzzles that are played, files that are loaded and saved
saving                 saves to every kind of place, by every kind of user, where calls fail
objects                what puzzles-json writes
board                  the board in a terminal
page                   the board in a browser
sheet                  puzzles on paper
stack                  every command with little stack
texts                  texts for users; for the gate also what documents name, and how wide they are

For the gate alone:

installing             what is installed and packed
scripts                the scripts at another place, by another user
code                   the types and the style of our own scripts
second_implementation  a second implementation, by which answers are compared
faults                 memory, reads and writes that fail in turn

By itself:

exchange               saves and IDs against the usual programs
"""
