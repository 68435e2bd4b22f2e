"""The board in a terminal, and its line mode: games that are played, windows that are closed, files that can't be read, programs that end.

`playing` plays on the board and in the line mode; `pictures/` has the board at each size.
"""
