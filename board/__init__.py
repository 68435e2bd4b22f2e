"""The board for playing by hand, puzzles-play, over a whole terminal, and a line mode beside it.

There is no rule of play here. Mistakes, full boards and steps all come from the program, by the package `playing`, and are painted. From
below upwards:

layout       where on a screen the squares, clues and texts are
picture      a board as pieces of text
keys         which key does what
sequences    keys that come as several characters
screen       a terminal by `curses`: paints pieces, reads keys
file_names   names of files, as they are typed
dialogues    pages, questions and lists over the board
menu         the menu of new games
fullscreen   the board: keys in, pictures out
speech       a board in sentences
typed_moves  moves, squares and clues as they are typed
prompt       a line typed at a prompt, or from a pipe
lines        the line mode
course_screen, course_lines   the cards of the course on the board, and in the line mode
desk_picture   what a verdict puts over the board
typed_wish   a line by which the desk thins out
thin_menu    the menu by which it does
desk_screen, desk_lines   the setter's desk on the board, and in the line mode
manual       the keys and the rules, in a few lines
main         the words of the command line

Linux and Python 3.8 or later, with nothing beside its standard library.
"""
