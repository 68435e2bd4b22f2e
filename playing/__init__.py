"""The common part of the board, the lines of text and the sheets: the talk with the program, and the games that are kept.

There is no rule of play here. Mistakes, full boards and steps all come from the program `puzzles-json`, one object a line. From below
upwards:

naming       how squares, lines and clues are called
steps        the steps of a hint, as the program tells them
board        what the program tells of a game
drawings/    puzzles as people draw or copy them
typed        numbers as they are typed
printable    text from outside, as a terminal may be sent it
files        reads, makes and locks files: regular ones alone
saves        what a front end itself sees in a save
program      talks to the program
fair         fair games: which there are, and the line for one
moves        a player's move as lines of the program; moves of several states
beside       what is kept beside a save: how many hints a game had, its number, and which states are one move
state        where games are kept, and what was chosen last
games        games worth playing: fair ones, and the stored puzzles, which lie in `bank/`; and a line on a game
shared_texts   what the board and the page in a browser both say
cards        the cards of the course, for the board, the page and the sheets
texts        a sentence for each refusal
choices      which new game: size, grade, number or ID
hint_walk    a hint as a walk along its steps
kept_game    the present game in the program, kept after each change
present      what can be done with it
printed      printed puzzles in a file that is no save
game         how a game begins, and what becomes of the one before
course       a card in the place of the present game
verdict      how many solutions a puzzle has, and why, from the program's answers
trial        a run of the program in which lines are tried
setting      how a setter thins items out
desk         a puzzle that is set or checked, in the place of the present game, and its drafts
version      what is said of the version
command      how the commands begin and end

Linux and Python 3.8 or later, with nothing beside its standard library.
"""
