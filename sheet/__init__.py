"""Puzzles on paper: the command puzzles-sheet, which makes a page in HTML for print.

main, words, writing, pdf   the words of the command line, what is told, where the page goes, and how it is printed
choice, likeness            which puzzles come onto the sheet, and whether two solutions are one, turned over
lists, seeds                where they come from: IDs and save files, or fair games by size, grade and seed
puzzles, steps              a puzzle with its only answer, and how that goes on, as the program says
pages, answers, listing     the page in HTML: puzzles, answers and steps
examples                    the cards of the course for a first lesson, board by board
layout, titles              how many puzzles a page can have, how large their squares are, and how many lines a title takes
measures, style, markup     lengths, the style sheet, and text that becomes HTML
drawing                     a board as a picture

The program says which numbers are right, and that a puzzle has one solution: no rule of play is here. The picture and the talk with the program need
nothing of the rest.
"""
