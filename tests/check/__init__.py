"""Puzzles checked in bulk: the command puzzles-check over the program."""
