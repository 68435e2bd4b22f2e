"""A second implementation of what some programs of tests print, written from docs/RULES.md and docs/FORMATS.md alone.

It reads and writes saves and descriptions, plays their moves, damages saves, and makes seeded games. It is slow and plain on
purpose, shares nothing with the crates, and no program uses it: its module `answers` makes the wanted output of
`crates/trial_runs` by it, and `test_answers` compares. `bench/families` makes puzzles for measurements by it.
"""
