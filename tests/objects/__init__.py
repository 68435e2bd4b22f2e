"""The objects that puzzles-json writes, against the plain program and a second implementation.

schema     the keys of each object, with the types of their values
reading    objects from what a run wrote
boards     a board as it has to be told, from the plain program's texts and the puzzle of its ID
solutions  what completes a board, by trying all
steps      the steps of a hint, each where it stands
sentences  their sentences, by the rules of play
agreement  one run of each program over the same lines
"""
