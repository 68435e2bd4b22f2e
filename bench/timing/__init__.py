"""Programs that are asked line by line, and what each answer took.

answering   one that answers a puzzle with a time, and is begun again where an answer doesn't come
making      our puzzles-json, and the usual program's generator
"""
