"""Says how many lines answer each line of standard input: python3 framing.py PROGRAM GAME ID < LINES"""
import re
import sys
from subprocess import PIPE, Popen
from typing import List

STATUS = re.compile(r'(playing|solved|helped) [0-9]+/[0-9]+\n')
program, game, id = sys.argv[1:]
puzzles = Popen([program, game, '--id', id], stdin=PIPE, stdout=PIPE, bufsize=0, encoding='latin-1')

def ask(line: str) -> List[str]:
    """The lines of the reply. The line is none of `status`, `save`, `quit`, and has no CR or LF in it."""
    assert puzzles.stdin and puzzles.stdout
    puzzles.stdin.write(line + '\nstatus\n')
    reply: List[str] = []
    while not STATUS.fullmatch(text := puzzles.stdout.readline()):
        reply.append(text or sys.exit(1))
    return reply

for line in sys.stdin.read().splitlines():
    print(line, len(ask(line)))
