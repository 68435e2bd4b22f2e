"""A program that stands between puzzles-json and who asks it, and answers some lines otherwise."""

from tests.harness.room import Room

#: A rule has the line that came, and how many of its own it has asked for so far; it says the reply.
SCRIPT = """\
#!/usr/bin/env python3
import json, subprocess, sys, time
program = subprocess.Popen(['{program}', *sys.argv[1:]], stdin=subprocess.PIPE, stdout=subprocess.PIPE, close_fds=False)

def answer(line):
    program.stdin.write(line)
    program.stdin.flush()
    return json.loads(program.stdout.readline())

asked = 0
for line in sys.stdin.buffer:
{rule}
    print(json.dumps(reply), flush=True)
program.stdin.close()
sys.exit(program.wait())
"""


def put_between(room: Room, program: str, rule: str) -> str:
    """Makes it in a room, and gives its path."""
    room.put('between', SCRIPT.format(program=program, rule=rule).encode(), 0o755)
    return f'{room.path}/between'
