"""Games as transcripts, a file for each subject in the folder `played`: each line of a run, with the reply to it.

`$ GAME: NAME` begins a run. `> LINE  → REPLY` is a line that is typed, with its reply; a reply of several lines stands below. `9 > LINE` is typed
nine times. `␣` is a blank at the end of a line. A line that begins with `# ` is said to the reader.
"""

import re
from pathlib import Path
from typing import Iterator, List, NamedTuple

from tests.lines.runs import Run

FOLDER = Path(__file__).resolve().parent / 'played'


class Line(NamedTuple):
    """The typed line, so many times, and the reply to each."""

    typed: str
    times: int
    reply: str


class Transcript(NamedTuple):
    name: str
    game: str
    lines: List[Line]

    @property
    def run(self) -> Run:
        typed = ''.join(f'{line.typed}\n' * line.times for line in self.lines)
        return Run(self.name, [self.game], typed.encode(), output=''.join(line.reply * line.times for line in self.lines).encode())


def transcripts() -> Iterator[Transcript]:
    for path in sorted(FOLDER.glob('*.txt')):
        for text in path.read_text(encoding='utf-8').split('\n$ ')[1:]:
            head, *lines = (line for line in text.splitlines() if line and not line.startswith('# '))
            game, _, name = head.partition(': ')
            made = Transcript(f'{path.stem}: {name}', game, [])
            for line in lines:
                match = re.fullmatch(r'(?:(\d+) )?>(?: (.*?))??(?: +→ (.*))?', line)
                if match:
                    reply = f'{match[3]}\n' if match[3] else ''
                    made.lines.append(Line((match[2] or '').replace('␣', ' '), int(match[1] or 1), reply))
                else:
                    made.lines[-1] = made.lines[-1]._replace(reply=f'{made.lines[-1].reply}{line}\n')
            yield made
