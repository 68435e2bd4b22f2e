"""Names of files, as they are typed."""

from __future__ import annotations

import os
from typing import List, Tuple

from playing import files, saves


def file_name(text: str) -> str:
    """The name as a shell would take it: without quotes around it, and with the player's folder for ~."""
    if len(text) > 1 and text[0] == text[-1] and text[0] in '\'"':
        text = text[1:-1]
    return os.path.expanduser(text)


def question(file: str) -> str:
    """The question before something is saved there; nothing if nothing is there, or something to which no save goes."""
    if not os.path.lexists(file) or files.other_than_file(file):
        return ''
    found = files.read(file)
    if found.kind in (files.Kind.READ, files.Kind.TOO_LARGE):
        what = '' if found.content.startswith(saves.BEGINS) else ', and is not a save'
    else:
        what = ", and can't be read"
    return f'{file} exists{what}. Overwrite it?'


def names_after(text: str) -> List[str]:
    """The names that may come in place of a name that is being typed: files that begin so, folders with a `/`."""
    folder, begin = os.path.split(file_name(text))
    names = [name for name in sorted(files.names_in(folder or '.')[0]) if name.startswith(begin) and (begin or not name.startswith('.'))]
    head = text[: len(text) - len(begin)]
    return [head + name + ('/' if os.path.isdir(os.path.join(folder, name)) else '') for name in names]


def completed(text: str) -> Tuple[str, List[str]]:
    """The name with all that those have in common that may come, and these names where there are several."""
    names = names_after(text)
    if not names:
        return text, []
    return os.path.commonprefix(names), [os.path.basename(name.rstrip('/')) + name[len(name.rstrip('/')) :] for name in names] if len(names) > 1 else []


def offered(game: str, size: int, grade: str) -> str:
    """A name for a save that no file has."""
    name = f'{game}-{size}{"-" if grade else ""}{grade}'
    names = (f'{name}{f"-{at}" if at > 1 else ""}.sav' for at in range(1, 1000))
    return next((name for name in names if not os.path.lexists(name)), '')
