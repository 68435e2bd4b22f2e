"""Parts of a text."""

import re
from typing import List

from tests.harness import TOP

#: The top of the repository.
ROOT = TOP


def read(path: str) -> str:
    """A file of the repository."""
    return (ROOT / path).read_text(encoding='utf-8')


def part(text: str, begin: str, end: str) -> str:
    """The lines after the first that begins with a text, up to the next that matches a pattern."""
    lines = text.split('\n')
    first = next((at for at, line in enumerate(lines, 1) if line.startswith(begin)), len(lines))
    last = next((at for at in range(first, len(lines)) if re.search(end, lines[at])), len(lines))
    return '\n'.join(lines[first:last])


def items(text: str) -> List[str]:
    """The items of a text's lists, each as one line."""
    return [re.sub(r'\s+', ' ', item) for item in re.findall(r'^- (.*(?:\n +\S.*)*)', text, re.MULTILINE)]


def documents() -> List[str]:
    """The documents of the repository, but for the list of changes."""
    return ['README.md', 'CONTRIBUTING.md', *sorted(f'docs/{path.name}' for path in (ROOT / 'docs').glob('*.md'))]


def found(pattern: str, text: str) -> List[str]:
    """The text in the brackets of a pattern, wherever it matches, each once and in order."""
    return sorted(set(re.findall(pattern, text, re.MULTILINE)))


def without_samples(text: str) -> str:
    """A text without what it shows in lines of their own: between three backquotes, or further in. The lines stay."""
    samples = re.compile(r'^ *```.*?^ *```|^    .*?$', re.MULTILINE | re.DOTALL)
    return samples.sub(lambda sample: '\n' * sample[0].count('\n'), text)
