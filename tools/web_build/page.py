"""The page as one file: the template with the policy, the style, the icon, the scripts and the module in it."""

from __future__ import annotations

import base64
import hashlib
import re
import shutil
import subprocess
import tempfile
import zlib
from pathlib import Path
from typing import Dict, NamedTuple, Sequence

from building.listing import TOP
from web_build.scripts import Unfit, script, scripts, shorter

#: The sources of the page, besides the module.
SOURCES = Path(TOP) / 'page'

#: The most bytes that the page may have.
MOST_BYTES = 400_000

MARK = re.compile(r'\{\{(\w+)\}\}')

#: The marks that stand once in the template. Those of the others may stand anywhere.
ONCE = ['policy', 'style', 'site', 'worker', 'module', 'later', 'script']

#: zlib's word for the form of gzip, which has no date then.
GZIP = 31

#: In the letters of base 85 this stands in the place of the one that may begin an element.
INSTEAD = ','


#: The rights that a browser gives the page, besides its own scripts and style, which are named by their sums: it connects to nothing.
RULES = {
    'default-src': "'none'",
    'img-src': 'data:',
    'worker-src': 'blob:',
    'base-uri': "'none'",
    'form-action': "'none'",
    'require-trusted-types-for': "'script'",
    'trusted-types': 'puzzles',
}


class Extra(NamedTuple):
    """The additions of a page that a web server hands out: more in its head, a script, and the rules of its policy that are others."""

    head: str
    script: str
    rules: Dict[str, str]


NOTHING = Extra('', '', {})


def page_of(module: str, later: str = '', extra: Extra = NOTHING) -> bytes:
    """The page with the module that was packed so, and with its later scripts as they were packed, if they still are the ones: the same bytes for the same
    sources. Raises Unfit."""
    first, second = scripts(str(SOURCES), 'main.js')
    parts = {
        'style': squeezed(shorter(text_of('style.css'))),
        'icon': 'data:image/svg+xml;base64,' + base64.b64encode((SOURCES / 'icon.svg').read_bytes()).decode(),
        'site': extra.head + (f'<script>{extra.script}</script>' if extra.script else ''),
        'worker': script(str(SOURCES), 'worker.js'),
        'module': module,
        'later': later if later and unpacked(later) == second.encode() else zipped(second.encode()),
        'script': first,
        'version': (Path(TOP) / 'VERSION').read_text(encoding='utf-8').strip(),
    }
    named = [text for text in (extra.script, first, second) if text]
    parts['policy'] = policy(named, parts['style'], {**RULES, **extra.rules})
    page = filled(shorter(text_of('index.html')), parts).encode()
    if len(page) > MOST_BYTES:
        raise Unfit(f'the page has {len(page):,} bytes, and may have {MOST_BYTES:,}')
    return page


def write_page(module: str, file: str) -> None:
    """Makes a page of the module in one file, in another. Raises Unfit."""
    page = page_of(packed(Path(module).read_bytes()))
    Path(file).write_bytes(page)
    print(f'{file}: {len(page):,} bytes')


def squeezed(style: str) -> str:
    """A style sheet without the blanks that mean nothing there: behind signs and before braces."""
    return re.sub(r'(?<=[:;,{]) | (?=[{}])', '', style)


def policy(named: Sequence[str], style: str, rules: Dict[str, str]) -> str:
    own = {'script-src': f"{' '.join(map(hash_of, named))} 'wasm-unsafe-eval'", 'style-src': hash_of(style)}
    return '; '.join(f'{name} {sources}' for name, sources in {**rules, **own}.items())


def hash_of(text: str) -> str:
    """The sum that names a script or a style in a policy."""
    return f"'sha256-{base64.b64encode(hashlib.sha256(text.encode()).digest()).decode()}'"


def filled(template: str, parts: Dict[str, str]) -> str:
    """The template with a part in the place of each mark. Raises Unfit where a mark lacks, stands twice or is unknown."""
    found = MARK.findall(template)
    for name in ONCE:
        if found.count(name) != 1:
            raise Unfit(f'index.html has the mark {name} {found.count(name)} times, and should have it once')
    unknown = sorted(set(found) - set(parts))
    if unknown:
        raise Unfit(f'index.html has the unknown mark {unknown[0]}')
    return MARK.sub(lambda mark: parts[mark[1]], template)


def packed(module: bytes) -> str:
    """The module as the page has it, by Zopfli, which packs a twentieth closer than zlib. Its other versions may pack it otherwise. Raises Unfit."""
    if not shutil.which('zopfli'):
        raise Unfit("there is no command zopfli: Debian's package zopfli has it")
    with tempfile.TemporaryDirectory() as folder:
        file = Path(folder) / 'module'
        file.write_bytes(module)
        ran = subprocess.run(['zopfli', '-c', str(file)], stdin=subprocess.DEVNULL, stdout=subprocess.PIPE, stderr=subprocess.PIPE, check=False)
    if ran.returncode:
        raise Unfit(f'zopfli has failed: {ran.stderr.decode(errors="replace").strip()}')
    return in_letters(ran.stdout)


def zipped(content: bytes) -> str:
    """A smaller form of the bytes, by zlib, which is everywhere: its other versions may pack it otherwise."""
    made = zlib.compressobj(9, zlib.DEFLATED, GZIP)
    return in_letters(made.compress(content) + made.flush())


def in_letters(content: bytes) -> str:
    return base64.b85encode(content).decode().replace('<', INSTEAD)


def unpacked(text: str) -> bytes:
    """The bytes that were packed so. Raises Unfit."""
    try:
        return zlib.decompress(base64.b85decode(text.replace(INSTEAD, '<')), GZIP)
    except (ValueError, zlib.error) as error:
        raise Unfit(f'a part of the page is not packed as it should be: {error}') from None


def packed_in(page: bytes, part: str = 'module') -> str:
    """How the module is packed in a page, or the later scripts; nothing where there is none."""
    found = re.search(rb'<script type="text/plain" id="%s">([^<]*)</script>' % part.encode(), page)
    return found[1].decode() if found else ''


def text_of(name: str) -> str:
    return (SOURCES / name).read_text(encoding='utf-8')
