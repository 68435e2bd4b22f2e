"""A folder for a web server that hands out files as they are: the page as index.html, what lets browsers install it, and what keeps it for use without
a network. Nothing in it runs on the server."""

from __future__ import annotations

import hashlib
import json
from pathlib import Path
from typing import Dict

from web_build.kept import PAGE_FILE, read
from web_build.page import SOURCES, Extra, packed_in, page_of

OWN = Path(__file__).with_name('site')

MANIFEST = 'manifest.webmanifest'

#: Larger ones are for telephones; 180 is the width that those of Apple ask for.
ICONS = ['icon.svg', 'icon-180.png', 'icon-192.png', 'icon-512.png']

HEAD = f'<link rel="manifest" href="{MANIFEST}">\n<link rel="apple-touch-icon" href="icon-180.png">\n'

#: A right that the page has there besides: it reads these files from its own server, and none from another.
RULES = {
    'img-src': "data: 'self'",
    'manifest-src': "'self'",
    'worker-src': "blob: 'self'",
    'trusted-types': 'puzzles puzzles-site',
}


def write_site(folder: str) -> None:
    """Writes the files of the folder. Raises Unfit."""
    place = Path(folder)
    place.mkdir(parents=True, exist_ok=True)
    for name, content in files().items():
        (place / name).write_bytes(content)
    print(f'{folder} is there: a web server hands it out as it is')


def files() -> Dict[str, bytes]:
    register, page = (OWN / 'register.js').read_text(encoding='utf-8'), read(PAGE_FILE)
    found = {
        'index.html': page_of(packed_in(page), packed_in(page, 'later'), Extra(HEAD, register, RULES)),
        MANIFEST: (OWN / MANIFEST).read_bytes(),
        **{icon: (SOURCES / icon).read_bytes() for icon in ICONS},
    }
    return {**found, 'service.js': service(found)}


def service(found: Dict[str, bytes]) -> bytes:
    """The script that keeps these files. It is another one where one of them is, so that browsers see that there is a new version."""
    version = hashlib.sha256(b''.join(content for _, content in sorted(found.items()))).hexdigest()[:16]
    # The page is asked for by the address of its folder.
    names = ['./' if name == 'index.html' else name for name in sorted(found)]
    text = (OWN / 'service.js').read_text(encoding='utf-8')
    return text.replace('{{version}}', version).replace('{{files}}', json.dumps(names)).encode()
