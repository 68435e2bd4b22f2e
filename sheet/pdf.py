"""Prints the page to a PDF, by a Chromium where there is one."""

from __future__ import annotations

import os
import shutil
import subprocess
import tempfile
from typing import List, Optional

#: The names of browsers that print so, and how long one may take.
BROWSERS = ['chromium', 'chromium-browser', 'google-chrome', 'google-chrome-stable', 'chrome', 'microsoft-edge', 'brave-browser']
SECONDS = 120

#: The name that a browser gives itself that prints nothing so, and how many seconds it has to say it.
OTHERS, SOON = ('Mozilla', 'Firefox'), 10

BEGINS = b'%PDF-'
OTHERWISE = 'write the page with --output, and print it in a browser'


class NoPdf(Exception):
    """There is no PDF. The text says why."""


def found(browser: Optional[str]) -> str:
    """The path of the browser that is named, or of the first one that is there. Raises `NoPdf`."""
    for name in [browser] if browser else BROWSERS:
        path = shutil.which(name)
        if path:
            if browser:
                refuse_others(path, browser)
            return path
    if browser:
        raise NoPdf(f"there is no program '{browser}'")
    raise NoPdf(f'no Chromium was found ({", ".join(BROWSERS[:3])} ..): --browser names one; or {OTHERWISE}')


def refuse_others(path: str, name: str) -> None:
    """Raises `NoPdf` where a browser says that it is none of those that print so: it would start, and wait for nothing."""
    try:
        ended = subprocess.run([path, '--version'], stdin=subprocess.DEVNULL, stdout=subprocess.PIPE, stderr=subprocess.DEVNULL, timeout=SOON, check=False)
    except (OSError, subprocess.TimeoutExpired):
        return
    called = ended.stdout.decode('utf-8', 'replace').strip()
    if any(other in called for other in OTHERS):
        raise NoPdf(f'{name} ({called}) makes no PDF by a command, as a Chromium does: {OTHERWISE}')


def printed(browser: str, page: bytes, folder: str) -> bytes:
    """The page as a PDF; for a moment its files lie in a folder of their own in this one. Raises `NoPdf`, or `OSError`."""
    with tempfile.TemporaryDirectory(prefix='puzzles-sheet-', dir=folder or '.') as here:
        source, target = os.path.abspath(os.path.join(here, 'page.html')), os.path.abspath(os.path.join(here, 'page.pdf'))
        with open(source, 'wb') as file:
            file.write(page)
        try:
            ended = subprocess.run(
                words(browser, here, source, target), stdin=subprocess.DEVNULL, stdout=subprocess.DEVNULL, stderr=subprocess.PIPE, timeout=SECONDS, check=False
            )
        except subprocess.TimeoutExpired as slow:
            raise NoPdf(f'{browser} has made no PDF in {SECONDS} seconds: {OTHERWISE}') from slow
        try:
            with open(target, 'rb') as file:
                pdf = file.read()
        except FileNotFoundError:
            pdf = b''
    if not pdf.startswith(BEGINS):
        raise NoPdf(f'{browser} has made no PDF{said(ended.stderr)}: {OTHERWISE}')
    return pdf


def words(browser: str, here: str, source: str, target: str) -> List[str]:
    """The command that runs it, with settings of its own. As root it runs only without the walls that it builds around pages of others; this page runs nothing."""
    walls = ['--no-sandbox'] if os.geteuid() == 0 else []
    given = ['--headless', '--disable-gpu', '--no-first-run', '--no-pdf-header-footer', f'--user-data-dir={os.path.abspath(here)}/settings']
    return [browser, *given, *walls, f'--print-to-pdf={target}', f'file://{source}']


def said(errors: bytes) -> str:
    """The last line of what it says, after a comma."""
    lines = errors.decode('utf-8', 'replace').strip().splitlines()
    return f' ({lines[-1]})' if lines else ''
