"""The files that `make install` puts below a DESTDIR, for a package."""

import os
from typing import List

from tests.harness import TOP
from tests.installing.site import Site, expect_plays, files, snapshot, words_of

OURS = 'share/verified-puzzles'
DOCUMENTS = 'share/doc/verified-puzzles'

#: The files for which desktops look: the page and the board in the menu, their picture, and the text about them.
DESKTOP = [
    'share/applications/verified-puzzles.desktop',
    'share/applications/verified-puzzles-terminal.desktop',
    'share/icons/hicolor/scalable/apps/verified-puzzles.svg',
    'share/metainfo/verified-puzzles.metainfo.xml',
]

#: The words on the version, after its number.
OF_A_BUILD = 'commit unknown\nproved by a kit that proves nothing\ntaken from a build\n'


def wanted() -> List[str]:
    """The installed files, below PREFIX."""
    names = ('puzzles', 'puzzles-json', 'puzzles-play', 'puzzles-page', 'puzzles-sheet', 'puzzles-check')
    listed = [
        *(f'games/{name}' for name in names),
        *(f'share/bash-completion/completions/{name}' for name in names),
        'share/zsh/site-functions/_puzzles',
        *(f'share/fish/vendor_completions.d/{name}.fish' for name in names),
        *(f'share/man/man{page.name[-1]}/{page.name}' for page in (TOP / 'man').iterdir()),
        f'{OURS}/VERSION',
        *(f'{OURS}/playing/bank/{game}.txt' for game in ('towers', 'unequal')),
        *(f'{OURS}/playing/drawings/{path.name}' for path in (TOP / 'playing' / 'drawings').glob('*.py')),
        *(f'{OURS}/{package}/{path.name}' for package in ('board', 'check', 'playing', 'sheet') for path in (TOP / package).glob('*.py')),
        f'{OURS}/puzzles.html',
        *DESKTOP,
        *(f'{DOCUMENTS}/{name}' for name in ('VERSION', 'README.md', 'CHANGELOG.md', 'LICENSE')),
        *(f'{DOCUMENTS}/docs/{path.name}' for pattern in ('*.md', '*.png') for path in (TOP / 'docs').glob(pattern)),
        *(f'{DOCUMENTS}/certificate/{name}' for name in ('verify.py', 'verify.mjs')),
        *(f'{DOCUMENTS}/docs/clients/{path.name}' for path in (TOP / 'docs' / 'clients').iterdir() if path.is_file()),
    ]
    return sorted(listed)


def test_staged(site: Site) -> None:
    root = os.path.join(site.above, 'for a package')
    where = words_of({'DESTDIR': root, 'PREFIX': '/usr', 'gamesdir': '/usr/games'})
    place = os.path.join(root, 'usr')
    site.expect(['make', 'install', *where])
    assert files(place) == wanted(), 'what is there'
    assert os.readlink(os.path.join(place, 'games', 'puzzles-json')) == 'puzzles'
    expect_modes(place)
    expect_plays(site, os.path.join(place, 'games'))
    expect_version(site, os.path.join(place, 'games', 'puzzles-play'))
    with open(os.path.join(place, OURS, 'playing', 'bank', 'towers.txt'), encoding='utf-8') as file:
        assert any(line.startswith('9dx') for line in file), 'its puzzles: some of Towers of size 9'
    site.expect(['make', 'installcheck', *where], says='is there and plays')
    expect_completes(site, place)
    expect_damage_is_seen(site, where, place)
    site.expect(['make', 'uninstall', *where])
    assert snapshot(root) == [], 'nothing is left'
    site.expect(['make', 'uninstall', *where])


def expect_modes(place: str) -> None:
    """Others may read each file, and run what is to be run."""
    for line in snapshot(place):
        path, _, mode = line.rpartition(' ')
        assert mode == ('755' if path.startswith('games/') or os.path.isdir(os.path.join(place, path)) else '644'), line


def expect_version(site: Site, play: str) -> None:
    """Its number, no commit where there is no git, and that the program is the one that was proved."""
    version = site.file('VERSION').decode().strip()
    ended = site.run([play, '--version'], cwd='..')
    assert ended.output.decode() == f'puzzles {version}\n{OF_A_BUILD}', 'puzzles-play --version'
    other = site.run([play, '--version'], cwd='..', env={'PUZZLES_JSON': '/bin/true'})
    assert b'not known to be proved' in other.output, 'puzzles-play --version, with another program'


def expect_completes(site: Site, place: str) -> None:
    """The file that bash looks for by the name of a command says how that command is completed."""
    for name in ('puzzles', 'puzzles-json', 'puzzles-play', 'puzzles-page', 'puzzles-sheet', 'puzzles-check'):
        file = os.path.join(place, 'share', 'bash-completion', 'completions', name)
        ended = site.run(['bash', '-c', '. "$0" && complete -p -- "$1"', file, name])
        assert (ended.status, ended.error) == (0, b''), f'completion of {name}'


def expect_damage_is_seen(site: Site, where: List[str], place: str) -> None:
    """`make installcheck` tells a file that lacks, and a command that doesn't play."""
    page = os.path.join(place, 'share', 'man', 'man6', 'puzzles.6')
    os.rename(page, page + '.away')
    site.expect(['make', 'installcheck', *where], 2, 'man6/puzzles.6 is not there')
    os.rename(page + '.away', page)
    program = os.path.join(place, 'games', 'puzzles')
    os.rename(program, program + '.away')
    os.symlink('/bin/true', program)
    site.expect(['make', 'installcheck', *where], 2, 'puzzles towers: status 0')
    os.rename(program + '.away', program)
