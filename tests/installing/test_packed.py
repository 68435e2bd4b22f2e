"""The files that `make dist` packs: the same bytes each time, sources that know their commit, and programs that another user plays from where they
were unpacked."""

import os

from tests.harness import ID, Ended, need, run
from tests.installing.site import Site, expect_plays, files

#: The author of commits in the copy, and their time.
ANNA = {'NAME': 'Anna', 'EMAIL': 'anna@example.org', 'DATE': '2026-01-02T03:04:05Z'}
WHO = {'GIT_CONFIG_NOSYSTEM': '1', **{f'GIT_{who}_{what}': text for who in ('AUTHOR', 'COMMITTER') for what, text in ANNA.items()}}

#: No command `rt` is there.
NO_KIT = 'RT=/no kit'

#: The user's own umask, language and time, which change nothing.
OTHERWISE = 'umask 077; export TZ=Asia/Tokyo LC_ALL=C GIT_CONFIG_COUNT=1 GIT_CONFIG_KEY_0=tar.umask GIT_CONFIG_VALUE_0=0; exec make dist'


def test_packed(site: Site) -> None:
    need('git')
    site.expect(['git', 'init', '-q'])
    commit(site, 'the first')
    site.expect(['make', 'clean'])
    site.expect(['make', 'dist'], 2, 'run make')
    site.expect(['make'])
    site.expect(['make', 'dist'])
    expect_origin(site, 'a build')
    site.expect(['make', 'programs'], says='stored: programs/RECORD')
    site.expect(['make', 'dist'], 2, 'changes that are not committed')
    commit(site, 'the programs')
    site.expect(['make', 'clean'])
    site.expect(['make', 'dist', NO_KIT], says=f'build/{name(site)}-linux-arm64.tar.gz')
    expect_origin(site, 'the repository')
    asked_by_root(site)
    sources, programs = archive(site, ''), archive(site, '-linux-amd64')
    reproducible(site, sources, programs)
    unpacked(site)
    of_sources(site)
    with_log(site)
    refused(site)


def expect_origin(site: Site, origin: str) -> None:
    """The words of the programs' tarball on where they are from."""
    tarball = f'build/{name(site)}-linux-amd64'
    told = site.run(['tar', '-xzOf', f'{tarball}.tar.gz', f'{name(site)}-linux-amd64/VERSION']).output.decode().splitlines()
    assert told[3:4] == [f'taken from {origin}'], f'dist: programs of {origin}'


def asked_by_root(site: Site) -> None:
    """Root installs from a user's repository, and leaves nothing of root's there."""
    if not site.user:
        return
    assert run([os.path.join(site.path, 'tools', 'commit')], site.room).output.decode() == head(site) + '\n', 'it'
    assert os.stat(os.path.join(site.path, '.git', 'index')).st_uid == site.user.uid, 'who owns the index'


def commit(site: Site, message: str) -> None:
    site.expect(['bash', '-c', 'git add -A && git commit -qm "$0"', message], env=WHO)


def name(site: Site) -> str:
    return f'puzzles-{site.file("VERSION").decode().strip()}'


def archive(site: Site, kind: str, place: str = '') -> bytes:
    return site.file(f'{place}build/{name(site)}{kind}.tar.gz')


def head(site: Site) -> str:
    return site.run(['git', 'rev-parse', 'HEAD']).output.decode().strip()


def reproducible(site: Site, sources: bytes, programs: bytes) -> None:
    """Once more in the same folder, and in another one, by a user with other habits."""
    site.expect(['make', 'dist'])
    assert archive(site, '') == sources
    assert archive(site, '-linux-amd64') == programs
    site.expect(['git', 'clone', '-q', '.', '../again/checkout'])
    site.expect(['make', '-C', '../again/checkout', NO_KIT])
    ended = site.run(['bash', '-c', OTHERWISE], cwd='../again/checkout')
    assert (ended.status, ended.error) == (0, b'')
    assert archive(site, '', '../again/checkout/') == sources
    assert archive(site, '-linux-amd64', '../again/checkout/') == programs


def unpack(site: Site, kind: str) -> str:
    """The folder that comes out of a tarball, in one whose name has blanks."""
    place = os.path.join(site.above, 'un packed')
    file = os.path.join(site.path, 'build', f'{name(site)}{kind}.tar.gz')
    site.expect(['bash', '-c', 'mkdir -p "$0" && tar -xzf "$1" -C "$0"', place, file])
    return os.path.join(place, name(site) + kind)


def unpacked(site: Site) -> None:
    """The programs are played from there, and the sums are those of all files."""
    place = unpack(site, '-linux-amd64')
    ended = site.run(['sha256sum', '--check', '--strict', '--quiet', 'SHA256SUMS'], cwd=place)
    assert ended == (0, b'', b'')
    with open(os.path.join(place, 'SHA256SUMS'), encoding='utf-8') as file:
        summed = [line[66:].rstrip('\n') for line in file]
    assert summed == [path for path in files(place) if path != 'SHA256SUMS']
    wanted = {'README.md', 'LICENSE', 'CHANGELOG.md', 'VERSION', 'docs/FORMATS.md', 'share/man/man6/puzzles.6'}
    assert sorted(wanted - set(summed)) == []
    assert os.readlink(os.path.join(place, 'bin', 'puzzles-json')) == 'puzzles'
    expect_plays(site, os.path.join(place, 'bin'))
    version = site.run([os.path.join(place, 'bin', 'puzzles-play'), '--version'], cwd='..').output.decode().splitlines()
    assert version[1:] == [f'commit {head(site)}', 'proved by a kit that proves nothing', 'taken from the repository']


def of_sources(site: Site) -> None:
    """All files of the commit, which is known there without git; its programs are those of the tree."""
    place = unpack(site, '')
    tracked = site.run(['git', 'ls-files']).output.decode().splitlines()
    assert files(place) == sorted(tracked)
    assert site.run(['tools/commit'], cwd=place).output.decode() == head(site) + '\n'
    ended = site.run(['make', 'play', f'ID={ID}', NO_KIT], cwd=place, input=b'status\n')
    assert ended == Ended(0, b'playing 1/1\n', b'')


def with_log(site: Site) -> None:
    """The gate's log is packed where the gate has passed, at this commit, with these programs."""
    sums = '\n'.join(site.file('programs/RECORD').decode().splitlines()[3:])
    good = f'commit {head(site)}\nprover some\n{sums}\n== the gate\n9 passed, 0 failed, 1 skipped\n'
    for case, log, is_packed in [
        ('has passed', good, True),
        ('has failed', good.replace('0 failed', '1 failed'), False),
        ('was at another commit', good.replace(head(site), 'f' * 40), False),
        ('had another program', good.replace(sums[:64], 'f' * 64), False),
    ]:
        site.put('build/gate.log', log.encode(), 0o644)
        site.expect(['make', 'dist'])
        listed = site.run(['tar', '-tzf', f'build/{name(site)}-linux-amd64.tar.gz']).output.decode().splitlines()
        assert (f'{name(site)}-linux-amd64/gate.log' in listed) == is_packed, f'dist: the log of a gate that {case}'
    os.remove(os.path.join(site.path, 'build', 'gate.log'))


def refused(site: Site) -> None:
    """Nothing is packed that differs from the commit, or from what was proved."""
    new = site.put('docs/NEW.md', b'new\n', 0o644)
    site.expect(['make', 'dist'], 2, 'changes that are not committed')
    commit(site, 'a file more')
    site.expect(['make', 'dist', NO_KIT])
    site.put('crates/clue_rules/src/lib.rt', b'// Else.\n', 0o644)
    commit(site, 'a crate')
    site.expect(['make', 'dist'], 2, 'run make')
    site.expect(['make'])
    program = site.file('build/puzzles')
    site.put('build/puzzles', program + b'\n')
    site.expect(['make', 'dist'], 2, 'build/puzzles is not the program that build/RECORD names')
    site.expect(['make', 'install', f'DESTDIR={new}'], 2, 'build/puzzles is not the program that build/RECORD names')
    site.put('build/puzzles', program)
    site.expect(['make', 'dist'])
    expect_origin(site, 'a build')
    site.expect(['tools/dist', 'now'], 2, 'usage:')
