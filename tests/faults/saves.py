"""The save fails, call by call, or the program is killed there. The old file stands, or the save does, or a new file is whole."""

from typing import List, NamedTuple, Tuple

from tests.faults.rounds import OLD_SAVE, Round, Rounds, State, Target


class Save(NamedTuple):
    """The file to which a session is saved, and whether a rename is refused all the time, so that an old file is written in place."""

    name: str
    target: Target
    refuses: bool = False


SAVES = [
    Save('a save over an old file', Target(OLD_SAVE)),
    Save('a new save file', Target()),
    Save('a save through a link', Target(OLD_SAVE, is_link=True)),
    Save('a save through a link to nothing', Target(is_link=True)),
    Save('a save over a file that keeps its place', Target(OLD_SAVE), refuses=True),
    Save('a save through a link to a file that keeps its place', Target(OLD_SAVE, is_link=True), refuses=True),
]

#: The answers of rename if the old file can't be replaced, and may be written.
REFUSALS = ['EBUSY', 'EPERM', 'EACCES', 'EXDEV']

#: The errors of each call, beside EIO, EINTR, ENOSPC and a kill; and whether each save makes the call: a folder is flushed
#: for a name that is new in it.
CALLS: List[Tuple[str, List[str], bool]] = [
    ('open', ['EACCES', 'EMFILE'], True),
    ('write', ['ZERO'], True),
    ('fsync', ['EINVAL'], True),
    ('rename', REFUSALS, True),
    ('folder', ['EINVAL'], True),
    ('close', [], True),
    ('stat', ['EACCES'], False),
    ('chmod', ['EPERM'], False),
    ('chown', ['EPERM'], False),
    ('link', [], False),
    ('path', [], False),
    ('random', ['ENOSYS'], False),
    ('remove', [], False),
]


def errors_of(errors: List[str], save: Save, piece: int) -> List[str]:
    if piece == 1:
        return ['EIO'] if save.target.old else []
    return ['EIO', 'EINTR', 'ENOSPC', *errors, 'KILL']


def refusing(save: Save) -> str:
    return 'rename:EBUSY' if save.refuses else ''


def opened_as_new(rounds: Rounds, save: Save) -> None:
    """No file is made that isn't asked to be new: it could be another one, or one that somebody put there."""
    made = rounds.run('create', also=refusing(save)).met.calls
    assert not made, f'{made} opens make a file or take one'


def calls_fail(rounds: Rounds, save: Save, whole: Round, call: str, piece: int, errors: List[str], is_sure: bool) -> None:
    """Each call fails in turn, with each of the errors."""
    title = f'{save.name}: {call}, in pieces of {piece}'
    also = '' if call == 'rename' else refusing(save)
    found = rounds.run(call, piece=piece, also=also)
    wrong = found.wrong_end(0, '') + found.wrong_left()
    assert (wrong if is_whole(found.after, whole) else [*wrong, 'the save file is another']) == [], title
    if is_sure and not (call == 'folder' and save.refuses):
        assert found.met.calls, f'{title}, is met'
    for error in errors:
        for at in range(1, found.met.calls + 1):
            failed = rounds.run(call, at, error, piece=piece, also=also)
            assert wrong_round(failed, whole, save, call, error) == [], f'{save.name}: {call} {at}, in pieces of {piece}, {error}'


def is_whole(found: State, whole: Round) -> bool:
    """It has the save's bytes, and is whose the save has to be, with its mode."""
    return found[1:] == whole.after[1:]


def is_no_wider(found: State, whole: Round) -> bool:
    """Nobody may more with it than with the save. Where it has another group, that one may nothing."""
    allowed = whole.after.mode if found.group == whole.after.group else whole.after.mode & 0o707
    return found.mode & ~allowed == 0


def wrong_round(failed: Round, whole: Round, save: Save, call: str, error: str) -> List[str]:
    """The mistakes of a round."""
    wrong = [] if failed.output == whole.output else ['the replies are others']
    if not all(is_no_wider(found, whole) for found in [*failed.left, failed.after]):
        wrong.append(f'more is allowed: {[oct(found.mode) for found in [*failed.left, failed.after]]}')
    # A link that can't be read leads to no name that could be replaced.
    in_place = save.refuses or call == 'link' or (call == 'rename' and error in REFUSALS)
    if error == 'KILL':
        return wrong + wrong_where_killed(failed, whole, in_place)
    if failed.status == 0:
        return wrong + wrong_where_saved(failed, whole, call, error)
    wrong += failed.wrong_end(1, 'cannot write the file')
    if must_pass(save, call, error):
        wrong.append('it is no failure')
    if failed.met.later and not in_place:
        wrong.append(f'{failed.met.later} reads and writes come after')
    return wrong + wrong_where_told(failed, whole, call, in_place)


def has_save(left: List[State], whole: Round) -> bool:
    """One new file is left, and it is the save."""
    return [found.content for found in left] == [whole.after.content]


def wrong_where_killed(failed: Round, whole: Round, in_place: bool) -> List[str]:
    """The old file stands, or the save does; or else that is left which was to be written in place."""
    if failed.stands or is_whole(failed.after, whole) or (in_place and has_save(failed.left, whole)):
        return [] if failed.link_stands else ['the link has changed']
    return ['the save file is neither the old one nor the new one']


def wrong_where_saved(failed: Round, whole: Round, call: str, error: str) -> List[str]:
    """The save stands. It has to stand after all, where the failure was of no matter."""
    wrong = failed.wrong_end(0, '')
    # Without its owner, or its group, less may be allowed.
    given = failed.after[4:] == whole.after[4:] if call == 'chown' else is_whole(failed.after, whole)
    if not given:
        wrong.append(f'the new file is not whole: {failed.after}')
    if not (call == 'remove' and has_save(failed.left, whole)):
        wrong += failed.wrong_left()
    return wrong if may_pass(call, error) else [*wrong, 'the failure is not said']


def wrong_where_told(failed: Round, whole: Round, call: str, in_place: bool) -> List[str]:
    """The bytes that may stand if the program says that it can't write: nothing is lost in any case."""
    is_old = failed.stands and not failed.left
    is_beside = has_save(failed.left, whole)
    is_new = is_whole(failed.after, whole) and not failed.left
    if call == 'rename':
        good = failed.stands and is_beside
    elif call == 'folder':
        good = is_new
    elif in_place:
        good = is_old or is_beside
    elif call in ('open', 'stat', 'path', 'random'):
        # It may be that of the old file, of the new one or of the folder.
        good = is_old or is_new or (failed.stands and is_beside)
    else:
        good = is_old
    return [] if good else [f'there is {failed.after}, and left is {failed.left}']


def may_pass(call: str, error: str) -> bool:
    """Whether the save can be whole after this failure: the call was made again, was of no matter, or there was another way."""
    if error == 'EINTR' or call in ('open', 'close', 'stat', 'chown', 'link', 'random', 'remove'):
        return True
    return (call, error) == ('folder', 'EINVAL') or (call == 'rename' and error in REFUSALS)


def must_pass(save: Save, call: str, error: str) -> bool:
    """Whether this failure is none: there is another way, or nothing more that can be done."""
    if call == 'rename':
        return error in REFUSALS and save.target.old is not None
    return (call, error) in (('folder', 'EINVAL'), ('chown', 'EPERM')) or call == 'close'
