"""Checks certificates of puzzles: python3 verify.py [FILE..]   (Python 3.8 or later, and nothing else; - is standard input)
A certificate is a line of JSON: a game, its ID, the answer (none, one or several), solutions, and steps that show that there are no others. The ID
alone says what the puzzle is, so compare the drawing with the puzzle on your paper. Why there is no other solution: `left` has for each square the
numbers that solutions may have there, at first all. Each step takes away numbers that no solution has there: `rules_out` and `follow` see for
themselves. At the end one number is left in each square, or none in some square. Squares count from 0 in reading order; lines are rows, then columns;
clues stand at top, bottom, left, right. The status is 0 if each certificate shows what it says, 1 if one doesn't, 2 if there is something else."""
import json
import sys

MOST_BYTES, MOST_DEEP = 16 << 20, 81  # Of one certificate; of suppositions one in the other.
GRADES, NO_ID = {'towers': 'ehxu', 'unequal': 'tekxr'}, 'its ID is none that this program can read'
SUPPOSE, MEMBERS = ('suppose', 'lemma'), ['answer', 'game', 'id', 'needed', 'solutions', 'steps']
ANSWERS = {'none': (0, 'No solution'), 'one': (1, 'Exactly one solution'), 'several': (2, 'Several solutions')}

class NotShown(Exception):
    """It has the form of a certificate, and doesn't show what it says. For all that hasn't the form there is ValueError."""

def expect(is_so, why, fault=ValueError):
    if not is_so:
        raise fault(why)

def digit(text, least, most):
    expect(len(text) == 1 and text in '0123456789' and least <= int(text) <= most, NO_ID)
    return int(text)

class Puzzle:
    """The puzzle of an ID: size, clues, givens (0 for none), signs, each a greater and a less square; with lines, and views from clues."""
    def __init__(self, game, text):
        expect(type(text) is str and len(text) <= 1024, NO_ID)
        head, _, description = text.partition(':')
        expect(len(head) == 1 or head[1:2] == 'd' and head[2:] in list(GRADES[game]), NO_ID)
        w = self.size = digit(head[0], 3, 9)
        rows, columns = [[y * w + x for x in range(w)] for y in range(w)], [[y * w + x for y in range(w)] for x in range(w)]
        self.lines, self.views = rows + columns, columns + [c[::-1] for c in columns] + rows + [r[::-1] for r in rows]
        self.clues, self.signs, self.givens = {}, set(), []
        if game == 'towers':
            edge, comma, squares = description.partition(',')
            expect(edge.count('/') == 4 * w - 1 and '0' not in squares, NO_ID)
            self.clues = {place: digit(clue, 1, w) for place, clue in enumerate(edge.split('/')) if clue}
            squares = squares.translate({96 + count: '_' + '0_' * count for count in range(1, 27)})  # A letter stands for so many empty squares.
            self.givens = [digit(mark, 0, w) for mark in squares.split('_') if mark] if comma else [0] * w * w
        else:
            fields = description.split(',')
            for square, field in enumerate(fields[:-1] if fields[-1] == '' else fields):
                self.givens.append(digit(field[:1], 0, w))
                for letter in field[1:]:  # This square is greater than that on this side.
                    y, x = square // w + (letter == 'D') - (letter == 'U'), square % w + (letter == 'R') - (letter == 'L')
                    expect(letter in 'URDL' and 0 <= y < w and 0 <= x < w and (y * w + x, square) not in self.signs, NO_ID)
                    self.signs.add((square, y * w + x))
        expect(len(self.givens) == w * w, NO_ID)
    def broken(self, grid):
        """The rules of both games: 0 if a row or column has a number twice; each clue, given and sign, from 1 on, that a grid breaks."""
        met = [all(possible([[grid[square]] for square in line]) for line in self.lines),
               *(possible([[grid[square]] for square in self.views[place]], clue) for place, clue in sorted(self.clues.items())),
               *(given == number for given, number in zip(self.givens, grid) if given),
               *(grid[greater] > grid[less] for greater, less in sorted(self.signs))]
        return [place for place, holds in enumerate(met) if not holds]
    def drawn(self):
        """The puzzle, to be compared with paper: clues at the edge; signs open towards the greater number."""
        w, clue = self.size, lambda place: str(self.clues.get(place, ' '))
        sign = lambda a, b, less, greater: less if (b, a) in self.signs else greater if (a, b) in self.signs else ' '
        out = ['      ' + '   '.join(map(clue, range(w)))]
        for y, row in enumerate(self.lines[:w]):
            squares = ''.join(str(self.givens[s] or '.') + (' %s ' % sign(s, s + 1, '<', '>') if s < row[-1] else '') for s in row)
            out += ['  %s | %s | %s' % (clue(2 * w + y), squares, clue(3 * w + y)), '      ' + '   '.join(sign(s, s + w, '^', 'v') for s in row)]
        return '\n'.join(line.rstrip() for line in out[:-1] + ['      ' + '   '.join(map(clue, range(w, 2 * w)))] if line.strip() or self.signs)

def possible(choices, clue=None):
    """Whether numbers can be taken, one of each list, none twice, so that `clue` of them are seen, which are above all before them. All ways are
    followed at once. Of a way are kept how many are seen, and the sum of 1 << n of its numbers n: less than 1 << m exactly if all are less than m."""
    ways = {(0, 0)}
    for choice in choices:
        ways = {(used | 1 << n, count + (used < 1 << n)) for used, count in ways for n in choice if not used & 1 << n}
    return any(clue in (None, count) for _, count in ways)

def rules_out(puzzle, left, lemmas, kind, what, square, number):
    """Whether no solution, of numbers that are left, has this number in this square: by one line, clue, sign, or one number alone."""
    if kind == 'line' or kind == 'clue' and what in puzzle.clues:  # A line has no number twice, and shows what its clue says.
        line, clue = (puzzle.lines[what], None) if kind == 'line' else (puzzle.views[what], puzzle.clues[what])
        return square in line and not possible([[number] if s == square else left[s] for s in line], clue)
    if kind == 'number' and what == number:  # A number stands once in each row, each time in another column x.
        return not possible([[x for x, s in enumerate(row) if s == square or square not in row and number in left[s]] for row in puzzle.lines[:puzzle.size]])
    if kind == 'kept' and what < len(lemmas) and number in lemmas[what].get(square, []):  # All other squares of the lemma have its numbers alone.
        return all(set(left[other]) <= set(numbers) for other, numbers in lemmas[what].items() if other != square)
    is_end = kind == 'sign' and tuple(what) in puzzle.signs and square in what  # There a number fits one that is left at the other end.
    return is_end and not (any(n < number for n in left[what[1]]) if square == what[0] else any(n > number for n in left[what[0]]))

def follow(puzzle, left, lemmas, steps, above=''):
    """Takes away what the steps say, and complains of the first that doesn't follow. A lemma holds for the steps after it, and for those in them."""
    for place, step in enumerate(steps, 1):
        name, kind, what, strikes = '%s%d' % (above, place), step[0], step[1], step[2]
        if kind in SUPPOSE:  # If squares with these numbers alone lead to a square without any, no solution is so in all of them.
            lemma = {what: [step[2]]} if kind == 'suppose' else dict(what)
            branch = [[number for number in numbers if number in lemma.get(square, numbers)] for square, numbers in enumerate(left)]
            follow(puzzle, branch, lemmas, step[-1], name + '.')
            expect(not all(branch), 'step %s leads to no contradiction' % name, NotShown)
            lemmas, strikes = (lemmas, lemma.items()) if kind == 'suppose' else (lemmas + [lemma], [])
        else:
            for square, number in ((s, n) for s, numbers in strikes for n in numbers if not rules_out(puzzle, left, lemmas, kind, what, s, n)):
                raise NotShown('step %s (%s) does not rule out %d in square %d' % (name, kind, number, square))
        for square, numbers in strikes:
            left[square] = [number for number in left[square] if number not in numbers]

def fits(value, form):
    """Whether JSON is of a form: a text, a number of a range, any `list`, a list of one form, [form], or of those of a tuple in turn."""
    if type(value) is not list or type(form) in (str, range):
        return type(value) is int and value in form if type(form) is range else value == form
    forms = form * len(value) if type(form) is list else form
    return form is list or len(forms) == len(value) and all(map(fits, value, forms))

def formed(steps, forms, deep=MOST_DEEP):
    return all(any(fits(step, form) for form in forms) and (step[0] not in SUPPOSE or deep and formed(step[-1], forms, deep - 1)) for step in steps)

def parsed(line):
    """The values of MEMBERS, of which none is there twice. There are no words but texts without escapes, and no numbers but whole ones."""
    expect(len(line) <= MOST_BYTES and b'\\' not in line, 'it has a backslash, or more than 16 MiB')
    expect(line.isascii() and set(b''.join(line.split(b'"')[::2])) <= set(b'0123456789[]{},: \t\r\n'), 'it has a word or a number that means nothing')
    found = json.loads(line.decode(), object_pairs_hook=tuple, parse_int=lambda digits: int(digits[:9]))  # Longer ones are too great, too.
    names = [name for name, _ in found] if type(found) is tuple else []
    expect(line.count(b'{') == 1 and sorted(names + ['needed'] * ('needed' not in names)) == MEMBERS, 'it has not the members of one, each once')
    return [dict(found).get(name, []) for name in MEMBERS]

def shown(line):
    """A certificate's answer, below the drawing of its puzzle. An item is needed if some grid breaks it alone: without it, that is a second solution."""
    answer, game, text, needed, solutions, steps = parsed(line)
    expect(game in list(GRADES) and answer in list(ANSWERS), 'its game or its answer is unknown')
    puzzle, (count, words) = Puzzle(game, text), ANSWERS[answer]
    w, square, number = puzzle.size, range(puzzle.size ** 2), range(1, puzzle.size + 1)
    whats = ('line', range(2 * w)), ('clue', range(4 * w)), ('number', number), ('sign', (square, square)), ('kept', range(MOST_BYTES))
    forms = [('suppose', square, number, list), ('lemma', [(square, [number])], list), *((kind, what, [(square, [number])]) for kind, what in whats)]
    expect(fits(steps, list) and formed(steps, forms), 'a step is not of a known form, or stands too deep')
    expect(fits(solutions, ((number,) * w * w,) * count), 'its solutions are not as many as its answer has, or are no grids')
    expect(fits(needed, [(number,) * w * w]) and (answer == 'one' or not needed), 'what is needed is no list of grids, or not of one solution')
    expect(not any(map(puzzle.broken, solutions)), 'what is said to be a solution is none', NotShown)
    left = [[given] if given else list(number) for given in puzzle.givens]
    follow(puzzle, left, [], steps)
    holds = {'none': not all(left), 'one': left == [[n] for n in sum(solutions, [])], 'several': solutions[:1] != solutions[1:]}
    expect(holds[answer], 'its steps and solutions do not show its answer', NotShown)
    items = [[item] for item in range(1, 1 + len(puzzle.clues) + len(puzzle.signs) + sum(map(bool, puzzle.givens)))]
    expect(not needed or [puzzle.broken(grid) for grid in needed] == items, 'not each item is needed', NotShown)
    counts = [line.count(b'"%s"' % form[0].encode()) for form in forms]  # Each step names its kind once.
    words += '' if not needed else ', and each clue, sign and given is needed'
    return '%s\n%s. Steps: %d. Suppositions among them: %d.' % (puzzle.drawn(), words, sum(counts), counts[0] + counts[1])

def told(name, place=0):
    """Of each certificate of a file, in turn, its status and what is to be said of it."""
    try:
        with open(0 if name == '-' else name, 'rb') as file:
            for place, line in enumerate((line for line in iter(lambda: file.readline(MOST_BYTES + 1), b'') if line.strip() or len(line) > MOST_BYTES), 1):
                try:
                    yield 0, shown(line)
                except NotShown as why:
                    yield 1, 'NOT SHOWN by certificate %d of %s: %s.' % (place, ascii(name), why)
        expect(place, 'there is none')
    except (OSError, ValueError, RecursionError) as why:
        why = 'it is no JSON, or nested too deep' if type(why) in (json.JSONDecodeError, RecursionError) else why
        yield 2, 'NO CERTIFICATE is number %d of %s: %s.' % (place, ascii(name), why)

def main(names, status=0):
    try:
        for found, text in (each for name in names or ['-'] for each in told(name)):
            status = max(status, found)
            print(text, flush=True)
    except OSError as why:  # Of the output: if nobody reads on, as behind `head`, it is no fault, and the status is that of `cat`.
        status, sys.stdout = 141 if type(why) is BrokenPipeError else 2, None
        print('' if status == 141 else 'Standard output: %s\n' % why, end='', file=sys.stderr)
    return status

if __name__ == '__main__':
    sys.exit(main(sys.argv[1:]))
