"""Exchanges of a column's description: makes them, compares the lists, shows what differs."""
import struct
import time

import programs
from comparison import Difference, Found, command_for, stream_of, table, wrong
from lines import columns_of, excerpt, is_generated, text_of, wrong_place
from programs import Failure, answered, framed, generated, shown, stop

BYTES_SHOWN = 2_000
ONE_COLUMN = bytes.fromhex('FFFF0001')
REPLIES = ('old reply', 'new reply', 'description alone')
HEAD = struct.Struct('>HIIBI')


class Exchange:
    """A reply, the place of column k's description in it, and the description that takes it."""

    def __init__(self, old, k, place, length, description, nameless):
        self.old, self.k, self.place, self.length = old, k, place, length
        self.description, self.nameless = description, nameless
        self.new = old[:place] + description + old[place + length:]
        self.alone = ONE_COLUMN + description
        self.replies = (self.old, self.new, self.alone)

    @classmethod
    def of(cls, payload):
        """What the generator gives."""
        k, place, length, nameless, size = HEAD.unpack_from(payload)
        description = payload[HEAD.size:HEAD.size + size]
        return cls(payload[HEAD.size + size:], k, place, length, description, nameless)

    def expected(self, old, alone):
        """The new list's line, by the standard readings of the old reply and the description."""
        head, columns = columns_of(old)
        [column] = columns_of(alone)[1]
        column[0] = str(self.k)
        if self.nameless:
            column[1] = f'COL{self.k + 1}'.encode().hex()
        columns[self.k] = column
        return ''.join([head, *(' C ' + ' '.join(words) for words in columns)]).encode()

    def moved(self, texts, column):
        """Texts of the old list's column, each place/length/alphabet, as they stand afterwards."""
        return move(texts, len(self.new) - len(self.old) if column > self.k else 0)


def move(texts, by):
    """The same texts, those that have bytes at places greater by so much."""
    moved = []
    for text in texts:
        place, length, alphabet = map(int, text.split('/'))
        moved.append(f'{place + (by if length else 0)}/{length}/{alphabet}')
    return moved


def fours(line):
    """The texts of each column in a line of d."""
    words = line.decode().split()[2:]
    return [words[at:at + 4] for at in range(0, len(words), 4)]


def speaks_places(limit):
    return answered(programs.ANSWERS, [framed('d', b'\xFF')], limit) == [b'OK n=0']


class Lines:
    """What the programs answer for an exchange's three replies."""

    def __init__(self, standard, rust, answers, places, whose):
        self.standard, self.rust, self.answers, self.places = standard, rust, answers, places
        self.whose = whose

    def asked(self):
        """Whether every program was asked: one that failed too often is not."""
        rows = (self.standard, self.rust, self.answers, self.places or [])
        return all(line is not None for row in rows for line in row)


def threes(program, entry, exchanges, limit):
    """The program's three lines for each exchange."""
    cases = [framed(entry, reply) for each in exchanges for reply in each.replies]
    lines = answered(program, cases, limit)
    return [lines[at:at + 3] for at in range(0, len(lines), 3)]


def lines_of(exchanges, with_places, limit):
    """The Lines of each exchange; the exact score's where the Rust traps."""
    standard = threes(programs.OPEN, 'B', exchanges, limit)
    rust = threes(programs.ORACLE, 'D', exchanges, limit)
    answers = threes(programs.ANSWERS, 'D', exchanges, limit)
    places = [None] * len(exchanges)
    if with_places:
        places = threes(programs.ANSWERS, 'd', exchanges, limit)
    at = [(number, which) for number, lines in enumerate(rust)
          for which, line in enumerate(lines) if line == b'TRAP']
    exact = answered(programs.EXACT, [framed('D', exchanges[number].replies[which])
                                      for number, which in at], limit)
    whose = [['Rust'] * 3 for _ in exchanges]
    for (number, which), line in zip(at, exact):
        rust[number][which], whose[number][which] = line, 'Rust (exact)'
    return [Lines(*each) for each in zip(standard, rust, answers, places, whose)]


class Check:
    """What does not hold of an exchange: `wrong`, None if all does.

    `case` is the case of one reply alone, with what was answered, where that shows it too.
    """

    def __init__(self, exchange, lines):
        self.exchange, self.lines = exchange, lines
        self.case = None
        self.named = self.placed = False
        self.wrong = self.programs_differ() or self.not_expected() or self.places_differ()

    def programs_differ(self):
        for name, reply, *answers in zip(REPLIES, self.exchange.replies, self.lines.whose,
                                         self.lines.rust, self.lines.answers):
            if wrong(framed('D', reply), *answers[1:]):
                self.case = framed('D', reply), answers
                return f'the programs differ on the {name}'
        return None

    def not_expected(self):
        standard, rust = self.lines.standard, self.lines.rust
        if any(isinstance(line, Failure) for line in standard):
            return 'the standard reading gives no line'
        if not all(line.startswith(b'OK ') for line in standard):
            return 'the standard reading refuses a reply'
        expected = self.exchange.expected(standard[0], standard[2])
        self.named = not all(is_generated(column[1]) for column in columns_of(expected)[1])
        if standard[1] != expected:
            return 'the standard reading of the new reply is not the expected list'
        if self.named and rust[1] != expected:
            return 'the new list is not the expected one'
        return None

    def places_differ(self):
        """Of d: each text at its place, and moved as it should be."""
        if not self.named or self.lines.places is None:
            return None
        for reply, *answers, line in zip(self.exchange.replies, self.lines.whose,
                                         self.lines.rust, self.lines.places):
            at_fault = wrong(framed('d', reply), answers[1], line)
            if at_fault:
                self.case = framed('d', reply), [*answers, line]
                return f'd: {at_fault}'
        return self.moved_otherwise()

    def moved_otherwise(self):
        # Equal lines mean that the answer is the standard reading: it is the first of all to have
        # a name, and the first of all without.
        exchange, lines = self.exchange, self.lines
        old, new, alone = map(fours, lines.places)
        if lines.rust[0] == lines.standard[0]:
            self.placed = True
            for column, texts in enumerate(old):
                if column != exchange.k and new[column] != exchange.moved(texts, column):
                    return f'd: the texts of column {column} moved otherwise'
        if lines.rust[2] == lines.standard[2]:
            if new[exchange.k] != move(alone[0], exchange.place - len(ONE_COLUMN)):
                return "d: column k's texts do not stand as in the description alone"
        return None

    def kind(self):
        """Without the numbers in it."""
        return ''.join(c for c in self.wrong or '' if not c.isdigit())


class ExchangeDifference:
    """An exchange of which something does not hold."""

    def __init__(self, title, made_by, check):
        self.title, self.made_by, self.check = title, made_by, check

    def rows(self):
        exchange, lines = self.check.exchange, self.check.lines
        yield 'column', f'{exchange.k}, {exchange.length} bytes from {exchange.place} on'
        for name, reply in zip(('old', 'new', 'alone'), exchange.replies):
            more = '..' if len(reply) > BYTES_SHOWN else ''
            yield name, f'{reply[:BYTES_SHOWN].hex()}{more} ({len(reply):,} bytes)'
        for who, row in (('standard', lines.standard), ('Rust', lines.rust),
                         ('answers', lines.answers), ('places', lines.places or ())):
            for name, line in zip(('old', 'new', 'alone'), row):
                yield f'{who}, {name}', excerpt(text_of(line), 0)

    def text(self):
        return table(f'{self.title}: {self.check.wrong}',
                     [('made by', self.made_by), *self.rows()])

    def smaller(self, seconds):
        """The one reply that shows it made smaller; else the exchange."""
        if self.check.case is not None:
            case, answers = self.check.case
            about = wrong(case, *answers[1:])
            title = f'{self.title}, a reply of it ({chr(case[0])})'
            return Difference(title, self.made_by, case, answers, about).smaller(seconds)
        started = time.monotonic()
        check, tried = smallest(self.check, seconds)
        size = sum(map(len, check.exchange.replies))
        found = ExchangeDifference(self.title, self.made_by, check)
        return table(f'{self.title}, minimised to {size:,} bytes by {tried:,} tries in '
                     f'{time.monotonic() - started:.1f} s: {check.wrong}',
                     [*found.rows(), ('asked again', found.command())])

    def command(self):
        """Asks both programs for the three replies again, typed at the top of the repository."""
        lists, places = (b''.join(framed(entry, reply) for reply in self.check.exchange.replies)
                         for entry in 'Dd')
        asked = [(lists, programs.ORACLE), (lists, programs.ANSWERS), (places, programs.ANSWERS)]
        return '; '.join(f'{stream_of(cases)} {shown(program)}' for cases, program in asked)


def smallest(check, seconds):
    """An exchange that is wrong in the same way and cannot be made smaller, and how many tries."""
    end, tried = time.monotonic() + seconds, 0
    stages = Taken(check.exchange).smaller()
    while time.monotonic() < end and (tries := next(stages, None)) is not None:
        tried += len(tries)
        lines = lines_of(tries, check.lines.places is not None, seconds)
        checks = [Check(*each) for each in zip(tries, lines) if each[1].asked()]
        better = [each for each in checks if each.kind() == check.kind()]
        if better:
            check = min(better, key=lambda each: len(each.exchange.old))
            stages = Taken(check.exchange).smaller()
    return check, tried


class Taken:
    """An exchange's old reply taken apart, as the standard reading does."""

    def __init__(self, exchange):
        self.exchange = exchange
        reply = exchange.old
        at = header_end(reply, sqlca_end(reply))
        count = int.from_bytes(reply[at:at + 2], 'big')
        self.front, self.columns, at = reply[:at], [], at + 2
        for _ in range(count):
            end = description_end(reply, at)
            self.columns.append(reply[at:end])
            at = end
        self.behind = reply[at:]

    def smaller(self):
        """Smaller exchanges, some at a time: less in front or behind, fewer columns, bare ones."""
        front, columns, behind, k = self.front, self.columns, self.behind, self.exchange.k
        if len(front) > 2:
            yield [self.made(b'\xFF\xFF', columns, k, behind)]
        if behind:
            yield [self.made(front, columns, k, b'')]
        others = [at for at in range(len(columns)) if at != k]
        size = len(others)
        while size > 0:
            stretches = [others[at:at + size] for at in range(0, len(others), size)]
            yield [self.without(some) for some in stretches]
            size //= 2
        bare = [column[:16] + b'\xFF' for column in columns]
        longer = [at for at in range(len(columns)) if len(columns[at]) > len(bare[at])]
        yield [self.made(front, [*columns[:at], bare[at], *columns[at + 1:]], k, behind)
               for at in longer]

    def without(self, some):
        columns = [column for at, column in enumerate(self.columns) if at not in some]
        k = self.exchange.k - sum(at < self.exchange.k for at in some)
        return self.made(self.front, columns, k, self.behind)

    def made(self, front, columns, k, behind):
        before = front + struct.pack('>H', len(columns)) + b''.join(columns[:k])
        old = before + b''.join(columns[k:]) + behind
        return Exchange(old, k, len(before), len(columns[k]), self.exchange.description,
                        self.exchange.nameless)


def strings_end(reply, at, count):
    for _ in range(count):
        at += 2 + int.from_bytes(reply[at:at + 2], 'big')
    return at


def group_end(reply, at, size, strings):
    """Where a group ends whose flag stands here: FF, or so many bytes and strings."""
    if at >= len(reply) or reply[at] == 0xFF:
        return min(at + 1, len(reply))
    return strings_end(reply, at + 1 + size, strings)


def sqlca_end(reply):
    return 1 if reply[0] == 0xFF else group_end(reply, 18, 35, 3)


def header_end(reply, at):
    return group_end(reply, at, 12, 3)


def description_end(reply, at):
    at += 16
    if at >= len(reply) or reply[at] == 0xFF:
        return min(at + 1, len(reply))
    at = strings_end(reply, at + 3, 6)
    at = group_end(reply, at, 4, 5)
    return group_end(reply, at, 8, 9)


def arguments_for(given, start, count):
    """The generator's arguments for `count` exchanges from exchange `start` on."""
    return [str(given.seed), str(count), 'x', '--from', str(start)]


def compare_exchanges(given, start, count):
    """Compares these generated exchanges."""
    made = [Exchange.of(case[5:]) for case in generated(arguments_for(given, start, count))]
    found = Found()
    for number, each in enumerate(zip(made, lines_of(made, given.places, given.limit)), start):
        if not each[1].asked():
            break  # a program failed too often
        check = Check(*each)
        found.counts.update(
            {'exchanges': 1, 'named': check.named, 'placed': check.placed,
             'traps': sum(who != 'Rust' for who in each[1].whose)})
        if check.wrong == 'the standard reading refuses a reply':
            stop('the generator made a reply or a description that the standard reading refuses')
        if check.wrong:
            made_by = command_for(arguments_for(given, number, 1))
            lines = each[1]
            found.add('exchanges', ExchangeDifference(f'exchange {number}', made_by, check),
                      *lines.standard, *lines.rust, *lines.answers, *(lines.places or ()))
    return found
