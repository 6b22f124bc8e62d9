"""Compares the lines of the Rust and of `answers` case by case, and shows a difference."""
import collections
import os
import time

import minimise
import programs
from lines import excerpt, named_cases, text_of, wrong_place
from programs import Failure, answered, generated, shown

SHOWN = 5  # differences shown
PAYLOAD_SHOWN = 400  # bytes
SMALL = 2_000  # bytes: a minimised payload up to here is shown whole
NAMED_REPLY = 2_000  # bytes: of longer replies T and U are not asked for every column
STORED = programs.TOP / 'target' / 'difference'


def for_oracle(case):
    """The Rust is asked D for d."""
    return b'D' + case[1:] if case[:1] == b'd' else case


def both(cases, limit):
    """For each case who gives the expected line, that line, and the line of `answers`."""
    rust = answered(programs.ORACLE, list(map(for_oracle, cases)), limit)
    lines = answered(programs.ANSWERS, cases, limit)
    trapped = [at for at, line in enumerate(rust) if line == b'TRAP']
    exact = answered(programs.EXACT, [for_oracle(cases[at]) for at in trapped], limit)
    whose = ['Rust'] * len(cases)
    for at, line in zip(trapped, exact):
        whose[at], rust[at] = 'Rust (exact)', line
    return list(zip(whose, rust, lines))


def wrong(case, expected, line):
    """What is wrong with the line of `answers` where the Rust has `expected`; None if nothing."""
    if isinstance(expected, Failure):
        return 'the Rust gives no line'
    if expected == b'BAD':
        return 'the Rust does not take the case'
    if isinstance(line, Failure):
        return 'answers gives no line'
    if case[:1] == b'd':
        return wrong_place(case[5:], expected, line)
    return None if line == expected else 'another line'


def kind(about):
    """Differences of one kind: a line missing on one side, or a line that is another."""
    return about if about is None or ' gives no ' in about or ' not take ' in about else 'line'


def differing(cases, limit, as_before):
    """Of each case, whether the programs differ on it in the same kind of way."""
    return [kind(wrong(case, expected, line)) == as_before
            for case, (_, expected, line) in zip(cases, both(cases, limit))
            if expected is not None and line is not None]


class Difference:
    """A case on which the programs differ: what both said, and how it was made."""

    def __init__(self, title, made_by, case, answers, about):
        self.title, self.made_by, self.case, self.about = title, made_by, case, about
        self.who, self.expected, self.line = answers

    def told(self):
        """What is wrong, and from where on."""
        if self.about != 'another line':
            return self.about
        first = len(os.path.commonprefix([self.expected, self.line]))
        return f'another line, from character {first} on'

    def rows(self, most):
        payload = self.case[5:]
        more = '..' if len(payload) > most else ''
        expected, line = text_of(self.expected), text_of(self.line)
        first = len(os.path.commonprefix([expected, line]))
        return [('payload', f'{payload[:most].hex()}{more} ({len(payload):,} bytes)'),
                (self.who, excerpt(expected, first)), ('answers', excerpt(line, first))]

    def text(self):
        return table(f'{self.title}: {self.told()}',
                     [('made by', self.made_by), *self.rows(PAYLOAD_SHOWN)])

    def smaller(self, seconds):
        """The same difference on a smaller case, shown."""
        started = time.monotonic()
        search = minimise.Search(
            self.case, lambda cases, limit: differing(cases, limit, kind(self.about)), seconds)
        if not any(search.tell([self.case])):
            return f'{self.title} is not made smaller: asked alone, it does not differ'
        search.run()
        [answers] = both([search.case], seconds)
        about = wrong(search.case, *answers[1:])
        found = Difference(self.title, self.made_by, search.case, answers, about)
        head = (f'{self.title}, minimised to {len(search.case) - 5:,} bytes by {search.tried:,} '
                f'tries in {time.monotonic() - started:.1f} s: {found.told()}')
        return table(head, [*found.rows(SMALL), ('asked again', found.command())])

    def command(self):
        """Asks both programs again, typed at the top of the repository."""
        rust = programs.EXACT if 'exact' in self.who else programs.ORACLE
        asked = [(rust, for_oracle(self.case)), (programs.ANSWERS, self.case)]
        return '; '.join(f'{stream_of(case)} {shown(program)}' for program, case in asked)


def stream_of(cases):
    """Shell words that write cases of one entry to a program; long ones are stored."""
    if len(cases) <= SMALL:
        return f'printf {cases.hex()} | xxd -r -p |'
    STORED.mkdir(parents=True, exist_ok=True)
    path = STORED / f'{chr(cases[0])}.case'
    path.write_bytes(cases)
    return f'cat {shown(path)} |'


def table(title, rows):
    return title + ''.join(f'\n  {name:12} {text}' for name, text in rows)


class Found:
    """What a piece of work found: counts, and the first differences."""

    def __init__(self):
        self.counts = collections.Counter()
        self.differences = []

    def add(self, what, difference, *answers):
        self.counts[f'differing {what}'] += 1
        self.counts['failures'] += any(isinstance(answer, Failure) for answer in answers)
        if len(self.differences) < SHOWN:
            self.differences.append(difference)

    def join(self, other):
        self.counts.update(other.counts)
        self.differences += other.differences


def arguments_for(given, start, count):
    """The generator's arguments for `count` cases from case `start` on."""
    return [str(given.seed), str(count), given.entries, '--from', str(start)]


def command_for(arguments):
    return ' '.join([shown(programs.GENERATE), *arguments])


def compare_cases(given, start, count):
    """Compares these generated cases."""
    made = generated(arguments_for(given, start, count))
    found = Found()
    listed = []  # of d: the case's number, its reply and both lines
    for number, (case, answers) in enumerate(zip(made, both(made, given.limit)), start):
        who, expected, line = answers
        if expected is None or line is None:
            break  # a program failed too often
        found.counts['cases'] += 1
        found.counts['traps'] += who != 'Rust'
        about = wrong(case, expected, line)
        if about:
            made_by = command_for(arguments_for(given, number, 1))
            title = f'case {number} ({chr(case[0])})'
            found.add('cases', Difference(title, made_by, case, answers, about), *answers[1:])
        elif case[:1] == b'd' and expected.startswith(b'OK ') and len(case) - 5 <= NAMED_REPLY:
            listed.append((number, case[5:], expected, line))
    if any(entry in given.entries for entry in 'TU'):
        compare_names(given, found, listed)
    return found


def compare_names(given, found, listed):
    """T and U of the columns that d listed."""
    asked = [(number, case, answer) for number, *lines in listed
             for case, answer in named_cases(*lines)]
    lines = answered(programs.ANSWERS, [case for _, case, _ in asked], given.limit)
    for (number, case, answer), line in zip(asked, lines):
        if line is None:
            break
        found.counts['names'] += 1
        if line != answer:
            made_by = command_for(arguments_for(given, number, 1))
            title = f"{chr(case[0])} of a column that case {number} (d) lists"
            about = wrong(case, answer, line)
            found.add('cases', Difference(title, made_by, case, ("d's list", answer, line), about),
                      line)
