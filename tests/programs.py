"""The programs that tests ask: where they are, their cases, and the lines they answer."""
import argparse
import os
import pathlib
import signal
import struct
import subprocess
import sys
import tempfile
import threading

TOP = pathlib.Path(__file__).resolve().parent.parent
BUILD = TOP / 'tests' / 'oracle' / 'build'
GENERATE = TOP / 'target' / 'oracle' / 'generate'
ORACLE = TOP / 'target' / 'oracle' / 'oracle'
EXACT = TOP / 'target' / 'oracle' / 'oracle-exact'
OPEN = TOP / 'target' / 'oracle' / 'oracle-open'
ANSWERS = TOP / 'target' / 'bin' / 'answers'  # --answers puts another in its place
MOST_FAILURES = 5  # how often a program may fail before it is asked no more


def stop(reason):
    print(f'{pathlib.Path(sys.argv[0]).name}: {reason}', file=sys.stderr)
    sys.exit(2)


def whole(text):
    """An argument that is a whole number below 2^64."""
    value = int(text) if text.isascii() and text.isdigit() else -1
    if not 0 <= value < 1 << 64:
        raise argparse.ArgumentTypeError(f'not a whole number below 2^64: {text!r}')
    return value


def at_least_one(text):
    value = whole(text)
    if value == 0:
        raise argparse.ArgumentTypeError('0 is not enough')
    return value


class Parser(argparse.ArgumentParser):
    """Says in one line what it does not understand."""

    def error(self, message):
        stop(f"{message}; 'tests/{self.prog} --help' says what there is")


def parser(text, count, *options):
    """Reads SEED, COUNT, --source and these options besides; -h prints `text`."""
    made = Parser(prog=pathlib.Path(sys.argv[0]).name, description=text, add_help=False,
                  allow_abbrev=False)
    made.add_argument('seed', nargs='?', type=whole, default=1)
    made.add_argument('count', nargs='?', type=at_least_one, default=count)
    made.add_argument('--source')
    for option, how in options:
        made.add_argument(option, **how)
    return made


def parse(made):
    if {'-h', '--help'} & set(sys.argv[1:]):
        print(made.description, end='')
        sys.exit(0)
    given, unknown = made.parse_known_args()
    if unknown:
        made.error(f"unknown word: {' '.join(unknown)}")
    return given


def build_oracle(source, *options):
    """Builds the oracle where that is needed."""
    built = subprocess.run([BUILD, '--if-needed', *options, *([source] if source else [])],
                           stdout=sys.stderr)
    if built.returncode != 0:
        stop('tests/oracle/build failed; --source names the folder that holds the Rust')


def take_answers(program=None):
    """`answers`, or the program that stands in for it, is there."""
    global ANSWERS
    if program is not None:
        ANSWERS = pathlib.Path(program).resolve()
    if not os.access(ANSWERS, os.X_OK):
        stop(f"{shown(ANSWERS)} is not there; 'tools/build answers' makes it")


def shown(program):
    """A program's path as it is typed at the top of the repository."""
    return str(program.relative_to(TOP) if program.is_relative_to(TOP) else program)


def generated(arguments):
    """The cases that the generator writes for these arguments."""
    made = subprocess.run([GENERATE, *arguments], capture_output=True)
    if made.returncode != 0:
        stop(made.stderr.decode().strip())
    return frames(made.stdout)


def framed(entry, payload):
    return entry.encode() + struct.pack('>I', len(payload)) + payload


def frames(stream):
    """The cases of a stream, each with its five bytes in front."""
    cases, at = [], 0
    while at < len(stream):
        end = at + 5 + int.from_bytes(stream[at + 1:at + 5], 'big')
        cases.append(stream[at:end])
        at = end
    return cases


class Failure(str):
    """Stands for a line that a program did not write: says how it ended instead."""


def written(program, cases, limit):
    """All that a program writes for these cases, and its exit status, None where time was over."""
    with tempfile.TemporaryFile() as given, tempfile.TemporaryFile() as wrote:
        given.write(b''.join(cases))
        given.seek(0)
        asked = subprocess.Popen([program], stdin=given, stdout=wrote)
        over = threading.Event()
        timer = threading.Timer(limit, lambda: (over.set(), asked.kill()))
        timer.daemon = True
        timer.start()
        try:
            status = asked.wait()
        finally:
            timer.cancel()
            asked.kill()
            asked.wait()
        wrote.seek(0)
        return wrote.read(), None if over.is_set() else status


def ask(program, cases, limit):
    """A program's lines, up to a line BAD, and how it failed: None if it did not.

    A program that fails has not written all lines that it made: the case at which it did is among
    those that have none.
    """
    output, status = written(program, cases, limit)
    *lines, rest = output.split(b'\n')
    if lines and lines[-1] == b'BAD' and not rest and len(lines) <= len(cases):
        return lines, None  # a program's last line; its status then is its own affair
    if status is None:
        return lines, Failure(f'no line within {limit:g} seconds')
    if status < 0:
        return lines, Failure(f'ended by signal {signal.Signals(-status).name}')
    if status > 0:
        return lines, Failure(f'ended with status {status}')
    if len(lines) > len(cases) or rest:
        return [], Failure('wrote more than a line for each case')
    if len(lines) < len(cases):
        return lines, Failure('ended without a line')
    return lines, None


def alone(program, cases, limit, failure):
    """Lines of these cases, asked one by one, up to one at which the program fails."""
    answers = []
    for case in cases:
        lines, fails = ask(program, [case], limit / 4)
        if fails:
            return [*answers, fails]
        answers += lines
    # None of them fails alone: the first that had no line stands for all.
    return [Failure(f'{failure}, though not on this case alone')] + answers[1:]


def answered(program, cases, limit):
    """For each case the program's line, or the Failure there.

    After a failure it is asked the cases behind; after MOST_FAILURES there is None for the others.
    """
    answers, failures = [], 0
    while len(answers) < len(cases) and failures < MOST_FAILURES:
        rest = cases[len(answers):]
        lines, failure = ask(program, rest, limit)
        if failure:
            failures += 1
            lines = lines[:len(rest) - 1]
            lines += alone(program, rest[len(lines):], limit, failure)
        answers += lines
    return answers + [None] * (len(cases) - len(answers))
