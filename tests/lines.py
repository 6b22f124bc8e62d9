"""What stands in the lines of docs/ANSWERS.md, and whether lines of two entries fit together."""
import re
import struct

from programs import framed

LINE_SHOWN = 400  # characters
PLACE = re.compile(r'[0-9]+/[0-9]+/[12]')


def columns_of(line):
    """A line of D before its columns, and the words of each column."""
    head, *columns = line.decode().split(' C ')
    return head, [column.split(' ') for column in columns]


def is_generated(name):
    """Whether a name, in hex, is COL and digits."""
    return re.fullmatch(rb'COL[0-9]+', bytes.fromhex(name)) is not None


def wrong_place(reply, description, places):
    """Why a line of d does not fit the line that D gives for the same reply; None if it does.

    A text has to stand at its place in its alphabet: the bytes there, decoded, are the text that
    D prints. Whether the Rust read it from that place is more than its answer tells.
    """
    if not description.startswith(b'OK '):
        return None if places == description else 'refused otherwise'
    head, columns = columns_of(description)
    words = places.decode('latin-1').split(' ')
    if words[:2] != head.split(' ')[:2]:
        return 'another count'
    if len(words) != 2 + 4 * len(columns):
        return 'not four texts for each column'
    for column, texts in zip(columns, zip(*[iter(words[2:])] * 4)):
        number, name, base, schema, label = [column[at] for at in (0, 1, 10, 11, 12)]
        for what, text, place in zip(('name', 'label', 'base table', 'schema'),
                                     (name, label, base, schema), texts):
            if place == '0/0/0' and what == 'name':
                fits = text == f'COL{int(number) + 1}'.encode().hex()
            else:
                fits = stands(reply, text, place)
            if not fits:
                return f'the {what} of column {number} is not at {place}'
    return None


def stands(reply, text, place):
    """Whether a text, in hex, stands at place/length/alphabet; an empty one is 0/0/1."""
    if text == '-':
        return place == '0/0/1'
    if not PLACE.fullmatch(place):
        return False
    start, length, alphabet = map(int, place.split('/'))
    if start + length > len(reply):
        return False
    part = reply[start:start + length]
    if part.isascii() != (alphabet == 1):
        return False
    decoded = part if alphabet == 1 else part.decode('cp037').encode('latin-1')
    return decoded.hex() == text


def named_cases(reply, description, places):
    """Cases of T and U for the columns of a list, by its lines of D and d, and their answers.

    T has to give the name that D prints, U the place that d prints. Each is asked with just the
    room that the name takes, and every other one with a byte less.
    """
    words = places.decode().split(' ')[2:]
    for column, place in zip(columns_of(description)[1], words[::4]):
        number, name = int(column[0]), column[1]
        start, length, alphabet = map(int, place.split('/'))
        head = struct.pack('>HIIB', number, start, length, alphabet)
        needed = 0 if name == '-' else len(name) // 2
        short = number % 2 == 1 and needed > 0
        answer = f'E6 {needed}' if short else f'OK {name}'
        yield framed('T', head + struct.pack('>H', needed - short) + reply), answer.encode()
        part = f'{start}/{length}' if alphabet > 0 and length > 0 else '0/0'
        yield framed('U', head + reply), f'OK {part}'.encode()


def text_of(answer):
    """A line, or the failure in its place, to be shown."""
    if isinstance(answer, bytes):
        return answer.decode('latin-1') or 'an empty line'
    return f'({answer})'


def excerpt(line, first):
    """A long line only about the first character in which it differs."""
    if len(line) <= LINE_SHOWN:
        return line
    start = max(0, first - LINE_SHOWN // 4)
    end = start + LINE_SHOWN
    return (f'{".." if start else ""}{line[start:end]}{".." if end < len(line) else ""}'
            f' ({len(line):,} characters, these from {start} on)')
