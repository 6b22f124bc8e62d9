"""Reads the inputs and answers of docs/DIFFERENCES.md, which says itself how they are written.

What cannot be read is a ValueError.
"""
import re


def rows(document):
    """Each row of each table: the nearest heading above it, and its cells by their titles."""
    found, heading, titles = [], '', None
    for line in document.splitlines():
        if line.startswith('#'):
            heading = line.strip('# ')
        if not line.startswith('|'):
            titles = None
            continue
        cells = [cell.strip() for cell in line.strip().strip('|').split('|')]
        if titles is None:
            titles = cells
        elif len(cells) != len(titles):
            raise ValueError(f'{len(cells)} cells, {len(titles)} titles: {line}')
        elif set(''.join(cells)) != {'-'}:
            found.append((heading, dict(zip(titles, cells))))
    return found


def code(cell):
    """What stands between backticks."""
    return re.findall('`([^`]*)`', cell)


def payload(text, parts):
    """The bytes that a text stands for."""
    left = re.findall(r'\d+×|[()]|[^\s()]+', text)

    def item():
        word = left.pop(0) if left else ''
        if re.fullmatch(r'\d+×', word):
            return int(word[:-1]) * item()
        if word == '(':
            group = b''
            while left[:1] != [')']:
                group += item()
            left.pop(0)
            return group
        if word in parts:
            return parts[word]
        if re.fullmatch('([0-9A-F]{2})+', word):
            return bytes.fromhex(word)
        raise ValueError(f'{word!r} is neither bytes nor a part: {text}')

    read = b''
    while left:
        read += item()
    return read


def parts_of(table):
    """The bytes of each part that rows define. A part can use those above it."""
    parts = {}
    for _, row in table:
        if 'part' in row:
            (name,), (text,) = code(row['part']), code(row.get('bytes', ''))
            if name in parts or not re.search('[G-Z]', name):
                raise ValueError(f'{name!r} is a part already, or can be taken for bytes')
            parts[name] = payload(text, parts)
    return parts


def cases(row, title, parts):
    """Entry, payload and answer for each input of a row; the answers stand under this title."""
    inputs, answers = code(row.get('input', '')), code(row[title])
    if not inputs or len(inputs) != len(answers) or '' in inputs + answers:
        raise ValueError(f'{len(inputs)} inputs, {len(answers)} answers')
    return [(text[0], payload(text[1:], parts), answer) for text, answer in zip(inputs, answers)]


def words(line):
    return re.split('[ ,]', line)


def agrees(answer, line):
    """Whether a line is this answer, in which `..` stands for words left out."""
    pattern = ''.join('(?:[^ ]+ )*?' if word == '..' else re.escape(word + ' ')
                      for word in words(answer))
    return re.fullmatch(pattern, ' '.join(words(line)) + ' ') is not None
