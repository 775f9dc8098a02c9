"""A text to a replay script, independently of the proved one: written from the sentences, by Python's own splitting."""
import re

CALLS = [('createPartition', 5), ('deletePartition', 1), ('addVAddr', 4), ('removeVAddr', 2), ('pageCount', 2), ('prepare', 3), ('collect', 2),
         ('mappedInChild', 1), ('enter', 1), ('leave', 0), ('load', 1), ('store', 2)]
REASONS = ['N is not one number from 16 to 256', 'unknown call', 'too few arguments', 'too many arguments', 'not a number below 4294967296',
           'the script is longer than 4096 bytes', 'no N']


def number(word):
    """The word's value, or None where it is no number."""
    return int(word) if re.fullmatch(rb'[0-9]{1,10}', word) and int(word) < 1 << 32 else None


def call(word):
    """A call's number by its name or its number, or 0."""
    for k, (name, _) in enumerate(CALLS):
        if word in (name.encode(), b'%d' % (k + 1)) or number(word) == k + 1:
            return k + 1
    return 0


def assemble(text):
    """('written', bytes), ('unread', line, reason) or ('too_long',)."""
    if len(text) > 65536:
        return ('too_long',)
    lines = text.split(b'\n')
    if lines[-1] == b'':
        lines.pop()
    pages, count, words = None, 0, []
    for k, line in enumerate(lines, 1):
        given = [w for w in re.split(rb'[ \t\r]', line.partition(b'#')[0]) if w]
        if not given:
            continue
        if pages is None:
            pages = number(given[0])
            if len(given) > 1 or pages is None or not 16 <= pages <= 256:
                return ('unread', k, 1)
            continue
        n, values = call(given[0]), [number(w) for w in given[1:]]
        if n == 0:
            return ('unread', k, 2)
        if len(values) != CALLS[n - 1][1]:
            return ('unread', k, 3 if len(values) < CALLS[n - 1][1] else 4)
        if None in values:
            return ('unread', k, 5)
        words += [n] + values
        if 12 + 4 * len(words) > 4096:
            return ('unread', k, 6)
        count += 1
    if pages is None:
        return ('unread', len(lines) + 1, 7)
    return ('written', b''.join(w.to_bytes(4, 'little') for w in [pages, count, 12] + words))


def message(result):
    """What is written to standard error."""
    if result[0] == 'written':
        return b''
    if result[0] == 'too_long':
        return b'the text is longer than 65536 bytes\n'
    return b'line %d: %s\n' % (result[1], REASONS[result[2] - 1].encode())
