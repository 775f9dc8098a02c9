"""Compares the definitions of crates/*/specs, run by antt.py, with the independent program of tests/second.

  python3 tests/definitions/compare.py [--quick]

T and F at every page count. Guided random calls at several sizes of both editions, and with changes from one to the other: answer, resume's eleven words and
a hash of every word after each call. Changed words of a memory in use: the verdict on soundness. The slips of slips.txt and every refusal that the memory at
their start can give, in both editions; the pages that asked.txt asks for and those that a deleted child leaves in returned.txt, in both; notify, dispatch and
resume of contexts.txt, with small pages; the last virtual page of large.txt; the live flag changed in a root and in its child; and scripts for replay, good and
bad. Prints what was compared; exits with 1 at the first difference."""
import array, itertools, os, random, subprocess, sys

from antt import Program, ap, check_shortcuts
from running import TARGET, differ, fingerprint, run

HERE = os.path.dirname(os.path.abspath(__file__))
WORDS = [64, 1024]  # of a page, by edition
NAMES = ['format_all', 'create_partition', 'delete_partition', 'add_vaddr', 'remove_vaddr', 'page_count', 'prepare', 'collect', 'mapped_in_child',
         'enter', 'leave', 'load', 'store', 'notify', 'dispatch', 'resume']
MORNING = [20, 15, 12, 1, 256, 512, 768, 1024, 1280, 5, 256, 4096, 12, 1536, 1792, 12, 1792, 2048, 6, 256, 4096, 1536, 3, 2304, 256, 4096, 3,
           8, 2304, 12, 256, 1, 9, 256, 12, 4100, 77, 10, 11, 2308, 4, 256, 4096, 7, 256, 4096, 2, 256]


def remembered(f, most):
    """f of a width and a memory, for so many memories: they are lists that nobody changes. A call's answer and its effect ask soundness of the same one."""
    last, known = [None, None, None], {}

    def it(b, m):
        if last[0] is not m or last[1] != b:
            key = b, array.array('I', m).tobytes()
            if len(known) > most:
                known.clear()
            if key not in known:
                known[key] = f(b, m)
            last[:] = m, b, known[key]
        return last[2]
    return it


def by_partition(f):
    """f of a width, a memory and a partition, remembered for the last memory."""
    last, known = [None], {}

    def it(b, m, d):
        if last[0] is not m:
            last[0] = m
            known.clear()
        if (b, d) not in known:
            known[b, d] = f(b, m, d)
        return known[b, d]
    return it


def term(numbers):
    """A call as the definitions have it: notify's eight registers are one record."""
    name, given = NAMES[numbers[0]], tuple(numbers[1:])
    if name == 'notify':
        given = given[:3] + ({'r%d' % i: x for i, x in enumerate(given[3:])},)
    return (name,) + given


class Definitions:
    def __init__(self):
        self.program = Program()
        check_shortcuts(self.program)
        self.sound = remembered(self.program.get('soundness', 'Test', 'sound_test'), 40)
        self.program.functions['soundness', 'Test', 'sound_test'] = self.sound
        self.program.functions['memory', 'Counts', 'tabled'] = by_partition(self.program.get('memory', 'Counts', 'tabled'))
        self.width = self.program.get('memory', 'Edition', 'width')
        self.answer = self.program.get('rules', 'Editions', 'answer')
        self.after = self.program.get('rules', 'Editions', 'after')
        self.context = self.program.get('rules', 'Editions', 'context')
        self.replay = self.program.get('rules', 'Replay', 'replay')
        self.hashed = [None, None]

    def passes(self, memory, numbers):
        return ap(self.answer, memory, term(numbers))[0] == 'ok'

    def call(self, memory, numbers):
        """The answer, the words that resume answers beside, and a hash of the memory after the call; and that memory."""
        c = term(numbers)
        answer, context, memory = ap(self.answer, memory, c), ap(self.context, memory, c), ap(self.after, memory, c)
        if self.hashed[0] is not memory:
            self.hashed = [memory, fingerprint(memory)]
        return ' '.join(str(x) for x in answer + tuple(context) + (self.hashed[1],)), memory


def second(*args, stdin=b''):
    return subprocess.run([os.path.join(TARGET, 'release', 'trace')] + [str(a) for a in args], input=stdin, stdout=subprocess.PIPE, check=True).stdout


def run_file(definitions, lines):
    """The lines that the second program's `run` prints, by the definitions; and the memory at the end."""
    n, edition = map(int, lines[0].split())
    memory = [i * 2654435761 % 2 ** 32 for i in range(WORDS[edition] * n)]
    out = []
    for line in ['0 %d' % edition] + lines[1:]:
        said, memory = definitions.call(memory, [int(x) for x in line.split()])
        out.append(said)
    return out, memory


def compare_lines(what, lines, ours):
    """Holds what the definitions say to what the second program does."""
    theirs = second('run', stdin=('\n'.join(lines) + '\n').encode()).decode().split('\n')[:-1]
    for i, (a, b) in enumerate(zip(ours, theirs)):
        if a != b:
            differ('%s, call %d: %s' % (what, i, lines[i] if i else 'format'), a, b)
    if len(ours) != len(theirs):
        differ('%s: lengths' % what, len(ours), len(theirs))


def compare_sizes(definitions):
    """T and F by the definitions at every page count of either edition, and no count besides."""
    number = 0
    for edition in 0, 1:
        get = lambda name: definitions.program.get('memory', 'Geometry', name)
        b = ap(get('width_of'), edition)
        counts = range(get('least_pages'), ap(get('most_pages'), b) + 1)
        ours = ['%d %d %d' % (n, ap(get('threes_for'), b, n), ap(get('flat_pages'), b, n)) for n in counts]
        theirs = second('sizes', edition).decode().split('\n')[:-1]
        if ours != theirs:
            differ('sizes of edition %d' % edition, [a for a, t in zip(ours, theirs) if a != t][:3], [t for a, t in zip(ours, theirs) if a != t][:3])
        number += len(ours)
    return number


def made(seed, count, n, edition):
    return second('make', seed, count, n, edition).decode().split('\n')[:-1]


def compare_calls(definitions, total, what, parts):
    """Guided calls: for each part its seed, how many, N and edition. A part after the first begins with the format that changes the edition."""
    lines = made(*parts[0])
    for part in parts[1:]:
        lines += ['0 2', '0 %d' % part[3]] + made(*part)[1:]
    ours, memory = run_file(definitions, lines)
    compare_lines(what, lines, ours)
    for line, said in zip(['0'] + lines[1:], ours):
        key = NAMES[int(line.split()[0])], said.split()[0] + (' ' + said.split()[1] if said[0] == 'n' else '')
        total[key] = total.get(key, 0) + 1
    return lines, memory


def compare_damage(definitions, lines, memory, seed, count):
    verdicts = {}
    text = ('\n'.join(lines) + '\n').encode()
    for line in second('damage', seed, count, 'wide', stdin=text).decode().split('\n')[:-1]:
        *changes, verdict = line.replace('broken ', 'broken').split()
        m = list(memory)
        for i in range(0, len(changes), 2):
            m[int(changes[i])] = int(changes[i + 1])
        ours = definitions.sound(ap(definitions.width, m), m)
        if ours != (verdict == 'sound'):
            differ('damage %s' % line, ours, verdict)
        verdicts[verdict] = verdicts.get(verdict, 0) + 1
    return ', '.join('%s %d' % kv for kv in sorted(verdicts.items()))


def compare_flags(definitions):
    """The live flag of a root and of its child, and the word behind it, changed: the verdict that the rules give, by both."""
    number = 0
    for edition in 0, 1:
        first, calls = in_edition('slips.txt', edition)
        _, memory = run_file(definitions, [first] + [c for c, _ in calls[:14]])
        for page, index, value in itertools.product([1, 9], [12, 13], [0, 1, 2, 3, 256, 2 ** 32 - 1]):
            m = list(memory)
            m[WORDS[edition] * page + index] = value
            wanted = value == 0 or (index, value, edition) == (12, 1, 0)
            words = b''.join(w.to_bytes(4, 'little') for w in m)
            ours, theirs = definitions.sound(ap(definitions.width, m), m), second('judge', stdin=words) == b'[]\n'
            if (ours, theirs) != (wanted, wanted):
                differ('edition %d: %d in word %d of page %d' % (edition, value, index, page), ours, theirs)
            number += 1
    return number


def scaled(edition, x):
    """An address with small pages as the one with large pages that has the same two indices and place; what is more than 2^20 stays."""
    return (x >> 14 << 22) + (x >> 8 & 63) * 4096 + x % 256 if edition and x <= 2 ** 20 else x


def scaled_line(edition, line):
    return ' '.join(w if w in ('ok', 'no', '=') else str(scaled(edition, int(w))) for w in line.split())


def listed(name, edition, adapted=lambda line: line):
    """Of a file of calls and answers: N with the edition, and the pairs of both."""
    lines = [l.strip() for l in open(os.path.join(HERE, name)) if l.strip() and l[0] != '#']
    return '%s %d' % (lines[0], edition), [adapted(l).split(' = ') for l in lines[1:]]


def in_edition(name, edition):
    return listed(name, edition, lambda line: scaled_line(edition, line))


def compare_listed(definitions, what, first, calls):
    lines = [first] + [c for c, _ in calls]
    ours, _ = run_file(definitions, lines)
    for (c, wanted), said in zip(calls, ours[1:]):
        if not said.startswith(wanted + ' '):
            differ('%s: %s' % (what, c), said, wanted)
    compare_lines(what, lines, ours)
    return len(lines)


def compare_unwritable(definitions, edition):
    """What served the two partitions below the caller of returned.txt's first deletePartition, without write in the caller and in its child: no calls make
    that, but it is sound. The call leaves what it leaves with write, but for these rights. By the definitions alone."""
    first, calls = in_edition('returned.txt', edition)
    calls = [c for c, _ in calls]
    place = next(i for i, c in enumerate(calls) if c.startswith('2 '))
    _, memory = run_file(definitions, [first] + calls[:place])
    # The page tables of the caller and of its child are pages 14 and 22.
    caller, child = range(WORDS[edition] * 14, WORDS[edition] * 14 + 16), range(WORDS[edition] * 22, WORDS[edition] * 22 + 8)
    fewer = lambda m, places: [w & ~8 if i in places else w for i, w in enumerate(m)]
    unwritable = fewer(fewer(memory, caller), child)
    assert sum(a != b for a, b in zip(memory, unwritable)) == 24
    delete = [int(x) for x in calls[place].split()]
    said, after = definitions.call(unwritable, delete)
    _, expected = definitions.call(memory, delete)
    if not said.startswith('ok 0 ') or after != fewer(expected, caller):
        differ('edition %d: kernel pages without write' % edition, said, 'ok 0, and words as with write')


# The memory at the start of slips.txt, with six pages more lent to the child, two of them without write or read. For each call arguments that pass but where
# only a refusal is wanted, in the root and in its child, and the kinds that take their places: bad addresses, unmapped, in hand, children, kernel pages, lent
# ones; targets with and without tables, mapped or not; rights.
LENT = ['3 4608 256 6400 1', '3 4864 256 6656 2', '3 5120 256 6912 3', '3 5376 256 7168 3', '3 5632 256 7424 3', '3 5888 256 7680 3']
PASSING = {1: [[6144, 6400, 6656, 6912, 7168], [6912, 7168, 7424, 7680, 6400]], 2: [[256], [4096]], 3: [[7424, 256, 8448, 5], [7424, 4096, 8448, 1]],
           4: [[256, 7680], [4096, 8192]], 5: [[256, 8192], [4096, 8192]], 6: [[256, 16384, 7168], [4096, 16384, 6912]], 7: [[256, 4096], [4096, 8192]],
           8: [[4608], [6400]], 9: [[256], [4096]], 11: [[7168], [6912]], 12: [[7168, 7424], [6912, 7168]],
           13: [[256] + [1] * 10, [0] + [1] * 10], 14: [[256], [4096]], 15: [[256, 2], [0, 2]]}
PAGES = [0, 300, 1048576, 1044480, 4294963200, 256, 512, 2304, 4352, 4096, 5376, 6144, 6400, 6656, 7168, 7936, 8192]
CHILDREN, TARGETS = [256, 4096, 512, 0, 1048576, 4294963200], [4096, 6144, 8192, 8448, 16384, 4294963200, 257, 0]
RIGHTS, STORED = [0, 1, 4, 5, 6, 7, 8, 4294967295], [0, 7168, 7424]
KINDS = {1: [PAGES] * 5, 2: [CHILDREN], 3: [PAGES, CHILDREN, TARGETS, RIGHTS], 4: [CHILDREN, TARGETS], 5: [CHILDREN, TARGETS], 6: [CHILDREN, TARGETS, PAGES],
         7: [CHILDREN, TARGETS], 8: [PAGES], 9: [CHILDREN], 11: [PAGES + [4, 6914]], 12: [PAGES + [4, 6914], STORED],
         13: [CHILDREN + [4, 300]] + [[0]] * 10, 14: [CHILDREN + [4, 300]], 15: [CHILDREN + [4, 300], [0, 1, 2, 3, 4, 4294967295]]}
# What undoes a call that passed, by its number and arguments; a page that was removed is lent to its child again. After notify, dispatch and resume the caller
# is current again; their flags and slots stay.
BACK = lambda given, again: [10] if given[0] else [9, min(again)]
UNDONE = {1: lambda given, again: [2, given[0]], 3: lambda given, again: [4, given[1], given[2]], 4: lambda given, again: [3] + again[given[0]],
          6: lambda given, again: [7, given[0], given[1]], 9: lambda given, again: [10], 13: BACK, 14: BACK, 15: BACK}
AGAIN = {256: [5888, 256, 7680, 3], 4096: [6144, 4096, 8192, 1]}
# What each call has to be refused with; 1 and 2 are given for memories and lengths that are not sound, 10 and 13 need ten threes and eight levels, 22 a slot
# page of a child.
REFUSED = {1: [3, 4, 7, 6], 2: [3, 5], 3: [3, 6, 5, 7, 8, 9], 4: [3, 5, 8, 15, 7], 5: [3, 5], 6: [3, 5, 9, 11, 7, 6], 7: [3, 5, 8, 12], 8: [3, 15, 16],
           9: [3, 5], 10: [14], 11: [3, 15, 16, 6], 12: [3, 15, 16, 6]}
CONTEXTS = [{13: [3, 5, 14, 20], 14: [3, 5, 14], 15: [3, 5, 14, 21, 20]}, {13: [24], 14: [24], 15: [24]}]  # by edition


def varied(number, passing, places):
    """The call with those of its arguments that stand at so many places changed."""
    for at in itertools.combinations(range(len(passing)), places):
        for new in itertools.product(*(KINDS[number][i] for i in at)):
            given = list(passing)
            for i, x in zip(at, new):
                given[i] = x
            yield [number] + given


def compare_refusals(definitions, edition, pairs, most):
    """In the root and in its child: every call with one argument changed, and so many with two; those that pass, which take longest, up to so many of each.
    collect and deletePartition come last: what they do is not undone."""
    first, calls = in_edition('slips.txt', edition)
    calls = [c for c, _ in calls]
    lines = [first] + calls[:calls.index('10') + 1] + [scaled_line(edition, line) for line in LENT]
    out, memory = run_file(definitions, lines)
    r = random.Random(11)

    def make(call):
        nonlocal memory
        said, memory = definitions.call(memory, call)
        lines.append(' '.join(map(str, call)))
        out.append(said)
        return said.startswith('ok')

    def tried(caller, *numbers):
        for number in numbers:
            one, two = (list(varied(number, PASSING[number][caller], places)) for places in (1, 2))
            passed = 0
            for call in one + r.sample(two, min(pairs, len(two))):
                call = [number] + [scaled(edition, x) for x in call[1:]]
                if (passed < most or not definitions.passes(memory, call)) and make(call):
                    passed += 1
                    if number in UNDONE:
                        make(UNDONE[number](call[1:], again))

    again = {scaled(edition, child): [scaled(edition, x) for x in given] for child, given in AGAIN.items()}
    undone = 5, 8, 11, 12, 1, 3, 4, 6, 9, 13, 14, 15
    tried(0, *undone)
    make([9, scaled(edition, 256)])
    tried(1, *undone, 7, 2)
    make([10]), make([10])
    tried(0, 7, 2)
    compare_lines('refusals of edition %d' % edition, lines, out)
    given = {(int(call.split()[0]), int(said.split()[1])) for call, said in zip(['0'] + lines[1:], out) if said.startswith('no ')}
    refused = {**REFUSED, **CONTEXTS[edition]}
    missing = [(number, n) for number, ns in refused.items() for n in ns if (number, n) not in given]
    if missing:
        differ('refusals of edition %d that did not occur' % edition, sorted(given), missing)
    return len(lines)


def scripts():
    """The morning; and it changed, cut, lengthened, with another offset."""
    words = lambda ws: b''.join(w.to_bytes(4, 'little') for w in ws)
    good = words(MORNING)
    yield good
    yield good[:11]
    yield good[:-1]
    yield good + b'\0'
    yield words([20, 15, 14]) + b'xx' + good[12:]
    yield words([20, 0, 12])
    yield words([256, 0, 16, 9])
    for i, x in [(0, 15), (0, 16), (0, 257), (1, 14), (1, 16), (2, 11), (2, 13), (2, 5000), (3, 0), (3, 13), (7, 2 ** 32 - 1)]:
        yield words(MORNING[:i] + [x] + MORNING[i + 1:])
    yield words([16, 1019, 20, 0, 0] + [10] * 1019)
    yield words([16, 1019, 20, 0, 0] + [10] * 1019) + b'\0'
    r = random.Random(7)
    for _ in range(20):
        m = list(MORNING)
        for _ in range(3):
            m[r.randrange(3, len(m))] = r.choice([0, 1, 7, 256, 512, 4096, 1048576, 2 ** 32 - 1])
        yield words(m)


def compare_replay(definitions):
    n = 0
    for s in scripts():
        if len(s) > 2000 and len(s) <= 4096:
            continue
        ours, theirs = bytes(ap(definitions.replay, 6, list(s))), second('replay', stdin=s)
        if ours != theirs:
            differ('script %r' % s[:80], ours, theirs)
        n += 1
    return n


# The guided calls: for each sequence its parts (seed, number, N, edition), and how many changed memories follow. The last ones change the edition.
QUICK = [([(1, 150, 16, 0)], 60), ([(2, 300, 20, 0)], 60), ([(3, 300, 40, 0)], 60), ([(6, 40, 16, 1)], 20), ([(7, 30, 20, 1)], 20),
         ([(8, 12, 16, 1), (9, 25, 256, 0), (10, 12, 16, 1)], 15)]
FULL = [([(1, 300, 16, 0)], 300), ([(2, 600, 20, 0)], 300), ([(3, 600, 40, 0)], 300), ([(4, 400, 73, 0)], 300), ([(5, 150, 140, 0)], 300),
        ([(6, 250, 16, 1)], 100), ([(7, 250, 20, 1)], 100), ([(11, 150, 33, 1)], 60),
        ([(8, 40, 16, 1), (9, 80, 256, 0), (10, 40, 16, 1), (12, 80, 256, 0), (13, 40, 16, 1)], 60)]


def main():
    quick = '--quick' in sys.argv
    d = Definitions()
    print('sizes: %d page counts agree' % compare_sizes(d))
    for edition in 0, 1:
        for name in 'slips.txt', 'asked.txt', 'returned.txt':
            what = 'edition %d: %s' % (edition, name)
            print('%s: %d calls agree' % (what, compare_listed(d, what, *in_edition(name, edition))))
        if edition == 0 or not quick:
            compare_unwritable(d, edition)
            print('edition %d: kernel pages without write are wiped' % edition)
        pairs, most = ((60, 1000), (20, 1))[edition] if quick else ((300, 1000), (100, 20))[edition]
        print('edition %d: refusals: %d calls agree' % (edition, compare_refusals(d, edition, pairs, most)))
    print('edition 0: contexts.txt: %d calls agree' % compare_listed(d, 'contexts.txt', *listed('contexts.txt', 0)))
    print('edition 1: the last virtual page: %d calls agree' % compare_listed(d, 'large.txt', *listed('large.txt', 1)))
    print('live flags: %d verdicts agree' % compare_flags(d))
    print('replay: %d scripts agree' % compare_replay(d))
    total = {}
    for parts, changed in QUICK if quick else FULL:
        what = ', '.join('N %d edition %d' % part[2:] for part in parts)
        lines, memory = compare_calls(d, total, what, parts)
        verdicts = compare_damage(d, lines, memory, parts[0][0], changed)
        print('%s: %d calls agree; changed memories agree: %s' % (what, len(lines), verdicts))
    print('calls by answer:')
    for name in NAMES:
        print('  %-16s %s' % (name, ', '.join('%s: %d' % (a, v) for (c, a), v in sorted(total.items()) if c == name)))


run(main)
