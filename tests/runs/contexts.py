"""Sequences with notify (13), dispatch (14) and resume (15), as those of sequences.py; document 02, L8.

The root of N small pages has its slot page at 256F. A child has it at SLOTS; where it has tables for directory index 63 its pages stand from LAST on."""
from sequences import LARGE, PAGE, alone

LAST = 63 * 64 * PAGE
SLOTS = LAST + 63 * PAGE
PARENT = 0
BAD = [4, 255, 257, PAGE + 4, 2 ** 20, 2 ** 20 + PAGE, 2 ** 32 - 1]  # no targets: on page 0, not at a page's start, past the last page
WORDS = 2 ** 32 - 1


def notify(target, first):
    """Eip, eflags and the registers are ten words in a row."""
    return [13, target] + [(first + k) % 2 ** 32 for k in range(10)]


def made(base):
    """Five pages in hand in a row make a child, and three more its tables for directory index 63."""
    at = [base + PAGE * k for k in range(8)]
    return [[1] + at[:5], [12, at[5], at[6]], [12, at[6], at[7]], [6, base, SLOTS, at[5]]]


def lent(base, pages, rights=3):
    """Of the pages after these eight so many are lent to the child from LAST on, and one more, the last, as its slot page."""
    at = [base + PAGE * (8 + k) for k in range(pages + 1)]
    return [[3, page, base, LAST + PAGE * k, 3] for k, page in enumerate(at[:-1])] + [[3, at[-1], base, SLOTS, rights]]


def filled(page, slot, first, pipflags, valid):
    """Stores of a slot by who maps the page here: eip, pipflags, eflags, registers, valid, and the padding."""
    words = [first, pipflags] + [first + k for k in range(2, 11)] + [valid] + [first + k for k in range(12, 16)]
    return [[12, page + 64 * slot + 4 * k, word % 2 ** 32] for k, word in enumerate(words)]


def all_three(target, slot):
    return [notify(target, 50), [14, target], [15, target, slot]]


def worked():
    """The case of the readings, 40 pages: the child's slot page is the root's page 9, and the root's is at 256 * 31."""
    calls = made(PAGE) + lent(PAGE, 0) + [[13, PAGE, 100, 200, 1, 2, 3, 4, 5, 6, 7, 8], [13, 0, 7, 8, 11, 12, 13, 14, 15, 16, 17, 18], [15, PAGE, 3],
                                          [15, PARENT, 2], [9, PAGE], [15, PARENT, 2], [14, PAGE], [14, PARENT]]
    return [(40 * 64, alone([[0, 0]] + calls))]


def family(rights=3):
    """A child of the root with so many rights on its slot page (the root's page 18), and a child of that one whose slot page is LAST + 8 PAGE in its parent."""
    return [[0, 0]] + made(PAGE) + lent(PAGE, 9, rights) + [[9, PAGE]] + made(LAST) + lent(LAST, 0) + [[10]]


def rows():
    """Every row of the table of flags, with each flag of caller and target: the root, its child and its grandchild. Enter and leave keep flags. In the end the
    grandchild yields to the root, with either flag of the partition between them, and of itself."""
    down, up = [[14, PAGE], [14, LAST]], [[14, PARENT]] * 2
    calls = family() + down + up + [[9, PAGE], [9, LAST], [10], [10]] + down + up
    calls += [notify(PAGE, 100), notify(LAST, 200), notify(PARENT, 300), notify(PARENT, 400)]
    calls += [[15, PAGE, 3], [15, LAST, 3], [15, PARENT, 2], [15, PARENT, 2]]
    calls += [[9, PAGE], [9, LAST], notify(PARENT, 500), [10], [9, PAGE], [15, LAST, 3], [10], [10]]
    # a context that stands there is overwritten
    calls += [notify(PAGE, 600), [10], notify(PAGE, 700), [15, PARENT, 2], [9, PAGE], [15, PARENT, 2]]
    for flags in [[14, PAGE], [14, LAST]], [[14, PAGE], [9, LAST]], [[9, PAGE], [14, LAST]], [[14, PAGE], [14, LAST], [14, PARENT], [9, LAST]]:
        calls += flags + [[15, PARENT, 2]]
    return [(64 * 64, alone(calls))]


def saved():
    """The root writes the child's slots: each slot with several pipflags, of which bit 0 becomes the flag, and with words for valid that are not 1."""
    page, calls = PAGE * 18, family()
    for slot, pipflags in [(0, 0), (1, 1), (2, 6), (3, 7), (0, WORDS), (1, WORDS - 1), (2, 2 ** 31 + 1)]:
        calls += filled(page, slot, 1000 * slot + pipflags, pipflags, 1) + [[15, PAGE, slot], [15, PAGE, slot], [10], [15, PAGE, slot]]
    for valid in (0, 2, 3, 2 ** 31 + 1, WORDS):
        calls += [[12, page + 44, valid], [15, PAGE, 0]]
    # the child's slot 2 is its child's to resume: valid, and then some that are not, which stay
    calls += filled(page, 2, 77, 3, 1) + [[9, PAGE], [9, LAST], [15, PARENT, 2], [10]]
    for valid in (0, 2, 3, WORDS):
        calls += [[12, page + 128 + 44, valid], [9, PAGE], [9, LAST], [15, PARENT, 2]]
    # zeros that are a context: the child becomes current, and not the root
    calls += [[12, page + 4 * k, 0] for k in range(11)] + [[12, page + 44, 1], [15, PAGE, 0]]
    return [(64 * 64, alone(calls))]


def refused():
    """Each refusal, and those that come first where several apply: a bad target, no child, the root's parent, a slot that is none or not allowed, no slot page,
    and a slot without a context. First the child has no tables, then no slot page, then one."""
    calls = [[0, 0]]
    asked = [call for slot in (4, 0) for target in BAD + [PAGE, PAGE * 2, PAGE * 35, SLOTS, PARENT] for call in all_three(target, slot)]
    calls += asked + made(PAGE)[:1] + [[15, PAGE, slot] for slot in (0, 3, 4, WORDS)] + made(PAGE)[1:]
    calls += [[15, PAGE, slot] for slot in (0, 1, 2, 3, 4, 2 ** 30, WORDS)] + lent(PAGE, 0) + [[15, PAGE, slot] for slot in (0, 1, 2, 3, 4, 2 ** 30, WORDS)]
    calls += [[9, PAGE]] + [call for target in BAD + [PAGE, SLOTS] for call in all_three(target, 9)]
    calls += [[15, PARENT, slot] for slot in (0, 1, 3, 4, WORDS)] + [[15, PARENT, 2]]
    return [(44 * 64, alone(calls))]


def slot_pages():
    """What happens to a slot page: not lent, lent without a right, lent away, taken for a child's five or for its tables, given back, removed. It counts for
    notify of its partition and for resume by its parent and by its child; dispatch does not ask for it."""
    out = []
    ask_root = [notify(PAGE, 10), [15, PARENT, 2], [14, PAGE], [10]]
    ask_child = [[15, PAGE, 3], [14, PAGE], notify(PARENT, 20), [10], [9, PAGE], notify(LAST, 30), [9, LAST], [15, PARENT, 2], [14, LAST], [14, PARENT], [10]]
    # rights of the child's slot page: what an ancestor holds does not matter, and execute is not asked
    for rights in (0, 1, 2, 3, 4, 5):
        out.append((64 * 64, alone(family(rights) + ask_child)))
    # removed and lent again: what was saved is there still
    removed = family() + ask_child[:4] + [[4, PAGE, SLOTS]] + ask_child + [[3, PAGE * 18, PAGE, SLOTS, 3], [15, PAGE, 3], [10]] + ask_child
    out.append((64 * 64, alone(removed)))
    # the root's, at 256 * 55: lent to the child, back, taken for five pages of another child with a context in it, back and wiped; then for tables
    last, five = PAGE * 55, [PAGE * k for k in (20, 21, 22, 23, 55)]
    root = family() + ask_root + [notify(PAGE, 40), [10], [3, last, PAGE, LAST + PAGE * 20, 3]] + ask_root
    root += [[4, PAGE, LAST + PAGE * 20], [9, PAGE], [15, PARENT, 2], notify(PAGE, 50), [10], [1] + five] + ask_root
    root += [[9, PAGE], [15, PARENT, 2], [10], [2, PAGE * 20], [9, PAGE], [15, PARENT, 2]]
    root += [notify(PAGE, 60), [10], [12, PAGE * 20, PAGE * 21], [12, PAGE * 21, last], [12, last, 0], [6, PAGE, PAGE, PAGE * 20]] + ask_root
    root += [[7, PAGE, PAGE]] + ask_root
    out.append((64 * 64, alone(root)))
    # the child's: lent on to its child, taken for another child's five, back and wiped
    own = family() + [[9, PAGE], notify(PARENT, 70), [9, PAGE], [3, SLOTS, LAST, LAST, 3], [10]] + ask_child + [[9, PAGE], [4, LAST, LAST], [10], [15, PAGE, 3]]
    own += [[10], [3, PAGE * 19, PAGE, LAST + PAGE * 9, 3], [3, PAGE * 20, PAGE, LAST + PAGE * 10, 3], [3, PAGE * 21, PAGE, LAST + PAGE * 11, 3],
            [3, PAGE * 22, PAGE, LAST + PAGE * 12, 3], [9, PAGE], notify(PARENT, 80), [9, PAGE]]
    own += [[1, SLOTS] + [LAST + PAGE * k for k in (9, 10, 11, 12)], [10]] + ask_child + [[9, PAGE], [2, SLOTS], [10], [15, PAGE, 3]] + ask_child
    # and for its child's tables, given back with a link in slot 0
    own += [[9, PAGE], notify(PARENT, 90), [9, PAGE], [12, SLOTS, LAST + PAGE * 9], [12, LAST + PAGE * 9, LAST + PAGE * 10], [12, LAST + PAGE * 10, 0],
            [6, LAST, PAGE, SLOTS], [10]] + ask_child + [[9, PAGE], [7, LAST, PAGE], [10]] + ask_child
    out.append((64 * 64, alone(own)))
    return out


def deleted():
    """A child with flag 1 and a context is deleted by the root, and made again of the same pages: flag and slots are 0."""
    calls = family() + [[9, PAGE], notify(PARENT, 5), [14, PAGE], [10], [2, PAGE]] + made(PAGE) + lent(PAGE, 0) + [[15, PAGE, 3], [14, PAGE], [14, PARENT]]
    return [(64 * 64, alone(calls))]


def large():
    """With large pages they are refused with 24, whatever is given, and before a format with 1."""
    targets = BAD + [PARENT, LARGE, LARGE * 2, 2 ** 32 - LARGE]
    asked = [call for target in targets for slot in (0, 4) for call in all_three(target, slot)]
    return [(17 * 1024, alone(all_three(PARENT, 4) + [[0, 1]] + asked + [[1] + [LARGE * k for k in range(1, 6)]] + asked + [[9, LARGE]] + asked))]


def room():
    """Parts whose answers have 64 numbers of room: a resume takes twelve of them, and what has no room is not run, nor what follows in the part. A cut call and
    a number that no call has end a part, too."""
    start = [[0, 0]] + made(PAGE) + lent(PAGE, 0) + [[9, PAGE], notify(PARENT, 5)]
    empty, ready, store = [15, PAGE, 0], [15, PAGE, 3], lambda word: [12, PAGE * 10, word]
    parts = [[empty] * 5 + [store(1)], [empty] * 6 + [store(2)], [empty] * 5 + [[10]] * 4 + [store(3)], [[10]] * 53 + [ready], [[10]] * 52 + [ready, [10]],
             [notify(PARENT, 9), ready, notify(PARENT, 10), ready, notify(PARENT, 11)], [notify(PAGE, 1)[:11]], [[15, PAGE]], [[14]], [[16, PAGE]],
             [[14, PAGE], [15, PARENT, 2], [16], [14, PAGE]]]
    return [(40 * 64, alone(start) + parts)]


def all_sequences():
    return worked() + rows() + saved() + refused() + slot_pages() + deleted() + large() + room()
