"""The sequences that the program runs is given, in order: for each memory how many words it has, and parts, each a list of calls run at once. Those
about notify, dispatch and resume are in contexts.py.

A call is its number and its arguments; 0 is format, whose argument is the edition. Every word of a memory starts as 7."""

PAGE, LARGE = 256, 4096  # bytes of a page, by edition
BOTH = 16384             # words of 256 small pages, and of 16 large ones
LOFT = 64 * PAGE         # where pages are lent to a child: its table at directory index 1, with small pages


def each(page):
    """Each call once, with addresses on the first pages."""
    a = [page * k for k in range(17)]
    return [[1] + a[1:6], [2, a[1]], [3, a[1], a[2], a[16], 3], [4, a[1], a[16]], [5, a[1], a[16]], [6, a[1], a[16], a[2]], [7, a[1], a[16]],
            [8, a[1]], [9, a[1]], [10], [11, a[1]], [12, a[1], 1], [13, a[1]] + list(range(10)), [14, a[1]], [15, a[1], 0]]


def morning(page):
    """The bench morning of document 01, with pages of so many bytes."""
    a = [page * k for k in range(17)]
    return [[1] + a[1:6], [5, a[1], a[16]], [12, a[6], a[7]], [12, a[7], a[8]], [6, a[1], a[16], a[6]], [3, a[9], a[1], a[16], 3], [8, a[9]], [12, a[1], 1],
            [9, a[1]], [12, a[16] + 4, 77], [10], [11, a[9] + 4], [4, a[1], a[16]], [7, a[1], a[16]], [2, a[1]]]


def alone(calls):
    """Each call as its own part: the memory's hash is written after each."""
    return [[call] for call in calls]


def down(base, pages, size=PAGE):
    """From pages in hand in a row: five make a child, three a three for it, the others are lent to it at directory index 1; then it is entered."""
    return down_with(base, [3] * (pages - 8), size)


def down_with(base, rights, size=PAGE):
    """The same, with the rights of each page that is lent."""
    at, loft = [base + size * k for k in range(8 + len(rights))], size // 4 * size
    return [[1] + at[:5], [12, at[5], at[6]], [12, at[6], at[7]], [6, base, loft, at[5]]] + \
           [[3, page, base, loft + size * k, r] for k, (page, r) in enumerate(zip(at[8:], rights))] + [[9, base]]


def barred():
    """No length that is permitted: format is refused with 2 and every other call with 1. 15 and 257 small pages, a word too few or too many, one word."""
    calls = each(PAGE)
    return [(words, [[[0, 0], [0, 1]] + calls[:6], calls[6:]]) for words in (15 * 64, 257 * 64, 16 * 64 - 1, 16 * 64 + 1, BOTH - 1, BOTH + 1, BOTH + 63, 1)]


def unformatted():
    """A length that is permitted, but no header yet: every call is refused with 1 until format."""
    return [(words, alone(each(page) + [[0, edition]] + each(page))) for words, page, edition in ((16 * 64, PAGE, 0), (17 * 1024, LARGE, 1))]


def deep():
    """Down to 8 below the root with five pages in hand there: create at depth 7 passes and at 8 is refused with 13. Up again no ancestor reaches a kernel
    page, and the root deletes the first child with all that is below it: every page comes back."""
    calls = [[0, 0]] + down(PAGE, 69)
    for level in range(1, 8):
        calls += down(LOFT, 69 - 8 * level)
    five = [LOFT + PAGE * k for k in range(5)]
    calls += [[1] + five, [12, LOFT, 77], [10], [12, LOFT, 1], [11, LOFT + 8 * PAGE], [9, LOFT]] + [[10]] * 9
    calls += [[12, PAGE * v, 1] for v in (1, 9, 17, 57, 64)] + [[11, PAGE * 65], [8, PAGE * 57], [2, PAGE], [2, PAGE]]
    calls += [[11, PAGE * v] for v in (1, 9, 17, 57, 64, 65)] + [[1] + [PAGE * v for v in (57, 58, 59, 60, 61)]]
    return [(256 * 64, alone(calls))]


def eleven():
    """Ten threes for one child; the eleventh is refused with 10. Room given back by collect is used at once, with the chain that collect left."""
    at = lambda i: LOFT * i + PAGE
    calls = [[0, 0], [1, 256, 512, 768, 1024, 1280]]
    for i in range(11):
        a, b, c = [PAGE * (6 + 3 * i + k) for k in range(3)]
        calls += [[12, a, b], [12, b, c], [5, 256, at(i)], [6, 256, at(i), a]]
    calls += [[7, 256, at(4)], [6, 256, at(10), PAGE * 18], [5, 256, at(4)], [7, 256, at(10)], [7, 256, at(0)], [6, 256, at(10), PAGE * 36],
              [6, 256, at(4), PAGE * 18], [6, 256, at(0), PAGE * 6], [2, 256]]
    return [(73 * 64, alone(calls))]


def grandchildren():
    """A child with two children of its own, a page lent through both levels; the root deletes the child. All that it lent comes back wiped: the page that was
    lent on, the kernel pages of the grandchildren and what was in the child's hand."""
    calls = [[0, 0]] + down(PAGE, 30) + [[12, LOFT + PAGE * 20, 5], [1] + [LOFT + PAGE * k for k in (15, 16, 17, 18, 19)]] + down(LOFT, 15)
    calls += [[12, LOFT, 9], [10], [8, LOFT + 8 * PAGE], [4, LOFT, LOFT], [3, LOFT + 8 * PAGE, LOFT, LOFT, 1], [10], [4, PAGE, LOFT + 8 * PAGE],
              [8, PAGE * 9], [12, PAGE * 9, 1], [11, PAGE * 17], [11, PAGE * 29], [2, PAGE], [11, PAGE * 9], [11, PAGE * 17], [11, PAGE * 24], [11, PAGE * 29]]
    return [(40 * 64, alone(calls))]


def returned():
    """What a deleted child leaves (document 02, L3), on pages with words. With small pages the root has a child, that a child, and that one more. The first of
    them deletes the second: what served the two below it and what it may write itself comes back wiped, though the second may not write some of it; what it
    may not write keeps its words, also where it was lent on. Then the root deletes the first: it may write every page, so each that is still lent is wiped, and
    one that was removed before is not. In a second memory the root deletes the first with all that is below it, and lends a page anew. With large pages there
    is room for one child of the root: its two pages are wiped, one of them lent without write, and a page in hand keeps its words."""
    held, lent_on = [3, 1, 3, 3, 5, 0, 2], [3, 1, 3, 1, 4, 0, 0]
    words = [[12, PAGE * k + place, k + place] for k in range(25, 34) for place in (4, PAGE - 4)]
    below = [[0, 0]] + words + down_with(PAGE, [3] * 16 + held + [1]) + down_with(LOFT, [3] * 8 + lent_on) + down_with(LOFT, [3, 1])
    own, root = [[11, LOFT + PAGE * k + 4] for k in range(24)], [[11, PAGE * k + 4] for k in range(25, 34)]
    small = below + [[10], [10]] + own + [[2, LOFT]] + own + [[10]] + root + [[4, PAGE, LOFT + PAGE * 20], [12, PAGE * 28 + 4, 6], [2, PAGE]] + root
    whole = below + [[10]] * 3 + [[2, PAGE]] + root + down_with(PAGE, [0] * 16 + [1]) + [[11, LOFT + PAGE * 16 + 4]]
    words = [[12, LARGE * k + place, k + place] for k in (9, 10, 11) for place in (4, LARGE - 4)]
    large = [[0, 1]] + words + down_with(LARGE, [3, 1], LARGE) + [[10], [2, LARGE]] + [[11, LARGE * k + 4] for k in (9, 10, 11)]
    return [(42 * 64, alone(small)), (42 * 64, alone(whole)), (20 * 1024, alone(large))]


def asked():
    """mappedInChild of every page, and of one past the last: of the caller's child the descriptor, directory, shadows, list and three tables, pages lent to
    it, and pages in hand. With small pages the root's child has lent on pages to a child of its own, which took some of them for a third; each but the third
    asks, and after the first is deleted the root again. With large pages there is one child."""
    ask = lambda base, pages, size=PAGE: [[8, base + size * k] for k in range(pages + 1)]
    small = [[0, 0]] + down(PAGE, 23) + down(LOFT, 14) + [[1] + [LOFT + PAGE * k for k in range(5)]] + ask(LOFT, 6) + [[10]] + ask(LOFT, 15) + [[10]]
    large = [[0, 1]] + down(LARGE, 9, LARGE) + [[10]]
    return [(33 * 64, alone(small + ask(PAGE, 24) + [[2, PAGE]] + ask(PAGE, 24))), (20 * 1024, alone(large + ask(LARGE, 11, LARGE)))]


def rights():
    """Every number of rights, lent to a child and taken back: 6 and 7 are refused with 6, like those above 7. That comes after a bad address and before no
    child, no page in hand, no three and a place that is taken. With small pages the child lends on what it holds, and a right that it lacks is refused."""
    some = [0, 1, 2, 3, 4, 5, 6, 7, 8, 14, 2 ** 31 + 3, 2 ** 32 - 1]
    out = []
    for words, size, edition in (40 * 64, PAGE, 0), (20 * 1024, LARGE, 1):
        a, loft = [size * k for k in range(40)], size // 4 * size
        wrong = [[a[9], a[1] + 4, loft], [a[9], a[2], loft], [a[1], a[1], loft], [a[9], a[1], 2 * loft], [a[9], a[1], loft + size]]
        calls = [[0, edition]] + down(a[1], 8, size)[:4] + [call for r in some for call in ([3, a[9], a[1], loft, r], [4, a[1], loft])]
        calls += [[3, a[10], a[1], loft + size, 5]] + [[3] + given + [r] for given in wrong for r in (5, 6, 7, 8)]
        out.append((words, alone(calls)))
    held = [[3, LOFT + PAGE * 8, LOFT, LOFT, r] for r in some]
    family = down(PAGE, 23) + down(LOFT, 8)[:4] + [call for lend in held for call in (lend, [4, LOFT, LOFT])] + [held[1], [9, LOFT], [12, LOFT, 1], [11, LOFT]]
    return out + [(40 * 64, alone([[0, 0]] + family))]


def refusals():
    """What guided calls meet seldom: each call with each of its addresses bad; five pages of which one is given twice or not in hand, or may not be written;
    no tables, and tables that are there already; chains that are none."""
    addresses = {1: 5, 2: 1, 3: 3, 4: 2, 5: 2, 6: 3, 7: 2, 8: 1, 9: 1, 10: 0, 11: 1, 12: 1, 13: 1, 14: 1, 15: 1}
    out = []
    for words, size, edition in (40 * 64, PAGE, 0), (20 * 1024, LARGE, 1):
        a, loft = [size * k for k in range(40)], size // 4 * size
        calls = [[0, edition]]
        for call in each(size):
            calls += [call[:k] + [bad] + call[k + 1:] for k in range(1, 1 + addresses[call[0]]) for bad in (0, 4, size + 2, 2 ** 20)]
        calls += [[1] + a[1:5] + [a[2]], [1] + a[1:5] + [a[35]], [12, a[35], 1], [11, a[35]], [1] + a[1:6], [4, a[1], loft], [7, a[1], loft]]
        for links in [4], [a[6]], [a[7], a[6]], [a[7], a[8], a[9]], [a[7], a[8], 0], [a[7], a[8], 0]:
            calls += [[12, page, link] for page, link in zip(a[6:], links)] + [[6, a[1], loft, a[6]]]
        out.append((words, alone(calls)))
    # a child that may not write some of its pages
    own = [LOFT + PAGE * k for k in range(8)]
    held = [[1] + own[1:6], [1] + own[:5], [6, LOFT, LOFT, own[5]], [12, own[6], own[5]], [6, LOFT, LOFT, own[6]]]
    return out + [(40 * 64, alone([[0, 0]] + down_with(PAGE, [3, 3, 3, 3, 3, 1, 3, 3]) + held))]


def together():
    """Many calls in one part, a cut call, and numbers that no call has: what follows in the part is not run, the next part is."""
    chained = [[12, 1536, 1792], [12, 1792, 2048], [6, 256, 4096, 1536]]
    lend = [[3, 2304, 256, 4096, 3], [8, 2304], [9, 256], [12, 4100, 77], [10], [11, 2308]]
    child = [1, 256, 512, 768, 1024, 1280]
    return [(20 * 64, [[[0, 0], child] + chained + lend, [[11, 2308], child[:5]], [[16]], [[11, 2308], [4294967295], [0, 0]], [[12, 2308]],
                       [[4, 256, 4096], [7, 256, 4096], [2, 256]], [[10]] * 64, [[0, 0]] * 32])]


def choices():
    """A length of one edition alone: format is refused with 2 where it chooses the other or none, and changes nothing."""
    refused = lambda edition: [[0, choice] for choice in (1 - edition, 2, 6, 10, 4294967295)]
    return [(words, alone(refused(edition) + [[0, edition], [1] + [page * k for k in range(1, 6)]] + refused(edition) + [[9, page], [10]]))
            for words, page, edition in ((20 * 64, PAGE, 0), (240 * 64, PAGE, 0), (17 * 1024, LARGE, 1), (20 * 1024, LARGE, 1))]


def changes():
    """A length of both editions: the last format that passes decides how the memory is read, whichever partition was current."""
    creates = [[1] + [page * k for k in range(1, 6)] for page in (PAGE, LARGE)]
    small = [[0, 0]] + creates + [[0, 2], [12, PAGE * 6, 7], [9, PAGE]]
    large = [[0, 1]] + creates + [[0, 2], [12, LARGE * 7 + 4092, 7], [12, PAGE, 1], [9, LARGE]]
    return [(BOTH, alone(large + small + large + [[10]] + [[0, 0]] + morning(PAGE))),
            (BOTH, alone(small + large + [[0, 0]] + morning(PAGE)[:9] + [[0, 1]] + each(LARGE) + [[0, 1]]))]


def large_pages():
    """The bench morning with large pages, twice; and the last virtual page: as an argument, as a link, and mapped in a child."""
    last = 2 ** 32 - LARGE
    a = [LARGE * k for k in range(12)]
    edge = [[0, 1], [8, last], [11, last + 4092], [8, last + 1], [9, last], [1] + a[1:6], [3, last, a[1], a[1], 3], [6, a[1], last, last],
            [12, a[6], last], [6, a[1], last, a[6]], [12, a[6], a[7]], [12, a[7], a[8]], [5, a[1], last], [6, a[1], last, a[6]], [5, a[1], last],
            [3, a[9], a[1], last, 3], [3, a[10], a[1], last, 3], [3, a[10], a[1], last - LARGE, 3], [3, a[11], a[1], a[1], 3], [8, a[9]],
            [9, a[1]], [12, last + 4092, 77], [11, last + 4092], [12, last - 4, 78], [11, last - LARGE - 4], [10], [11, a[9] + 4092], [11, a[10] + 4092],
            [4, a[1], last], [4, a[1], last], [7, a[1], last], [4, a[1], last - LARGE], [7, a[1], last], [2, a[1]]]
    return [(20 * 1024, alone([[0, 1]] + morning(LARGE) + [[0, 0], [0, 1]] + morning(LARGE))), (20 * 1024, alone(edge))]


# The guided sequences, for each memory one after the other from format: seed, number of calls, N and edition. Every answer of every call occurs in the others,
# too. A memory that has both editions changes from one to the other.
GUIDED = [[(1, 300, 16, 0)], [(2, 600, 20, 0)], [(3, 1500, 73, 0)], [(4, 1500, 256, 0)], [(5, 200, 16, 1)], [(6, 400, 20, 1)],
          [(7, 80, 16, 1), (8, 120, 256, 0), (9, 80, 16, 1), (10, 120, 256, 0)]]


def guided(form, lines):
    """A format, and calls that tests/second makes: three in four are one part each, then a part of several."""
    parts = []
    while lines:
        take = 5 if len(parts) % 4 == 3 else 1
        parts.append(lines[:take])
        lines = lines[take:]
    return [[form]] + parts
