"""The sequences that the program block_runs is given, in order: for each memory how many words it has, and parts, each a list of calls run at once.

A call is its number and its arguments, as docs/BLOCKS.md has them; 0 is format. Every word of a memory starts as 7."""
import paper
from sequences import alone, guided


def first_byte(words):
    """Of the starting block."""
    return 456 + words // 8


KIB = 256                                        # words
WORDS = 16 * KIB                                 # of the smallest memory
FIRST, END = first_byte(WORDS), 4 * WORDS        # of its starting block
DESCRIPTOR, STRUCTURE = 128, 296                 # bytes
CHILD = DESCRIPTOR + STRUCTURE                   # bytes that a child with one structure takes
LARGEST = 2 ** 32 - 1


class Pool:
    """The calls of a partition whose first block, 8, starts at byte `at`. Pieces are cut off the lower end of what is left, and no slot is freed: so their
    numbers follow each other."""
    def __init__(self, at):
        self.at, self.rest, self.calls = at, 8, []

    def say(self, *calls):
        self.calls += [list(call) for call in calls]

    def off(self, size):
        """The number of a piece of so many bytes."""
        self.at += size
        self.say((7, self.rest, self.at))
        self.rest += 1
        return self.rest - 1

    def structures(self, count):
        """So many more for oneself."""
        for _ in range(count):
            self.say((3, 0, self.off(STRUCTURE)))

    def child(self, *lent):
        """The number of a child with a structure, and of blocks lent to it with all rights."""
        child, structure = self.off(DESCRIPTOR), self.off(STRUCTURE)
        self.say((1, child), (3, child, structure))
        blocks = [self.off(size) for size in lent]
        self.say(*[(5, child, block, 7) for block in blocks])
        return [child] + blocks


def inside(child, *calls):
    """Calls of a child, which is entered and left."""
    return [[12, child]] + list(calls) + [[13]]


def each():
    """Each call but format once."""
    return [[1, 8], [2, 8], [3, 0, 8], [4, 0], [5, 8, 8, 7], [6, 8, 8], [7, 8, 4000], [8, 8, 9], [9, 0, 8, 1], [10, 0, 1], [11, 0, 4000], [12, 8], [13]]


def case():
    """The worked case of the paper."""
    return [(WORDS, alone([[0]] + paper.calls()))]


def barred():
    """No length that is permitted: format is refused with 13 and every other call with 1."""
    return [(words, [[[0]] + each()]) for words in (1, 7, 8, 31, 256, 3840, 4095, 4097, 4351, 4353, 16383, 16385, 16640)]


def unformatted():
    """A length that is permitted, but no header yet: every call is refused with 1 until format."""
    return [(words, alone(each() + [[0]] + each())) for words in (WORDS, 33 * KIB, 64 * KIB)]


def lengths():
    """Every length that is permitted: format, and the ends of the starting block."""
    out = []
    for words in range(WORDS, 64 * KIB + 1, KIB):
        first, end = first_byte(words), 4 * words
        out.append((words, [[[0]], [[11, 0, at] for at in (first - 1, first, end - 1, end)] + [[10, 0, 1]], [[7, 8, end - 32], [7, 8, first + 32], [1, 10]]]))
    return out


def pieces():
    """The smallest pieces, and cuts that leave less; a piece of 63 bytes cannot be cut, one of 64 can; no slot for a ninth block."""
    calls = [[0]] + [[7, 8, at] for at in (0, FIRST - 1, FIRST, FIRST + 31, END - 31, END, END + 1, LARGEST, FIRST + 32)]
    calls += [[7, 9, END - 32], [7, 9, 1063], [7, 9, 1032], [7, 11, 1127], [7, 11, 1095], [7, 12, 2001], [7, 14, 3000], [7, 15, 4000], [7, 15, LARGEST]]
    return [(WORDS, alone(calls))]


def room():
    """Blocks that start at every byte of a word and have as many bytes as a descriptor or a structure, and those of up to three bytes more or one less."""
    out = []
    for size, call in (DESCRIPTOR, [1, 9]), (STRUCTURE, [3, 0, 9]):
        out += [(WORDS, [[[0], [7, 8, start], [7, 9, start + size + more]], [call]]) for start in range(1000, 1004) for more in range(-1, 4)]
    return out


def structures():
    """A seventeenth structure for oneself, and for a child; a ninth enabling, and eight entries that are all taken."""
    own = Pool(FIRST)
    own.structures(15)
    own.say((3, 0, own.rest), (9, 0, 8, 1))
    nine = [own.off(33) for _ in range(9)]
    own.say(*[(9, 0, block, 5) for block in nine])
    own.say((9, 0, nine[8], 0), (9, 0, nine[4], 1), (9, 0, nine[4], 0), (9, 0, nine[4], 0), (9, 0, nine[8], LARGEST), (9, 0, nine[2], 0))
    own.say(*[(10, 0, entry) for entry in (0, 1, 2, 3, 5, 8, 9, LARGEST)])
    child = Pool(first_byte(32 * KIB))
    child.structures(4)
    one = child.off(DESCRIPTOR)
    child.say((1, one))
    blocks = [child.off(STRUCTURE + 3) for _ in range(17)]
    child.say(*[(3, one, block) for block in blocks])
    child.say((4, one), (4, one), (3, one, blocks[16]), (3, one, blocks[16]), (3, one, blocks[1]), (3, one, child.rest), (2, one))
    return [(WORDS, alone([[0]] + own.calls)), (32 * KIB, alone([[0]] + child.calls))]


def slots():
    """A child's eight slots, all taken; a second structure for it has the next ones. What is added, enabled in the caller or not, is out of its reach."""
    root = Pool(FIRST)
    root.structures(2)
    child, *_ = root.child(*[32] * 8)
    ninth, structure = root.off(40), root.off(STRUCTURE)
    root.say((9, 0, ninth, 1), (5, child, ninth, 7), (3, child, structure), (10, 0, 1), (5, child, ninth, 7), (10, 0, 1), (9, 0, ninth, 1), (9, child, 16, 1))
    root.say((11, child, root.at - STRUCTURE - 1), (12, child), (10, 0, 1), (7, 16, root.at - STRUCTURE - 8), (13,), (6, child, ninth), (2, child))
    return [(WORDS, alone([[0]] + root.calls))]


def deep():
    """Twenty below the root, each with all that is left. The tenth deletes the ten below it; the root is refused what was lent, and deletes all the others.
    Then its pieces are merged, and the memory is as format leaves it."""
    calls, at = [[0]], FIRST
    for _ in range(20):
        calls += [[7, 8, at + DESCRIPTOR], [7, 9, at + CHILD], [1, 8], [3, 8, 9], [5, 8, 10, 7], [12, 8]]
        at += CHILD
    calls += [[11, 0, at], [11, 0, at - 1], [12, 8]] + [[13]] * 10 + [[11, 8, at], [10, 8, 1], [9, 8, 10, 1], [2, 8], [2, 8], [12, 8], [8, 8, 9], [8, 10, 8]]
    calls += [[1, 8]] + inside(8, [11, 0, at]) + [[13]] * 11 + [[6, 8, 10], [11, 8, FIRST + CHILD], [11, 8, at]]
    return [(WORDS, alone(calls + [[2, 8], [8, 8, 9], [8, 8, 10], [9, 0, 8, 1], [13]]))]


def broad():
    """A child with six children of its own, each with a child of its own, beside another child of the root. The root deletes the first, then the other: each
    block comes back."""
    root, child, other = Pool(FIRST), Pool(FIRST + CHILD), Pool(FIRST + CHILD + 10000 + CHILD)
    first, lent = root.child(10000)
    second, _ = root.child(1000)
    child.structures(2)
    below = []
    for _ in range(6):
        grandchild = Pool(child.at + CHILD)
        number, _ = child.child(900)
        grandchild.child(200)
        below += inside(number, *grandchild.calls) + [[9, number, grandchild.rest, 1]]
    other.child(300)
    calls = [[0]] + root.calls + inside(first, *child.calls, *below) + inside(second, *other.calls)
    calls += [[6, first, lent], [11, first, 2000], [2, first], [2, second], [10, 0, 1]] + [[11, 0, at] for at in range(FIRST, END, 2000)]
    return [(WORDS, alone(calls + [[8, 8, block] for block in range(9, 15)] + [[9, 0, 8, 1]]))]


def collected():
    """Structures that a partition prepared for itself and those that its parent prepared, collected by the one and the other: the block is in hand again in
    the pool that has it. A structure is prepared in the gap that one left; a child without any has no slot."""
    root, at = Pool(FIRST), FIRST + CHILD
    child, lent = root.child(4096)
    calls = [[0]] + root.calls + [[4, 0], [4, child], [4, 9]] + inside(child, [7, 8, at + STRUCTURE], [3, 0, 8], [4, 0], [3, 0, 8])
    calls += [[11, child, at], [4, child], [11, child, at], [4, child]] + inside(child, [8, 8, 9], [9, 0, 8, 1])
    calls += [[6, child, lent], [10, child, 1]] + inside(child, [4, 0], [4, 0])
    calls += [[11, 0, at - 1], [5, child, lent, 7], [3, child, 9], [4, child], [5, child, lent, 7], [7, lent, at + STRUCTURE], [7, 12, at + 600], [3, child, 9]]
    calls += [[3, child, lent], [3, child, 12], [4, child], [3, child, 9], [5, child, 11, 0], [4, child], [3, child, lent], [4, child], [4, child], [4, child]]
    return [(WORDS, alone(calls + [[2, child]]))]


def asked_back():
    """A block that is removed: enabled in the child; in hand, lent to another child, lent on, or with a descriptor or a structure of the child's in it; cut,
    where the first piece is in hand or not and a later one is lent on."""
    root, at = Pool(FIRST), FIRST + CHILD
    one, large = root.child(4096)
    two, other = root.child(2000)
    start, small, rest = root.at, root.off(1024), root.rest
    calls = [[0]] + root.calls + [[6, one, rest], [6, one, other], [6, two, large], [6, rest, large], [6, one, 99], [6, 0, large]]
    calls += [[9, one, 8, 1], [6, one, large], [10, one, 1], [5, one, large, 5]] + inside(one, [3, 0, 8]) + [[6, one, large]]
    calls += inside(one, [4, 0], [1, 8]) + [[6, one, large]] + inside(one, [2, 8]) + [[5, one, small, 7]]
    calls += inside(one, [7, 9, start + DESCRIPTOR], [1, 9], [7, 10, start + CHILD], [3, 9, 10], [5, 9, 8, 3], [5, 9, 8, 1])
    calls += [[6, one, large], [6, one, small]] + inside(one, [6, 9, 8], [2, 9]) + [[6, one, small]]
    calls += inside(one, [8, 9, 10], [7, 8, at + DESCRIPTOR], [1, 8], [3, 8, 10], [5, 8, 11, 0]) + [[6, one, small]]
    calls += inside(one, [6, 8, 11], [8, 11, 9]) + [[6, one, small], [6, one, large], [2, one], [2, two]]
    return [(WORDS, alone(calls))]


def merged():
    """Two blocks merged in either order, also where one is enabled and where a piece is behind; blocks that adjoin but were not cut apart, one with itself,
    and one that is lent."""
    root, at = Pool(FIRST), FIRST + CHILD
    child, one, two = root.child(1000, 1000)
    below = [[8, 8, 9], [8, 9, 8], [8, 8, 8], [7, 8, at + 101], [7, 10, at + 203], [7, 8, at + 51], [9, 0, 8, 1], [9, 0, 12, 1], [8, 8, 10], [8, 12, 8]]
    below += [[10, 0, 1], [10, 0, 2], [9, 0, 10, 1], [8, 10, 8], [7, 9, at + 1968], [8, 8, 9], [8, 11, 9], [8, 8, 11], [8, 9, 10]]
    calls = [[0]] + root.calls + inside(child, *below) + [[8, one, two], [8, one, 12], [6, child, one], [6, child, two], [8, two, one], [8, one, 12]]
    return [(WORDS, alone(calls + [[2, child]]))]


def rights():
    """Every number of rights, lent to a child and taken back; the child lends on what it holds, and a right that it lacks is refused."""
    some = [0, 1, 2, 3, 4, 5, 6, 7, 8, 15, 2 ** 31 + 3, LARGEST]
    lend = lambda child, block: [call for right in some for call in ([5, child, block, right], [6, child, block])]
    root, child = Pool(FIRST), Pool(FIRST + CHILD)
    one, _ = root.child(2000)
    block = root.off(64)
    inner, held = child.child(64)
    calls = [[0]] + root.calls + lend(one, block) + inside(one, *child.calls) + [[5, one, block, 5]]
    calls += inside(one, *lend(inner, 12), [6, inner, held], [7, 12, root.at - 32], [5, inner, 13, 6], [5, inner, 13, 4], *inside(inner, [7, 8, root.at - 16]))
    return [(WORDS, alone(calls + [[6, one, block], [2, one]]))]


def named_badly():
    """Numbers that name no child and no block, and those of blocks that have another use."""
    root = Pool(FIRST)
    child, lent = root.child(2000)
    calls = [[0]] + root.calls
    for bad in (0, 7, 9, lent, 12, 16, 135, 136, LARGEST):
        calls += [[2, bad], [5, bad, 11, 0], [6, bad, lent], [12, bad]]
        calls += [call for call in ([3, bad, 11], [4, bad], [9, bad, 11, 1], [10, bad, 1], [11, bad, 2000]) if bad]
    for bad in (0, 7, child, 9, lent, 12, 16, 135, 136, LARGEST):
        calls += [[1, bad], [3, 0, bad], [5, child, bad, 0], [7, bad, 4000], [8, 11, bad], [8, bad, 11], [9, 0, bad, 0], [9, 0, bad, 1]]
    calls += [[9, child, bad, 1] for bad in (0, 7, 9, lent, LARGEST)]
    calls += [[11, partition, at] for partition in (0, child) for at in (0, FIRST - 1, FIRST, FIRST + 423, FIRST + 424, FIRST + 2424, END, LARGEST)]
    return [(WORDS, alone(calls))]


def together():
    """Many calls in one part, a call that is cut, numbers that no call has, and answers for which there is no room: what follows in the part is not run, the
    next part is."""
    child = [[7, 8, 1096], [1, 8], [7, 9, 1392], [3, 8, 9], [7, 10, 5488], [5, 8, 10, 3], [12, 8], [11, 0, 2000], [13]]
    told = [[11, 0, 2000]]
    return [(WORDS, [[[0]] + child, [[13], [7, 11]], [[14]], [[13], [LARGEST], [0]], told * 9 + [[13], [0]], told * 8 + [[13]] * 6 + told + [[0]],
                     told * 10 + [[0]], [[13]] * 64, [[10, 8]], [[0]] * 32])]


# The guided sequences, one memory each: seed, number of calls and KiB. Every answer of every call occurs in the others, too.
GUIDED = [(1, 1200, 16), (2, 1000, 17), (3, 1200, 40), (4, 1200, 64), (5, 60, 15)]


def memories(made):
    """All of them; `made` gives the calls that the second program makes for a seed, a number of calls and KiB."""
    out = case() + barred() + unformatted() + lengths() + pieces() + room() + structures() + slots() + deep() + broad() + collected() + asked_back()
    out += merged() + rights() + named_badly() + together()
    return out + [(kib * KIB, guided([0], made(seed, count, kib))) for seed, count, kib in GUIDED]
