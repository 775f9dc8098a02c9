"""Memories to be judged: calls from format, then changed words. For each soundness sentence one memory that breaks just that sentence, and sound ones;
besides, lent pages that are mapped twice or not at all, in a child whose shadow 2 words rise and in one where they fall; and live flags, word 12 of a
descriptor.

Numbers of pages for N = 40: root virtual page v is page 8 + v; the child is page 9 with its three in pages 14 to 16, the grandchild page 17 with its
three in pages 22 to 24, and root page 17 is lent through both. Memories of 16 large pages have the length of 256 small ones and are formatted so after
them; the child is page 9 there, too."""

FAMILY = [[1, 256, 512, 768, 1024, 1280], [12, 1536, 1792], [12, 1792, 2048], [6, 256, 4096, 1536],
          [3, 2304, 256, 4096, 3], [3, 2560, 256, 4352, 3], [3, 2816, 256, 4608, 3], [3, 3072, 256, 4864, 3], [3, 3328, 256, 5120, 3],
          [3, 3584, 256, 5376, 3], [3, 3840, 256, 5632, 3], [3, 4096, 256, 5888, 3], [3, 4352, 256, 6144, 3],
          [9, 256], [1, 4096, 4352, 4608, 4864, 5120], [12, 5376, 5632], [12, 5632, 5888], [6, 4096, 8192, 5376], [3, 6144, 4096, 8192, 1], [10]]
SECOND_CHILD = [[1, 4608, 4864, 5120, 5376, 5632]]
# two pages are lent to the child so that its shadow 2 words fall
FALLING = FAMILY[:4] + [[3, 2304, 256, 4352, 3], [3, 2560, 256, 4096, 3]]


LARGE_CHILD = [[0, 1], [1, 4096, 8192, 12288, 16384, 20480]]


def at(page, word, value):
    return (64 * page + word, value)


def at_large(page, word, value):
    return (1024 * page + word, value)


def deep():
    """A chain of partitions down to 8 below the root, each in its parent's pages; the last is current. Every page goes down level by level."""
    calls, base = [], 256
    for level in range(8):
        # this level's own pages stand from virtual page 1 on (root) or from page 64 on (below); the first eight serve the child
        first = 256 if level == 0 else 64 * 256
        a = [first + 256 * i for i in range(8)]
        calls += [[1] + a[:5], [12, a[5], a[6]], [12, a[6], a[7]], [6, a[0], 64 * 256, a[5]]]
        left = 8 * (8 - level - 1)
        calls += [[3, first + 256 * (8 + i), a[0], 64 * 256 + 256 * i, 3] for i in range(left)]
        calls += [[9, a[0]]]
    return calls


def broad(n):
    """n children of the root, each with a page lent to it."""
    calls, v = [], 1
    for _ in range(n):
        a = [256 * (v + i) for i in range(9)]
        calls += [[1] + a[:5], [12, a[5], a[6]], [12, a[6], a[7]], [6, a[0], 4096, a[5]], [3, a[8], a[0], 4096, 3]]
        v += 9
    return calls


# name, N, calls, changed words, the sentences that it breaks
CASES = [
    ('fresh, 16 pages', 16, [], [], []),
    ('fresh, 72 pages', 72, [], [], []),
    ('fresh, 73 pages', 73, [], [], []),
    ('fresh, 256 pages', 256, [], [], []),
    ('a grandchild, a page lent on', 40, FAMILY, [], []),
    ('pages lent in falling order', 40, FALLING, [], []),
    ('eight deep', 256, deep(), [], []),
    ('broad', 256, broad(26), [], []),
    ('a word of a page in hand', 40, FAMILY, [at(38, 5, 4294967295)], []),
    ('1: a header word past the fifth', 40, FAMILY, [at(0, 60, 1)], [1]),
    ('2: a right of the root gone', 40, FAMILY, [at(6, 30, 9743)], [2]),
    ('3: a three listed in another order', 40, FAMILY, [at(13, 3, 2048), at(13, 4, 4096), at(13, 5, 1792), at(13, 6, 3840)], [3]),
    ("4: a child's parent another page", 40, FAMILY, [at(9, 11, 512)], [4]),
    ('5: current no partition', 40, FAMILY, [at(0, 4, 2560)], [5]),
    ('6: a right added', 40, FAMILY, [at(22, 32, 6423)], [6]),
    ('6: a page mapped twice in a child', 40, FAMILY, [at(14, 25, 6415), at(15, 25, 4096), at(16, 25, 4352)], [6]),
    ('6: a page mapped twice, words that fall', 40, FALLING, [at(14, 18, 4367), at(16, 18, 2304)], [6, 8]),
    ('6: a lent page not mapped in the child', 40, FAMILY, [at(22, 32, 0), at(24, 32, 0)], [6, 8]),
    ('6: a lent page not mapped, words that fall', 40, FALLING, [at(14, 16, 0), at(16, 16, 0)], [6, 8]),
    ("7: a child's descriptor accessible", 40, FAMILY, [at(6, 1, 2335)], [7]),
    ('8: one page in two kernel uses', 40, FAMILY + SECOND_CHILD, [at(26, 6, 5120), at(26, 7, 7168), at(6, 21, 7455)], [8]),
    ('9: a shadow 2 word with no mapping', 40, FAMILY, [at(16, 3, 256)], [9]),
    ('12: a page in hand to write and execute', 40, FALLING, [at(14, 16, 4635)], [12]),
    ('12: a page in hand with all rights', 40, FALLING, [at(14, 16, 4639)], [12]),
    ('12: a page lent on with all rights', 40, FAMILY, [at(14, 24, 6431)], [12]),
    ('12: a kernel page of a grandchild to write and execute', 40, FAMILY, [at(14, 16, 4377)], [12]),
    ('12: a page of a grandchild with all rights', 40, FAMILY, [at(14, 24, 6431), at(22, 32, 6431)], [12]),
    ('rights to read and execute', 40, FALLING, [at(14, 16, 4631)], []),
    ('flag 1 of the root', 40, FAMILY, [at(1, 12, 1)], []),
    ('flag 1 of a child and of a grandchild', 40, FAMILY, [at(9, 12, 1), at(17, 12, 1)], []),
    ('a child is current by dispatch', 40, FAMILY + [[14, 256]], [], []),
    ('the root is current by dispatch from a child', 40, FAMILY + [[9, 256], [14, 0]], [], []),
    ('1: flag 2 of the root', 40, FAMILY, [at(1, 12, 2)], [1]),
    ('1: flag 2 of a child', 40, FAMILY, [at(9, 12, 2)], [1]),
    ('1: flag 3 of a grandchild', 40, FAMILY, [at(17, 12, 3)], [1]),
    ("1: the last bit of a child's flag", 40, FAMILY, [at(9, 12, 2147483649)], [1]),
    ("1: a child's word after the flag", 40, FAMILY, [at(9, 13, 1)], [1]),
    ("1: the root's word after the flag", 40, FAMILY, [at(1, 13, 1)], [1, 2]),
    ('large pages: fresh', 256, [[0, 1]], [], []),
    ('large pages: a child', 256, LARGE_CHILD, [], []),
    ('large pages: a child is current', 256, LARGE_CHILD + [[9, 4096]], [], []),
    ('large pages: a word of a page in hand', 256, LARGE_CHILD, [at_large(15, 1023, 4294967295)], []),
    ('large pages: 1: the edition is none', 256, LARGE_CHILD, [(5, 2)], [1]),
    ('large pages: 1: the edition is the other', 256, LARGE_CHILD, [(5, 0)], [1, 2, 5, 8]),
    ('small pages: 1: the edition is the other', 256, [], [(5, 1)], [1, 2, 5, 8]),
    ('large pages: 1: the last header word', 256, LARGE_CHILD, [at_large(0, 1023, 1)], [1]),
    ('large pages: 1: the last flag bit', 256, LARGE_CHILD, [at_large(6, 7, 61471 + 2048)], [1]),
    ('large pages: 1: the last list word', 256, LARGE_CHILD, [at_large(13, 1023, 4096)], [1]),
    ('large pages: 1: flag 1 of a child', 256, LARGE_CHILD, [at_large(9, 12, 1)], [1]),
    ('large pages: 1: flag 1 of the root', 256, LARGE_CHILD, [at_large(1, 12, 1)], [1]),
    ('large pages: 2: a right of the root gone', 256, LARGE_CHILD, [at_large(6, 7, 61471 - 16)], [2]),
    ("large pages: 4: a child's parent another page", 256, LARGE_CHILD, [at_large(9, 11, 8192)], [4]),
    ('large pages: 5: current no partition', 256, LARGE_CHILD, [(4, 40960)], [5]),
    ("large pages: 7: a child's descriptor accessible", 256, LARGE_CHILD, [at_large(6, 1, 36895)], [7]),
    ('large pages: 8: one page in two kernel uses', 256, LARGE_CHILD, [at_large(9, 4, 16384), at_large(9, 5, 49152), at_large(6, 3, 45087)], [8]),
    ('large pages: 9: a shadow 2 word with no mapping', 256, LARGE_CHILD, [at_large(8, 1023, 4096)], [9]),
]
