"""The worked case of docs/BLOCKS.md, read from the paper: the calls for block_runs, and whether their answers are the paper's."""
import os, re

PAPER = os.path.join(os.path.dirname(os.path.abspath(__file__)), '..', '..', 'docs', 'BLOCKS.md')
# The sentence below the table.
BEHIND = [('11 0 5000', '1: 8 968 16384 7 1 0'), ('11 0 900', '0'), ('10 0 2', '0'), ('13', 'no 12')]


def case():
    """Each call and its answer. The left column of the table comes first."""
    table = open(PAPER, encoding='utf-8').read().split('\n## A case, whole\n')[1].split('```')[1].strip()
    rows = [re.split(r'\s{2,}', row) for row in table.split('\n')]
    return [tuple(row[:2]) for row in rows] + [tuple(row[2:]) for row in rows] + BEHIND


def calls():
    return [[int(word) for word in call.split()] for call, _ in case()]


def lines(call, answer):
    """The lines of an answer: where a call that tells a block tells none, six zeros stand beside it."""
    if answer.startswith('no'):
        return [answer]
    words = answer.replace(':', '').split()
    return ['ok ' + word for word in words + ['0'] * (7 - len(words) if call.split()[0] in ('10', '11') else 0)]


def agrees(stdout):
    """Whether the first memory's answers are format's and the paper's, and it is left as format left it. A line is a number of an answer or the hash."""
    written = stdout.decode().split('\nverdict')[0].split('\n')
    hashes = [line for line in written if ' ' not in line]
    return [line for line in written if ' ' in line] == ['ok 0'] + [line for pair in case() for line in lines(*pair)] and hashes[0] == hashes[-1]
