"""Writes sequences as the input of two programs and the output that each is held to, which the second program alone tells: those of sequences.py and
contexts.py for crates/runs, those of blocks.py for crates/block_runs.

  python3 tests/runs/make.py [--check]     # --check: compare with the stored files instead of writing them

Prints how often each call gives each answer there; fails where one of the rules' answers is left out, or the worked case of docs/BLOCKS.md answers
something else than the paper has."""
import os, subprocess, sys

import blocks
import contexts
import paper
import sequences

HERE = os.path.dirname(os.path.abspath(__file__))
CRATES = os.path.join(HERE, '..', '..', 'crates')
SECOND = os.path.join(HERE, '..', 'second')
TARGET = os.environ.get('CARGO_TARGET_DIR') or os.path.join(SECOND, 'target')


def second(program, *words, given=b'', out=subprocess.PIPE):
    return subprocess.run([os.path.join(TARGET, 'release', program)] + [str(w) for w in words], input=given, stdout=out, check=True).stdout


def made(program, *words):
    return [[int(word) for word in line.split()] for line in second(program, 'make', *words).decode().split('\n')[1:-1]]


def page_memories():
    s = sequences
    out = s.barred() + s.unformatted() + s.deep() + s.eleven() + s.grandchildren() + s.returned() + s.asked() + s.rights() + s.refusals() + s.together()
    out += s.choices() + s.changes() + s.large_pages() + contexts.all_sequences()
    for runs in s.GUIDED:
        words, = {[64, 1024][edition] * pages for _, _, pages, edition in runs}
        out.append((words, [part for run in runs for part in s.guided([0, run[3]], made('trace', *run))]))
    return out


def block_memories():
    return blocks.memories(lambda *words: made('blocks', *words))


def written(memories):
    """For each memory its number of words, then its parts: each how many words it has, and they; 0 ends the parts, and 0 the memories."""
    words = []
    for length, parts in memories:
        words.append(length)
        for part in parts:
            flat = [word for call in part for word in call]
            assert 0 < len(flat) <= 64
            words += [len(flat)] + flat
        words.append(0)
    assert len(memories) <= 256
    return b''.join(word.to_bytes(4, 'little') for word in words + [0])


def hold(path, data):
    """Writes a file, or compares what is stored."""
    print('%s: %d bytes' % (os.path.relpath(path, CRATES), len(data)), flush=True)
    assert len(data) < 1 << 18
    if '--check' not in sys.argv:
        open(path, 'wb').write(data)
    elif open(path, 'rb').read() != data:
        sys.exit('%s is not what the sequences give' % path)


def main():
    subprocess.run(['cargo', 'build', '--release', '--quiet', '--offline'], cwd=SECOND, check=True)
    for crate, program, memories in ('runs', 'trace', page_memories()), ('block_runs', 'blocks', block_memories()):
        stdin = written(memories)
        stdout = second(program, 'runs', given=stdin)
        if program == 'blocks' and not paper.agrees(stdout):
            sys.exit('the worked case is not as the paper has it')
        hold(os.path.join(CRATES, crate, 'stdin'), stdin)
        hold(os.path.join(CRATES, crate, 'stdout'), stdout)
        second(program, 'runs', 'cover', given=stdin, out=None)


main()
