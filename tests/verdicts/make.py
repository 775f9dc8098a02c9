"""Writes the cases of cases.py as the input of the program crates/verdicts and the output that it is held to; and checks them by the second program.

  python3 tests/verdicts/make.py [--check]     # --check: compare with the stored files instead of writing them

The input is little-endian words, for each case: N, how many words of the memory are not 0, and index and value of each."""
import os, subprocess, sys

from cases import CASES

HERE = os.path.dirname(os.path.abspath(__file__))
CRATE = os.path.join(HERE, '..', '..', 'crates', 'verdicts')
SECOND = os.path.join(HERE, '..', 'second')
TARGET = os.environ.get('CARGO_TARGET_DIR') or os.path.join(SECOND, 'target')


def little(words):
    return b''.join(w.to_bytes(4, 'little') for w in words)


def memory(n, calls, changes):
    """The memory after the calls and changes, by the second program."""
    text = '%d\n' % n + ''.join(' '.join(map(str, c)) + '\n' for c in calls)
    out = subprocess.run([os.path.join(TARGET, 'release', 'trace'), 'dump'], input=text.encode(), stdout=subprocess.PIPE, check=True).stdout
    words = [int.from_bytes(out[i:i + 4], 'little') for i in range(0, len(out), 4)]
    for i, x in changes:
        words[i] = x
    return words


def main():
    subprocess.run(['cargo', 'build', '--release', '--quiet', '--offline'], cwd=SECOND, check=True)
    stdin, stdout = b'', ''
    for name, n, calls, changes, broken in CASES:
        words = memory(n, calls, changes)
        used = [(i, w) for i, w in enumerate(words) if w]
        stdin += little([n, len(used)] + [w for pair in used for w in pair])
        stdout += 'damaged\n' if broken else 'sound\n'
        said = subprocess.run([os.path.join(TARGET, 'release', 'trace'), 'judge'], input=little(words), stdout=subprocess.PIPE, check=True)
        told = said.stdout.decode().strip()
        if told != str(broken):
            sys.exit('%s: the second program says %s, wanted %s' % (name, told, broken))
        print('%-50s %s' % (name, told))
    for name, text in ('stdin', stdin), ('stdout', stdout.encode()):
        path = os.path.join(CRATE, name)
        if '--check' in sys.argv:
            if open(path, 'rb').read() != text:
                sys.exit('%s is not what the cases give' % path)
        else:
            os.makedirs(CRATE, exist_ok=True)
            open(path, 'wb').write(text)


main()
