"""What the comparisons of the definitions share: the second program built, a run with room for deep recursion, a difference told, a hash of a memory."""
import os, subprocess, sys, threading

SECOND = os.path.join(os.path.dirname(os.path.abspath(__file__)), '..', 'second')
TARGET = os.environ.get('CARGO_TARGET_DIR') or os.path.join(SECOND, 'target')


def differ(what, ours, theirs):
    print('DIFFERENT: %s\n  definitions: %s\n  second:      %s' % (what, ours, theirs), flush=True)
    os._exit(1)


def fingerprint(memory):
    """64-bit FNV-1a over the words as little-endian bytes; a byte 0 only multiplies."""
    h, zeros = 0xcbf29ce484222325, 0
    for w in memory + [None]:
        if w == 0:
            zeros += 4
            continue
        h, zeros = h * pow(0x100000001b3, zeros, 2 ** 64) % 2 ** 64, 0
        for byte in w.to_bytes(4, 'little') if w else b'':
            h = (h ^ byte) * 0x100000001b3 % 2 ** 64
    return '%016x' % h


def run(main):
    """Builds the second program and runs main, with room for deep recursion. Ends with exit status 1 where main raises."""
    subprocess.run(['cargo', 'build', '--release', '--quiet', '--offline'], cwd=SECOND, check=True)
    sys.setrecursionlimit(10 ** 6)
    threading.stack_size(1 << 29)
    done = []
    thread = threading.Thread(target=lambda: done.append(main()))
    thread.start()
    thread.join()
    # an exception ends the thread alone
    sys.exit(0 if done else 1)
