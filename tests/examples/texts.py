"""Compares the definitions of crates/text and crates/assembly, and the program assemble where it is built, with assembler.py on random good and bad texts.

  python3 tests/examples/texts.py [COUNT]        # rt run in crates/assemble builds the program

Prints how many texts agree, by what they come to; exits with 1 at the first difference."""
import collections, os, random, subprocess, sys

from assembler import CALLS, REASONS, assemble, message

HERE = os.path.dirname(os.path.abspath(__file__))
PROGRAM = os.path.join(HERE, '..', '..', 'crates', 'assemble', 'out', 'assemble')
sys.path.insert(0, os.path.join(HERE, '..', 'definitions'))
sys.setrecursionlimit(100000)
from antt import Program

SMALL = b'#\n\r\t 0123456789aelnotv'
NUMBERS = ['0', '7', '256', '4096', '1048576', '4294967295', '0000000256']
SLIPS = ['4294967296', '00000000256', '-1', '1x', '0x10', '', '#', 'enter', '99999999999']


def some(rng, good, bad, slip):
    return rng.choice(bad if rng.random() < slip else good)


def text(rng):
    """Mostly a script with a slip now and then; else bytes at random."""
    if rng.random() < 0.2:
        return bytes(rng.choice(SMALL) for _ in range(rng.randrange(40)))
    slip = rng.choice([0, 0, 0.01, 0.1])
    blank = lambda: rng.choice([' ', '  ', '\t', ' \r'])
    skipped = lambda: rng.choice(['', '\n', ' \n', '# enter 1\n', '\t# x\n', ' \r\n'])
    out = skipped() + blank().strip('\n') + some(rng, ['16', '20', '0256', '255'], ['15', '257', 'x', '20 20', '', 'enter 1'], slip) + '\n'
    for _ in range(400 if rng.random() < 0.01 else rng.choice([0, 1, 3, 8, 8])):
        n = rng.randrange(12)
        name, count = CALLS[n]
        count += 0 if rng.random() >= slip else rng.choice([-1, 1])
        first = some(rng, [name, name, str(n + 1), '0' + str(n + 1)], ['0', '13', name[1:], name + 's', name.upper(), '00000000001'], slip)
        call = [first] + [some(rng, NUMBERS, SLIPS, slip / 3) for _ in range(count)]
        out += skipped() + blank().join(call) + rng.choice(['', ' ', '#', ' # done', '\r']) + '\n'
    return (out if rng.random() < 0.8 else out.rstrip('\n')).encode()


def ran(given):
    done = subprocess.run([PROGRAM], input=given, stdout=subprocess.PIPE, stderr=subprocess.PIPE)
    return done.stdout, done.stderr


def main():
    program, rng, seen = Program(), random.Random(1), collections.Counter()
    assembled, said = program.get('assembly', 'Assembled', 'assembled'), program.get('assembly', 'Messages', 'message')
    names = [bytes(n).decode() for n in program.get('text', 'Names', 'names')]
    assert names == [n for n, _ in CALLS], names
    built = os.path.exists(PROGRAM)
    for k in range(int(sys.argv[1]) if len(sys.argv) > 1 else 2000):
        given = text(rng)
        result = assemble(given)
        defined = assembled(list(given))
        if (defined[0],) + tuple(bytes(x) if isinstance(x, list) else x for x in defined[1:]) != result or bytes(said(defined)) != message(result):
            sys.exit('text %d: %r\nby the definition %r, here %r' % (k, given, defined, result))
        if built and ran(given) != (result[1] if result[0] == 'written' else b'', message(result)):
            sys.exit('text %d: %r\nby the program %r, here %r' % (k, given, ran(given), result))
        seen[REASONS[result[2] - 1] if result[0] == 'unread' else result[0]] += 1
    if built:
        for given in [b'16\n' + b' ' * 65533, b'16\n' + b' ' * 65534]:
            assert ran(given) == (assemble(given)[1] if len(given) == 65536 else b'', message(assemble(given)))
    print('the definition%s and assembler.py agree' % (', the program' if built else ''))
    for what, count in sorted(seen.items(), key=lambda x: -x[1]):
        print('%6d %s' % (count, what))


main()
