"""Compares the definitions of the block kernel, crates/block_*/specs, run by antt.py, with the independent program of tests/second (its binary blocks).

  python3 tests/definitions/blocks.py [--quick]

Guided random calls on memories of several lengths, permitted and not: answer, the six words that are told, and a hash of every word after each call. Changed
words of the memories in use: the verdict on soundness. Every answer of every call and every way that the program counts has to be met by the calls that are
compared. Prints what was compared; exits with 1 at the first difference."""
import os, subprocess, sys

from antt import Program, ap
from running import TARGET, differ, fingerprint, run

# KiB, files and calls of each; 15 and 65 are not permitted
QUICK = [(16, 3, 5000), (17, 1, 300), (64, 1, 150), (15, 1, 300)]
FULL = [(16, 12, 10000), (17, 4, 5000), (23, 4, 5000), (64, 4, 3000), (15, 1, 300), (65, 1, 300)]
SERVICES = ['create', 'delete', 'prepare', 'collect', 'add', 'remove', 'cut', 'merge', 'enable', 'read_enabled', 'find', 'enter', 'leave']


def second(*args, stdin=''):
    done = subprocess.run([os.path.join(TARGET, 'release', 'blocks')] + [str(a) for a in args], input=stdin.encode(), stdout=subprocess.PIPE)
    if done.returncode:
        raise RuntimeError('blocks %s: exit status %d\n%s' % (' '.join(map(str, args)), done.returncode, done.stdout.decode()))
    return done.stdout.decode().splitlines()


class Definitions:
    def __init__(self):
        program = Program()
        test = program.get('block_soundness', 'Test', 'sound_test')
        last = [None, None]

        def remembered(m):
            """The test of the memory that was asked last: a call's answer, what it tells and its effect ask it of the same one, which nobody changes."""
            if last[0] is not m:
                last[:] = m, test(m)
            return last[1]
        program.functions['block_soundness', 'Test', 'sound_test'] = self.sound = remembered
        self.answer, self.told, self.after = (program.get('block_rules', 'Calls', name) for name in ('answer', 'told', 'after'))
        self.hashed = [None, None]

    def call(self, memory, numbers):
        """What the second program's `run` prints for a call, and the memory after it."""
        c = ('serve', (SERVICES[numbers[0] - 1],) + tuple(numbers[1:])) if numbers[0] else ('format_all',)
        answer, told, memory = ap(self.answer, memory, c), ap(self.told, memory, c), ap(self.after, memory, c)
        if self.hashed[0] is not memory:
            self.hashed = [memory, fingerprint(memory)]
        return ' '.join(str(x) for x in answer + tuple(told) + (self.hashed[1],)), memory


def compare_calls(definitions, lines):
    """The calls of a file of the second program; the memory at the end, and how many calls."""
    memory = [i * 2654435761 % 2 ** 32 for i in range(int(lines[0]))]
    theirs = second('run', stdin='\n'.join(lines))
    for line, said in zip(['0'] + lines[1:], theirs, strict=True):
        ours, memory = definitions.call(memory, [int(x) for x in line.split()])
        if ours != said:
            differ('words %s, call %s' % (lines[0], line), ours, said)
    return memory, len(theirs)


def compare_verdicts(definitions, memory, lines, seed, count):
    """The verdict on copies of a memory with changed words; how many of them are sound."""
    sound = 0
    for line in second('damage', seed, count, stdin='\n'.join(lines)):
        words = line.split()
        at = next(i for i, word in enumerate(words) if not word.isdigit())
        changed = list(memory)
        for index, value in zip(words[0:at:2], words[1:at:2]):
            changed[int(index)] = int(value)
        ours, theirs = definitions.sound(changed), words[at] == 'sound'
        if ours != theirs:
            differ('changed words %s' % ' '.join(words[:at]), ours, line)
        sound += theirs
    return sound


def main():
    quick = sys.argv[1:] == ['--quick']
    definitions = Definitions()
    calls = memories = sound = 0
    files = []
    for kib, number, count in QUICK if quick else FULL:
        for seed in range(1, number + 1):
            lines = second('make', seed, count, kib)
            memory, made = compare_calls(definitions, lines)
            files.append('\n'.join(lines))
            calls += made
            if 16 <= kib <= 64:
                damaged = 60 if quick else 400
                sound += compare_verdicts(definitions, memory, lines, seed, damaged)
                memories += damaged
    second('cover', stdin='\n'.join(files))
    print('%d calls agree, every answer and way of the second program met; %d changed memories agree, %d of them sound' % (calls, memories, sound))


run(main)
