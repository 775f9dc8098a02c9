"""From the example texts of crates/examples/data to their scripts, by assembler.py, and to crates/examples/stdout, by the second program.

  python3 tests/examples/make.py [--check]     # --check: compare with the stored files instead of writing them"""
import os, subprocess, sys

from assembler import assemble, message

HERE = os.path.dirname(os.path.abspath(__file__))
CRATE = os.path.join(HERE, '..', '..', 'crates', 'examples')
SECOND = os.path.join(HERE, '..', 'second')
TARGET = os.environ.get('CARGO_TARGET_DIR') or os.path.join(SECOND, 'target')
EXAMPLES = ['morning', 'deep', 'eleventh', 'refusals']
UNREAD = ['pages', 'unknown', 'few', 'many', 'number', 'long', 'empty']


def store(path, data):
    if '--check' in sys.argv:
        if open(path, 'rb').read() != data:
            sys.exit('%s is not what the examples give' % path)
    else:
        open(path, 'wb').write(data)


def assembled(name):
    return assemble(open(os.path.join(CRATE, 'data', name + '.txt'), 'rb').read())


def main():
    subprocess.run(['cargo', 'build', '--release', '--quiet', '--offline'], cwd=SECOND, check=True)
    out = b''
    for name in EXAMPLES:
        script = assembled(name)[1]
        transcript = subprocess.run([os.path.join(TARGET, 'release', 'trace'), 'replay'], input=script, stdout=subprocess.PIPE, check=True).stdout
        store(os.path.join(CRATE, 'data', name + '.script'), script)
        out += name.encode() + b' same\n' + transcript
        print('%-9s %4d bytes, %3d calls' % (name, len(script), int.from_bytes(script[4:8], 'little')))
    for name in UNREAD:
        out += name.encode() + b' ' + message(assembled('unread/' + name))
    store(os.path.join(CRATE, 'stdout'), out)


main()
