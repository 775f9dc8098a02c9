"""Checks that what the open crates offer asks nothing of its caller: no function that another crate can name has a `requires`.

  python3 tests/interface/open.py [ROOT]      # the repository, unless ROOT names a copy of it

Prints the functions of each crate; exit status 1 where one has a `requires`, or is not found."""
import os, re, sys

OPEN = ['kernel', 'block_kernel', 'startup', 'transcripts', 'assembly', 'exports', 'block_exports']
# Of the record's crate only the reader is open; the writer's inner part and the bytes are for other crates of this repository.
READER = ['Reading', 'read_record', 'record_begin', 'record_end', 'record_refusal', 'revision']


def sources(root, crate):
    folder = os.path.join(root, 'crates', crate, 'src')
    return {name[:-3]: open(os.path.join(folder, name), encoding='utf-8').read() for name in sorted(os.listdir(folder))}


def heads(text):
    """The functions that a file marks pub: each by its name, with all that stands before its body."""
    return dict(re.findall(r'^pub (?:extern "C" )?fn (\w+)((?:[^\n]*\{$)|.*?^(?:\{|\)[^\n]*\{)$)', text, re.M | re.S))


def types(text):
    return set(re.findall(r'^pub (?:enum|struct|const|type) (\w+)', text, re.M))


def offered(files):
    """What another crate can name, with the file that has it: of the root, of public modules, and what is used on from private ones or from other crates."""
    lib = files['lib']
    names = [('lib', name) for name in list(heads(lib)) + sorted(types(lib))]
    for module, used in re.findall(r'^pub use (\w+)::(\w+|\{[^}]*\});', lib, re.M):
        names += [(module, name) for name in re.findall(r'\w+', used)]
    for module in re.findall(r'^pub mod (\w+);', lib, re.M):
        names += [(module, name) for name in list(heads(files[module])) + sorted(types(files[module]))]
    return sorted(set(names))


def handed_on(root, crate, name):
    """The sources that have what a crate offers under a name: its own, or those of the crate whose item it uses on."""
    files = sources(root, crate)
    for module, used in re.findall(r'^pub use (\w+)::(\w+|\{[^}]*\});', files['lib'], re.M):
        if name in re.findall(r'\w+', used) and module not in files:
            return handed_on(root, module, name)
    return '\n'.join(files.values())


def main():
    root = sys.argv[1] if len(sys.argv) > 1 else os.path.join(os.path.dirname(os.path.abspath(__file__)), '..', '..')
    wrong = 0
    for crate in OPEN + ['record']:
        files, good = sources(root, crate), []
        for module, name in offered(files):
            if crate == 'record' and name not in READER:
                continue
            text = files[module] if module in files else handed_on(root, module, name)
            head = heads(text).get(name, '' if name in types(text) else None)
            if head is None or re.search(r'^\s*requires\b', head, re.M):
                print('%s::%s: %s' % (crate, name, 'not found' if head is None else 'it has a `requires`'))
                wrong += 1
            elif name not in good:
                good.append(name)
        print('%s: %s' % (crate, ', '.join(good)))
    sys.exit(1 if wrong else 0)


main()
