"""Compares, for each kernel, the functions of its header, its Rust declarations and its exporting crate by name, arguments and result, and those that its
archive has by name; the refusals of the header, the Rust enum and the definitions by number and name; and the parts, in order, of what a call hands out
beside its answer (a context; a block), and the constants that stand beside it, in the header and in Rust.

  python3 tests/interface/compare.py        # after rt lib in crates/exports and in crates/block_exports

A slice of an exported function is two arguments of a declaration: a pointer, to const where the slice is only read, and its number of elements, `length`
for the first slice and NAME_length for one after it. Prints what differs and exits with 1. Each of a kernel's changes, made to a copy, has to make a
difference."""
import glob, os, re, subprocess, sys
from collections import namedtuple

ROOT = os.path.join(os.path.dirname(os.path.abspath(__file__)), '..', '..')
C_NUMBERS = {'u8': 'uint8_t', 'u32': 'uint32_t', 'u64': 'uint64_t', 'usize': 'size_t'}

# prefix: of the names in C. beside: what a call hands out beside its answer, by its names in C and Rust. files: by what they hold; changes: to one of them.
Kernel = namedtuple('Kernel', 'prefix beside archive files changes')

PAGES = Kernel('tumashqin_', ('tumashqin_context', 'Context'), 'crates/exports/out/libexports.a', {
    'header': 'include/tumashqin.h',
    'rust': 'bindings/rust/src/raw.rs',
    'exports': 'crates/exports/src/**/*.rt',
    'refusals': 'bindings/rust/src/refusal.rs',
    'numbers': 'crates/rules/specs/Refusal.antt',
    'beside': 'bindings/rust/src/context.rs',
}, [
    ('header', 'uint32_t page, uint32_t child', 'uint32_t child, uint32_t page'),
    ('header', 'tumashqin_load(const uint32_t', 'tumashqin_load(uint32_t'),
    ('header', 'uint32_t address, uint32_t word)', 'uint32_t address, uint64_t word)'),
    ('header', 'uint32_t tumashqin_record_end(', 'uint64_t tumashqin_record_end('),
    ('header', 'TUMASHQIN_SHORT = 17', 'TUMASHQIN_SHORT = 19'),
    ('header', 'uint32_t eip, uint32_t eflags', 'uint32_t eflags, uint32_t eip'),
    ('header', 'uint32_t *out, size_t out_length', 'uint32_t *out, size_t length_out'),
    ('header', 'TUMASHQIN_EMPTY_SLOT = 22', 'TUMASHQIN_EMPTY_SLOT = 23'),
    ('header', 'eip, pipflags, eflags, registers[8]', 'eip, eflags, pipflags, registers[8]'),
    ('header', 'TUMASHQIN_SLOTS_AT = 0xFFF00', 'TUMASHQIN_SLOTS_AT = 0xFF000'),
    ('rust', 'fn tumashqin_leave(', 'fn tumashqin_left('),
    ('rust', 'first: u32) -> u64', 'first: u32) -> u32'),
    ('rust', '        r7: u32,\n', ''),
    ('rust', 'out: *mut u32', 'out: *const u32'),
    ('exports', '#[unsafe(no_mangle)]\npub extern "C" fn tumashqin_enter', 'pub fn tumashqin_enter'),
    ('exports', 'out: &mut [u8]', 'out: &[u8]'),
    ('exports', 'out: &mut [u32]', 'out: &[u32]'),
    ('exports', 'words: &mut [u32], child: u32)', 'words: &mut [u32], child: u32, target: u32)'),
    ('refusals', '    Size,\n', ''),
    ('refusals', 'Edition = 24', 'Edition = 23'),
    ('beside', 'registers: [u32; 8]', 'registers: [u32; 7]'),
    ('beside', 'ISR_CTX: u32 = 1', 'ISR_CTX: u32 = 2'),
    ('numbers', 'number HAND = 7', 'number HAND = 8'),
])

BLOCKS = Kernel('tumashqin_block_', ('tumashqin_block', 'Block'), 'crates/block_exports/out/libblock_exports.a', {
    'header': 'include/tumashqin_block.h',
    'rust': 'bindings/rust/src/block/raw.rs',
    'exports': 'crates/block_exports/src/**/*.rt',
    'refusals': 'bindings/rust/src/block/refusal.rs',
    'numbers': 'crates/block_rules/specs/Refusal.antt',
    'beside': 'bindings/rust/src/block/*.rs',
}, [
    ('header', 'uint32_t child, uint32_t block, uint32_t rights', 'uint32_t block, uint32_t child, uint32_t rights'),
    ('header', 'tumashqin_block_find(const uint32_t', 'tumashqin_block_find(uint32_t'),
    ('header', 'uint64_t tumashqin_block_verdict(', 'uint32_t tumashqin_block_verdict('),
    ('header', 'uint32_t *out, size_t out_length', 'uint32_t *out, size_t length_out'),
    ('header', 'TUMASHQIN_BLOCK_LENGTH = 13', 'TUMASHQIN_BLOCK_LENGTH = 14'),
    ('header', 'number, start, end, rights', 'number, end, start, rights'),
    ('header', 'TUMASHQIN_BLOCK_LENT = 2', 'TUMASHQIN_BLOCK_LENT = 3'),
    ('header', 'TUMASHQIN_BLOCK_KIB_WORDS = 256', 'TUMASHQIN_BLOCK_KIB_WORDS = 1024'),
    ('rust', 'fn tumashqin_block_leave(', 'fn tumashqin_block_left('),
    ('rust', 'on: u32) -> u64', 'on: u32) -> u32'),
    ('rust', 'words: *const u32', 'words: *mut u32'),
    ('exports', '#[unsafe(no_mangle)]\npub extern "C" fn tumashqin_block_enter', 'pub fn tumashqin_block_enter'),
    ('exports', 'out: &mut [u32]', 'out: &[u32]'),
    ('exports', 'first: u32, second: u32', 'second: u32, first: u32'),
    ('refusals', '    Piece,\n', ''),
    ('beside', 'pub usage: u32,', 'pub usage: [u32; 2],'),
    ('beside', 'IN_HAND: u32 = 1', 'IN_HAND: u32 = 0'),
    ('numbers', 'number APART = 6', 'number APART = 5'),
])


def bare(text):
    return re.sub(r'/\*.*?\*/|//[^\n]*', ' ', text, flags=re.S)


def parts(text, separator):
    """What is between the separators, with single blanks."""
    return [' '.join(part.split()) for part in text.split(separator) if part.strip()]


def matched(pattern, text):
    found = re.fullmatch(pattern, text)
    if not found:
        raise ValueError('not understood: %s' % text)
    return found.groups()


def of_header(text, prefix):
    """The functions by name, each as its result and its arguments with their types; and the refusals."""
    text = re.sub(r'(?m)^#.*$', '', re.sub(r'#ifdef __cplusplus.*?#endif', '', bare(text), flags=re.S))
    refusals = numbered(re.search(r'enum %srefusal \{(.*?)\}' % prefix, text, re.S)[1])
    found = True
    while found:
        text, found = re.subn(r'\{[^{}]*\}', ';', text)
    functions = {}
    for statement in parts(text, ';'):
        if not re.fullmatch(r'(enum|struct)( \w+)?|static inline .*', statement):
            result, name, arguments = matched(r'(\w+) (\w+)\((.*)\)', statement)
            functions[name] = result, [(a, kind.strip()) for kind, a in (matched(r'(.*[ *])(\w+)', a) for a in parts(arguments, ','))]
    return functions, {name.replace(prefix.upper(), ''): number for name, number in refusals.items() if number}


def c_type(rust):
    pointer, number = matched(r'(\*const |\*mut )?(\w+)', rust)
    return {None: '%s', '*const ': 'const %s *', '*mut ': '%s *'}[pointer] % C_NUMBERS[number]


def of_rust(text):
    functions = {}
    for statement in parts(re.search(r'extern "C" \{(.*)\}', bare(text), re.S)[1], ';'):
        name, arguments, result = matched(r'pub fn (\w+)\((.*)\) -> (\w+)', statement)
        functions[name] = c_type(result), [(a, c_type(kind)) for a, kind in (matched(r'(\w+): (.*)', a) for a in parts(arguments, ','))]
    return functions


def of_exports(text):
    functions = {}
    for name, arguments, result in re.findall(r'#\[unsafe\(no_mangle\)\]\s*pub extern "C" fn (\w+)\(([^()]*)\) -> (\w+)', bare(text)):
        flat, slices = [], 0
        for a, reference, kind in (matched(r'(\w+): (&mut |&)?(.*)', a) for a in parts(arguments, ',')):
            if reference:
                pointer = '*mut ' if reference == '&mut ' else '*const '
                flat += [(a, c_type(pointer + matched(r'\[(\w+)\]', kind)[0])), (a + '_length' if slices else 'length', 'size_t')]
                slices += 1
            else:
                flat.append((a, c_type(kind)))
        functions[name] = c_type(result), flat
    if len(functions) != text.count('#[unsafe(no_mangle)]'):
        raise ValueError('%d functions understood of %d that are marked' % (len(functions), text.count('#[unsafe(no_mangle)]')))
    return functions


def numbered(text):
    """An enum's names with their numbers; one that has none follows the one before it."""
    out, number = {}, -1
    for item in parts(text, ','):
        name, given = matched(r'(\w+)(?: = (\d+))?', item)
        out[name] = number = int(given) if given else number + 1
    return out


def of_refusal_rs(text):
    names = numbered(re.search(r'enum Refusal \{(.*?)\}', bare(text), re.S)[1])
    return {re.sub(r'(?<=[a-z])(?=[A-Z])', '_', name).upper(): number for name, number in names.items()}


def header_beside(text, kernel):
    """The parts of what is handed out, each with its number of words where that is not 1; and all constants that are no refusals."""
    text = bare(text)
    fields = parts(matched(r'uint32_t (.*);', ' '.join(re.search(r'struct %s \{(.*?)\}' % kernel.beside[0], text, re.S)[1].split()))[0], ',')
    constants = re.findall(r'%s(\w+) = (\w+)' % kernel.prefix.upper(), ' '.join(re.findall(r'\benum \{(.*?)\}', text, re.S)))
    return [matched(r'(\w+)(?:\[(\d+)\])?', field) for field in fields], {name: int(number, 0) for name, number in constants}


def rust_beside(text, kernel):
    text = bare(text)
    fields = parts(re.search(r'pub struct %s \{(.*?)\}' % kernel.beside[1], text, re.S)[1], ',')
    constants = re.findall(r'pub const (\w+): \w+ = (\w+);', text)
    return [matched(r'pub (\w+): (?:u32|\[u32; (\d+)\])', field) for field in fields], {name: int(number, 0) for name, number in constants}


def of_refusal_antt(text):
    return {name.replace('-', '_'): int(number) for name, number in re.findall(r'(?m)^number ([A-Z-]+) = (\d+)$', text)}


def c_text(function):
    return 'nothing' if function is None else '%s (%s)' % (function[0], ', '.join(' '.join(pair[::-1]) for pair in function[1]))


def differences(kernel, texts, archive):
    """What differs, as lines; and how many functions and refusals the header has, and how many constants are compared."""
    files = kernel.files
    functions, refusals = of_header(texts['header'], kernel.prefix)
    out = []
    for other, those in ('rust', of_rust(texts['rust'])), ('exports', of_exports(texts['exports'])):
        for name in sorted(set(functions) | set(those)):
            if functions.get(name) != those.get(name):
                out.append('%s\n  %s: %s\n  %s: %s' % (name, files['header'], c_text(functions.get(name)), files[other], c_text(those.get(name))))
    out += ['%s: only in %s' % (name, files['header'] if name in functions else kernel.archive) for name in sorted(set(functions) ^ archive)]
    for other, those in ('refusals', of_refusal_rs(texts['refusals'])), ('numbers', of_refusal_antt(texts['numbers'])):
        for name in sorted(set(refusals) | set(those)):
            if refusals.get(name) != those.get(name):
                out.append('%s: %s in %s, %s in %s' % (name, refusals.get(name), files['header'], those.get(name), files[other]))
    (parts_c, constants_c), (parts_rust, constants_rust) = header_beside(texts['header'], kernel), rust_beside(texts['beside'], kernel)
    if parts_c != parts_rust:
        out.append('%s: %s in %s, %s in %s' % (kernel.beside[1], parts_c, files['header'], parts_rust, files['beside']))
    for name, number in constants_rust.items():
        if constants_c.get(name) != number:
            out.append('%s: %s in %s, %s in %s' % (name, constants_c.get(name), files['header'], number, files['beside']))
    return out, (len(functions), len(refusals), kernel.beside[1], len(constants_rust))


def compare(kernel):
    """Prints what differs, or what agrees; answers whether anything differs."""
    read = lambda pattern: ''.join(open(path).read() for path in sorted(glob.glob(os.path.join(ROOT, pattern), recursive=True)))
    texts = {name: read(pattern) for name, pattern in kernel.files.items()}
    symbols = subprocess.run(['nm', '--extern-only', '--defined-only', os.path.join(ROOT, kernel.archive)], stdout=subprocess.PIPE, check=True).stdout.decode()
    archive = set(re.findall(r'(?m)^\w+ T (\w+)$', symbols))
    different, counts = differences(kernel, texts, archive)
    for name, old, new in kernel.changes:
        if texts[name].count(old) == 0:
            different.append('%s has no `%s` to be changed' % (kernel.files[name], old))
        elif not differences(kernel, dict(texts, **{name: texts[name].replace(old, new, 1)}), archive)[0]:
            different.append('no difference with `%s` in %s' % (new, kernel.files[name]))
    agree = '%s: %d functions, %d refusals, %s and %d constants agree; %d changed copies do not'
    print('\n'.join(different) if different else agree % ((kernel.files['header'],) + counts + (len(kernel.changes),)))
    return bool(different)


def main():
    sys.exit(any([compare(PAGES), compare(BLOCKS)]))


main()
