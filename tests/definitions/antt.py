"""Runs the definitions of crates/*/specs: translates the part of antt that they are written in to Python functions.

It reads the very files that the proofs are about, so that the definitions themselves are tried. Types, records and
proofs are passed over; a definition is translated when it is first asked for. A record is a dict by its fields' names,
a pair a tuple."""
import itertools, os, random, re

CRATES = os.path.join(os.path.dirname(os.path.abspath(__file__)), '..', '..', 'crates')
INFIX = {'||': (30, 'l'), '&&': (35, 'l'), '+': (65, 'l'), '-': (65, 'l'), '++': (65, 'l'), '∷': (67, 'r'), 'when': (68, 'n'),
         'is': (68, 'n'), '*': (70, 'l'), '/': (70, 'l'), '%': (70, 'l'), '^': (75, 'r')}


def ap(f, *args):
    """f applied to args, however many it takes."""
    while args:
        n = f.__code__.co_argcount
        if len(args) == n:
            return f(*args)
        if len(args) < n:
            first = args
            rest = ', '.join('x%d' % i for i in range(n - len(first)))
            return eval('lambda %s: f(*first, %s)' % (rest, rest), {'f': f, 'first': first})
        f, args = f(*args[:n]), args[n:]
    return f


def lazy(thunk):
    """A let: computed when first used, once."""
    box = []
    def value():
        if not box:
            box.append(thunk())
        return box[0]
    return value


def div(x, y):
    return x // y if y else 0


def mod(x, y):
    return x % y if y else x


def set_at(xs, i, x):
    return xs[:i] + [x] + xs[i + 1:] if i < len(xs) else xs


def overwrite(xs, i, ws):
    ws = ws[:max(0, len(xs) - i)]
    return xs[:i] + ws + xs[i + len(ws):] if i < len(xs) else xs


def tabulate(i, n, f):
    return [ap(f, i + k) for k in range(n)]


def one_argument(f):
    """f as a Python function of one argument."""
    return f if f.__code__.co_argcount == 1 else lambda x: ap(f, x)


def all_of(f, xs):
    return all(map(one_argument(f), xs))


def any_of(f, xs):
    return any(map(one_argument(f), xs))


def keep(f, xs):
    return list(filter(one_argument(f), xs))


def image(g, xs):
    return list(map(one_argument(g), xs))


def flat(f, xs):
    return [y for x in xs for y in ap(f, x)]


# what the definitions take from the toolchain's libraries
LIBRARY = {
    'length': len, 'get_or': lambda xs, i, d: xs[i] if i < len(xs) else d, 'set': set_at, 'take': lambda n, xs: xs[:n],
    'drop': lambda n, xs: xs[n:], 'replicate': lambda n, x: [x] * n, 'eqb': lambda x, y: x == y, 'leb': lambda x, y: x <= y,
    'ltb': lambda x, y: x < y, 'not': lambda x: not x, 'bit_and': lambda x, y: x & y, 'suc': lambda n: n + 1, 'some': lambda x: ('some', x),
}
LIBRARY['length'] = lambda xs: len(xs)
TOOLCHAIN = {'std'}  # its modules are named as those of crates/
CONSTANTS = {'true': 'True', 'false': 'False', '[]': '[]', 'zero': '0', 'none': "('none',)"}
# long recursions over a list or up to a number, done at once; check_shortcuts holds them to the text
SHORTCUTS = {('common', 'Words', 'overwrite'): overwrite, ('memory', 'Words', 'tabulate'): tabulate, ('walk', 'Finite', 'from'): lambda n, i: range(i, i + n),
             ('walk', 'Finite', 'all'): all_of, ('walk', 'Finite', 'any'): any_of, ('walk', 'Finite', 'keep'): keep, ('walk', 'Finite', 'image'): image,
             ('walk', 'Lists', 'flat'): flat}


def tokens(text):
    text = re.sub(r'λ\s+([^.]*?)\.\s', lambda m: ' λ %s . ' % m.group(1), text)
    return re.sub(r'([(){},])', r' \1 ', text).split()


class Module:
    def __init__(self, crate, name):
        self.crate, self.name, self.defs, self.imports, self.aliases, self.constructors = crate, name, {}, {}, {}, set()
        path = os.path.join(CRATES, crate, 'specs', name + '.antt')
        self.parse([re.sub(r'(^|\s)--.*$', '', l.rstrip('\n')) for l in open(path, encoding='utf-8')])

    def parse(self, lines):
        chunks = []
        for l in lines:
            if not l.strip():
                continue
            depth = len(l) - len(l.lstrip())
            begins = re.match(r'\s*(pub |unfoldable |abbrev |module |data |record )', l)
            if chunks and depth > chunks[-1][0] and not begins and not chunks[-1][1].startswith('module'):
                chunks[-1][1] += ' ' + l.strip()
                chunks[-1][2].append(l)
            else:
                chunks.append([depth, l.strip(), [l]])
        sections, number = [], 0
        for depth, text, raw in chunks:
            while sections and depth <= sections[-1][0]:
                sections.pop()
            m = re.match(r'(?:unfoldable )?(?:pub )?use Rattle\.(\w+)\.specs\.(\w+)(?:\.\{(.*)\}| as (\w+))?$', text)
            if m and m.group(1) not in TOOLCHAIN:
                if m.group(3):
                    for n in m.group(3).split(', '):
                        self.imports[n.strip('◌')] = (m.group(1), m.group(2))
                else:
                    self.aliases[m.group(4) or m.group(2)] = (m.group(1), m.group(2))
                continue
            if text.startswith(('use ', 'pub use ', 'infix', 'unfolding', 'pub record ', 'record ', 'ruleset ', 'pub mod')):
                continue
            m = re.match(r'module _ (.*) where$', text)
            if m:
                number += 1
                names = re.findall(r'\(([^:()]*) :', m.group(1))
                sections.append((depth, number, [n for g in names for n in g.split()]))
                continue
            if re.match(r'(pub )?data ', text):
                for l in raw[1:]:
                    if ':' in l:
                        self.constructors.update(n.strip('◌') for n in l.split(':')[0].split())
                continue
            m = re.match(r'(?:unfoldable |abbrev )?(?:pub )?(\S+)(?: \{ℓ\})? : ', text)
            if m and not re.match(r'\S+.* = ', text.split(' : ')[0]):
                self.defs[m.group(1)] = {'clauses': [], 'sections': [(s[1], s[2]) for s in sections]}
                continue
            name = text.split(' ', 1)[0]
            if name in self.defs and ' = ' in text:
                left, right = text.split(' = ', 1)
                self.defs[name]['clauses'].append((left, right))


class Program:
    def __init__(self):
        self.modules, self.functions = {}, {}
        self.shortcuts = dict(SHORTCUTS)
        self.shortcuts['rules', 'Effects', 'release_all'] = lambda b, n, i, m, d, c: release_all(self, b, n, i, m, d, c)

    def module(self, crate, name):
        if (crate, name) not in self.modules:
            self.modules[crate, name] = Module(crate, name)
        return self.modules[crate, name]

    def home(self, crate, name, symbol):
        """The module that declares a name: one that a `pub use` line passes on stands in another than the one that it is brought in from."""
        module = self.module(crate, name)
        if symbol in module.defs or symbol in module.constructors or symbol not in module.imports:
            return crate, name
        return self.home(*module.imports[symbol], symbol)

    def arity(self, crate, name, symbol):
        d = self.module(crate, name).defs[symbol]
        left = d['clauses'][0][0]
        return sum(len(ps) for _, ps in d['sections']) + len(Translation.patterns(left))

    def get(self, crate, name, symbol, text_only=False):
        """The Python function of a definition (a value, where it takes no argument)."""
        key = (crate, name, symbol)
        if not text_only and key in self.shortcuts:
            return self.shortcuts[key]
        if key not in self.functions:
            self.functions[key] = None
            self.functions[key] = Translation(self, self.module(crate, name), symbol).function()
        return self.functions[key]


class Translation:
    def __init__(self, program, module, symbol):
        self.program, self.module, self.symbol = program, module, symbol
        self.d = module.defs[symbol]
        self.arities = {}
        self.params = [p for _, ps in self.d['sections'] for p in ps]
        self.globals = {'ap': ap, 'lazy': lazy, 'div': div, 'mod': mod}

    def function(self):
        clauses = self.d['clauses']
        arity = len(self.patterns(clauses[0][0]))
        args = [self.py(p) for p in self.params] + ['a%d' % i for i in range(arity)]
        names = {p: self.py(p) for p in self.params}
        body = []
        for left, right in clauses:
            tests, bound = [], dict(names)
            for i, p in enumerate(self.patterns(left)):
                self.match(p, 'a%d' % i, tests, bound)
            self.toks, self.at = tokens(right), 0
            value = self.expression(0, bound)
            assert self.at == len(self.toks), (self.symbol, self.toks[self.at:])
            body.append('    if %s:\n        return %s' % (' and '.join(tests) or 'True', value))
        code = 'def it(%s):\n%s\n' % (', '.join(args), '\n'.join(body))
        exec(code, self.globals)
        it = self.globals['it']
        return it if args else it()

    @staticmethod
    def py(name):
        return 'v_' + re.sub(r'[^0-9A-Za-z_]', lambda m: '_%x' % ord(m.group()), name)

    # ---- patterns: a tree of lists of tokens

    @classmethod
    def patterns(cls, left):
        toks = tokens(left)[1:]
        out, i = [], 0
        while i < len(toks):
            p, i = cls.tree(toks, i)
            out.append(p)
        return out

    @classmethod
    def tree(cls, toks, i):
        if toks[i] != '(':
            return toks[i], i + 1
        out, i = [], i + 1
        while toks[i] != ')':
            p, i = cls.tree(toks, i)
            out.append(p)
        return (out[0] if len(out) == 1 else out), i + 1

    def is_constructor(self, n):
        if n in self.module.constructors:
            return True
        return n in self.module.imports and n in self.program.module(*self.imported(n)).constructors

    def imported(self, n):
        return self.program.home(*self.module.imports[n], n)

    def match(self, p, at, tests, bound):
        if isinstance(p, list):
            if ',' in p:
                i = p.index(',')
                for place, part in enumerate((p[:i], p[i + 1:])):
                    self.match(part[0] if len(part) == 1 else part, '%s[%d]' % (at, place), tests, bound)
            elif '∷' in p:
                i = p.index('∷')
                tests.append('len(%s) > 0' % at)
                self.match(p[:i][0] if i == 1 else p[:i], at + '[0]', tests, bound)
                rest = p[i + 1:]
                self.match(rest[0] if len(rest) == 1 else rest, at + '[1:]', tests, bound)
            elif 'when' in p or 'is' in p:
                self.match(p[0], at + '[1]', tests, bound)
                self.match(p[2], at + '[2]', tests, bound)
            elif p[0] == 'suc':
                tests.append('%s > 0' % at)
                self.match(p[1], '(%s - 1)' % at, tests, bound)
            else:
                tests.append('%s[0] == %r' % (at, p[0]))
                for i, q in enumerate(p[1:]):
                    self.match(q, '%s[%d]' % (at, i + 1), tests, bound)
        elif p == '[]':
            tests.append('len(%s) == 0' % at)
        elif p == 'zero':
            tests.append('%s == 0' % at)
        elif p in ('true', 'false'):
            tests.append('%s is %s' % (at, CONSTANTS[p]))
        elif p == 'none' or self.is_constructor(p):
            tests.append('%s[0] == %r' % (at, p))
        else:
            bound[p] = at

    # ---- expressions, by precedence

    def peek(self):
        return self.toks[self.at] if self.at < len(self.toks) else None

    def next(self):
        self.at += 1
        return self.toks[self.at - 1]

    def expression(self, least, bound):
        t = self.peek()
        if t == 'let':
            self.next()
            name = self.next()
            if self.peek() == ':':
                while self.peek() != '=':
                    self.next()
            assert self.next() == '='
            value = self.expression(0, bound)
            assert self.next() == 'in', self.symbol
            v = self.py(name) + '_'
            inner = dict(bound)
            inner[name] = v + '()'
            return '(lambda %s: %s)(lazy(lambda: %s))' % (v, self.expression(0, inner), value)
        if t == 'λ':
            self.next()
            names = []
            while self.peek() != '.':
                n = self.next()
                if n == '(':
                    names.append(self.next())
                    while self.next() != ')':
                        pass
                else:
                    names.append(n)
            self.next()
            inner = dict(bound)
            inner.update({n: self.py(n) for n in names})
            return '(' + ''.join('lambda %s: ' % self.py(n) for n in names) + self.expression(0, inner) + ')'
        left = self.application(bound)
        while self.peek() in INFIX and INFIX[self.peek()][0] >= least:
            op = self.next()
            level, side = INFIX[op]
            right = self.expression(level if side == 'r' else level + 1, bound)
            left = {'+': '(%s + %s)', '++': '(%s + %s)', '*': '(%s * %s)', '^': '(%s ** %s)', '-': 'max(0, %s - %s)', '∷': '[%s, *%s]',
                    '/': 'div(%s, %s)', '%': 'mod(%s, %s)',
                    '&&': '(%s and %s)', '||': '(%s or %s)', 'when': "('when', %s, %s)", 'is': "('is', %s, %s)"}[op] % (left, right)
        return left

    def application(self, bound):
        head = self.peek()
        if head == 'cond':
            self.next()
            t, x, y = self.atom(bound), self.atom(bound), self.atom(bound)
            return '(%s if %s else %s)' % (x, t, y)
        if head == 'pass' and head in self.module.imports and self.imported(head) == ('common', 'Row'):
            # what a call that is refused would have changed is not computed
            self.next()
            n, x, y = self.atom(bound), self.atom(bound), self.atom(bound)
            return '(%s if %s == 0 else %s)' % (x, n, y)
        if head == 'elim':
            self.next()
            t = self.atom(bound)
            assert [self.next() for _ in range(3)] == ['[', 'true', '↦']
            x = self.expression(0, bound)
            assert [self.next() for _ in range(3)] == ['|', 'false', '↦']
            y = self.expression(0, bound)
            assert self.next() == ']'
            return '(%s if %s else %s)' % (x, t, y)
        name = None if head == '(' else head
        f = self.atom(bound, True)
        args = []
        while self.peek() is not None and self.peek() not in INFIX and self.peek() not in (')', 'in', '=', '|', ']', ','):
            args.append(self.atom(bound))
        if name is not None and name not in bound and (name == 'some' or self.is_constructor(name)):
            return '(%s)' % ', '.join([repr(name)] + args + ['']).rstrip()
        if not args:
            return f
        given = re.match(r'ap\((g_\w+(?:, v_\w+)*)\)$', f)
        parts = given.group(1).split(', ') + args if given else [f] + args
        if self.arities.get(parts[0]) == len(parts) - 1:
            return '%s(%s)' % (parts[0], ', '.join(parts[1:]))
        return 'ap(%s)' % ', '.join(parts)

    def atom(self, bound, head=False):
        t = self.next()
        if '.' in t and t.split('.')[0] in bound:
            # r.x: a field of a record
            r, *fields = t.split('.')
            return bound[r] + ''.join('[%r]' % field for field in fields)
        if t == '(':
            e = self.expression(0, bound)
            if self.peek() == ',':
                self.next()
                e = '(%s, %s)' % (e, self.expression(0, bound))
            assert self.next() == ')', (self.symbol, self.toks)
            return e
        if t in bound:
            return bound[t]
        if t in CONSTANTS:
            return CONSTANTS[t]
        if t.isdigit():
            return t
        if self.is_constructor(t):
            return repr((t,))
        return self.reference(t)

    def reference(self, t):
        m = self.module
        if '.' in t:
            alias, n = t.split('.')
            crate, name = m.aliases[alias]
            return self.value(crate, name, n, [])
        if t in m.defs:
            inside = [ps for s, ps in m.defs[t]['sections'] if (s, ps) in self.d['sections']]
            return self.value(m.crate, m.name, t, [self.py(p) for ps in inside for p in ps])
        if t in m.imports:
            return self.value(*self.imported(t), t, [])
        if t in LIBRARY:
            self.globals['lib_' + t] = LIBRARY[t]
            self.arities['lib_' + t] = LIBRARY[t].__code__.co_argcount
            return 'lib_' + t
        raise NameError('%s in %s of %s' % (t, self.symbol, m.name))

    def value(self, crate, name, symbol, given):
        """A definition, as a name among the globals: a stub until it is first used."""
        key = 'g_%s_%s_%s' % (crate, name, re.sub(r'\W', lambda m: '_%x' % ord(m.group()), symbol))
        program, scope = self.program, self.globals
        arity = program.arity(crate, name, symbol)
        if key not in scope:
            def first_use(*args):
                scope[key] = program.get(crate, name, symbol)
                return scope[key](*args) if args else scope[key]
            names = ', '.join('x%d' % i for i in range(arity))
            scope[key] = eval('lambda %s: first_use(%s)' % (names, names), {'first_use': first_use}) if arity else program.get(crate, name, symbol)
        self.arities[key] = arity
        if given and len(given) == arity:
            return '%s(%s)' % (key, ', '.join(given))
        return 'ap(%s)' % ', '.join([key] + given) if given else key


def release_all(program, b, n, i, m, d, c):
    """release_all, by the text for each virtual page, but that those without a shadow 1 table are passed over: their words there count as 0, which is not c."""
    step = program.get('rules', 'Effects', 'release_all', text_only=True)
    shadow1, table_at = program.get('memory', 'Partition', 'shadow1'), program.get('memory', 'Partition', 'table_at')
    end = i + n
    while i < end:
        if c and table_at(b, m, shadow1(b, m, d), i) == 0:
            i += 2 ** b - i % 2 ** b
        else:
            m = step(b, 1, i, m, d, c)
            i += 1
    return m


def check_shortcuts(program):
    """The shortcuts give what the text gives, on lists short enough for the text and at narrow widths. What the text leaves for later is again a shortcut."""
    text = program.get('common', 'Words', 'overwrite', text_only=True)
    for n in range(6):
        for i in range(7):
            for k in range(7):
                xs, ws = list(range(n)), list(range(50, 50 + k))
                assert ap(text, xs, i, ws) == overwrite(xs, i, ws), (xs, i, ws)
    text = program.get('memory', 'Words', 'tabulate', text_only=True)
    for n in range(9):
        assert ap(text, 3, n, lambda x: 7 * x) == tabulate(3, n, lambda x: 7 * x)
    text = program.get('common', 'Row', 'pass', text_only=True)
    assert [text(n, 'changed', 'same') for n in range(20)] == ['changed'] + ['same'] * 19
    lists = [list(xs) for n in range(5) for xs in itertools.product(range(3), repeat=n)]
    for name, f in ('all', lambda x: x > 0), ('any', lambda x: x > 1), ('keep', lambda x: x != 1), ('image', lambda x: 2 * x + 1):
        text, shortcut = program.get('walk', 'Finite', name, text_only=True), SHORTCUTS['walk', 'Finite', name]
        for xs in lists:
            assert text(f, xs) == shortcut(f, xs), (name, xs)
    text, repeated = program.get('walk', 'Lists', 'flat', text_only=True), lambda x: [x] * x
    for xs in lists:
        assert text(repeated, xs) == flat(repeated, xs), xs
    text = program.get('walk', 'Finite', 'from', text_only=True)
    for n in range(6):
        assert text(n, 3) == list(range(3, 3 + n))
    # memories of 12 pages with 4 words each, most words addresses of pages or of tables, or 0
    text, changed, r = program.get('rules', 'Effects', 'release_all', text_only=True), 0, random.Random(5)
    for _ in range(3000):
        m = [r.choice([0, 0, 16 * r.randrange(12), 16 * r.randrange(12) + r.choice([1, 3, 31])]) for _ in range(48)]
        i, d, c = r.randrange(16), r.randrange(12), 16 * r.randrange(5)
        after = release_all(program, 2, 16 - i, i, m, d, c)
        assert text(2, 16 - i, i, m, d, c) == after, (i, m, d, c)
        changed += after != m
    assert changed > 100, changed
