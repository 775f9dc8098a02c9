#!/usr/bin/env python3
"""Lists the places in crates/*/src of the eight points of docs/DESIGN-PASS.md.

`python3 tools/places.py [POINT]` in the checkout: a line a place, and the number last."""
import collections
import difflib
import glob
import os
import re
import sys

NUMBER = r'(?:u8|u32|u64|usize|VirtualPage|PhysicalPage)'


def functions():
    """Each function of src/: where it stands, name, comment above it, signature with its clauses, body."""
    for path in sorted(glob.glob('crates/*/src/**/*.rt', recursive=True)):
        text = open(path).read()
        for found in re.finditer(r'(?m)^ *(?:pub )?(?:extern "C" )?fn (\w+)', text):
            opening = re.compile(r'(?m)^ *\{$|\{$').search(text, found.end())
            indent = re.match(r' *', text[found.start():]).group()
            closing = re.compile(r'(?m)^%s\}$' % indent).search(text, opening.end())
            above = re.search(r'(?:^ *(?://|#\[)[^\n]*\n)*\Z', text[:found.start()], re.M).group()
            end = closing.start() if closing else len(text)
            yield path, found.group(1), above, text[found.start():opening.start()], text[opening.end():end]


def types():
    """Each struct and enum of src/ with its fields or variants."""
    for path in sorted(glob.glob('crates/*/src/**/*.rt', recursive=True)):
        text = open(path).read()
        for found in re.finditer(r'(?m)^(?:pub )?(struct|enum) (\w+)[^\n]*?(?:\(([^\n]*)\);|\{\n(.*?)^\})', text, re.S):
            yield path, found.group(1), found.group(2), found.group(3) or found.group(4) or ''


def result(signature):
    found = re.search(r'\)\s*->\s*(.*?)\s*(?:\n|$)', signature)
    return found.group(1) if found else ''


def point1():
    for path, kind, name, fields in types():
        if kind == 'enum' and re.search(r'^\s*\w+\(', fields, re.M):
            yield path, name, 'an enum of the shape of Option or Result'
        if kind == 'struct' and re.search(r'\b(?:answer|called|passed|marked|fits|why): |^pub bool', fields):
            yield path, name, 'a flag or an answer with values beside it'
    for path, name, above, signature, body in functions():
        answer = result(signature)
        if re.fullmatch(NUMBER, answer) and re.search(r'refusal|reason', name) and 'extern' not in signature:
            yield path, name, 'a number for a refusal or a reason'
        elif re.search(r'\b(?:n|why): u32\) -> (?:Answer|Told)', signature):
            yield path, name, 'an answer by a number'
        elif re.fullmatch(NUMBER, answer) and re.search(r'\bor 0\b|\b0 where|\b0 at the end|answers 0', above):
            yield path, name, 'a number, or 0 for none'


def point2():
    every = [f for f in functions() if f[4].count('\n') >= 3 and 'extern' not in f[3]]
    for i, (path, name, _, signature, body) in enumerate(every):
        for path2, name2, _, _, body2 in every[i + 1:]:
            if abs(len(body) - len(body2)) > 0.3 * max(len(body), len(body2)):
                continue
            alike = difflib.SequenceMatcher(None, body, body2, autojunk=False)
            if alike.real_quick_ratio() > 0.9 and alike.quick_ratio() > 0.9 and alike.ratio() > 0.9:
                yield path, name, 'like %s in %s' % (name2, path2)


def point3():
    for path, name, _, _, body in functions():
        for line in body.split('\n'):
            if re.match(r'\s*(?:while|loop)\b', line):
                yield path, name, line.strip()


def point4():
    for path, name, _, signature, body in functions():
        lines = [line.strip() for line in body.strip().split('\n')]
        if len(lines) == 1 and re.fullmatch(r'\(?\w+ as \w+\)?|if \w+ <=? \w+ \{ .* \}', lines[0]):
            yield path, name, lines[0]
        elif re.fullmatch(r'same|copy|clear|outcome_of|pack|little_endian|has_magic', name):
            yield path, name, signature.split('\n')[0]


def facts(signature):
    for found in re.finditer(r'(?m)^ *requires (?:\w+ )?\{ (.*?) \}$', signature, re.S):
        for fact in found.group(1).split(' × '):
            yield fact.strip('() ')


def point5():
    where = collections.defaultdict(list)
    for path, name, _, signature, _ in functions():
        for fact in set(facts(signature)):
            where[fact].append((path, name))
    for fact, places in sorted(where.items(), key=lambda item: -len(item[1])):
        if len(places) >= 3:
            for path, name in places:
                yield path, name, fact
    for path, name, _, signature, _ in functions():
        if re.search(r'\bb: \w+,\s*(?:\w+: u32,\s*)?m: &', signature):
            yield path, name, 'b and m together'


def point6():
    for path, name, _, signature, body in functions():
        for found in re.finditer(r'\[(?:0|7|NONE)\w*; \w+\]', body):
            yield path, name, found.group()
        if re.search(r'out: &mut \[\w+\],\s*at: usize', signature):
            yield path, name, 'a buffer and the place to write at'


def point7():
    for path, name, _, _, body in functions():
        arms = len(re.findall(r'(?m)^\s*\d+ => ', body))
        tests = len(re.findall(r'(?m)^\s*if \w+ == \d+ \{', body))
        if arms >= 3 or tests >= 3:
            yield path, name, '%d cases by a number' % max(arms, tests)


def point8():
    for path in sorted(glob.glob('crates/*/proofs')):
        lines = 0
        for folder, _, names in os.walk(path):
            lines += sum(open(os.path.join(folder, name)).read().count('\n') for name in names if name.endswith('.antt'))
        if lines:
            yield path, 'lines', str(lines)


def main():
    for number, places in enumerate([point1, point2, point3, point4, point5, point6, point7, point8], 1):
        if len(sys.argv) > 1 and sys.argv[1] != str(number):
            continue
        found = list(places())
        for path, name, what in found:
            print('%d %s:%s: %s' % (number, path, name, what))
        if number == 8:
            print('point 8: %d lines of proofs' % sum(int(what) for _, _, what in found))
        else:
            print('point %d: %d places' % (number, len(found)))


main()
