#!/usr/bin/env python3
"""Counts, in crates/*/src, the places of each point of docs/DESIGN-PASS.md.

    python3 tools/places.py [COMMIT] [--list]

of a commit, or of the files as they stand; --list names each place. Run it in the root of the repository."""
import collections
import glob
import re
import subprocess
import sys

words = [w for w in sys.argv[1:] if w != '--list']
listed = '--list' in sys.argv


def files():
    if not words:
        return {p: open(p).read() for p in sorted(glob.glob('crates/*/src/*.rt'))}
    out = subprocess.run(['git', 'ls-tree', '-r', '--name-only', words[0], 'crates'], capture_output=True, text=True, check=True).stdout
    names = [p for p in out.split() if re.fullmatch(r'crates/[^/]*/src/[^/]*\.rt', p)]
    return {p: subprocess.run(['git', 'show', words[0] + ':' + p], capture_output=True, text=True, check=True).stdout for p in names}


def bare(text):  # without comments
    return re.sub(r'//[^\n]*', '', text)


def block(text, at):  # from an opening brace to its closing one
    depth = 0
    for i in range(at, len(text)):
        depth += {'{': 1, '}': -1}.get(text[i], 0)
        if depth == 0:
            return text[at:i + 1]
    return text[at:]


def functions(text):
    for m in re.finditer(r'\bfn (\w+)', text):
        head = re.search(r'\n\s*\{\n|\{\n', text[m.start():])
        # the body is the last block of the item: clauses stand before it, one to a line
        i = m.start()
        while True:
            j = text.find('{', i)
            if j < 0:
                break
            line = text[text.rfind('\n', 0, j) + 1:j]
            if re.search(r'\b(requires|ensures)\b', line):
                i = j + len(block(text, j))
                continue
            yield m.group(1), text[m.start():j], block(text, j)
            break


found = collections.OrderedDict()


def place(point, what):
    found.setdefault(point, []).append(what)


bodies = collections.defaultdict(list)
for path, whole in files().items():
    text = bare(whole)
    crate = path.split('/')[1]
    for m in re.finditer(r'enum (\w+) (\{)', text):
        inside = block(text, m.start(2))[1:-1]
        flat = re.sub(r'\{[^{}]*\}|\([^()]*\)', '()', inside)
        variants = [v.strip() for v in flat.split(',') if v.strip()]
        if len(variants) == 2 and any('(' in v for v in variants):
            place('1 enums of the shape of Option or Result', crate + '::' + m.group(1))
    for m in re.finditer(r'struct (\w+)[^{;]*(\{)', text):
        inside = block(text, m.start(2))
        if re.search(r'\b(refused: u32|is: bool|past: bool)', inside):
            place('1 flags or numbers with values beside them', crate + '::' + m.group(1))
    for m in re.finditer(r'const ([A-Z_]+): u(?:32|64) = (\d+|b\'.\' as u64);', text):
        if re.search(r'(?:==|!=|match|return|Refused \{ number: |\bFITS\b).*\b%s\b|\b%s =>|\b%s \|' % ((m.group(1),) * 3), text):
            place('1 numbers for kinds or refusals', crate + '::' + m.group(1))
    for name, head, body in functions(text):
        if name.endswith('_number') and '-> u32' in head:
            place('1 numbers for kinds or refusals', crate + '::' + name)
        code = re.sub(r'"[^"]*"|\'.\'|\b\d+\b', 'N', body)
        code = re.sub(r'\b(?!(?:if|else|while|for|in|match|let|mut|return|fn|pub|as|loop|true|false)\b)[A-Za-z_]\w*(?:::\w+)*', 'x', code)
        tokens = re.findall(r'\w+|[^\s\w]', code)
        if len(tokens) >= 16:
            bodies[' '.join(tokens)].append(crate + '::' + name)
        for w in re.finditer(r'while ([^{]*)\{', body):
            inside = block(body, w.end() - 1)
            names = set(re.findall(r'\b[a-z_]\w*\b', w.group(1)))
            if any(re.search(r'\b%s (?:\+|-)= 1;' % n, inside) for n in names):
                place('3 loops that count an index by hand', crate + '::' + name)
            elif 'marks::rest' in inside:
                place('3 loops that go through marks by hand', crate + '::' + name)
        params = set(re.findall(r'\b(terms|stocks|handles|lengths|links|counts): &', head))
        if len(params) == 6:
            place('5 functions that take the six tables one by one', crate + '::' + name)
        for pair in (('handles', 'lengths'), ('listed', 'demands')):
            if len(params) != 6 and all(re.search(r'\b%s: &' % p, head) for p in pair):
                place('6 parallel arrays', crate + '::' + name)
        if re.search(r'out: &mut \[u8\],\s*at: usize', head):
            place('6 buffers with a place beside them', crate + '::' + name)
        if re.search(r'if let \w+(?:::\w+)* = \w+ \{\s*return true;\s*\}\s*false', body):
            place('4 conversions and comparisons by hand', crate + '::' + name + ' (matches)')
        if re.search(r'if (\w+) < (\w+) \{ \1 \} else \{ \2 \}', body):
            place('4 conversions and comparisons by hand', crate + '::' + name + ' (min)')
        if re.search(r'check::same', body):
            place('4 conversions and comparisons by hand', crate + '::' + name + ' (==)')
        if re.search(r'ZERO \+', body):
            place('4 conversions and comparisons by hand', crate + '::' + name + ' (digits)')
        if re.fullmatch(r'\{\s*\w+ as u(?:16|32|64|size)\s*\}', body):
            place('4 conversions and comparisons by hand', crate + '::' + name + ' (cast)')
for group in bodies.values():
    if len(group) > 1:
        place('2 functions alike but for names and numbers', ' = '.join(group))
for point in sorted(found):
    print('%-55s %d' % (point, len(found[point])))
    if listed:
        for what in found[point]:
            print('    ' + what)
