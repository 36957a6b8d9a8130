#!/usr/bin/env python3
"""Lists the places in crates/*/src that docs/DESIGN-PASS.md counts, point by point.

  tools/places.py [COMMIT]      the counts; of the work tree where no commit is given
  tools/places.py -l [COMMIT]   each place too
"""
import collections
import re
import subprocess
import sys


def sources(commit):
    """The files of src/ by name, with their lines."""
    listing = ['git', 'ls-files'] if commit is None else ['git', 'ls-tree', '-r', '--name-only', commit]
    names = subprocess.run(listing, capture_output=True, text=True, check=True).stdout.split('\n')
    for name in sorted(n for n in names if re.match(r'crates/\w+/src/.*\.rt$', n)):
        if commit is None:
            yield name, open(name).read()
        else:
            yield name, subprocess.run(['git', 'show', f'{commit}:{name}'], capture_output=True, text=True, check=True).stdout


def blocks(text, head):
    """(line, the block's text) of each item whose first line matches."""
    lines = text.split('\n')
    for i, line in enumerate(lines):
        if re.match(head, line):
            indent = re.match(r' *', line).group()
            end = next((j for j in range(i, len(lines)) if lines[j] in (indent + '}', indent + '};') or (j == i and line.endswith(('}', ';')))), i)
            yield i + 1, '\n'.join(lines[i : end + 1])


def code(function):
    """A function's body without names and numbers."""
    body = function.split('\n{\n', 1)[-1] if '\n{\n' in function else re.split(r'\n +\{\n', function, maxsplit=1)[-1]
    return re.sub(r'\d[\d_]*', '0', re.sub(r'[A-Za-z_]\w*', lambda m: m.group() if m.group() in KEPT else 'x', re.sub(r'//.*', '', body)))


KEPT = {'let', 'mut', 'if', 'else', 'while', 'for', 'in', 'return', 'match', 'as', 'loop', 'true', 'false'}
FUNCTION = r' *(pub )?(extern "C" )?fn \w+'
LIBRARY = r'fn (least|larger|apart|capped|cap|less|minus|difference|size|size_of|clamp|within|wide|copy_in|move_record|clear|put_blanks|number|is_accepted|worse|same_rates|bits_of|zeros|least_of)\b'


def places(commit):
    found = collections.defaultdict(list)
    facts, travel, bodies = (collections.defaultdict(list) for _ in range(3))
    for name, text in sources(commit):
        at = lambda line: f'{name}:{line}'
        for line, block in blocks(text, r'pub enum|enum'):
            arms = re.findall(r'^    \w+(\(.*\))?,', block, re.M)
            if len(arms) == 2 and any(arms):
                found['1 enums of the shape of Option or Result'].append(at(line))
        for line, block in blocks(text, r'(pub )?struct \w+.* \{'):
            if re.search(r': bool,', block) and not 'received' in block or 'verdict: Verdict' in block or 'waits: bool' in block:
                found['1 flags with a value beside them'].append(at(line))
            if re.search(r'\bcount: u\w+,', block) and re.search(r': \[', block):
                found['6 buffers with a length beside them'].append(at(line))
        for n, line in enumerate(text.split('\n'), 1):
            if re.search(r'\b(kind|side|phase|security|currency|sign|first|second|payments): (u64|i64)', line) and re.search(r'\b(kind|side|phase|security|currency|sign): (u64|i64)', line):
                found['1 numbers for kinds'].append(at(n))
            if re.match(r' *(while|loop)\b', line):
                found['3 loops by while or loop'].append(at(n))
            if re.search(LIBRARY, line):
                found["4 the library's methods written by hand"].append(at(n))
            if re.match(r' *(\w+): \1,$', line) or re.match(r' *let (\w+) = \w+(\.\w+)*\.\1;$', line):
                found['4 fields named twice, locals for a field'].append(at(n))
            if re.search(r'\[\w+; \d+\], count: usize|\[\w+\], (count|schedules): usize', line):
                found['6 buffers with a length beside them'].append(at(n))
            if re.search(r'\w\[\(?(at|\d+|schedules) \+ \w+', line):
                found['6 numbers at computed offsets'].append(at(n))
        for line, block in blocks(text, FUNCTION):
            head = re.split(r'\n *\{\n', block, maxsplit=1)[0]
            for fact in {f.strip(' (){}') for clause in re.findall(r'requires[^{]*\{(.*)\}', head) for f in clause.split('×')}:
                facts[re.sub(r'\b\w+\.(now|old)\b', '_', fact)].append(at(line))
            names = re.findall(r'(\w+): ', head.split('requires')[0].split('ensures')[0].split('->')[0])
            for group in (('curve', 'components'), ('days', 'nets', 'tables'), ('ladder', 'schedules'), ('out', 'at'), ('book', 'used'), ('rate', 'day', 'tables'), ('curves', 'count'), ('valued', 'ladder', 'tables')):
                if set(group) <= set(names):
                    travel[' '.join(group)].append(at(line))
            body = code(block)
            if body.count('\n') > 2:
                bodies[body].append(at(line))
    for places_of in (b for b in bodies.values() if len(b) > 1):
        found['2 functions alike but for names and numbers'] += places_of
    for fact, where in facts.items():
        if len(where) >= 3:
            found[f'5 facts in three contracts or more'].append(f'{fact} ({len(where)})')
    for group, where in travel.items():
        if len(where) >= 3:
            found['5 parameters that travel together'].append(f'{group} ({len(where)})')
    return found


if __name__ == '__main__':
    arguments = [a for a in sys.argv[1:] if a != '-l']
    for point, where in sorted(places(arguments[0] if arguments else None).items()):
        print(f'{point}: {len(where)}')
        if '-l' in sys.argv:
            print('\n'.join('  ' + w for w in where))
