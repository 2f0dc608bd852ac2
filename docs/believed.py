#!/usr/bin/env python3
"""What a reader has to believe for a clause of a contract.

Starting from one clause it follows each name to its definition: in specs/ of this repository, or a type or trait of src/. The words of the
standard library end the walk. It prints each definition with its lines of code (comments, imports and blank lines are not counted), file by
file, and the sum.

    docs/believed.py                        what the clause `done` of `run` rests on
    docs/believed.py CRATE/FILE FUNCTION CLAUSE..     the same for other clauses, as: cd_top/src/command.rt run done ended
    docs/believed.py --table                the same as the rows of a table, for docs/definitions.md
    docs/believed.py --check                fails where the sum is above 600, where a name has two definitions among these, or where
                                            docs/definitions.md lists other files or lines than these
"""
import os
import re
import sys

TOP = os.path.join(os.path.dirname(os.path.abspath(__file__)), '..', 'crates')
MOST = 600
NAME = re.compile(r"[A-Za-z_«◌][\w'«»\-+◌]*")


def read(path):
    with open(os.path.join(TOP, path), encoding='utf-8') as f:
        return f.read().split('\n')


def code_lines(lines):
    """The lines that are neither blank nor comments, attributes or imports."""
    out = []
    for line in lines:
        bare = line.strip()
        if bare and not bare.startswith(('--', '//', '#[', 'use ', 'ghost use ')):
            out.append(line)
    return out


class Block:
    """One definition: its file, its name, its lines of code, and what its text names."""

    def __init__(self, path, name, lines):
        self.path, self.name = path, name
        self.lines = code_lines(lines)
        self.text = '\n'.join(self.lines)


class Spec:
    """A file of specs/: its definitions by each name that they give, and its imports."""

    def __init__(self, path):
        self.path, self.imports, self.blocks = path, {}, {}
        lines = read(path)
        for line in lines:
            take_import(line, self.imports)
        for name, body in definitions(lines):
            block = Block(path, name, body)
            for given in [name] + constructors(body):
                self.blocks.setdefault(given, block)


def take_import(line, imports):
    m = re.match(r'^\s*(?:ghost )?use Rattle\.([\w.]+)\.\{(.*)\};?\s*$', line)
    if m:
        for item in m.group(2).split(','):
            words = item.split()
            if words:
                imports[words[-1]] = (m.group(1), words[0])
        return
    m = re.match(r'^\s*(?:ghost )?use Rattle\.([\w.]+)(?: as (\w+))?;?\s*$', line)
    if m:
        imports[m.group(2) or m.group(1).split('.')[-1]] = (m.group(1), None)


HEAD = re.compile(r"^(\s*)(abbrev pub|unfoldable pub|pub abbrev|pub record|pub data|record|data|abbrev|pub)\s+(" + NAME.pattern + r")")


def definitions(lines):
    """Each definition with its lines: from its head to the next head or comment of the same depth."""
    name, body, found = None, [], []
    depth = 0
    for line in lines:
        bare = line.strip()
        m = HEAD.match(line)
        inside = name and len(line) - len(line.lstrip()) > depth
        if m and not (inside and body and re.match(r'\s*(pub )?(record|data)\b', body[0])):
            if name:
                found.append((name, body))
            name, body, depth = m.group(3), [line], len(m.group(1))
        elif bare.startswith('module _'):
            if name:
                found.append((name, body))
            name, body = None, []
        elif name and bare:
            body.append(line)
    if name:
        found.append((name, body))
    return found


def constructors(body):
    if not re.match(r'\s*pub data\b|\s*data\b', body[0]):
        return []
    depth = min(len(l) - len(l.lstrip()) for l in body[1:] if l.strip()) if len(body) > 1 else 0
    return [m.group(1) for l in body[1:] if len(l) - len(l.lstrip()) == depth for m in [re.match(r"\s*([A-Za-z_]\w*)\s*:", l)] if m]


def rust_item(crate, name):
    """The struct, enum or trait of this name in a crate's src/: its file, its lines, and those of the file. Of a type with a `Model`,
    which is all that contracts see of it, the lines of that."""
    folder = os.path.join(TOP, crate, 'src')
    for base, _, files in sorted(os.walk(folder)):
        for file in sorted(files):
            path = os.path.relpath(os.path.join(base, file), TOP)
            if not file.endswith('.rt'):
                continue
            lines = read(path)
            body = braces(lines, re.compile(r'^pub (struct|enum|trait) ' + name + r'\b'))
            if body:
                model = braces(lines, re.compile(r'^impl(<.*>)? Model for ' + name + r'\b'))
                return path, (model or body), lines
    return None


def braces(lines, head):
    for n, line in enumerate(lines):
        if head.match(line):
            if line.rstrip().endswith(';') or line.rstrip().endswith('}'):
                return [line]
            end = next(k for k in range(n, len(lines)) if lines[k].startswith('}'))
            return lines[n:end + 1]
    return None


class Walk:
    """All that was reached, by file and name."""

    def __init__(self):
        self.specs, self.found, self.std = {}, {}, set()

    def spec(self, path):
        if path not in self.specs:
            self.specs[path] = Spec(path)
        return self.specs[path]

    def add(self, block):
        key = (block.path, block.name)
        if key in self.found:
            return False
        self.found[key] = block
        return True

    def follow(self, text, imports, local=None):
        names = set(NAME.findall(re.sub(r'codes "[^"]*"', '', text)))
        for name in sorted(names):
            if local and name in local.blocks:
                self.take_spec(local, name)
            elif name in imports:
                self.resolve(*imports[name])

    def take_spec(self, spec, name):
        block = spec.blocks[name]
        if self.add(block):
            self.follow(block.text, spec.imports, spec)

    def resolve(self, module, name):
        parts = module.split('.')
        if not os.path.isdir(os.path.join(TOP, parts[0])):
            self.std.add(name)
            return
        if len(parts) > 2 and parts[1] == 'specs' and parts[2] not in ('declared', 'contracts'):
            spec = self.spec('/'.join(parts) + '.antt')
            if name in spec.blocks:
                self.take_spec(spec, name)
            return
        types = [p for p in parts[3:] if p[:1].isupper() and not p.startswith('The')]
        if types:
            self.take_type(parts[0], types[0])

    def take_type(self, crate, name):
        item = rust_item(crate, name)
        if not item:
            return
        path, body, lines = item
        block = Block(path, name, body)
        if not self.add(block):
            return
        imports = {}
        for line in lines:
            take_import(line, imports)
        self.follow(block.text, imports)
        uses = '\n'.join(l for l in lines if re.match(r'\s*use ', l))
        for word in set(NAME.findall(block.text)):
            other = re.search(r'use (crate|\w+)(?:::\w+)*::(?:\{[^}]*\b' + word + r'\b[^}]*\}|' + word + r');', uses)
            source = crate if not other or other.group(1) == 'crate' else other.group(1)
            if word[:1].isupper() and word != name and os.path.isdir(os.path.join(TOP, source)):
                self.take_type(source, word)


def clause_text(lines, function, labels):
    """The clauses of a function, and the bounds of its type parameters."""
    at = next(n for n, l in enumerate(lines) if re.match(r'\s*pub (\(crate\) )?fn ' + function + r'\b', l))
    end = next(n for n in range(at, len(lines)) if lines[n].startswith('{') or lines[n].strip() == '{}')
    text, kept = [], None
    for line in lines[at + 1:end]:
        m = re.match(r'\s*ensures (\w+) \{', line)
        if m or line.strip().startswith(('//', 'requires')):
            kept = m.group(1) if m else None
        if kept in labels:
            text.append(line)
    return text, dict(re.findall(r'(\w+): (\w+)', re.search(r'<(.*)>\(', lines[at]).group(1)) if '<' in lines[at] else [])


def believed(path, function, labels):
    lines = read(path)
    imports = {}
    for line in lines:
        take_import(line, imports)
    text, bounds = clause_text(lines, function, labels)
    walk = Walk()
    walk.add(Block(path, function + ': ' + ', '.join(labels), text))
    walk.follow('\n'.join(text), imports)
    uses = '\n'.join(l for l in lines if re.match(r'\s*use ', l))
    for letter, trait in bounds.items():
        if re.search(r'\b' + letter + r'\.', '\n'.join(text)):
            other = re.search(r'use (\w+)::(?:\{[^}]*\b' + trait + r'\b[^}]*\}|' + trait + r');', uses)
            walk.take_type(other.group(1), trait)
    return walk


def table(walk):
    files = {}
    for (path, _), block in walk.found.items():
        files.setdefault(path, []).append(block)
    return {path: (sum(len(b.lines) for b in blocks), [b.name for b in blocks]) for path, blocks in sorted(files.items())}


def twice(walk):
    """Names that two definitions among these have."""
    by_name = {}
    for (path, name), block in walk.found.items():
        if '/specs/' in path:
            for given in [name] + constructors(block.lines):
                by_name.setdefault(given, set()).add(path)
    return {n: sorted(p) for n, p in by_name.items() if len(p) > 1}


def check(rows, total, walk):
    problems = []
    if total > MOST:
        problems.append(f'{total} lines are more than {MOST}')
    for name, paths in sorted(twice(walk).items()):
        problems.append(f'{name} is defined in {" and in ".join(paths)}')
    with open(os.path.join(TOP, '..', 'docs', 'definitions.md'), encoding='utf-8') as f:
        listed = dict(re.findall(r'^\| `(cd_\w+/\S+)` \| (\d+) \|', f.read(), re.M))
    for path in sorted(set(rows) | set(listed)):
        here, there = rows.get(path, (0, []))[0], int(listed.get(path, 0))
        if here != there:
            problems.append(f'{path}: {here} lines, and docs/definitions.md says {there}')
    return problems


def main(words):
    checking, tabling = words == ['--check'], words == ['--table']
    path, function, labels = ('cd_top/src/command.rt', 'run', ['done']) if checking or tabling or not words else (words[0], words[1], words[2:])
    walk = believed(path, function, labels)
    rows = table(walk)
    total = sum(count for count, _ in rows.values())
    if checking:
        problems = check(rows, total, walk)
        for problem in problems:
            print('docs/believed.py:', problem)
        return 1 if problems else 0
    if tabling:
        for path, (count, names) in rows.items():
            print(f'| `{path}` | {count} | {", ".join(f"`{n}`" for n in names if ":" not in n) or "the clause"} |')
        return 0
    for path, (count, names) in rows.items():
        print(f'{count:5} {path}: {" ".join(names)}')
    print(f'{total:5} lines in all')
    print('words of the standard library:', ' '.join(sorted(w for w in walk.std if w)))
    return 0


if __name__ == '__main__':
    sys.exit(main(sys.argv[1:]))
