#!/usr/bin/env python3
"""Writes the definitions into the pages of docs/model, and what other pages count of them.

usage: docs/model/pages.py            writes all that is listed below
       docs/model/pages.py --check    writes nothing; status 1 where something isn't what it would write
       docs/model/pages.py --sizes    prints how many lines of code, contracts, definitions and proofs there are

In a page of docs/model, between a line `<!-- definitions CRATE:MODULE:NAME .. -->` and the next line `<!-- end -->`, stand
the definitions of specs/ to which the named ones unfold, each after those on which it stands, and with them the types of
the code that they name. CRATE:FUNCTION names all that the clauses of a public function cite, :NAME the one definition of
that name, whatever its crate. What stands further up, or on an earlier page, isn't shown again: PAGES is the order in which
pages are read.
In README.md and docs/PROMISES.md each link to a page whose text is `N definitions, M lines` has the numbers of all to
which the first named definitions of the page unfold, and `proves N crates first` has the crates below garage_lab.
In docs/MAP.md the table of crates, between the lines `<!-- crates -->` and `<!-- end -->`, is that of crates.txt, whose
headings are lines `# FLOOR: SUBJECT`.

It reads the text of specs/ by imports: a definition is taken to stand on another one where its text has a word that its
file imports, or that its file defines. Words of the standard library and of the kit's crates are left to the kit.
"""
import os
import re
import sys

TOP = os.path.dirname(os.path.dirname(os.path.dirname(os.path.abspath(__file__))))
PAGES = ['fresh', 'layout', 'transcript', 'blocks', 'items', 'audit', 'map', 'laws']
COUNTED = ['README.md', 'docs/PROMISES.md']
WORD = re.compile(r"(?<![\w.'\-])[A-Za-z_][\w'\-]*(?:\.[A-Za-z_][\w'\-]*)*")
HEAD = re.compile(r'^(\s*)((?:(?:abbrev|unfoldable|pub|record|data) )+)([^\s:({]+)')
TYPE = re.compile(r'^(?:pub(?:\(crate\))? )?(?:struct|enum|type|trait) (\w+)')


def read(path):
    with open(os.path.join(TOP, path), encoding='utf-8') as file:
        return file.read()


class Definition:
    """A definition of specs/, or a type of the code, with the lines that make it."""

    def __init__(self, crate, module, name, path, line):
        self.crate, self.module, self.name, self.path, self.line = crate, module, name, path, line
        self.text = []
        self.comment = []
        self.frames = []
        self.is_type = False

    @property
    def key(self):
        return self.crate, self.module, self.name

    def counted(self):
        return sum(1 for line in self.text if line.strip() and not line.strip().startswith('--'))


class Sources:
    """All definitions of specs/, with what each file imports."""

    def __init__(self):
        self.definitions, self.constructors, self.imports, self.heads, self.types = {}, {}, {}, {}, {}
        for crate in sorted(os.listdir(os.path.join(TOP, 'crates'))):
            self.add_specs(crate)
            self.add_types(crate)
        self.operators = [key for key in self.definitions if '◌' in key[2]]
        self.is_whole = True
        self.add_constructors()

    def add_constructors(self):
        """A constructor of a data type stands for its type."""
        for definition in list(self.definitions.values()):
            if re.match(r'\s*(?:\w+ )*data ', definition.text[0]):
                for line in definition.text[1:]:
                    found = re.match(r"\s+([^\s:({]+) :", line)
                    if found:
                        self.constructors.setdefault((definition.crate, definition.module, found[1]), definition)

    def add_specs(self, crate):
        folder = os.path.join('crates', crate, 'specs')
        for root, folders, files in os.walk(os.path.join(TOP, folder)):
            folders.sort()
            for file in sorted(files):
                if file.endswith('.antt'):
                    path = os.path.relpath(os.path.join(root, file), TOP)
                    module = os.path.relpath(path, folder)[:-5].replace(os.sep, '.')
                    self.add_file(crate, module, path, read(path).split('\n'))

    def add_file(self, crate, module, path, lines):
        names = self.imports[crate, module] = {}
        comment, now, frames = [], None, []
        for number, line in enumerate(lines, 1):
            stripped, indent = line.strip(), len(line) - len(line.lstrip())
            found = re.match(r'(?:pub )?use Rattle\.(\w+)\.specs\.([\w.]+?)(?:\.\{(.*)\}| as (\w+))$', line)
            if found:
                self.add_import(names, *found.groups())
            if stripped and not (now and indent > now.indent):
                while frames and frames[-1][0] >= indent:
                    frames.pop()
            begins = HEAD.match(line) if indent == (frames[-1][0] + 2 if frames else 0) else None
            if begins and begins[3] in ('mod', 'use'):
                begins = None
            if stripped.startswith('--') and not (now and indent > now.indent):
                comment, now = comment + [stripped], None
            elif begins:
                now = Definition(crate, module, begins[3], path, number)
                now.indent, now.comment, now.text, comment = indent, comment, [line], []
                now.frames = [frame for _, frame in frames]
                self.definitions[now.key] = now
            elif re.match(r'module .*where$', stripped):
                frames.append((indent, line))
                comment, now = [], None
            elif not stripped:
                comment = []
            elif now and indent >= now.indent:
                now.text.append(line)
            else:
                comment, now = [], None
        self.heads[path] = self.first_comment(lines)

    @staticmethod
    def first_comment(lines):
        out = []
        for line in lines:
            if not line.startswith('--'):
                break
            out.append(line)
        return out

    @staticmethod
    def add_import(names, crate, module, listed, alias):
        if alias:
            names[alias] = (crate, module, None)
            return
        for word in listed.split(','):
            word, _, other = word.strip().partition(' as ')
            names[other.strip() or word] = (crate, module, word)

    def add_types(self, crate):
        folder = os.path.join('crates', crate, 'src')
        for root, folders, files in os.walk(os.path.join(TOP, folder)):
            folders.sort()
            for file in sorted(files):
                if file.endswith('.rt') and 'tests' not in file:
                    path = os.path.relpath(os.path.join(root, file), TOP)
                    self.add_types_of(crate, path, read(path).split('\n'))

    def add_types_of(self, crate, path, lines):
        self.heads[path] = ['--' + line[3:] for line in lines[:1] if line.startswith('//!')]
        for number, line in enumerate(lines, 1):
            found = TYPE.match(line)
            if not found:
                continue
            module = 'declared.' + os.path.splitext(os.path.basename(path))[0]
            at = Definition(crate, module, found[1], path, number)
            at.is_type = True
            first = number - 1
            while first and (lines[first - 1].startswith('///') or is_attribute(lines, first - 1)):
                first -= 1
            last = number - 1
            while not lines[last].rstrip().endswith((';', '}')) or (lines[last].startswith(' ') and '{' not in lines[number - 1]):
                if lines[last].startswith('}'):
                    break
                last += 1
            if '{' in line and not line.rstrip().endswith('}'):
                last = next(k for k in range(number - 1, len(lines)) if lines[k].startswith('}'))
            at.text = [line for k, line in enumerate(lines[first:last + 1], first) if k >= number - 1 or line.startswith('///')]
            if ' trait ' in ' ' + line:
                at.text = ghosts_of(at.text)
            self.types.setdefault((crate, found[1]), at)

    def type_at(self, crate, module):
        parts = [part for part in module.split('.') if part != 'TheVariants']
        for part in reversed(parts):
            if (crate, part) in self.types:
                return self.types[crate, part]
        return None

    def meant(self, crate, module, word):
        """The definitions that a word of a file stands for."""
        names, parts = self.imports[crate, module], word.split('.')
        if parts[0] in names:
            other, where, name = names[parts[0]]
            if where.startswith('declared'):
                found = self.type_at(other, where if name is None else where + '.' + name)
                return [found] if found else []
            if name is None:
                key = (other, where, parts[1] if len(parts) > 1 else '')
            else:
                key = (other, where, name)
        else:
            key = (crate, module, parts[0])
        found = self.definitions.get(key) or self.constructors.get(key)
        if not found and key[:2] != (crate, module) and key[2] in self.imports.get(key[:2], {}):
            return self.meant(key[0], key[1], key[2])
        return [found] if found else []

    def below(self, definition):
        """What a definition stands on, in the order in which it names it."""
        if definition.is_type:
            return self.below_type(definition)
        out, crate, module = [], definition.crate, definition.module
        operators = [name for name in self.imports[crate, module] if '◌' in name]
        operators += [name for other, where, name in self.operators if (other, where) == (crate, module)]
        for line in definition.frames + definition.text:
            line = re.sub(r'--.*', '', line)
            line = re.sub(r'"[^"]*"', '', line)
            line = re.sub(r"([{;]\s*)[a-z_]\w* =(?!=)", r'\1', line)
            line = re.sub(r'^(\s+pub )[\w\s]+ :', r'\1', line) if line is not definition.text[0] else line
            for word in WORD.findall(line) + [name for name in operators if f" {name.strip('◌')} " in line]:
                out += [other for other in self.meant(crate, module, word) if other.key != definition.key]
        return unique(out)

    def below_type(self, definition):
        text = '\n'.join(re.sub(r'//.*', '', line) for line in definition.text)
        out = []
        for word in re.findall(r'\b[A-Z]\w*', text):
            if word == definition.name:
                continue
            if (definition.crate, word) in self.types:
                out.append(self.types[definition.crate, word])
                continue
            found = re.search(r'use (\w+)::(?:\w+::)*(?:\{[^}]*\b%s\b[^}]*\}|%s\b)' % (word, word), read(definition.path))
            if found and (found[1], word) in self.types:
                out.append(self.types[found[1], word])
        return unique(out)

    def closure(self, roots):
        """All that the roots unfold to, each after those on which it stands."""
        seen, out, stack = set(), [], [(root, None) for root in reversed(roots)]
        while stack:
            definition, rest = stack.pop()
            if rest is None:
                if definition.key in seen:
                    continue
                seen.add(definition.key)
                rest = self.below(definition)
            if rest:
                stack.append((definition, rest[1:]))
                if rest[0].key not in seen:
                    stack.append((rest[0], None))
            else:
                out.append(definition)
        return out


def ghosts_of(lines):
    """Of a trait its ghost members alone."""
    out, before, is_open = [], [], False
    for line in lines:
        if not line.startswith(' '):
            out += [line] * bool(line)
        elif is_open or line.startswith('    ghost '):
            out += before + [line]
            before, is_open = [], not line.rstrip().endswith(';')
        elif line.startswith('    ///'):
            before.append(line)
        else:
            before = []
    return out


def is_attribute(lines, place):
    """The line is one of an attribute, which may go over several lines."""
    while place >= 0 and lines[place].startswith((' ', ')]')):
        place -= 1
    return place >= 0 and lines[place].startswith('#[')


def cited(sources, crate, function):
    """What the clauses of a public function cite."""
    folder = os.path.join('crates', crate, 'src')
    for root, _, files in os.walk(os.path.join(TOP, folder)):
        for file in sorted(files):
            path = os.path.relpath(os.path.join(root, file), TOP)
            text = read(path) if file.endswith('.rt') else ''
            found = re.search(r'^pub fn %s[<(][^\0]*?^\{' % function, text, re.M)
            if found and 'ensures' in found[0]:
                names = {}
                for use in re.findall(r'^ghost use Rattle\.(\w+)\.specs\.([\w.]+?)(?:\.\{([^}]*)\}| as (\w+));', text, re.M):
                    sources.add_import(names, use[0], use[1], use[2], use[3])
                sources.imports[path, ''] = names
                clauses = re.sub(r'//.*', '', found[0])
                return unique([d for word in WORD.findall(clauses) for d in sources.meant(path, '', word) if not d.is_type])
    return []


def named(sources, name):
    """The definitions that a name in a page's mark stands for."""
    key = tuple(name.split(':'))
    if not key[0]:
        found = [d for d in sources.definitions.values() if d.name == key[1]]
        return found if len(found) == 1 else []
    if len(key) == 2:
        return cited(sources, *key)
    return [sources.definitions[key]] if key in sources.definitions else []


def unique(definitions):
    seen, out = set(), []
    for definition in definitions:
        if definition.key not in seen:
            seen.add(definition.key)
            out.append(definition)
    return out


def by_file(definitions):
    """The definitions file by file, a file after those on which it stands, in the order of its lines."""
    files = {}
    for definition in definitions:
        files.setdefault(definition.path, []).append(definition)
    return [(path, sorted(files[path], key=lambda d: d.line)) for path in files]


def ordered(sources, definitions):
    """The definitions in an order in which files stay whole where they can: a file after the files below it."""
    chosen = {d.key: d for d in definitions}
    files = {}
    for definition in definitions:
        files.setdefault(definition.path, []).append(definition)
    needs = {path: [] for path in files}
    for path, group in files.items():
        for definition in sorted(group, key=lambda d: d.line):
            for other in sources.below(definition):
                if other.key in chosen and other.path != path and other.path not in needs[path]:
                    needs[path].append(other.path)
    done, out, active = set(), [], set()

    def visit(path):
        if path in done or path in active:
            return
        active.add(path)
        for other in needs[path]:
            visit(other)
        active.discard(path)
        done.add(path)
        out.extend(sorted(files[path], key=lambda d: d.line))

    for definition in definitions:
        visit(definition.path)
    return out


def shown(definition, frames):
    """The lines of a definition as a page shows them: its comment, the modules whose parameters it has, its text."""
    indent = ' ' * (2 * len(definition.frames))
    kept = 0
    while kept < min(len(frames), len(definition.frames)) and frames[kept] == definition.frames[kept]:
        kept += 1
    return definition.frames[kept:] + [indent + line for line in definition.comment] + definition.text


def times(count, word):
    return f'{count} {word}' if count == 1 else f'{count} {word}s'


def section(sources, roots, earlier, page):
    """The text between the marks of a page, and what it shows."""
    whole = sources.closure(roots)
    specs = [d for d in whole if not d.is_type]
    new = [d for d in whole if d.key not in earlier]
    old = sorted({earlier[d.key] for d in specs if d.key in earlier}, key=PAGES.index)
    places = [f'[{other}]({other}.md)' if other != page else 'further up' for other in old]
    lines = sum(d.counted() for d in specs)
    out = [f'{times(len(specs), "definition")} in {times(lines, "line")}, and {times(len(whole) - len(specs), "type")} of the code that they name.']
    if old:
        out[0] += f' Here stand {sum(1 for d in new if not d.is_type)} of the definitions; the others: ' + ', '.join(places) + '.'
    for path, group in by_file(ordered(sources, new)):
        name = f'Types of {group[0].crate}' if group[0].is_type else f'{group[0].module} of {group[0].crate}'
        lines = ('line ' if len(group) == 1 else 'lines ') + ', '.join(str(d.line) for d in group)
        about = ' '.join(line[2:].strip() for line in sources.heads.get(path, []))
        out += ['', f'**{name}.** {about}'.rstrip(), f'[{path}](../../{path}), {lines}']
        out += ['', '```rust' if group[0].is_type else '```']
        frames = []
        for place, definition in enumerate(group):
            out += [''] * (place > 0) + shown(definition, frames)
            frames = definition.frames
        out.append('```')
    return '\n'.join(out), new


def pages(sources):
    """The text of each page, and how many definitions and lines its first section stands for."""
    texts, counts, earlier = {}, {}, {}
    for page in PAGES:
        path = f'docs/model/{page}.md'
        if not os.path.exists(os.path.join(TOP, path)):
            continue
        out, rest = [], read(path)
        while '<!-- definitions ' in rest:
            before, _, rest = rest.partition('<!-- definitions ')
            names, _, rest = rest.partition(' -->')
            roots = []
            for name in names.split():
                roots += named(sources, name)
                if not named(sources, name):
                    print(f'{path}: there is no {name}', file=sys.stderr)
                    sources.is_whole = False
            text, new = section(sources, roots, earlier, page)
            if page not in counts:
                specs = [d for d in sources.closure(roots) if not d.is_type]
                counts[page] = len(specs), sum(d.counted() for d in specs)
            for definition in new:
                earlier[definition.key] = page
            out.append(f'{before}<!-- definitions {names} -->\n\n{text}\n\n<!-- end -->')
            rest = rest.partition('<!-- end -->')[2]
        texts[path] = ''.join(out) + rest
    return texts, counts


def crates():
    """The headings of crates.txt with their crates, and what each crate stands on."""
    floors, below, at = {}, {}, None
    for line in read('crates.txt').split('\n'):
        heading = re.match(r'# ([\w ]+): ([\w ]+)$', line)
        if heading and 'NAME' not in line:
            at = heading[1], heading[2]
            floors.setdefault(at, [])
        elif line.strip() and not line.startswith('#'):
            name, _, rest = line.partition(':')
            below[name.split()[0]] = rest.split('#')[0].split()
            if at:
                floors[at].append(name.split()[0])
    return floors, below


def below(crate, all_below):
    todo, seen = [crate], set()
    while todo:
        name = todo.pop()
        if name not in seen:
            seen.add(name)
            todo += [other for other in all_below[name] if other in all_below]
    return seen


def crate_table(floors):
    rows, columns = [], []
    for floor, subject in floors:
        rows += [floor] if floor not in rows else []
        columns += [subject] if subject not in columns else []
    order = read('docs/MAP.md').partition('<!-- subjects: ')[2].partition(' -->')[0].split(', ')
    columns.sort(key=lambda c: order.index(c) if c in order else len(order))
    out = ['| | ' + ' | '.join(columns) + ' |', '|---' * (len(columns) + 1) + '|']
    for floor in rows:
        out.append(f'| **{floor}** | ' + ' | '.join(' '.join(floors.get((floor, c), [])) for c in columns) + ' |')
    return '\n'.join(out)


def counted(path, counts, number):
    def with_counts(found):
        page = found[2]
        if page not in counts:
            return found[0]
        return '[{} definitions, {:,} lines]({}{}.md)'.format(*counts[page], found[1], page)
    text = re.sub(r'\[[\d,]+ definitions, [\d,]+ lines\]\(([\w/]*)\b(\w+)\.md\)', with_counts, read(path))
    return re.sub(r'proves \d+ crates first', f'proves {number} crates first', text)


def sizes():
    """Lines without blank ones and comments: of code and of contracts in src, of specs, of proofs; tests beside."""
    total = dict.fromkeys(['code', 'contracts', 'tests', 'definitions', 'proofs'], 0)
    for crate in sorted(os.listdir(os.path.join(TOP, 'crates'))):
        for part in ('src', 'specs', 'proofs'):
            for root, _, files in os.walk(os.path.join(TOP, 'crates', crate, part)):
                for file in files:
                    if file.endswith(('.rt', '.antt')):
                        text = read(os.path.relpath(os.path.join(root, file), TOP))
                        is_test = part == 'src' and (crate.endswith('_tests') or '#[test]' in text)
                        count_lines(total, part, is_test, text)
    return total


def count_lines(total, part, is_test, text):
    open_clause = 0
    for line in text.split('\n'):
        stripped = line.strip()
        if not stripped or stripped.startswith(('//', '--')):
            continue
        if part != 'src':
            total['definitions' if part == 'specs' else 'proofs'] += 1
        elif is_test:
            total['tests'] += 1
        elif open_clause > 0 or re.match(r'(ensures|requires|ghost|invariant|decreases)\b', stripped):
            total['contracts'] += 1
            open_clause = max(0, open_clause + stripped.count('{') - stripped.count('}'))
        else:
            total['code'] += 1


def written(sources):
    """What each file should be."""
    out, counts = pages(sources)
    floors, all_below = crates()
    number = len(below('garage_lab', all_below) & set(all_below))
    for path in COUNTED:
        out[path] = counted(path, counts, number)
    before, mark, rest = read('docs/MAP.md').partition('<!-- crates -->')
    if mark:
        out['docs/MAP.md'] = before + mark + '\n\n' + crate_table(floors) + '\n\n<!-- end -->' + rest.partition('<!-- end -->')[2]
    return out


def main():
    words = sys.argv[1:]
    if words == ['--sizes']:
        for name, count in sizes().items():
            print(f'{name} {count:,}')
        return 0
    if words not in ([], ['--check']):
        print(__doc__, file=sys.stderr)
        return 2
    sources = Sources()
    stale = [(path, text) for path, text in written(sources).items() if text != read(path)]
    for path, text in stale:
        if words:
            print(f'{path} is not what docs/model/pages.py writes: run it', file=sys.stderr)
        else:
            with open(os.path.join(TOP, path), 'w', encoding='utf-8') as file:
                file.write(text)
            print(f'wrote {path}')
    return 1 if words and stale or not sources.is_whole else 0


if __name__ == '__main__':
    sys.exit(main())
