#!/usr/bin/env python3
"""Lists what nothing uses in the crates' specs/, proofs/ and src/; run at the repository's root.

    python3 tools/unused.py             declarations that nothing cites and names brought in for nothing; exit status 1 if any
    python3 tools/unused.py --wide      also how many lines of each file are wider than 132 characters
    python3 tools/unused.py --copies    also the longest runs of five or more lines that stand in two places

It reads text and proves nothing. Used are, to begin with, what the check looks up (`F_spec` of proofs/F/Proof.antt, and what is public in
proofs/F/Answers.antt and Invariants.antt), the names of proofs/Claims.antt, and what the clauses and the tactics' lists of src/ and the
must-fail edits name; then what a used declaration names, bare or behind a
module, in its signature, its `unfolding` line or its clauses. A type is used by its constructors too; constructors and fields are
not asked for one by one. A helper below a `where` is asked for in its clause alone. A bound variable counts as a use of the name
that it covers, so what is listed is unused, and something unused may be missing.
"""
import collections
import itertools
import pathlib
import re
import sys

WIDTH, RUN, SHOWN = 132, 5, 20
NAME = r'(?:«[^»\n]*»|[^\s(){}.;,@"«»]+)'
PATH = r'%s(?:\.%s)*' % (NAME, NAME)
# a projection, ` .field`; a name or a path; a mark
WORD = re.compile(r'(?<![^\s(){};,])\.%s|%s|[(){}.;,@]' % (PATH, PATH))
COMMENT = re.compile(r'"(?:\\.|[^"\\])*"|(?<![^\s(){}.;,@])--[^\n]*|\{-.*?-\}', re.S)
MARKS = {'unfoldable', 'abbrev', 'pub', 'axiom'}
USE = re.compile(r'((?:unfoldable |pub )*)use (?:package\.)?([^\s{]+?)(?:\.\{(.*)\})?(?: as (\S+))?')
# a module of a crate, as the crate itself and as others write it
MODULE = re.compile(r'Rattle\.(\w+)\.((?:specs|proofs)\b.*)')
RUST_COMMENT = re.compile(r'\'(?:\\.|[^\'\\])\'|"(?:\\.|[^"\\])*"|//[^\n]*|/\*.*?\*/', re.S)
RUST_USE = re.compile(r'^[ \t]*((?:pub |ghost )?)use ([^;]*);', re.M)
RUST_NAME = re.compile(r'(?<![\w.])(?<!::)[A-Za-z_]\w*')
CLAUSE = re.compile(r'\b(?:requires|ensures|ghost)\b(?:\s+\w+)?\s*[:=]?\s*\{')
HEADER = re.compile(r'\s*(?:(?:unfoldable|pub|ghost) )*(?:use|mod) ')

# a name that a `use` line brings in: an item of a module, or the module itself
Brought = collections.namedtuple('Brought', 'line module item name passed_on')


def cut(pattern, text):
    """A text with spaces for what a pattern finds, so that all else stays at its place."""
    return pattern.sub(lambda found: re.sub(r'[^\n]', ' ', found.group()), text)


def words(text):
    """Names, paths and marks, without projections and without the labels of records and of implicit arguments."""
    found = [word for word in WORD.findall(text) if word[0] != '.' or word == '.']
    return [word for n, word in enumerate(found) if not (found[n - 1:n] in (['{'], [';']) and found[n + 1:n + 2] == ['='])]


def operator(name):
    """The parts that an operator is used by."""
    return {part for part in name.split('◌') if part} if '◌' in name and '«' not in name else set()


def spellings(name):
    """What a use of a name looks like. A `do` block does not show the two operators that it uses."""
    return {name} | operator(name) | ({'do'} if name in ('◌>>=◌', '◌>>◌') else set())


def heads(said):
    """What names and paths begin with; a section, as `(◌+ 1)`, also with its operator."""
    found = {re.match(NAME, word).group() for word in said if re.match(NAME, word)}
    return found.union(*map(operator, found))


def brought(line, text):
    """What a `use` line brings in."""
    marks, module, items, name = USE.fullmatch(text).groups()
    if items is None:
        return [Brought(line, module, None, name or module.split('.')[-1], 'pub' in marks)]
    found = []
    for item in items.replace('syntax ', '').split(','):
        path, _, name = item.strip().partition(' as ')
        inner, _, last = path.rpartition('.')
        if last:
            found.append(Brought(line, module + '.' + inner if inner else module, last, name or last, 'pub' in marks))
    return found


def groups(lines):
    """Lines in groups: each begins at the first line's column, and what stands deeper, or closes a bracket, goes on with it."""
    group = []
    for n, line in lines:
        if line.strip():
            if group and re.match(' *', line).end() <= re.match(' *', group[0][1]).end() and line.strip()[0] not in ')}]':
                yield group
                group = []
            group.append((n, line))
    if group:
        yield group


def where(group):
    """The words of a group up to a line that ends in `where`, and the lines below that."""
    end = next((n for n, (_, line) in enumerate(group, 1) if line.split()[-1] == 'where'), len(group))
    return words('\n'.join(line for _, line in group[:end])), group[end:]


def signature(said):
    """The names before a signature's colon, and what is said after it; no names if it is none."""
    names, depth = [], 0
    for n, word in enumerate(said):
        depth += (word == '{') - (word == '}')
        if depth == 0 and word == ':':
            return names, said[n + 1:]
        if word in ('(', '='):
            break
        if depth == 0 and word not in MARKS and word != '}':
            names.append(word)
    return [], said


class Declaration:
    def __init__(self, line, name, says):
        self.line, self.name, self.says, self.constructors = line, name, set(says), set()


class Proofs:
    """A file of specs/ or proofs/."""

    def __init__(self, path):
        self.path, self.module = path, '.'.join(part for part in path.with_suffix('').parts[1:] if part != 'Lib')
        self.spec = path.name == 'Proof.antt' and path.parent.name + '_spec'
        self.answers = path.name in ('Answers.antt', 'Invariants.antt')
        self.lines = path.read_text().split('\n')
        self.brought, self.brought_in_code, self.declared, self.idle_helpers, self.loose = [], [], {}, [], set()
        self.read(enumerate(cut(COMMENT, '\n'.join(self.lines)).split('\n'), 1), set(), self.declared)
        self.names = {name: d for d in self.declared.values() for name in {d.name} | d.constructors}

    def read(self, lines, around, declared):
        """Reads a block's declarations; `around` is what the parameters of the blocks around it say."""
        last = None
        for group in groups(lines):
            said, below = where(group)
            line, said = group[0][0], [word for word in said if word not in MARKS]
            if said[0] == 'use':
                self.brought += brought(line, ' '.join(' '.join(text for _, text in group).split()))
            elif said[0] == 'module':
                self.read(below, around.union(said), declared)
            elif said[0] == 'mutual':
                self.read(group[1:], around, declared)
            elif said[0] in ('data', 'record'):
                last = declared[said[1]] = Declaration(line, said[1], around.union(said[2:]))
                for member in groups(below):
                    names, says = signature(where(member)[0])
                    last.says.update(says)
                    last.constructors.update(names if said[0] == 'data' else [])
            elif said[0] == 'unfolding' and last:
                last.says.update(said)
            elif said[0] == 'open':
                self.loose.update(said)
            elif said[0] != 'mod' and not said[0].startswith('infix'):
                names, says = (said[1:2], said[2:]) if said[0] == 'ruleset' else signature(said)
                for name in names:
                    last = declared[name] = Declaration(line, name, around.union(says))
                if not names and last:
                    last = declared.get(said[0], last)
                    last.says |= self.clause(set(said), below) - {last.name}

    def clause(self, says, below):
        """What a clause and its helpers say. A helper covers what is brought in under its name."""
        helpers = {}
        self.read(below, set(), helpers)
        for helper in helpers.values():
            others = says.union(*(other.says for other in helpers.values() if other is not helper))
            if not spellings(helper.name) & heads(others):
                self.idle_helpers.append(helper)
        return says.union(*(helper.says for helper in helpers.values())) - set(helpers)


class Source:
    """A file of src/. Its clauses are antt and see its `ghost use` lines alone; its code sees its other `use` lines."""

    def __init__(self, path):
        self.path, self.module, self.spec, self.declared, self.idle_helpers, self.names = path, str(path), None, {}, [], {}
        self.lines = path.read_text().split('\n')
        self.brought, self.brought_in_code, clauses = [], [], []
        text = cut(RUST_COMMENT, '\n'.join(self.lines))
        for found in RUST_USE.finditer(text):
            line, items = text.count('\n', 0, found.end()) + 1, ' '.join(found.group(2).split())
            if found.group(1) == 'ghost ':
                self.brought += brought(line, 'use ' + items)
            elif not found.group(1):
                for item in re.sub(r'.*\{|\}', '', items).split(','):
                    self.brought_in_code.append(Brought(line, items, None, re.split('::| as ', item)[-1].strip(), False))
        text = cut(RUST_USE, text)
        for found in CLAUSE.finditer(text):
            start = end = found.end() - 1
            while end == start or text.count('{', start, end) != text.count('}', start, end):
                end += 1
            clauses.append(text[start:end])
        self.loose = {word for clause in clauses for word in words(clause)}
        # what `#[tactic(auto, using(crate::proofs::M::name))]` names: its crate, empty for the file's own, and the name
        self.listed = {('' if crate == 'crate' else crate, name)
                       for found in re.findall(r'#!?\[tactic\((.*?)\)\]', text, re.S) for crate, name in re.findall(r'(\w+)::[\w:]*::(\w+)', found)}
        for clause in clauses:
            # what stands in a bracket is code
            text = text.replace(clause, ' '.join(re.findall('⟦(.*?)⟧', clause, re.S)))
        self.code = set(RUST_NAME.findall(text))
        self.called = set(re.findall(r'\.(\w+)\(', text))
        # the traits that it declares, with their methods: who calls one of them uses the trait that it brings in
        self.traits = {name: set(re.findall(r'\bfn (\w+)', body)) for name, body in re.findall(r'^pub trait (\w+)[^{]*\{\n(.*?)^\}', text, re.M | re.S)}


def edited():
    """What the must-fail edits write, by file: the names are needed there."""
    said = collections.defaultdict(set)
    for edit in pathlib.Path('crates').glob('*/must-fail/*.edit'):
        file = None
        for line in edit.read_text().split('\n'):
            key, _, rest = line.partition(': ')
            if key == 'file':
                file = edit.parent.parent / rest.strip()
            elif not line.startswith('#'):
                said[file].update(words(rest if key in ('old', 'new') else line))
    return said


def citations(files):
    """Each declaration with those that name it; None stands for whatever else does."""
    modules, cited = {file.module: file for file in files}, {d: set() for file in files for d in file.declared.values()}
    listed = {(crate or file.path.parts[1], name) for file in files if isinstance(file, Source) for crate, name in file.listed}

    def meant(word, scope):
        """The declarations that a name or a path can mean."""
        head, *rest = re.findall(NAME, word)
        # a whole path needs no `use` line
        for module, item in {(head, None)}.union(*(scope[spelling] for spelling in {head} | operator(head))):
            steps = module.split('.') + ([item] if item else rest)
            for n in range(1, len(steps)):
                module = '.'.join(steps[:n])
                crate = MODULE.fullmatch(module)
                file = modules.get('.'.join(crate.groups()) if crate else module)
                if file and steps[n] in file.names:
                    yield file.names[steps[n]]

    for file in files:
        scope = collections.defaultdict(set)
        for name in file.names:
            for spelling in spellings(name):
                scope[spelling].add((file.module, name))
        for b in file.brought:
            for spelling in spellings(b.name):
                # the module may be one below the file's own
                scope[spelling] |= {(b.module, b.item), (file.module + '.' + b.module, b.item)}
        passed_on = {b.name for b in file.brought if b.passed_on}
        for by, said in [(None, file.loose | passed_on)] + [(d, d.says) for d in file.declared.values()]:
            for word in said:
                for d in meant(word, scope) if re.match(NAME, word) else ():
                    if d is not by:
                        cited[d].add(by)
        for d in file.declared.values():
            answer = isinstance(file, Proofs) and file.answers and re.match(r'(?:abbrev |unfoldable )*pub ', file.lines[d.line - 1])
            if d.name == file.spec or answer or file.path.name == 'Claims.antt' or (file.path.parts[1], d.name) in listed:
                cited[d].add(None)
    return cited


def idle(files):
    """A line for each declaration that is not used."""
    cited, used, more = citations(files), {None}, True
    while more:
        more = {d for d, by in cited.items() if d not in used and by & used}
        used |= more
    for file in files:
        for d in sorted([*file.declared.values(), *file.idle_helpers], key=lambda d: d.line):
            if d in file.idle_helpers:
                yield '%s:%d: the clause does not cite its helper `%s`' % (file.path, d.line, d.name)
            elif d not in used and cited[d]:
                by = ', '.join(sorted('`%s`' % other.name for other in cited[d]))
                yield '%s:%d: nothing used cites `%s`, only %s' % (file.path, d.line, d.name, by)
            elif d not in used:
                yield '%s:%d: nothing cites `%s`' % (file.path, d.line, d.name)


def idle_uses(files):
    """A line for each name that a file brings in and does not use."""
    traits = {name: methods for file in files for name, methods in getattr(file, 'traits', {}).items()}
    for file in files:
        said = heads(file.loose.union(*(d.says for d in file.declared.values()))) | {b.module.split('.')[0] for b in file.brought}
        found = [b for b in file.brought if not b.passed_on and b.name != '*' and not spellings(b.name) & said]
        for b in found + [b for b in file.brought_in_code if b.name not in file.code and not traits.get(b.name, set()) & getattr(file, 'called', set())]:
            yield '%s:%d: does not use `%s` of `%s`' % (file.path, b.line, b.name, b.module)


def wide(files):
    """A line for each file with wide lines, the most first. A `use` line is never broken."""
    counts = []
    for file in files:
        lines = [line for line in file.lines if len(line) > WIDTH]
        counts.append((sum(not HEADER.match(line) for line in lines), len(lines), str(file.path)))
    for other, count, path in sorted(counts, key=lambda c: (-c[0], -c[1], c[2])):
        if count:
            yield '%s: %d, and %d `use` lines' % (path, other, count - other)


def copies(files):
    """A line for each run of lines that stands in several places, the longest first. `F-spec` is left out: the check prints it."""
    lines, at, runs, told = [], collections.defaultdict(list), collections.defaultdict(set), set()
    for file in files:
        end = file.declared[file.spec].line - 1 if file.spec in file.declared else None
        for n, line in enumerate(file.lines[:end], 1):
            if line.strip() and not line.strip().startswith('--') and not HEADER.match(line):
                lines.append((line, file.path, n))
        lines.append((None, None, None))
    for n in range(len(lines) - RUN + 1):
        at[tuple(line for line, _, _ in lines[n:n + RUN])].append(n)
    for run, places in at.items():
        for i, j in itertools.combinations(places if None not in run else [], 2):
            if i == 0 or lines[i - 1][0] is None or lines[i - 1][0] != lines[j - 1][0]:
                size = RUN
                while lines[i + size][0] is not None and lines[i + size][0] == lines[j + size][0] and i + size < j:
                    size += 1
                runs[tuple(line for line, _, _ in lines[i:i + size])] |= {i, j}
    for run, places in sorted(runs.items(), key=lambda r: (-len(r[0]), -len(r[1]))):
        # not what a longer run has
        if not told.issuperset(places):
            told.update(n + k for n in places for k in range(len(run)))
            yield '%d lines: %s' % (len(run), ', '.join('%s:%d' % lines[n][1:] for n in sorted(places)))


def main():
    paths = sorted(pathlib.Path('crates').glob('*/*/**/*'))
    proofs = [Proofs(path) for path in paths if path.suffix == '.antt' and path.parts[2] in ('specs', 'proofs')]
    files = proofs + [Source(path) for path in paths if path.suffix == '.rt' and path.parts[2] == 'src']
    said = edited()
    for file in files:
        file.loose |= said[file.path]
    faults = [*idle(files), *idle_uses(files)]
    for line in faults:
        print('unused: ' + line)
    for line in wide(files) if '--wide' in sys.argv else ():
        print('wide: ' + line)
    for line in itertools.islice(copies(proofs), SHOWN) if '--copies' in sys.argv else ():
        print('copies: ' + line)
    if not faults:
        print('unused: nothing')
    sys.exit(1 if faults else 0)


main()
