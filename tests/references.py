#!/usr/bin/env python3
"""Checks that what the documents point to is there; run at the repository's root.

Of docs/*.md (but for PORT.md and DESIGN-PASS.md) and README.md, one line of text at a time:

    walk/Walk: `even`, `next`          definitions of crates/walk/specs/Walk.antt
    walk/src: `Strip`                  a type or constant of crates/walk/src
    walk/proofs/Laws: `even_bound`     a law of crates/walk/proofs/Laws.antt
    `walk::Strip::is_over`             a function, constant, type or method of crates/walk/src
    `walk/enabled_of_zoom`             crates/walk/must-fail/enabled_of_zoom.edit
    test_frames: `heights`             a function of tests/test_frames.py
    test_bus: "over 3FFF"              words of the script or of the crate
    `docs/SPEED.md`, `make demo`       a file, a target of the Makefile

And of docs/PROMISES.md: its rows are the public functions, each once, but for those that it says are run.
"""
import pathlib
import re
import sys

CRATES = pathlib.Path('crates')
NAMES = r'((?:`[^`]+`(?: \([^)]*\))?(?:, )?)+)'
DECLARED = re.compile(r'^\s*(?:(?:abbrev|unfoldable|pub) )*(?:(?:record|data) )?([^\s:({=]+)\s*(?=[:({])')
seen, faults = 0, []


def text(paths):
    """The texts of some files, joined."""
    return '\n'.join(path.read_text(errors='ignore') for path in sorted(paths) if path.is_file())


def code(crate):
    return text(CRATES.joinpath(crate, 'src').rglob('*.rt'))


def declares(path):
    """The names that a file of definitions or laws declares, fields and constructors too."""
    lines = [line for line in path.read_text().split('\n') if not line.strip().startswith('--') and not line.startswith('use ')]
    return {found.group(1) for found in map(DECLARED.match, lines) if found}


def is_defined(crate, folder, name):
    if folder == 'src':
        return re.search(r'\b(?:struct|enum|const) %s\b' % name, code(crate))
    path = CRATES / crate / ('%s.antt' % folder if folder.startswith('proofs/') else 'specs/%s.antt' % folder)
    return path.is_file() and name in declares(path)


def is_code(crate, kind, name):
    if not kind:
        return re.search(r'\b(?:fn|const|struct|enum|mod) %s\b' % name, code(crate))
    bodies = re.findall(r'(?:impl(?:<[^>]*>)?|enum) %s(?:<[^>]*>)? \{(.*?)\n\}' % kind, code(crate), re.S)
    return any(re.search(r'\b%s\b' % name, body) for body in bodies)


def words(script):
    """A test's texts in one line, without comment marks."""
    found = text([pathlib.Path('tests/%s.py' % script)] + list(CRATES.joinpath(script).rglob('*.rt')))
    return re.sub(r'[\s#/]+', ' ', found).lower()


def references(line):
    """Each reference of a line, and whether it is there."""
    for crate, folder, names in re.findall(r'\b([a-z_]+)/((?:proofs/)?[A-Za-z]+): ' + NAMES, line):
        for name in re.findall(r'`([^`]+)`', re.sub(r'\([^)]*\)', '', names)):
            yield '%s/%s: %s' % (crate, folder, name), is_defined(crate, folder, name)
    for crate, kind, name in re.findall(r'`([a-z_]+)::(?:([A-Z]\w*)::)?(\w+)`', line):
        yield '%s::%s' % (crate, name), is_code(crate, kind, name)
    for crate, name in re.findall(r'`([a-z_]+)/([a-z_0-9-]+)`', line):
        if CRATES.joinpath(crate).is_dir():
            yield '%s/%s' % (crate, name), CRATES.joinpath(crate, 'must-fail', name + '.edit').is_file()
    for names in re.findall(r'test_frames: ((?:`[^`]+`(?:, )?)+)', line):
        for name in re.findall(r'`([^`]+)`', names):
            yield 'test_frames: ' + name, 'def %s(' % name in pathlib.Path('tests/test_frames.py').read_text()
    for script, quotes in re.findall(r'(test_(?:bus|feed|bench|pages|pixel)): ((?:"[^"]+"(?:, )?)+)', line):
        for quote in re.findall(r'"([^"]+)"', quotes):
            yield '%s: "%s"' % (script, quote), quote.lower() in words(script)
    for path in re.findall(r'`((?:docs|crates|tests|tools|include|examples|compare|ports)/[\w./-]+)`', line):
        yield path, pathlib.Path(path).exists()
    for target in re.findall(r'`make ([a-z-]+)', line):
        yield 'make ' + target, re.search(r'^%s\b[^=]*:' % target, pathlib.Path('Makefile').read_text(), re.M)


def public():
    """Each public function as crate, type, trait or '', and name; a public trait's, and std's of a public type, too."""
    ours = re.findall(r'^(?:pub(?:\(crate\))? )?trait (\w+)', text(CRATES.glob('*/src/**/*.rt')), re.M)
    for path in sorted(CRATES.glob('*/src/**/*.rt')):
        crate, kind, marked = path.parts[1], '', True
        for line in path.read_text().split('\n'):
            if found := re.match(r'pub trait (\w+)', line):
                kind, marked = found.group(1), False
            elif found := re.match(r'impl(?:<[^>]*>)? (\w+)(?:<.*>)? for (\w+)', line):
                kind = found.group(2)
                marked = found.group(1) in ours or not re.search(r'^pub (?:struct|enum) %s\b' % kind, code(crate), re.M)
            elif found := re.match(r'impl(?:<[^>]*>)? (\w+)', line):
                kind = found.group(1)
            elif line.startswith('}'):
                kind, marked = '', True
            elif found := re.match(r'\s*%s\bfn (\w+)' % (r'pub\b(?!\().*' if marked else r'(?:\w+ )*'), line):
                yield crate, kind, found.group(1)


def promised(lines, functions):
    """The functions of the rows. A name alone belongs with the one before it, or to the crate of the section."""
    owners, rows = {kind: crate for crate, kind, _ in functions if kind}, False
    for line in lines:
        if line.startswith('## '):
            crate, kind = (re.findall(r'\(crate `(\w+)`', line) or [''])[0], ''
        rows = line.startswith('|') and (rows or line.startswith('| Function'))
        for name in re.findall(r'`([\w:]+)`', line.split('|')[1]) if rows else []:
            *scope, name = name.split('::')
            if scope:
                kind = scope[-1] if scope[-1][0].isupper() else ''
                crate = owners.get(kind, '') if kind == scope[0] else scope[0]
            yield crate, kind, name


functions = list(public())
lines = pathlib.Path('docs/PROMISES.md').read_text().split('\n')
rows = list(promised(lines, functions))
run = {found for line in lines if ' is run' in line for found in re.findall(r'`(\w+)::(\w+)`', line.split(' is run')[0])}
seen += len(rows)
for each in sorted(set(rows) | set(functions)):
    if each not in functions or rows.count(each) != ((each[0], each[2]) not in run):
        name, is_ = '::'.join(filter(None, each)), '' if each in functions else 'not '
        faults.append('docs/PROMISES.md: %s is %spublic and has %d rows' % (name, is_, rows.count(each)))

# PORT.md names what the older kit had, DESIGN-PASS.md what went with the older forms
for document in sorted(set(pathlib.Path('docs').glob('*.md')) - {pathlib.Path('docs/PORT.md'), pathlib.Path('docs/DESIGN-PASS.md')}) + [pathlib.Path('README.md')]:
    for number, line in enumerate(document.read_text().split('\n'), 1):
        for what, there in references(line):
            seen += 1
            if not there:
                faults.append('%s:%d: %s' % (document, number, what))
for fault in faults:
    print('references: ' + fault)
print('references: %d, of which %d are not there' % (seen, len(faults)))
sys.exit(1 if faults or not seen else 0)
