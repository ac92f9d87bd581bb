#!/usr/bin/env python3
"""Gives the repository's own definitions and lemmas the spelling of today's library; run once, at the root, after port.py.

    python3 tools/spelling.py            the names of tools/spelling.tsv: old, a tab, new

Words are in snake case, types and modules in camel case. A dash joins the names of two definitions, as in `value-bind`, and a plain word
is added with an underscore, as in `even_bound`. A lemma that would have the name of what it speaks of ends in `_lem`. Whole words turn,
in specs/, proofs/, the clauses and `ghost use` items of src/, and the code spans of comments and of README.md and docs/*.md (not of
docs/changes/, which speaks of its own time). In the proof of a function a name with a dash turns only if the file brings it in: the prover made the others.
Functions of src/, exported names, strings, inputs and outputs stay.
"""
import pathlib
import re

WORD = re.compile(r'[^\s(){}.;,@"«»`:]+')
TABLE = dict(line.split('\t') for line in pathlib.Path('tools/spelling.tsv').read_text().splitlines())
# A function of src/ has this name too: it turns in the proofs of one crate alone.
LEMMA, WHERE = 'lines_left', 'crates/pixel/proofs'
# No file of specs/ may have this name any more.
MODULES = {'crates/line/specs/Contracts.antt': 'crates/line/specs/Promises.antt'}


def turned(text, imported=None):
    """The text, turned; of a function's proof, where `imported` is given, a word with a dash only if it is brought in."""
    def by(found):
        word, start = found.group(), found.start()
        if imported is not None and '-' in word and (word not in imported or text[start - 1:start] == '.'):
            return word
        return TABLE.get(word, word)
    return WORD.sub(by, text)


def spans(text):
    """Code spans alone."""
    return re.sub(r'`[^`\n]+`', lambda found: turned(found.group()), text)


def of_antt(text, function):
    imported = set(re.findall(WORD, ' '.join(re.findall(r'^use [^{\n]*\{([^}]*)\}', text, re.M)))) if function else None
    lines = []
    for line in text.split('\n'):
        code, mark, comment = (line, '', '') if '--' not in line else ('', '--', line[2:]) if line.startswith('--') else re.match(r'(.*?)((?<=\s)--(?=\s)|$)(.*)$', line).groups()
        lines.append(turned(code, imported) + mark + spans(comment))
    return '\n'.join(lines)


def of_code(text):
    lines = []
    for line in text.split('\n'):
        at = line.find('//')
        code, comment = (line, '') if at < 0 else (line[:at], line[at:])
        lines.append(turned(code) + spans(comment))
    return '\n'.join(lines)


def main():
    for old, new in MODULES.items():
        if pathlib.Path(old).is_file():
            pathlib.Path(old).rename(new)
    lemma = TABLE.pop(LEMMA)
    for path in sorted(pathlib.Path('crates').rglob('*')):
        if path.suffix not in ('.antt', '.rt') or 'out' in path.parts:
            continue
        TABLE.pop(LEMMA, None)
        if str(path).startswith(WHERE):
            TABLE[LEMMA] = lemma
        text = path.read_text()
        if path.suffix == '.rt':
            new = of_code(text)
        else:
            new = of_antt(text, 'proofs' in path.parts and path.parts.index('proofs') < len(path.parts) - 2)
        crate = path.parts[1]
        if crate == 'line' and path.name == 'Lib.antt':
            new = new.replace('pub mod Contracts', 'pub mod Promises')
        new = new.replace('Rattle.line.specs.Contracts.', 'Rattle.line.specs.Promises.')
        if new != text:
            path.write_text(new)
    TABLE.pop(LEMMA, None)
    for path in [pathlib.Path('README.md')] + sorted(pathlib.Path('docs').glob('*.md')):
        path.write_text(spans(path.read_text()))


main()
