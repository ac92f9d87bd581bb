#!/usr/bin/env python3
"""Checks that every claim is tied to its proof; run at the repository's root.

A claim is a closed type in a crate's specs/ that says something: an abbreviation `NAME : Type`, or a record `NAME : Type` that is not
plain data (each field a number, a list of numbers, another named type, or an Option or a Result of these). Each crate with claims has one file proofs/Claims.antt that
gives each of them a name of exactly its type and nothing else:

    pub one_page : OnePage
    one_page = proof.one_page

so the prover holds each name to the type that specs/ has. Checked here: every claim has its line, every line has the bare name of a
claim that its own specs/ declares, nothing else stands in the file, and docs/PROMISES.md lists the same lines.
"""
import pathlib
import re
import sys

ABBREVIATION = re.compile(r'^(?:(?:unfoldable|abbrev) )*pub (\S+) : Type \d+$')
RECORD = re.compile(r'^pub record (\S+) : Type \d+ where$')
FIELD = re.compile(r'^  pub (?:\S+ )+: (.*)$')
PLAIN = re.compile(r'^(?:Result [^\W\d_]\w* |(?:(?:List|Option) )*)\(?(?:List )*[^\W\d_]\w*\)?$')
USE = re.compile(r'^use (\S+?)(?:\.\{([^}]*)\})?(?: as \S+)?$')
NAMED = re.compile(r'^pub (\S+) : (\S+)$')
IS = re.compile(r'^(\S+) = \S+$')
LISTED = re.compile(r'`([^`\s]+) : ([^`\s]+)`')

faults = []


def fault(place, what):
    faults.append('%s: %s' % (place, what))


def claims_of(path):
    """The claims that a file of specs/ declares."""
    lines = path.read_text().split('\n')
    for n, line in enumerate(lines):
        named = ABBREVIATION.match(line)
        if named:
            yield named.group(1)
        record = RECORD.match(line)
        if record:
            body = []
            for later in lines[n + 1:]:
                if later and not later.startswith(' '):
                    break
                body.append(later)
            fields = [field.group(1) for field in map(FIELD.match, body) if field]
            if not all(PLAIN.match(field) for field in fields):
                yield record.group(1)


def named_claims(path, crate):
    """The lines of a proofs/Claims.antt: each name with its type, and the module of specs/ that the type is brought in from."""
    brought, given, waiting = {}, [], None
    for n, line in enumerate(path.read_text().split('\n'), 1):
        place = '%s:%d' % (path, n)
        if not line.strip() or line.startswith('--'):
            continue
        use, named, is_ = USE.match(line), NAMED.match(line), IS.match(line)
        if waiting is not None:
            if not is_ or is_.group(1) != waiting:
                fault(place, 'expected `%s = PROOF`' % waiting)
            waiting = None
        elif use:
            own = re.match(r'^Rattle\.%s\.specs\.(\S+)$' % crate, use.group(1))
            for name in (use.group(2) or '').split(','):
                if own and name.strip():
                    brought[name.strip()] = own.group(1)
        elif named:
            given.append((named.group(1), named.group(2), place))
            waiting = named.group(1)
        else:
            fault(place, 'only `use`, `pub NAME : CLAIM` and `NAME = PROOF` stand here')
    if waiting is not None:
        fault(path, 'expected `%s = PROOF`' % waiting)
    return brought, given


def main():
    listed = set()
    promises = pathlib.Path('docs/PROMISES.md')
    for line in promises.read_text().split('\n'):
        crate = re.match(r'^\| `(\w+)` \|', line)
        if crate:
            listed |= {(crate.group(1), name, claim) for name, claim in LISTED.findall(line)}
    stated = set()
    for crate in sorted(path for path in pathlib.Path('crates').iterdir() if path.is_dir()):
        where = {}
        for path in sorted((crate / 'specs').glob('*.antt')):
            for claim in claims_of(path):
                where[claim] = path.stem
        file = crate / 'proofs' / 'Claims.antt'
        if not where and not file.exists():
            continue
        if not file.exists():
            fault(crate, 'has claims (%s) and no proofs/Claims.antt' % ', '.join(sorted(where)))
            continue
        lib = crate / 'proofs' / 'Lib.antt'
        if 'pub mod Claims' not in lib.read_text().split('\n'):
            fault(lib, 'does not have `pub mod Claims`')
        brought, given = named_claims(file, crate.name)
        for name, claim, place in given:
            if claim not in where:
                fault(place, '`%s` is no claim of specs/' % claim)
            elif brought.get(claim) != where[claim]:
                fault(place, '`%s` is not brought in from specs/%s.antt' % (claim, where[claim]))
            if any(other == (crate.name, name, claim) for other in stated):
                fault(place, '`%s : %s` stands twice' % (name, claim))
            stated.add((crate.name, name, claim))
        for claim in sorted(set(where) - {claim for _, claim, _ in given}):
            fault(file, 'no line for `%s` of specs/%s.antt' % (claim, where[claim]))
    for crate, name, claim in sorted(stated - listed):
        fault(promises, 'does not list `%s : %s` of crate %s' % (name, claim, crate))
    for crate, name, claim in sorted(listed - stated):
        fault(promises, 'lists `%s : %s` of crate %s, which is not there' % (name, claim, crate))
    for text in faults:
        print('claims: ' + text)
    if not faults:
        print('claims: %d, each tied to its proof and listed in docs/PROMISES.md' % len(stated))
    sys.exit(1 if faults else 0)


main()
