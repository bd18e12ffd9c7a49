#!/usr/bin/env python3
"""Makes the Rust of cargo/proved-tokens, cargo/tokens and dev/workloads from the proved sources of crates/.

    python3 dev/erase             writes the files anew
    python3 dev/erase --check     compares them with what is there, and fails where one differs
    python3 dev/erase --test      tests the eraser itself
    python3 dev/erase --library CHECKOUT FOLDER
                                  makes in FOLDER the package cargo/proved-tokens of another checkout's library: by
                                  these rules, over the files of cargo/proved-tokens here that are by hand

What a rule dropped or renamed is counted on standard error. Where a form is met that no rule knows, each place is told
as FILE:LINE and nothing is written. rules.py has the rules, checks.py what is rejected, known.py the names of std.
"""
import collections
import pathlib
import re
import shutil
import sys

import checks
import contracts
import known
import rules
import selftest
from source import Rejected, Token, text_of, tokens_of

TOP = pathlib.Path(__file__).resolve().parents[2]
PACKAGE = TOP / 'cargo/proved-tokens'
TOOLS = TOP / 'cargo/tokens'
WORKLOADS = TOP / 'dev/workloads'

# The library crates, lowest first, whose text becomes modules of the package.
LIBRARIES = [
    'lexical', 'literal_escaper', 'pm_span', 'pm_token', 'pm_stream', 'token_buffer', 'proc_macro2', 'quoting',
    'explain', 'layout', 'pretty_printer', 'relayout', 'item_tables', 'declarations', 'item_headers',
]
# The crates that only a test of the package takes.
TESTED = ['conformance']
# The record of pretty texts, which another takes.
RECORDED = ['pretty_printer_tests']
# The library's own tests, and the lexer once more with what compares the two, which another test of the package takes.
OWN_TESTS = ['test_helpers', 'lexical_tests', 'pm_token_tests', 'pm_stream_tests', 'token_buffer_tests',
             'quoting_tests', 'declarations_tests', 'item_headers_tests']
# The programs, and the library that they share.
PROGRAMS = ['messages', 'tokens', 'highlight', 'find_calls', 'pretty', 'rust_check', 'same', 'indent', 'outline']
# The jobs that bench/run times, which become a package of their own: nobody installs them.
JOBS = ['workloads']
# What isn't erased: tests within the library, what is for them alone, tests of how many bytes a value takes in Rattle,
# and each `main`, which is by hand.
LEFT_OUT = {'failing.rt', 'sizes.rt', 'main.rt'}
# By hand too: errors whose text and conversions a derive of the toolchain writes.
BY_HAND = {'crates/workloads/src/fails.rt'}


def erased(text, crate, source, package, words=None):
    """The Rust of a source, with the contracts of its functions if there are words for them, and what is rejected."""
    file = rules.File(crate, str(source), tokens_of(text), package)
    if words:
        contracts.put(file, words)
    for rule in rules.RULES[:-1]:
        rule(file)
    rejected = checks.rejections(file)
    rules.RULES[-1](file)
    checks.reject_ghost_left(file.tokens)
    return rules.by_feature(headed(file, source), source), rejected


def headed(file, source):
    """The text of a file, with the line that says what it was made from, and what it imports beside its own imports."""
    names = ', '.join(file.prelude)
    uses = [f'use {file.package.shim}::prelude::{"{%s}" % names if "," in names else names};'] if names else []
    tokens = file.tokens
    at = 0
    while at < len(tokens) and (tokens[at].kind == 'white' or tokens[at].text.startswith('//!')):
        at += 1
    front, rest = text_of(tokens[:at]).rstrip(), text_of(tokens[at:]).rstrip()
    made = f'// Made from {source} by dev/erase: change that file, not this one.'
    heads = [line for part in (file.attributes, uses) if part for line in (*part, '')]
    return '\n'.join([f'{made}\n{front}'.rstrip(), '', *heads, rest]) + '\n'


def is_left_out(path):
    """Whether a source is not erased. Of a crate of tests, the module `tests` is."""
    is_tests = 'tests' in path.with_suffix('').parts and not path.parts[1].endswith('_tests')
    return path.name in LEFT_OUT or is_tests or str(path) in BY_HAND


def erase_all(crates, below, target, counts, problems, names=known.OF_LIBRARY, top=TOP, words=None):
    """The files of these crates of a checkout, which may name these things: from the path of each to its text. Where
    there are words, the functions have their contracts on their pages."""
    package = rules.Package(counts, crates, below, names)
    sources = {}
    for crate in crates + below:
        for path in sorted((top / 'crates' / crate / 'src').rglob('*.rt')):
            if not is_left_out(path.relative_to(top)):
                sources[path] = crate
    tokens = {}
    for path in list(sources):
        try:
            tokens[path] = tokens_of(path.read_text())
        except Rejected as error:
            problems.append(f'{path.relative_to(top)}:{error.line}: {error.what}')
            del sources[path]
    code = {path: [Token(t.kind, t.text, t.line) for t in tokens[path] if t.kind not in ('clause', 'ghost')]
            for path in sources}
    for path, crate in sources.items():
        package.learn(code[path], crate)
    for path in sources:
        package.learn_fields(code[path])
    out = {}
    for path, crate in sources.items():
        if crate not in crates:
            continue
        source = path.relative_to(top)
        inside = path.relative_to(top / 'crates' / crate / 'src').with_suffix('.rs')
        place = target / f'{crate}.rs' if str(inside) == 'lib.rs' else target / crate / inside
        try:
            out[place], rejected = erased(path.read_text(), crate, source, package, words)
            problems += [f'{source}:{line}: {what}' for line, what in rejected]
        except Rejected as error:
            problems.append(f'{source}:{error.line}: {error.what}')
    return out


def compare(files, folders):
    """The paths at which what is made and what is there differ."""
    there = {path for folder in folders for path in folder.rglob('*.rs')}
    return sorted(str(path.relative_to(TOP)) for path in there | set(files)
                  if path not in files or not path.exists() or path.read_text() != files[path])


def reject(problems):
    if problems:
        print('\n'.join(problems))
        sys.exit(f'{len(problems)} places are rejected: dev/erase has no rule for them')


def write(files):
    for path, text in files.items():
        path.parent.mkdir(parents=True, exist_ok=True)
        path.write_text(text)


def make_library(checkout, folder):
    """Makes in a folder the package cargo/proved-tokens of the library crates that a checkout has."""
    crates, problems = [crate for crate in LIBRARIES if (checkout / 'crates' / crate).is_dir()], []
    files = erase_all(crates, [], folder / 'src', collections.Counter(), problems, top=checkout)
    reject(problems)
    # A crate that an older checkout does not have is an empty module.
    files.update({folder / 'src' / f'{crate}.rs': '' for crate in LIBRARIES if crate not in crates})
    made = {PACKAGE / 'src' / name for crate in LIBRARIES for name in (crate, f'{crate}.rs')}
    made |= {PACKAGE / name for name in ('target', 'Cargo.lock')}
    shutil.copytree(PACKAGE, folder, dirs_exist_ok=True,
                    ignore=lambda at, names: [name for name in names if pathlib.Path(at, name) in made])
    write(files)
    show_errors(folder / 'src')


def show_errors(source):
    """Lets Rust's `Error`, which is by hand, be of errors that an older checkout doesn't print: each is then shown."""
    errors = source / 'native/errors.rs'
    written = ' '.join(path.read_text() for path in source.rglob('*.rs'))
    rows = re.findall(r'^( +#\[cfg.*\]\n)? +((?:\w+::)*(\w+))(?: \{[ \w]*\})?;$', errors.read_text(), re.M)
    for attribute, path, name in rows:
        if re.search(rf'impl Display for {name}\b|display!\(\s*{name}\b', written) is None:
            errors.write_text(f'{errors.read_text()}\n{attribute.strip()}\nimpl core::fmt::Display for {path} {{\n'
                              '    fn fmt(&self, f: &mut core::fmt::Formatter<\'_>) -> core::fmt::Result {\n'
                              '        core::fmt::Debug::fmt(self, f)\n    }\n}\n')


def main():
    if sys.argv[1:] == ['--test']:
        sys.exit(selftest.run())
    if sys.argv[1:2] == ['--library'] and len(sys.argv) == 4:
        make_library(pathlib.Path(sys.argv[2]).resolve(), pathlib.Path(sys.argv[3]))
        return
    if sys.argv[1:] not in ([], ['--check']):
        sys.exit(__doc__)
    counts, problems = collections.Counter(), []
    words = contracts.Words()
    words.learn_all(TOP / 'crates')
    files = erase_all(LIBRARIES, [], PACKAGE / 'src', counts, problems, words=words)
    files[PACKAGE / 'src/contracts.rs'] = words.page()
    files.update(erase_all(TESTED, LIBRARIES, PACKAGE / 'tests/conformance', counts, problems))
    files.update(erase_all(RECORDED, LIBRARIES, PACKAGE / 'tests/pretty', counts, problems))
    files.update(erase_all(OWN_TESTS, LIBRARIES, PACKAGE / 'tests/own', counts, problems, known.OF_TESTS))
    files.update(erase_all(PROGRAMS, LIBRARIES, TOOLS / 'src', counts, problems))
    files.update(erase_all(JOBS, LIBRARIES, WORKLOADS / 'src', counts, problems, known.OF_JOBS))
    reject(problems)
    folders = [PACKAGE / 'src' / crate for crate in LIBRARIES]
    folders += [PACKAGE / 'tests/conformance' / crate for crate in TESTED]
    folders += [PACKAGE / 'tests/pretty' / crate for crate in RECORDED]
    folders += [PACKAGE / 'tests/own' / crate for crate in OWN_TESTS]
    folders += [TOOLS / 'src' / crate for crate in PROGRAMS]
    folders += [WORKLOADS / 'src' / crate for crate in JOBS]
    if sys.argv[1:] == ['--check']:
        differing = compare(files, folders)
        for path in differing:
            print(f'{path}: not what dev/erase makes')
        sys.exit(f'{len(differing)} files differ: run python3 dev/erase' if differing else 0)
    for folder in folders:
        for path in folder.rglob('*.rs'):
            path.unlink()
    write(files)
    for name, number in counts.most_common():
        print(f'{number:6} {name}', file=sys.stderr)


main()
