"""The contracts of public functions in their doc comments, and the page that says what their words mean.

A word is what a clause names of `specs/`. The one-line comment over its definition there is its line on the page
`contracts` of the package. The files of `specs/` are read once. A word without a line is rejected. So is a name of
which it isn't plain what it means: no word, no parameter, nothing that the clause binds, and no item of the library.
"""
import pathlib
import re

from source import Rejected, Token, is_code

# Lines for the words of Rattle's own library, whose definitions aren't in this repository: `NAME: what it means`.
STD_LINES = pathlib.Path(__file__).parent / 'std_words.txt'
# How the page begins.
PAGE_HEAD = pathlib.Path(__file__).parent / 'contracts_head.txt'

DEFINED = re.compile(r"(?:(?:abbrev|unfoldable|opaque) )*pub (?:(record|data) )?(\w[\w']*) [:({]")
MADE_BY = re.compile(r"(\w[\w']*) : ")
SHOWN_AGAIN = re.compile(r'pub use Rattle\.(\w+)\.specs\.([\w.]+)$')
IMPORT = re.compile(r'ghost\s+use\s+([\w.]+?)(?:\.\{(.*)\}|\s+as\s+(\w+))?\s*;', re.S)
GHOST = re.compile(r'ghost\s+(\w+)\s*[:=]')
CLAUSE = re.compile(r'(requires|ensures)\s*(\w+)?\s*\{(.*)\}', re.S)
# A name with what stands before it: a point makes it a field's, or an alias and a point a word of that module.
NAME = re.compile(r"(?<![\w.'])(?:([a-z_]\w*)\.)?([A-Za-z_][\w']*)|\"(?:\\.|[^\"\\])*\"")
BINDERS = re.compile(r'λ ([\w ]+)\.|[({]([\w ]+) : |let (\w+) |(\w+) = ')
KEYWORDS = {'as', 'else', 'if', 'in', 'let', 'record', 'result', 'self', 'Self', 'then', '_'}
# What clauses name without an import: of Rattle's own library, and of Rust its traits, and types named by one letter.
GIVEN = {name: ('Rattle.std.specs.Prelude', name) for name in ('Err', 'None', 'Ok', 'Some')}
RUST = {'Hash', 'Ord', 'Ordering', 'PartialEq', 'PartialOrd', *'ABCDEFGHIJKLMNOPQRSTUVWXYZ'}
# A line of an item may have so many columns: those of methods are indented by four more, and a mark such as `++`, which
# must not begin a line, may follow.
WIDTH = 112


class Words:
    """The lines of all words, by module and name, and those words that clauses name."""

    def __init__(self):
        self.lines = {('std', name): line for name, _, line in
                      (row.partition(': ') for row in STD_LINES.read_text().splitlines())}
        self.again = {}
        self.named = {}

    def learn_all(self, crates):
        """Takes note of the definitions of all crates in a folder."""
        for path in sorted(crates.glob('*/specs/**/*.antt')):
            crate, _, *inside = path.relative_to(crates).with_suffix('').parts
            self.learn(crate, '.'.join(inside), path.read_text())

    def learn(self, crate, module, text):
        """Takes note of the definitions of a file. What a type of data is made by has the type's line, or its own."""
        line, over, kind, depth = [], '', None, 0
        for row in text.splitlines():
            inside = row.lstrip()
            if inside.startswith('-- '):
                line.append(inside[3:])
                continue
            again = SHOWN_AGAIN.match(row)
            if again:
                self.again[crate, again[2].rpartition('.')[2]] = again[1], again[2]
            # What is further in than a type's first line is its fields, or what it is made by.
            if inside and len(row) - len(inside) <= depth:
                kind = None
            defined, made = DEFINED.match(inside), MADE_BY.match(inside)
            if defined and not kind:
                over, kind, depth = ' '.join(line), defined[1], len(row) - len(inside)
                self.lines[f'{crate}.{module}', defined[2]] = over
            elif made and kind == 'data':
                self.lines[f'{crate}.{module}', made[1]] = ' '.join(line) or over
            line = []

    def word(self, path, name):
        """The module of a word, and its name there, that a file imports by this path; nothing for an item of Rust."""
        _, crate, _, *rest = [*path.split('.'), '', '']
        module = '.'.join(part for part in rest if part)
        if module.split('.')[0] in ('declared', 'contracts'):
            return None
        if crate == 'std':
            return 'std', name
        crate, module = self.again.get((crate, module), (crate, module))
        return f'{crate}.{module}', name

    def place(self, word, line):
        """The place on the page of a word that a clause names on this line."""
        if not self.lines.get(word):
            raise Rejected(line, f'the word `{word[1]}` of {word[0]}, which has no line over its definition')
        self.named[word] = self.lines[word]
        return '.'.join(word)

    def page(self):
        """The text of the page with all words that were named."""
        out = [PAGE_HEAD.read_text().rstrip()]
        crate = ''
        rows = sorted((module.split('.')[0], name, module, line) for (module, name), line in self.named.items())
        for of, name, module, line in sorted(rows, key=lambda row: row[0] != 'std'):
            if of != crate:
                crate = of
                title = "Words of Rattle's own library" if crate == 'std' else f'Words of `{crate}`'
                out += ['//!', f'//! # {title}', '//!']
            parts = enumerate(re.split('(`.*?`)', line))
            text = ''.join(part if number % 2 else escaped(part).replace("\\'", "'") for number, part in parts)
            out += wrapped(f'- <a id="{module}.{name}"></a>**{escaped(name)}**: {text}', '//! ')
        return '\n'.join(out) + '\n'


def escaped(text):
    """A text as Markdown shows it: each character as it is."""
    text = re.sub(r'[\\`*\[\]\'"~|$]|(?<![^\W_])_|_(?![^\W_])', lambda found: '\\' + found[0], text)
    return text.replace('&', '&amp;').replace('<', '&lt;').replace('>', '&gt;').replace('--', '\\-\\-')


def wrapped(item, front):
    """The lines of an item of a list, none of which begins with what begins another item, a heading or a quote."""
    lines, row = [], ''
    for word in item.split(' '):
        full = row and len(front) + len(row) + 1 + len(word) > WIDTH
        if full and not re.fullmatch(r'[-+*=#]+|\d+[.)]', word):
            lines.append(row)
            row = '  ' + word
        else:
            row = f'{row} {word}' if row else word
    return [front + row for row in [*lines, row]]


def imported(token):
    """The names that a ghost import gives, each with the path of its module and its name there, and the modules."""
    form = IMPORT.fullmatch(token.text)
    if not form:
        return {}, {}
    path, names, alias = form.groups()
    if names is None:
        return {}, {alias or path.rpartition('.')[2]: path}
    pairs = [part.split(' as ') for part in re.split(r'\s*,\s*', names.strip()) if part]
    return {pair[-1].strip(): (path, pair[0].strip()) for pair in pairs}, {}


def is_public(tokens, at):
    """Whether the item whose keyword is at this index has `pub` before it."""
    at -= 1
    while at > 0 and (not is_code(tokens[at]) or tokens[at].text == 'const'):
        at -= 1
    return tokens[at].text == 'pub'


def head_of(tokens, at):
    """The clauses of the function at this index, the names of its parameters, and all names in its head."""
    clauses, parameters, names, depth = [], set(), set(), 0
    for index in range(at, len(tokens)):
        token = tokens[index]
        if token.kind == 'mark' and depth == 0 and token.text in '{;':
            break
        if token.kind == 'mark':
            depth += (token.text in '([') - (token.text in ')]')
        if token.kind == 'clause':
            clauses.append(token)
        elif token.kind == 'name':
            names.add(token.text)
            if tokens[index + 1].text == ':' and tokens[index + 2].text != ':':
                parameters.add(token.text)
    return clauses, parameters, names


class Head:
    """What a clause of a function may name: words by the names that are imported, modules by theirs, and the rest."""

    def __init__(self, names, modules, parameters, others, words):
        self.names = {name: word for name, word in names.items() if name not in parameters}
        self.modules = modules
        self.others = parameters | others | KEYWORDS
        self.words = words
        self.links = {}

    def word(self, alias, name, bound, line):
        """The word that a name means after an alias of a module, or nothing where it is none."""
        if alias in self.modules:
            return self.words.word(self.modules[alias], name)
        first = alias or name
        if first in bound:
            return None
        if first in self.names:
            return None if alias else self.words.word(*self.names[first])
        if first not in self.others:
            raise Rejected(line, f'the name `{first}` in a clause, of which nothing says what it is')
        return None

    def linked(self, word, name, line):
        """The link to a word. Markdown takes labels for one that differ in capitals alone, so these have no label."""
        place = self.words.place(word, line)
        label = next((label for label in self.links if label.lower() == name.lower()), name)
        if label == name and self.links.setdefault(name, place) == place:
            return f'[{name}]'
        return f'[{name}](crate::contracts#{place})'

    def shown(self, clause):
        """A clause as lines of a doc comment: an item of a list, with a link of each word."""
        kind, label, body = CLAUSE.fullmatch(clause.text).groups()
        body = ' '.join(body.split())
        bound = {name for found in BINDERS.finditer(body) for part in found.groups() if part for name in part.split()}
        out, done = [], 0
        for found in NAME.finditer(body):
            alias, name = found.groups()
            word = name and self.word(alias, name, bound, clause.line)
            if word:
                out += [escaped(body[done:found.start(2)]), self.linked(word, name, clause.line)]
                done = found.end(2)
        text = ''.join(out) + escaped(body[done:])
        return wrapped(f'- `{kind}{" " + label if label else ""}`: <code>{text}</code>', '/// ')


def place_of(tokens, at):
    """The index of the last line of a function's doc comment, or of the first token of the function without one."""
    at -= 1
    while not (tokens[at].kind == 'white' and '\n' in tokens[at].text):
        at -= 1
    first = at + 1
    while at > 0:
        while tokens[at].kind == 'white':
            at -= 1
        if tokens[at].text != ']':
            break
        while tokens[at].text != '#':
            at -= 1
        at -= 1
    return at if tokens[at].text.startswith('///') else first


def contract_of(file, at, names, modules, words):
    """The lines of the doc comment that show the contract of the function at this index, if it has one."""
    clauses, parameters, others = head_of(file.tokens, at)
    declared = [GHOST.match(token.text) for token in file.tokens if token.kind == 'ghost']
    others |= {found[1] for found in declared if found} | file.package.items | RUST
    head = Head(GIVEN | names, modules, parameters, others, words)
    rows = [row for clause in clauses for row in head.shown(clause)]
    links = [f'/// [{name}]: crate::contracts#{place}' for name, place in head.links.items()]
    return ['/// # Contract', '///', *rows, *(['///', *links] if links else [])] if rows else []


def put(file, words):
    """Puts the contract of each public function of a file under a heading of its doc comment."""
    tokens, added = file.tokens, {}
    scopes, traits = [({}, {})], [False]
    for at, token in enumerate(tokens):
        if token.kind == 'ghost':
            for known, more in zip(scopes[-1], imported(token)):
                known.update(more)
        elif token.kind == 'mark' and token.text == '{':
            scopes.append(tuple(dict(known) for known in scopes[-1]))
            traits.append(False)
        elif token.kind == 'mark' and token.text == '}':
            scopes.pop()
            traits.pop()
        elif token.kind == 'name' and token.text == 'trait' and is_public(tokens, at):
            # Its methods are public, in the braces that open next.
            traits[-1] = None
        elif token.kind == 'name' and token.text == 'fn' and (is_public(tokens, at) or traits[-1]):
            rows = contract_of(file, at, *scopes[-1], words)
            if rows:
                added[place_of(tokens, at)] = rows
                file.count('contracts')
        if len(traits) > 1 and traits[-2] is None:
            traits[-2:] = [False, True]
    out = []
    for at, token in enumerate(tokens):
        rows = added.get(at, [])
        indent = Token('white', '\n' + (tokens[at - 1].text.rpartition('\n')[2] if at else ''), token.line)
        if rows and token.kind == 'comment':
            out.append(token)
            out += [part for row in ['///', *rows] for part in (indent, Token('comment', row, token.line))]
        else:
            out += [part for row in rows for part in (Token('comment', row, token.line), indent)] + [token]
    file.tokens = out
