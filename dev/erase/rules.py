"""The rules by which Rattle's text becomes Rust: a closed list, in the order in which they are applied.

Each rule's documentation ends with an example, which the self-test applies. What no rule knows is rejected by `checks`.
"""
import re

import known
from source import Rejected, Token, is_code, text_of, tokens_of, without

RULES = []


def rule(function):
    """Puts a rule at the end of the list. Its name is the function's, with hyphens."""
    RULES.append(function)
    return function


class File:
    """A source that is being erased: its crate, its path and its tokens, and the package that it becomes a part of."""

    def __init__(self, crate, source, tokens, package):
        self.crate = crate
        self.source = source
        self.tokens = tokens
        self.package = package
        self.prelude = []
        self.attributes = []

    def count(self, name, number=1):
        self.package.counts[name] += number


class Package:
    """What is known of all the files: the crates, the types with a destructor, and how the shim is named."""

    def __init__(self, counts, erased=(), below=(), names=known.OF_LIBRARY):
        self.counts = counts
        self.erased = set(erased)
        self.below = set(below)
        self.names = names
        self.tests = names.tests
        self.shim = names.shim or ('proved_tokens::shim' if self.below else 'crate::shim')
        self.destructors = {}
        self.functions = set()
        self.growing = set()
        self.errors = set()
        self.items = set()

    def learn(self, tokens, crate=''):
        """Takes note of a file's functions, of its types with a destructor or with methods as lists have them, and of
        the errors of a library below."""
        for at, token in enumerate(tokens):
            name = tokens[following(tokens, at)].text
            if token.kind == 'name' and token.text in ('const', 'enum', 'struct', 'trait', 'type'):
                self.items.add(name)
            if token.text == 'enum' and re.search('Error(Kind)?$', name) and (crate in self.below or self.tests):
                self.errors.add(name)
            if token.kind == 'name' and token.text in GROWING and found(tokens, at, f'{token.text} ( & mut self'):
                self.growing.add(owner_of(tokens, at))
            if token.text == 'fn' and token.kind == 'name':
                self.functions.add(tokens[following(tokens, at)].text)
            for end in found(tokens, at, 'impl Drop for'):
                self.destructors.setdefault(tokens[following(tokens, end)].text, {})

    def learn_fields(self, tokens):
        """Takes note of the fields of the types with a destructor."""
        for at, token in enumerate(tokens):
            name = following(tokens, at)
            if token.text != 'struct' or tokens[name].text not in self.destructors:
                continue
            opener = following(tokens, name)
            body = text_of(t for t in tokens[opener + 1:closing(tokens, opener)] if t.kind != 'comment')
            self.destructors[tokens[name].text] = dict(re.findall(r'(\w+)\s*:\s*((?:[^,<]|<.*?>+)+),', body))


# Methods of Rattle's lists and texts that can fail, where Rust's of the same name can't.
GROWING = {'append', 'extend_from_slice', 'push', 'push_str', 'reserve', 'resize', 'sort', 'split_off'}
MAKING = {'from_str', 'with_capacity'}


def owner_of(tokens, at):
    """The type in whose `impl` a method stands at `at`, or an empty text."""
    while at and not (tokens[at].text == 'impl' and tokens[at].kind == 'name'):
        at -= 1
    head = re.match(r"impl(?:<[^>]*>)?\s+(?:.*\bfor\s+)?(\w+)", text_of(tokens[at:next_mark(tokens, at, '{')]), re.S)
    return head.group(1) if head else ''


def following(tokens, at):
    """The index of the next token that is code, or the last index."""
    at += 1
    while at < len(tokens) - 1 and not is_code(tokens[at]):
        at += 1
    return min(at, len(tokens) - 1)


def preceding(tokens, at):
    at -= 1
    while at > 0 and not is_code(tokens[at]):
        at -= 1
    return at


def found(tokens, at, words):
    """The index of the last of these words, in a list of one, if they are the code from `at` on, and else no index."""
    for number, word in enumerate(words.split()):
        if number:
            at = following(tokens, at)
        if tokens[at].text != word:
            return []
    return [at]


def closing(tokens, at):
    """The index of the bracket that closes the one at `at`."""
    opener = tokens[at].text
    closer = {'(': ')', '[': ']', '{': '}', '<': '>'}[opener]
    depth = 0
    for index in range(at, len(tokens)):
        if tokens[index].kind != 'mark':
            continue
        if tokens[index].text == opener:
            depth += 1
        elif tokens[index].text == closer and not (closer == '>' and tokens[index - 1].text in '-='):
            depth -= 1
            if depth == 0:
                return index
    raise Rejected(tokens[at].line, f'a `{opener}` that nothing closes')


def next_mark(tokens, at, mark):
    while tokens[at].text != mark:
        at += 1
    return at


def impls(tokens, trait):
    """The `impl`s of a trait: for each the indices of `impl`, of its braces, and the type that it is for."""
    for at, token in enumerate(tokens):
        if token.text != 'impl' or token.kind != 'name':
            continue
        opener = next_mark(tokens, at, '{')
        head = re.search(r'\b%s for\s+(.*?)\s*$' % trait, text_of(tokens[at:opener]), re.S)
        if head:
            yield at, opener, closing(tokens, opener), head.group(1)


def replaced(tokens, edits):
    """The tokens with each range of indices (first, last) replaced by a text."""
    out, at = [], 0
    for (first, last), text in sorted(edits.items()):
        out += tokens[at:first] + [Token(t.kind, t.text, tokens[first].line) for t in tokens_of(text)]
        at = last + 1
    return out + tokens[at:]


@rule
def clauses(file):
    """Leaves out what is promised and required.

        fn half(x: u8) -> u8 requires { x < 9 } ensures ok { result ≡ x } { x / 2 }
        => fn half(x: u8) -> u8 { x / 2 }
    """
    goes = {at for at, token in enumerate(file.tokens) if token.kind == 'clause'}
    file.count('clauses', len(goes))
    file.tokens = without(file.tokens, goes)


@rule
def ghost(file):
    """Leaves out ghost imports, members and fields.

        ghost use a.b.{◌≡◌}; struct A { x: u8, pub ghost small: { x < 9 }, }
        => struct A { x: u8, }
    """
    goes = {at for at, token in enumerate(file.tokens) if token.kind == 'ghost'}
    file.count('ghost', len(goes))
    file.tokens = without(file.tokens, goes)


@rule
def proof_attributes(file):
    """Leaves out the attributes that only the prover reads: `tactic` and `cycle`.

        #[tactic(auto, using(crate::proofs::A::b))] fn one() {}
        => fn one() {}
    """
    goes = set()
    for at, token in enumerate(file.tokens):
        for words in ('# [ tactic', '# ! [ tactic', '# [ cycle'):
            for end in found(file.tokens, at, words):
                goes |= set(range(at, closing(file.tokens, preceding(file.tokens, end)) + 1))
                file.count('proof-attributes')
    file.tokens = without(file.tokens, goes)


@rule
def formatting(file):
    """Names Rust's formatter where Rattle's is told to leave an item as it is.

        #[rattlefmt::skip] static A: u8 = 1;
        => #[rustfmt::skip] static A: u8 = 1;
    """
    for at, token in enumerate(file.tokens):
        if token.text == 'rattlefmt' and found(file.tokens, at, 'rattlefmt : : skip'):
            token.text = 'rustfmt'
            file.count('formatting')


@rule
def inlining(file):
    """Asks for inlining at each call only in builds without debug assertions: in others it makes more code to compile.

        #[inline(always)] fn f() {}
        => #[cfg_attr(not(debug_assertions), inline(always))] fn f() {}
    """
    edits = {}
    for at, token in enumerate(file.tokens):
        for end in found(file.tokens, at, '# [ inline ( always ) ]'):
            edits[at, end] = '#[cfg_attr(not(debug_assertions), inline(always))]'
            file.count('inlining')
    file.tokens = replaced(file.tokens, edits)


@rule
def models(file):
    """Leaves out how a value is seen by proofs: `impl Model`, which is empty without what is ghost, and its import.

        use std::marker::Model; impl Model for A { ghost Value = { ℕ }; } struct A;
        => struct A;
    """
    goes = set()
    for at, token in enumerate(file.tokens):
        for end in found(file.tokens, at, 'use std : : marker : : Model ;'):
            goes |= set(range(at, end + 1))
    for at, opener, closer, _ in impls(file.tokens, 'Model'):
        if not any(is_code(token) for token in file.tokens[opener + 1:closer]):
            goes |= set(range(at, closer + 1))
            file.count('models')
    file.tokens = without(file.tokens, goes)


@rule
def tests(file):
    """Leaves out the modules of tests within the library, and those of how many bytes a value takes in Rattle.

        #[cfg(test)] mod tests; fn one() {} #[cfg(test)] mod tests { use super::*; } #[cfg(test)] mod sizes;
        => fn one() {}
    """
    goes = set()
    # All modules of a crate of tests are in its module `tests`, which stays.
    forms = ['mod sizes ;'] if file.crate.endswith('_tests') else [f'# [ cfg ( test ) ] mod {name} ;'
                                                                  for name in ('tests', 'sizes')]
    for at, token in enumerate(file.tokens):
        for form in forms:
            for end in found(file.tokens, at, form):
                goes |= set(range(at, end + 1))
                file.count('tests')
        for end in found(file.tokens, at, '# [ cfg ( test ) ] mod tests {'):
            goes |= set(range(at, closing(file.tokens, end) + 1))
            file.count('tests')
    file.tokens = without(file.tokens, goes)


@rule
def test_functions(file):
    """Makes the runtime that Rattle gives to a test. Only in a crate of tests a test is known at all.

        #[test] fn one(rt: HostRuntime) { f(&rt); }
        => use crate::shim::prelude::{HostRuntime}; #[test] fn one() { let rt = HostRuntime; f(&rt); }
    """
    tokens, edits = file.tokens, {}
    for at, token in enumerate(tokens):
        for end in found(tokens, at, '# [ test ] fn'):
            opener = next_mark(tokens, end, '(')
            body = next_mark(tokens, opener, '{')
            form = '( rt : HostRuntime )', '( rt : HostRuntime , )'
            for last in found(tokens, opener, form[0]) + found(tokens, opener, form[1]):
                edits[opener, last] = '()'
                edits[body, body] = '{\n    let rt = HostRuntime;'
                file.count('test-functions')
    file.tokens = replaced(tokens, edits)


@rule
def handles(file):
    """Lets what ends a test do without the handle that allows it.

        fn f(rt: &impl Abort, a: Option<u8>) { assert_eq!(rt; a.expect(rt, "one"), 1); }
        => fn f(rt: &impl Abort, a: Option<u8>) { assert_eq!(a.expect("one"), 1); }
    """
    goes = set()
    for at, token in enumerate(file.tokens):
        if token.text not in ('assert', 'assert_eq', 'expect'):
            continue
        for words in ('assert ! ( rt ;', 'assert ! ( & rt ;', 'assert_eq ! ( rt ;', 'assert_eq ! ( & rt ;',
                      'expect ( rt ,', 'expect ( & rt ,'):
            for end in found(file.tokens, at, words):
                goes |= set(range(next_mark(file.tokens, at, '(') + 1, following(file.tokens, end)))
                file.count('handles')
    file.tokens = [token for at, token in enumerate(file.tokens) if at not in goes]


# Methods that take an allocator, and the shim's in tests, as Rust's of the same name take none.
ALLOCATING = {'collect': 'collected', 'repeat': 'repeated'}


@rule
def allocating_methods(file):
    """Names in tests the shim's methods for those of Rust that take no allocator.

        fn f(alloc: Global) { "(".repeat(alloc, 9)?; }
        => use crate::shim::prelude::{Repeat}; fn f() { "(".repeated(9)?; }
    """
    for at, token in enumerate(file.tokens):
        if file.package.tests and token.text in ALLOCATING and found(file.tokens, at, f'{token.text} ( alloc'):
            token.text = ALLOCATING[token.text]
            file.count('allocating-methods')


@rule
def memory_rows(file):
    """Leaves out of a list the items with the value of the error of memory, which has none in Rust.

        fn f() { g(&[E::Empty, E::Memory(AllocError), E::Number]); }
        => fn f() { g(&[E::Empty, E::Number]); }
    """
    tokens, goes, brackets = file.tokens, set(), []
    for at, token in enumerate(tokens):
        if token.kind == 'mark' and token.text in '([{':
            brackets.append([token.text, at])
        elif token.kind == 'mark' and token.text in ')]}':
            brackets.pop()
        elif token.text == ',' and brackets:
            brackets[-1][1] = at
        lists = [place for opener, place in brackets if opener == '[']
        if lists and found(tokens, at, 'Memory ( AllocError )'):
            depth, end = 0, lists[-1] + 1
            while tokens[end].text != ',' or depth:
                depth += (tokens[end].text in ('(', '[')) - (tokens[end].text in (')', ']'))
                end += 1
                if depth < 0:
                    raise Rejected(token.line, 'a last row of the error of memory, with no comma')
            goes |= set(range(following(tokens, lists[-1]), following(tokens, end)))
            file.count('memory-rows')
    file.tokens = [token for at, token in enumerate(tokens) if at not in goes]


@rule
def drop_derives(file):
    """Leaves `Drop` out of derives: Rust drops every value.

        #[derive(Debug, Drop)] struct A; #[derive(Drop)] struct B;
        => #[derive(Debug)] struct A; struct B;
    """
    goes = set()
    for at, token in enumerate(file.tokens):
        for end in found(file.tokens, at, '# [ derive ('):
            closer = closing(file.tokens, end)
            names = [index for index in range(end, closer) if file.tokens[index].kind == 'name']
            words = [file.tokens[index].text for index in names]
            if 'Drop' not in words:
                continue
            place = words.index('Drop')
            file.count('drop-derives')
            if len(names) == 1:
                goes |= set(range(at, following(file.tokens, closer) + 1))
            elif place == 0:
                goes |= set(range(names[0], names[1]))
            else:
                goes |= set(range(preceding(file.tokens, names[place]), names[place] + 1))
    file.tokens = without(file.tokens, goes)


@rule
def drop_bounds(file):
    """Leaves out the bound `Drop` of type parameters and of associated types, since every type of Rust meets it.

        trait Sink { type Opened: Drop; type Made: Copy + Drop; } fn pass<R: BufRead + Drop, T: Drop>(r: R, t: T) {}
        => trait Sink { type Opened; type Made: Copy; } fn pass<R: BufRead, T>(r: R, t: T) {}
    """
    goes = set()
    for at, token in enumerate(file.tokens):
        for end in found(file.tokens, at, '+ Drop') + found(file.tokens, at, ': Drop'):
            if file.tokens[following(file.tokens, end)].text in ('>', ',', ';') and file.tokens[at - 1].text != ':':
                goes |= set(range(at, end + 1))
                if file.tokens[at - 1].kind == 'white':
                    goes.add(at - 1)
                file.count('drop-bounds')
    file.tokens = without(file.tokens, goes)


def taken(value, fields, bound):
    """The text that moves these fields out of a value, each under its name in `bound`, and leaves empty ones."""
    moved = [field for field, is_taken in fields.items() if is_taken]
    both = '%s = %s' if len(moved) == 1 else '(%s) = (%s)'
    return 'let ' + both % (', '.join(bound[field] for field in moved),
                            ', '.join(f'{value}.{field}.take()' for field in moved)) + ';'


def ways_out(file, line, name):
    """Each field of a type with a destructor, and whether it is taken out: an `Option` is, and the allocator is not."""
    fields = file.package.destructors[name]
    for field, kind in fields.items():
        if kind != 'Global' and not kind.startswith('Option<'):
            raise Rejected(line, f'a `Drop` of {name} that takes apart the field {field}, no `Option`')
    return {field: kind != 'Global' for field, kind in fields.items()}


def bindings(file, line, name, pattern, fields):
    """The names that a pattern without braces binds each field to."""
    bound = {}
    for part in filter(None, (part.strip() for part in pattern.split(','))):
        field, _, other = part.partition(':')
        bound[field.strip()] = (other or field).strip()
    if set(bound) != set(fields) or not all(re.fullmatch(r'\w+', other) for other in bound.values()):
        raise Rejected(line, f'a pattern of {name} that does not name each field')
    return bound


@rule
def destructors(file):
    """Lends to a destructor what Rattle gives it, and takes a value with one apart field by field.

    Rust moves no field out of such a value. So an `Option` is taken, which leaves `None`. What is left is dropped and
    has nothing to drop.

        struct A { a: Option<u8>, } impl Drop for A { fn drop(self) { let A { a } = self; } }
        fn f(v: A) { let A { a } = v; }
        => struct A { a: Option<u8>, } impl Drop for A { fn drop(&mut self) { let a = self.a.take(); } }
        fn f(v: A) { let a = { let mut whole = v; whole.a.take() }; }
    """
    tokens, edits, inside = file.tokens, {}, set()
    for at, opener, closer, name in impls(tokens, 'Drop'):
        start = next_mark(tokens, opener, 'drop')
        if not found(tokens, start, 'drop ( self ) {') or not found(tokens, following(tokens, next_mark(
                tokens, start, '{')), f'let {name} {{'):
            raise Rejected(tokens[at].line, f'a `Drop` of {name} that does not begin by taking it apart')
        own = next_mark(tokens, start, 'self')
        edits[own, own] = '&mut self'
        inside |= set(range(opener, closer))
        file.count('destructors')
    for at, token in enumerate(tokens):
        name = tokens[following(tokens, at)].text if token.text == 'let' else ''
        if name not in file.package.destructors or not found(tokens, at, f'let {name} {{'):
            continue
        opener = next_mark(tokens, at, '{')
        closer = closing(tokens, opener)
        end = next_mark(tokens, closer, ';')
        fields = ways_out(file, token.line, name)
        bound = bindings(file, token.line, name, text_of(tokens[opener + 1:closer]), fields)
        value = text_of(tokens[following(tokens, following(tokens, closer)):end])
        if value == 'self' and at in inside:
            edits[at, end] = taken('self', fields, bound)
        else:
            left, right = taken('whole', fields, bound).split(' = ')
            edits[at, end] = f'{left} = {{ let mut whole = {value}; {right[:-1]} }};'
        file.count('destructors')
    file.tokens = replaced(tokens, edits)


@rule
def utf8(file):
    """Keeps the one `unsafe`, which reads the bytes of a short text as a text, and allows it in that file alone.

        fn text(b: &[u8]) -> &str { unsafe { str::from_utf8_unchecked(b) } }
        => #![allow(unsafe_code)] fn text(b: &[u8]) -> &str { unsafe { str::from_utf8_unchecked(b) } }
    """
    tokens = file.tokens
    for at, token in enumerate(tokens):
        if token.kind != 'name' or token.text != 'unsafe' or file.source != known.WITH_UNSAFE:
            continue
        for end in found(tokens, at, 'unsafe { str : : from_utf8_unchecked ('):
            opener = next_mark(tokens, at, '{')
            if following(tokens, closing(tokens, end)) == closing(tokens, opener):
                token.kind = 'kept'
                file.attributes.append('#![allow(unsafe_code)]')
                file.count('utf8')


@rule
def debug(file):
    """Writes `Debug` over Rust's formatter, so that it goes with what is derived.

        impl Debug for A { fn fmt<W: fmt::Write>(&self, f: &mut fmt::Formatter<W>) -> fmt::Result { Ok(()) } }
        => impl Debug for A { fn fmt(&self, f: &mut core::fmt::Formatter<'_>) -> fmt::Result { Ok(()) } }
    """
    tokens, edits = file.tokens, {}
    for _, opener, closer, _ in impls(tokens, 'Debug'):
        for at in range(opener, closer):
            for end in found(tokens, at, '< W : fmt : : Write >'):
                edits[at, end] = ''
                file.count('debug')
            for end in found(tokens, at, 'fmt : : Formatter < W >'):
                edits[at, end] = "core::fmt::Formatter<'_>"
    file.tokens = replaced(tokens, edits)


@rule
def debug_helpers(file):
    """Writes a function over `DebugStruct` over Rust's.

        fn show<W: fmt::Write>(d: &mut fmt::DebugStruct<'_, W>) {}
        => fn show(d: &mut core::fmt::DebugStruct<'_, '_>) {}
    """
    tokens, edits = file.tokens, {}
    for at, token in enumerate(tokens):
        if token.text != 'fn' or token.kind != 'name':
            continue
        generics = following(tokens, following(tokens, at))
        for end in found(tokens, generics, '< W : fmt : : Write >'):
            head = range(end, closing(tokens, following(tokens, end)))
            shown = [(at, last) for at in head for last in found(tokens, at, "fmt : : DebugStruct < '_ , W >")]
            for place in shown:
                edits[place] = "core::fmt::DebugStruct<'_, '_>"
                edits[generics, end] = ''
                file.count('debug-helpers')
    file.tokens = replaced(tokens, edits)


@rule
def display(file):
    """Gives Rust's `Display` to each type with Rattle's, whose writer is generic: by a macro of the shim.

    A `.fmt` in such an `impl` is of the trait that it is an `impl` of, in both languages.

        impl fmt::Display for A { fn fmt<W: fmt::Write>(&self, f: &mut fmt::Formatter<W>) -> fmt::Result { Ok(()) } }
        impl<'a> fmt::Display for B<'a> { fn fmt<W: fmt::Write>(&self, f: &mut fmt::Formatter<W>) -> fmt::Result {} }
        => impl fmt::Display for A { fn fmt<W: fmt::Write>(&self, f: &mut fmt::Formatter<W>) -> fmt::Result { Ok(()) } }
           crate::shim::display!(A);
           impl<'a> fmt::Display for B<'a> { fn fmt<W: fmt::Write>(&self, f: &mut fmt::Formatter<W>) -> fmt::Result {} }
           crate::shim::display!(B<'a>);
    """
    tokens, edits = file.tokens, {}
    for at, _, closer, name in impls(tokens, 'Display'):
        if not re.fullmatch(r"\w+(<'\w+>)?", name):
            raise Rejected(tokens[at].line, f'a `Display` for {name}, a type with parameters')
        edits[closer, closer] = '}\n\nshim::display!(%s);' % name
        file.count('display')
    file.tokens = replaced(tokens, edits)


@rule
def texts(file):
    """Writes the text of a value by the shim's `format!`, as Rust's `to_string` takes no allocator.

    A crate that has a `to_string` of its own keeps it.

        fn text(e: &E) -> Result<String, F> { e.to_string(alloc)?; e.line.to_string(alloc)? }
        => use crate::shim::prelude::{format}; fn text(e: &E) -> Result<String, F> {
           format!("{e}")?; format!("{}", e.line)? }
    """
    tokens, edits = file.tokens, {}
    for at, token in enumerate(tokens):
        alone = token.kind == 'name' and tokens[preceding(tokens, at)].text != '.'
        if not alone or 'to_string' in file.package.functions:
            continue
        last = at
        while tokens[last + 1].text == '.' and tokens[last + 2].kind == 'name' and tokens[last + 2].text != 'to_string':
            last += 2
        value = text_of(tokens[at:last + 1])
        for end in found(tokens, last, f'{tokens[last].text} . to_string ( alloc )'):
            short = 'format!(in alloc; "{%s}")' % value
            edits[at, end] = short if last == at else f'format!(in alloc; "{{}}", {value})'
            file.count('texts')
    file.tokens = replaced(tokens, edits)


# What stands for the allocator: an expression of its type, which has one value, that takes no step to compute.
ALLOCATOR = re.compile(r'[*&]?(?:(?:\w+(?:\.|::))*(?:alloc|allocator)(?:\((?:&?\w+)?\))?|Global)')
# A field or a parameter that holds the allocator, or its value in a field.
HOLDS_ALLOCATOR = re.compile(r'(?:pub(?:\(crate\))?)?(?:mut)?(?:\w+:Global|alloc:(?:_|%s))' % ALLOCATOR.pattern)


def parts(tokens, opener):
    """What a list in brackets has between its commas: of each the first and the last index, and the comma after it."""
    closer = closing(tokens, opener)
    out, first, at = [], None, opener + 1
    while at <= closer:
        token = tokens[at]
        if at == closer or token.text == ',' and token.kind == 'mark':
            if first is not None:
                out.append((first, preceding(tokens, at), at if at < closer else None))
            first = None
        elif is_code(token):
            first = at if first is None else first
            if token.kind == 'mark' and token.text in '([{':
                at = closing(tokens, at)
        at += 1
    return out


def item_front(tokens, at):
    """The index at which an item begins whose first word after its visibility is at `at`: that of its comments."""
    while True:
        before = at - 1
        while tokens[before].kind == 'white':
            before -= 1
        if tokens[before].text == ')' and text_of(tokens[before - 3:before + 1]) == 'pub(crate)':
            at = before - 3
        elif tokens[before].kind == 'comment' or tokens[before].text == 'pub':
            at = before
        elif tokens[before].text == ']':
            while not found(tokens, before, '# ['):
                before -= 1
            at = before
        else:
            return at


def allocator_items(tokens, at):
    """The indices of an import, an item or a statement that begins at `at` and is of the allocator alone."""
    for words in ('use std : : alloc : : Global ;', 'type Alloc = Global ;'):
        for end in found(tokens, at, words):
            return range(at, end + 1)
    if found(tokens, at, 'let alloc =') or found(tokens, at, 'let mut alloc ='):
        return range(at, next_mark(tokens, at, ';') + 1)
    for end in found(tokens, at, 'debug . field ( "alloc" ,'):
        return range(at, next_mark(tokens, end, ';') + 1)
    if found(tokens, at, 'fn alloc (') or found(tokens, at, 'fn allocator ('):
        opener = next_mark(tokens, at, '{')
        if tokens[preceding(tokens, opener)].text == 'Global':
            return range(item_front(tokens, at), closing(tokens, opener) + 1)
    return range(0)


def allocator_parts(tokens, opener):
    """The indices of each part of a list that is of the allocator alone, with one of the commas beside it."""
    caller = tokens[preceding(tokens, opener)]
    if tokens[opener].text == '(' and caller.kind != 'name' and caller.text not in '>=;{':
        return
    listed = parts(tokens, opener)
    # A block may be one name without a comma.
    block = tokens[opener].text == '{' and len(listed) == 1 and listed[0][2] is None
    last = None
    for number, (first, end, comma) in enumerate(listed):
        text = text_of(t for t in tokens[first:end + 1] if is_code(t))
        if not (ALLOCATOR.fullmatch(text) and not block or HOLDS_ALLOCATOR.fullmatch(text)):
            last = comma
        elif comma:
            yield range(item_front(tokens, first) if tokens[opener].text == '{' else first, comma + 1)
        else:
            yield range(last if last is not None else first, end + 1)


@rule
def allocators(file):
    """Leaves out the allocator, whose type has one value: where it is an argument, a parameter, a field or a variable.

        use std::alloc::{AllocError, Global}; struct A { alloc: Global, x: u8 }
        fn f(alloc: Global, x: u8) -> Result<A, AllocError> { let alloc = x.alloc(); g(alloc, &x)?; A { alloc, x } }
        => use shim::alloc::AllocError; struct A { x: u8 } fn f(x: u8) -> Result<A, AllocError> { g(&x)?; A { x } }
    """
    tokens, goes = file.tokens, set()
    for at, token in enumerate(tokens):
        if at in goes or not is_code(token):
            continue
        gone = list(allocator_items(tokens, at))
        for end in found(tokens, at, 'use std : : alloc : : {'):
            comma = following(tokens, following(tokens, end))
            if tokens[following(tokens, comma)].text == 'Global':
                gone += [end, *range(comma, closing(tokens, end) + 1)]
        file.count('allocators', len(gone) > 0)
        if token.text in ('format', 'vec') and found(tokens, at, f'{token.text} !') and tokens[at + 1].text == '!':
            opener = following(tokens, following(tokens, at))
            if tokens[following(tokens, opener)].text != 'in':
                raise Rejected(token.line, f'`{token.text}!` without its allocator')
            gone += range(opener + 1, following(tokens, next_mark(tokens, at, ';')))
        if token.kind == 'mark' and token.text in '({':
            for part in allocator_parts(tokens, at):
                gone += part
                file.count('allocators')
        if token.kind == 'string' and file.package.tests:
            token.text = token.text.replace('alloc: Global, ', '')
        goes |= set(gone)
    file.tokens = without(tokens, goes)


@rule
def memory(file):
    """Ends the process, by the shim, where a body says that memory ran out: that error has no value in Rust.

        fn none() -> Result<u8, AllocError> { Err(AllocError) }
        => fn none() -> Result<u8, AllocError> { Err(AllocError::met()) }
    """
    tokens, edits = file.tokens, {}
    for at, token in enumerate(tokens):
        for end in found(tokens, at, 'Err ( AllocError )'):
            edits[at, end] = 'Err(AllocError::met())'
            file.count('memory')
    file.tokens = replaced(tokens, edits)


@rule
def errors(file):
    """Leaves the errors of the library open to more cases, and `Error` to native/errors.rs, which tells what is inside.

        pub enum AError { One } impl Error for AError {} pub enum B { One } impl<'a> Error for C<'a> {}
        => #[non_exhaustive] pub enum AError { One } pub enum B { One }
    """
    if file.package.below:
        return
    goes, edits = set(), {}
    for at, token in enumerate(file.tokens):
        name = file.tokens[following(file.tokens, following(file.tokens, following(file.tokens, at)))].text
        last = at
        for _ in range(6):
            last = following(file.tokens, last)
        borrowing = file.tokens[last].text
        for words in (f'impl Error for {name} {{ }}', f"impl < 'a > Error for {borrowing} < 'a > {{ }}",
                      'use std : : error : : Error ;'):
            for end in found(file.tokens, at, words):
                goes |= set(range(at, end + 1))
                file.count('errors')
    tokens = without(file.tokens, goes)
    for at, token in enumerate(tokens):
        name = tokens[following(tokens, following(tokens, at))].text
        if found(tokens, at, f'pub enum {name} {{') and re.search('Error(Kind)?$', name):
            edits[at, at] = '#[non_exhaustive]\npub'
            file.count('errors')
    file.tokens = replaced(tokens, edits)


def arms(tokens, opener):
    """The patterns of a `match` whose braces open at `opener`, each as a text."""
    at, closer = opener + 1, closing(tokens, opener)
    while at < closer:
        start = at
        while not found(tokens, at, '= >'):
            at = closing(tokens, at) if tokens[at].kind == 'mark' and tokens[at].text in '([{' else at
            at += 1
            if at >= closer:
                return
        yield text_of(t for t in tokens[start:at] if is_code(t))
        at = following(tokens, at + 1)
        block = tokens[at].text == '{'
        while at < closer and tokens[at].text != ',':
            at = closing(tokens, at) + 1 if tokens[at].kind == 'mark' and tokens[at].text in '([{' else at + 1
            if block:
                break
        at += found(tokens, at, ',') != []


@rule
def open_matches(file):
    """Ends a `match` over the errors of the library with an arm that is never reached, as they are open to more cases.

        enum AError {} fn f(e: AError) { match e { AError::One => 1, AError::Two(e) => { 2 } }
        match e { AError::One => 1, other => 2 } match e { B::One => 1 } }
        => enum AError {} fn f(e: AError) { match e { AError::One => 1, AError::Two(e) => { 2 }
           _ => unreachable!("each case is above"), } match e { AError::One => 1, other => 2 } match e { B::One => 1 } }
    """
    tokens, edits = file.tokens, {}
    for at, token in enumerate(tokens):
        if token.text != 'match' or token.kind != 'name' or not (file.package.below or file.package.tests):
            continue
        opener = at
        while tokens[opener].text != '{':
            opener = closing(tokens, opener) if tokens[opener].text in ('(', '[') else opener
            opener += 1
        patterns = list(arms(tokens, opener))
        whole = any(re.fullmatch(r'_|(?:Err\()?[a-z_]\w*\)?', pattern) for pattern in patterns)
        named = set(re.findall(r'\b([A-Z]\w*)::[A-Z]', ' '.join(patterns)))
        if not whole and named & file.package.errors:
            closer = closing(tokens, opener)
            edits[closer, closer] = '_ => unreachable!("each case is above"),\n}'
            file.count('open-matches')
    file.tokens = replaced(tokens, edits)


# Rattle's traits whose methods can fail where Rust's can't: their names in the shim, and the macro that gives Rust's.
FALLIBLE = {
    'Clone': ('TryClone', 'clone', 'try_clone', 'copied'),
    'Extend': ('TryExtend', 'extend', 'try_extend', 'extended'),
    'FromIterator': ('TryFromIterator', 'from_iter', 'try_from_iter', 'gathered'),
}


@rule
def fallible_traits(file):
    """Names the traits whose methods can fail as what they are, and gives Rust's traits by them, by macros of the shim.

        impl Clone for A { fn clone(&self) -> Result<A, E> { self.0.clone()? } }
        impl Extend<T> for A { fn extend<I: IntoIterator<Item = T>>(&mut self, i: I) -> Result<(), E> {} }
        => use crate::shim::prelude::{TryClone, TryExtend};
           impl TryClone for A { fn try_clone(&self) -> Result<A, E> { self.0.try_clone()? } } shim::copied!(A);
           impl TryExtend<T> for A { fn try_extend<I: IntoIterator<Item = T>>(&mut self, i: I) -> Result<(), E> {} }
           shim::extended!(A, T);
    """
    tokens, edits = file.tokens, {}
    for at, token in enumerate(tokens):
        for method, fallible in (('clone', 'try_clone'), ('extend', 'try_extend')):
            if token.text == '.' and found(tokens, at, f'. {method} ('):
                name = following(tokens, at)
                edits[name, name] = fallible
                file.count('fallible-traits')
    for trait, (name, method, fallible, macro) in FALLIBLE.items():
        for at, opener, closer, kind in impls(tokens, rf'{trait}(?:<\w+>)?'):
            head, own = next_mark(tokens, at, trait), next_mark(tokens, opener, method)
            items = ', ' + tokens[head + 2].text if tokens[head + 1].text == '<' else ''
            if not re.fullmatch(r'\w+', kind):
                raise Rejected(tokens[at].line, f'a `{trait}` for {kind}, a type with parameters')
            edits.update({(head, head): name, (own, own): fallible})
            edits[closer, closer] = '}\n\nshim::%s!(%s%s);' % (macro, kind, items)
            file.count('fallible-traits')
    file.tokens = replaced(tokens, edits)


# Methods of the library's types that can fail where Rust's of the same name can't, by what follows their names; and the
# variables of whose type `next` is one.
FALLIBLE_METHODS = {'into_iter': '( self )', 'next': '( & mut self )'}
WALKS = {'steps', 'walk'}


@rule
def fallible_methods(file):
    """Names those methods of the library as what they are, so that their names are left to Rust's traits.

        impl A { fn into_iter(self) -> Result<B, E> { g(walk.next()?, self.into_iter()?) } fn next(&mut self) -> A {} }
        => impl A { fn try_into_iter(self) -> Result<B, E> { g(walk.try_next()?, self.try_into_iter()?) }
           fn next(&mut self) -> A {} }
    """
    tokens, edits = file.tokens, {}
    for at, token in enumerate(tokens):
        if token.kind != 'name' or token.text not in FALLIBLE_METHODS:
            continue
        before, after = preceding(tokens, at), following(tokens, at)
        declared = tokens[before].text == 'fn' and found(
            tokens, after, FALLIBLE_METHODS[token.text] + ' - > Result <')
        owner = tokens[preceding(tokens, before)].text
        called = owner in WALKS if token.text == 'next' else found(tokens, after, '( ) ?')
        if declared or tokens[before].text == '.' and called:
            edits[at, at] = f'try_{token.text}'
            file.count('fallible-methods')
    file.tokens = replaced(tokens, edits)


def variables(tokens, at, types):
    """The variables of the function, or the fields of the struct, that its text at `at` declares with these types."""
    text = text_of(t for t in tokens[at:closing(tokens, next_mark(tokens, at, '{')) + 1] if t.kind != 'comment')
    named = '|'.join(sorted(types)) or '!'
    declared = re.findall(r"(\w+)\s*:\s*(?:&\s*(?:'\w+\s+)?(?:mut\s+)?)?(?:%s)\b" % named, text)
    return set(declared + re.findall(r'let\s+(?:mut\s+)?(\w+)\s*=\s*(?:%s)\s*::' % named, text))


@rule
def lists(file):
    """Names what can fail of Rattle's lists and texts otherwise, since both are Rust's, to which the shim adds it.

    A type of the library that has such a method keeps its name. `self` and what is called `quote` are of such types;
    what else is, its declaration says. rustc refuses the rest.

        fn f(a: &str, v: &mut Vec<u8>) -> Result<String, E> { v.push(1)?; self.push(2)?; return String::from_str(a); }
        => use crate::shim::prelude::{Grow, GrowText}; fn f(a: &str, v: &mut Vec<u8>) -> Result<String, E> {
           v.push_fallibly(1)?; self.push(2)?; return String::from_str_fallibly(a); }
    """
    tokens, own, fields = file.tokens, set(), set()
    for at, token in enumerate(tokens):
        if found(tokens, at, f'struct {tokens[following(tokens, at)].text} {{'):
            fields |= variables(tokens, at, file.package.growing)
        if token.text == 'fn' and token.kind == 'name':
            has_body = next((t for t in tokens[at:] if t.text in '{;'), token).text == '{'
            own = variables(tokens, at, file.package.growing) if has_body else set()
        if token.kind != 'name' or token.text not in GROWING | MAKING or tokens[following(tokens, at)].text != '(':
            continue
        before = preceding(tokens, at)
        owner = preceding(tokens, before)
        is_field = tokens[preceding(tokens, owner)].text == '.'
        kept = tokens[owner].text in (fields if is_field else own | {'quote', 'self'})
        grows = token.text in GROWING and tokens[before].text == '.' and not kept
        path = ' '.join(t.text for t in tokens[max(0, before - 12):at] if is_code(t))
        if grows or token.text in MAKING and re.search(r'(?<!\S)(String|Vec|Vec : : < [^:]* >) : :$', path):
            token.text += '_fallibly'
            file.count('lists')


@rule
def reserved(file):
    """Writes `push` for `push_reserved`, which Rust's `Vec` lacks: it may be called only where there is room.

        fn f(v: &mut Vec<u8>) { v.push_reserved(1); }
        => fn f(v: &mut Vec<u8>) { v.push(1); }
    """
    for at, token in enumerate(file.tokens):
        if found(file.tokens, at, '. push_reserved ('):
            file.tokens[following(file.tokens, at)].text = 'push'
            file.count('reserved')


# What every source of Rattle names without an import, where Rust has another thing of that name or none.
PRELUDE = ('AllocGlobal', 'Box', 'HostRuntime', 'TryClone', 'TryExtend', 'TryFromIterator')
# The methods that are of traits of the shim, and those that are of traits of tests.
OF_TRAITS = {'try_clone': 'TryClone', 'try_extend': 'TryExtend'}
OF_GROWING = {'Grow': {'push', 'reserve', 'with_capacity'}, 'GrowText': {'from_str', 'push_str'}}
OF_TEST_TRAITS = {'collected': 'Collect', 'repeated': 'Repeat'}


@rule
def prelude(file):
    """Imports from the shim what Rattle's prelude has and Rust's has otherwise, as far as the file names it.

        fn copy(t: &A) -> Result<Box<A>, E> { t.clone() }
        => use crate::shim::prelude::{Box, TryClone}; fn copy(t: &A) -> Result<Box<A>, E> { t.try_clone() }
    """
    tokens, used = file.tokens, set()
    writes_texts = any(token.text == 'String' for token in tokens)
    for at, token in enumerate(tokens):
        if token.kind != 'name':
            continue
        if token.text in PRELUDE:
            used.add(token.text)
        elif token.text in OF_TRAITS:
            used.add(OF_TRAITS[token.text])
        elif token.text.endswith('_fallibly'):
            name = token.text.removesuffix('_fallibly')
            used.add(next((trait for trait, names in OF_GROWING.items() if name in names), 'GrowList'))
        elif token.text in ('write', 'writeln') and found(tokens, at, f'{token.text} !') and writes_texts:
            used.add('GrowText')
        elif token.text in ('format', 'vec') and found(tokens, at, f'{token.text} !'):
            used.add(token.text)
        elif file.package.tests and token.text in OF_TEST_TRAITS:
            used.add(OF_TEST_TRAITS[token.text])
    file.prelude = sorted(used)
    file.count('prelude', len(used))


def linked(comment, crate, erased):
    """A comment whose links lead to items of these crates. A crate's name alone is no link, and neither is a law: the
    pages of laws are hidden."""
    comment = comment.replace('(crate::', f'(crate::{crate}::')
    comment = re.sub(r'\[(`\w+`)\]\([\w:]*\blaws::\w+\)', r'\1', comment)
    for other in erased:
        comment = comment.replace(f']({other}::', f'](crate::{other}::')
        comment = re.sub(rf'\[`{other}`\](?!\()', f'`{other}`', comment)
    return comment


@rule
def paths(file):
    """Names the shim for std and for the toolchain's crates, and for each crate its module in this package.

        use std::alloc::AllocError; use crate::bytes::one; use memchr::memchr; fn f() { lexical::is_mark('+'); }
        => use crate::shim::alloc::AllocError; use crate::lexical::bytes::one; use crate::shim::memchr::memchr;
        fn f() { crate::lexical::is_mark('+'); }
    """
    package, tokens, edits = file.package, file.tokens, {}
    root = 'proved_tokens' if package.below else 'crate'
    for at, token in enumerate(tokens):
        if token.kind == 'comment':
            token.text = linked(token.text, file.crate, package.erased)
        if token.kind != 'name' or not found(tokens, following(tokens, at), ': :'):
            continue
        if at > 1 and tokens[at - 1].text == ':' and tokens[at - 2].text == ':':
            continue
        if token.text == 'crate':
            edits[at, at] = f'crate::{file.crate}'
            file.count('own-paths')
        elif token.text == 'std':
            edits[at, at] = package.shim
            file.count('std-paths')
        elif token.text in known.TOOLCHAIN_CRATES:
            edits[at, at] = f'{package.shim}::{token.text}'
            file.count('toolchain-paths')
        elif token.text in package.below or token.text in package.erased:
            edits[at, at] = f'{root if token.text in package.below else "crate"}::{token.text}'
            file.count('crate-paths')
        elif token.text == 'shim':
            edits[at, at] = package.shim
    file.tokens = replaced(tokens, edits)


def by_feature(text, source):
    """The text of a file in which the modules that `known.WHOLE` names, and their items, are there by that feature."""
    for name in known.WHOLE.get(str(source), '').split():
        text = re.sub(rf'^(pub )?(mod {name};|use (crate::\w+::)?{name}::)', '#[cfg(feature = "whole")]\n\\g<0>', text,
                      flags=re.M)
    return text
