"""What is rejected: forms that no rule knows, and those that Rust would read otherwise than Rattle.

The checks look at the tokens after all rules but `paths`, and report every place.
"""
import known
from rules import closing, following, found, impls, preceding
from source import Rejected, is_code

CHECKS = []


def check(function):
    """Puts a check at the end of the list. It gives the place and the form of each thing that it rejects."""
    CHECKS.append(function)
    return function


def rejections(file):
    """All that is rejected in a file, by its line."""
    return sorted({place for function in CHECKS for place in function(file)})


@check
def words(file):
    """`unsafe`, `prove!`, handles, trait objects and what else has no counterpart."""
    for at, token in enumerate(file.tokens):
        handle = file.package.tests and token.text == 'Abort'
        if token.kind == 'name' and token.text in known.FORBIDDEN and not handle:
            yield token.line, known.FORBIDDEN[token.text]
        if found(file.tokens, at, 'static mut'):
            yield token.line, '`static mut`'
        if token.text == 'fn' and file.tokens[following(file.tokens, at)].text == '(':
            yield token.line, 'a pointer to a function'


@check
def attributes(file):
    """An attribute that no rule knows, a derive of something else, and `Clone` without `Copy`."""
    tokens = file.tokens
    for at, token in enumerate(tokens):
        name = following(tokens, at + 1) if found(tokens, at, '# !') else following(tokens, at)
        if token.text != '#' or tokens[name].text not in ('[', '!'):
            continue
        bracket = name if tokens[name].text == '[' else following(tokens, name)
        word = tokens[following(tokens, bracket)].text
        if word == 'derive':
            derived = {t.text for t in tokens[bracket:closing(tokens, bracket)] if t.kind == 'name'} - {'derive'}
            for other in sorted(derived - known.DERIVES):
                yield token.line, f'a derive of `{other}`'
            if 'Clone' in derived and 'Copy' not in derived:
                yield token.line, 'a derived `Clone` without `Copy`: here it takes memory and can fail'
        elif file.package.tests and any(found(tokens, bracket, form) for form in ('[ test ]', '[ cfg ( test ) ]')):
            continue
        elif found(tokens, bracket, '[ cfg_attr ( not ( debug_assertions ) , inline ( always ) ) ]'):
            continue
        elif word not in known.ATTRIBUTES and not found(tokens, bracket, '[ rustfmt : : skip ]'):
            yield token.line, f'the attribute `{word}`'


@check
def macros(file):
    """A macro that has no counterpart."""
    names = known.MACROS | {'copied', 'display', 'extended', 'gathered'} | file.package.names.macros
    for at, token in enumerate(file.tokens):
        called = found(file.tokens, at, f'{token.text} !') and file.tokens[at + 1].text == '!'
        if token.kind == 'name' and called and found(file.tokens, at, f'{token.text} ! ='):
            continue
        if token.kind == 'name' and called and token.text not in names:
            yield token.line, f'the macro `{token.text}!`'


@check
def allocators(file):
    """An allocator where no rule looks."""
    for at, token in enumerate(file.tokens):
        path = found(file.tokens, preceding(file.tokens, at) - 1, f': : {token.text}')
        if token.kind == 'name' and token.text in ('Allocator', 'Global', 'alloc', 'allocator') and not path:
            yield token.line, 'an allocator in a place that no rule knows'


@check
def ranges(file):
    """A range without an end, but for a slice's and a map's: counted by it, Rattle's ends before Rust's."""
    tokens = file.tokens
    brackets = []
    for at, token in enumerate(tokens):
        if token.kind == 'mark' and token.text in '([{':
            brackets.append(at)
        elif token.kind == 'mark' and token.text in ')]}':
            brackets.pop()
        elif found(tokens, at, '. .') and tokens[at - 1].text != '.' and tokens[at + 2].text != '.':
            before, after = tokens[preceding(tokens, at)], tokens[following(tokens, at + 1)]
            opener = brackets[-1] if brackets else 0
            caller = tokens[preceding(tokens, opener)]
            if before.text in '([{,|' or before.kind == 'mark' and before.text in '=>':
                if before.text in '{,' and after.kind == 'name' and tokens[opener].text == '{':
                    yield token.line, 'a value whose other fields come from another'
            elif after.text in (')', ']', '}', ',', ';', '{'):
                index = tokens[opener].text == '[' and (caller.kind == 'name' or caller.text in ')]')
                if not index and caller.text != 'range':
                    yield token.line, 'a range without an end'


@check
def closures(file):
    """A closure that clones: what it gives is a `Result`."""
    tokens = file.tokens
    for at, token in enumerate(tokens):
        if token.text != '|' or tokens[preceding(tokens, at)].text not in ('(', ',', '=', 'move'):
            continue
        depth, index = 0, at + 1
        while index < len(tokens) and depth >= 0 and not (depth == 0 and tokens[index].text in ',;'):
            depth += (tokens[index].text in '([{' and tokens[index].kind == 'mark')
            depth -= (tokens[index].text in ')]}' and tokens[index].kind == 'mark')
            if found(tokens, index, '. try_clone ('):
                yield tokens[index].line, 'a closure that clones'
            index += 1
    for at, token in enumerate(tokens):
        if found(tokens, at, 'Clone : : clone'):
            yield token.line, '`Clone::clone` by its path'


@check
def traits(file):
    """Where Rattle may pick another `impl` at a call than Rust.

    That is a trait's method with a body or with the name of a method of std, an `impl` for a type parameter, and the
    bound `Clone`.
    """
    tokens = file.tokens
    for at, token in enumerate(tokens):
        if token.kind != 'name' or token.text != 'trait':
            continue
        opener = at
        while tokens[opener].text != '{':
            opener += 1
        closer = closing(tokens, opener)
        for index in range(opener, closer):
            if tokens[index].text == '{' and index != opener:
                yield tokens[index].line, "a trait's method with a body"
            name = tokens[following(tokens, index)].text
            lent = name in known.OF_TRAITS and found(tokens, index, f'fn {name} ( & mut self')
            if tokens[index].text == 'fn' and name in known.METHODS and not lent:
                yield tokens[index].line, f"a trait's method `{name}`, as std has one"
    for at, token in enumerate(tokens):
        if token.kind == 'name' and token.text == 'impl' and found(tokens, at, 'impl <'):
            closer = closing(tokens, following(tokens, at))
            parameters = {t.text for t in tokens[at:closer] if t.kind == 'name'}
            index = closer
            while tokens[index].text not in ('for', '{'):
                index += 1
            kinds = [t for t in tokens[index:index + 6] if is_code(t) and t.text not in ('for', '&', 'mut')]
            if tokens[index].text == 'for' and kinds and kinds[0].text in parameters:
                yield token.line, 'an `impl` for a type parameter'
        for bound in (': Clone', '+ Clone'):
            if found(tokens, at, bound) and tokens[at - 1].text != ':':
                yield token.line, 'the bound `Clone`, which means another trait here'


@check
def methods(file):
    """A method that neither these crates nor the known part of std has."""
    tokens = file.tokens
    names = known.METHODS | file.package.functions | file.package.names.methods
    for at, token in enumerate(tokens):
        name = following(tokens, at)
        if token.text != '.' or tokens[name].kind != 'name':
            continue
        after = following(tokens, name)
        called = tokens[after].text == '(' or found(tokens, after, ': : <')
        if called and tokens[name].text.removesuffix('_fallibly') not in names:
            yield token.line, f'the method `{tokens[name].text}`'


@check
def formats(file):
    """A `.fmt` of which it isn't plain whether it prints or shows.

    In an `impl` of one of the two traits it is of that one, if the other isn't imported. Elsewhere it is of the one
    that is imported.
    """
    tokens = file.tokens
    imported = {trait for trait in ('Debug', 'Display') for at in range(len(tokens))
                if found(tokens, at, f'use std : : fmt : : {trait} ;')}
    of = {at: imported for at in range(len(tokens)) if found(tokens, at, '. fmt (')}
    for trait in ('Debug', 'Display'):
        for _, opener, closer, _ in impls(tokens, trait):
            of.update({at: imported | {trait} for at in of if opener < at < closer})
    for at, meant in of.items():
        if len(meant) != 1:
            yield tokens[at].line, 'a `.fmt` that may be of `Debug` or of `Display`'


@check
def primitives(file):
    """What is called of a primitive type."""
    tokens = file.tokens
    for at, token in enumerate(tokens):
        if token.kind == 'name' and token.text in known.PRIMITIVES and found(tokens, at, f'{token.text} : :'):
            item = tokens[following(tokens, following(tokens, following(tokens, at)))]
            modules = token.text == 'str' and f'str::{item.text}' in known.STD_ITEMS
            if item.text not in known.OF_PRIMITIVES and not modules:
                yield token.line, f'`{token.text}::{item.text}`'


def paths_of(tokens, at, front):
    """The paths of the `use` tree that begins at `at`, each with its line, after `front`."""
    token = tokens[at]
    if token.text == '{':
        closer, at = closing(tokens, at), following(tokens, at)
        while at < closer:
            yield from paths_of(tokens, at, front)
            depth = 0
            while at < closer and (depth or tokens[at].text != ','):
                depth += (tokens[at].text == '{') - (tokens[at].text == '}')
                at += 1
            at = following(tokens, at)
        return
    path = front + [token.text]
    after = following(tokens, at)
    if found(tokens, after, ': :'):
        yield from paths_of(tokens, following(tokens, following(tokens, after)), path)
    else:
        yield token.line, '::'.join(path)


@check
def items(file):
    """An item of std that the shim lacks, a crate that is no part of the package, and a module named as one."""
    tokens = file.tokens
    crates = file.package.erased | file.package.below | known.TOOLCHAIN_CRATES
    items_of_std = known.STD_ITEMS | file.package.names.items
    modules = set()
    for at, token in enumerate(tokens):
        if found(tokens, at, 'std : :') and tokens[at - 1].text != ':':
            start = following(tokens, following(tokens, following(tokens, at)))
            for line, path in paths_of(tokens, start, []):
                if path not in items_of_std:
                    yield line, f'`std::{path}`'
                modules.add(path)
        for end in found(tokens, at, 'use') if token.kind == 'name' else []:
            first = tokens[following(tokens, end)]
            own = first.text in ('crate', 'super', 'self', 'std') or first.text in crates
            if not own and f'mod {first.text} ;' and not any(found(tokens, index, f'mod {first.text} ;')
                                                             for index in range(len(tokens))):
                yield first.line, f'the crate or module `{first.text}`'
        for crate in crates:
            if token.text == 'mod' and found(tokens, at, f'mod {crate}'):
                yield token.line, f'a module with the name of the crate `{crate}`'
    for at, token in enumerate(tokens):
        if token.text in ('fmt', 'io') and token.text in modules and found(tokens, at, f'{token.text} : :'):
            if tokens[at - 1].text == ':':
                continue
            item = tokens[following(tokens, following(tokens, following(tokens, at)))]
            if f'{token.text}::{item.text}' not in known.STD_ITEMS:
                yield token.line, f'`std::{token.text}::{item.text}`'


def reject_ghost_left(tokens):
    """A clause or a ghost item that stands where no rule looks."""
    for token in tokens:
        if is_code(token) and not token.text.isascii() and token.kind not in ('string', 'char'):
            raise Rejected(token.line, f'`{token.text}`')
