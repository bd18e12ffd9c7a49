#!/usr/bin/env python3
"""Lists every token in which the erased files and the proved sources differ, and fails where a change isn't known.

    python3 dev/audit             compares, and tells the changes that whitelist.txt lacks, each with its places
    python3 dev/audit --list      all changes, with how often each occurs
    python3 dev/audit --test      tests itself: it must report changes that are planted

It shares no code with dev/erase. Each file's first line says from which source it was made. Of that source it leaves
out comments; what only proofs read: clauses, ghost items and the attributes `tactic` and `cycle`; and the allocator,
whose type has one value. The tokens that are left are compared in order. contracts.py compares the contracts that the
library's doc comments show with the clauses.

A line of whitelist.txt is a change: the tokens of the source, `=>`, and those in their place. NAME is any one name and
PATH any path, each the same on both sides; NAMES are any names with commas between them, BODY is anything, and CRATE is
the source's crate. A line `in SOURCES` says that the changes below it, up to an empty line, are known in the sources
of this pattern alone.
"""
import collections
import difflib
import fnmatch
import pathlib
import re
import sys

import contracts

TOP = pathlib.Path(__file__).resolve().parents[2]
PACKAGES = [TOP / 'cargo/proved-tokens', TOP / 'cargo/tokens', TOP / 'dev/workloads']
# Its functions show their contracts, with the words that this page explains.
LIBRARY = TOP / 'cargo/proved-tokens/src'
PAGE = LIBRARY / 'contracts.rs'
# What isn't erased: tests within the library, what is for them alone, tests of sizes, and each `main`.
LEFT_OUT = {'failing.rt', 'sizes.rt', 'main.rt'}
# By hand too: errors whose text and conversions a derive of the toolchain writes.
BY_HAND = {'crates/workloads/src/fails.rt'}
KNOWN = pathlib.Path(__file__).parent / 'whitelist.txt'
MADE = re.compile(r'// Made from (\S+) by dev/erase')

# One alternative each for comments, texts and characters, lifetimes, paths and numbers, marks.
TOKEN = re.compile(r'''
    (?P<comment> //[^\n]* )
  | (?P<text> [bc]?r(?P<hashes>\#*)".*?"(?P=hashes) | [bc]?"(?:[^"\\]|\\.)*" | b?'(?:[^'\\]|\\.[^']*)' )
  | (?P<lifetime> '\w+ )
  | (?P<word> \w+ (?: ::\w+ )* )
  | (?P<mark> :: | -> | => | \.\.= | \.\. | \S )
''', re.X | re.S)


def tokens(text):
    """The tokens of a text with the lines where they begin, without comments and without what only proofs read."""
    out, at, line, counted = [], 0, 1, 0
    while True:
        match = TOKEN.search(text, at)
        if not match:
            return out
        line += text.count('\n', counted, match.start())
        counted = match.start()
        at = match.end()
        token = match.group()
        if match.lastgroup == 'comment' or match.group('comment'):
            continue
        if token in ('requires', 'ensures', 'ghost'):
            at = past_proof(text, match.start(), token)
            while token == 'ghost' and [t for t, _ in out[-1:]] == ['pub']:
                out.pop()
            continue
        out.append((token, line))


def past_proof(text, start, word):
    """Where the clause or the ghost item ends that begins at `start`.

    A clause ends with its braces. A ghost item ends with the `;` or `,` after what it has in braces, or before the `}`
    around it.
    """
    depth = 0
    for match in re.compile(r'--[^\n]*|"(?:[^"\\]|\\.)*"|[{};,]').finditer(text, start):
        mark = match.group()
        if mark == '{':
            depth += 1
        elif mark == '}' and depth == 0:
            return match.start()
        elif mark == '}':
            depth -= 1
            if depth == 0 and word != 'ghost':
                return match.end()
        elif mark in ';,' and depth == 0:
            return match.end()
    sys.exit(f'a `{word}` that nothing ends')


def without_attributes(found):
    """The tokens without the attributes that only the prover reads."""
    out, at = [], 0
    while at < len(found):
        words = [token for token, _ in found[at:at + 4]]
        if words[:3] in (['#', '[', 'tactic'], ['#', '[', 'cycle']) or words == ['#', '!', '[', 'tactic']:
            depth = 0
            while True:
                depth += (found[at][0] == '[') - (found[at][0] == ']')
                at += 1
                if found[at - 1][0] == ']' and depth == 0:
                    break
            continue
        out.append(found[at])
        at += 1
    return out


def last_name(token):
    """The last name of a path, by which tokens are put beside each other, or another token itself."""
    return token.rsplit('::', 1)[-1] or token


# The allocator's one value, by the tokens of an expression; where it is held; and statements that are of it alone.
VALUE = r'(?:[*&] )?(?:(?:\w[\w:]* \. )*(?:\w+::)*(?:alloc|allocator)(?: \( (?:& )?(?:\w+ )?\))?|Global)'
HELD = rf'(?:pub )?(?:\( crate \) )?(?:mut )?(?:\w+ : Global|alloc : (?:_|{VALUE}))'
ALLOCATOR = re.compile(rf'{VALUE}|{HELD}')
STATEMENT = re.compile(rf'(?:let (?:mut )?alloc = {VALUE}|type Alloc = Global|use std::alloc::Global'
                       rf'|debug \. field \( "alloc" , {VALUE} \)) ;')
LENT = re.compile(r'(?:pub )?(?:\( crate \) )?fn (?:alloc|allocator) \( (?:\w+ : )?& \w+ \) -> Global { [^}]*}')
INLINED = '# [ cfg_attr ( not ( debug_assertions ) , inline ( always ) ) ]'
GIVEN = re.compile(rf'(format|vec) ! ([(\[]) in {VALUE} ;')


def words_of(part):
    return ' '.join(token for token, _ in part)


def end_of(found, at):
    """The index of the bracket that closes the one at `at`."""
    depth = 0
    for index in range(at, len(found)):
        depth += (found[index][0] in ('(', '[', '{')) - (found[index][0] in (')', ']', '}'))
        if depth == 0:
            return index
    sys.exit(f'line {found[at][1]}: a bracket that nothing closes')


def split(found):
    """The parts between the commas that stand in no bracket."""
    parts, at = [[]], 0
    while at < len(found):
        end = end_of(found, at) if found[at][0] in ('(', '[', '{') else at
        if found[at][0] == ',':
            parts.append([])
        else:
            parts[-1] += found[at:end + 1]
        at = end + 1
    return parts


def without_allocators(found):
    """The tokens without the allocator, of whose type there is one value: what is in brackets is read part by part."""
    out, at = [], 0
    while at < len(found):
        token, line = found[at]
        front = words_of(found[at:at + 24])
        gone = STATEMENT.match(front) or LENT.match(front)
        given = GIVEN.match(front)
        if gone:
            at += gone.group().count(' ') + 1
        elif given:
            out += found[at:at + 3]
            at += given.group().count(' ') + 1
        elif token in ('(', '{'):
            end = end_of(found, at)
            parts = split(found[at + 1:end])
            last = parts.pop() if len(parts) > 1 and not parts[-1] else None
            is_list = token == '(' or len(parts) > 1 or last is not None
            kept = [without_allocators(part) for part in parts
                    if not (ALLOCATOR.fullmatch(words_of(part)) and is_list)]
            inside = [one for part in kept for one in (*part, (',', line))]
            inside = inside if last is not None else inside[:-1]
            if out and out[-1][0] == '::' and len(kept) == 1 < len(parts):
                out[-2:] = [(f'{out[-2][0]}::{inside[0][0]}', line)]
            else:
                out += [found[at], *inside, found[end]]
            at = end + 1
        else:
            is_shown = token.startswith('"SourceMap { alloc: Global, ')
            out.append((token.replace('alloc: Global, ', ''), line) if is_shown else found[at])
            at += 1
    return out


def with_plain_inlining(found):
    """The tokens with `inline(always)` for the attribute that gives it to builds without debug assertions alone."""
    out, at = [], 0
    while at < len(found):
        size = len(INLINED.split()) if words_of(found[at:at + len(INLINED.split())]) == INLINED else 0
        out += [(word, found[at][1]) for word in '# [ inline ( always ) ]'.split()] if size else [found[at]]
        at += size or 1
    return out


def changes(source, made):
    """How many tokens the source has, how many of them stay, and each change with its two lines."""
    old, new = without_allocators(without_attributes(tokens(source))), with_plain_inlining(tokens(made))
    rows = [[last_name(token) for token, _ in side] for side in (old, new)]
    out, same = [], 0
    for kind, first, last, start, end in difflib.SequenceMatcher(None, *rows, autojunk=False).get_opcodes():
        lines = [side[min(at, len(side) - 1)][1] for side, at in ((old, first), (new, start))]
        if kind == 'equal':
            pairs_of_both = zip(old[first:last], new[start:end])
            renamed = [(one[0], other[0], one[1], other[1]) for one, other in pairs_of_both if one[0] != other[0]]
            same += last - first - len(renamed)
            out += [(f'{one} => {other}', *at) for one, other, *at in renamed]
        elif kind == 'replace':
            words = [' '.join(token for token, _ in part) for part in (old[first:last], new[start:end])]
            out.append((' => '.join(words), *lines))
        else:
            side, begins, ends = (old, first, last) if kind == 'delete' else (new, start, end)
            for part in whole_items([token for token, _ in side], begins, ends):
                out.append((f'{part} =>' if kind == 'delete' else f'=> {part}', *lines))
    return len(old), same, out


def whole_items(words, first, last):
    """The items in a range that was put in or left out, each as a text.

    The range is moved, where the same tokens stand before or after it, so that it begins with an item.
    """
    begins = ('#', 'use', 'impl', '<', ',', '+', ':')
    for shift in range(-8, 9):
        low, high = sorted((first, first + shift))
        moved = words[low:high] == words[low + last - first:high + last - first] if first + shift >= 0 else False
        if moved and words[first + shift] in begins and words[first] not in begins:
            first, last = first + shift, last + shift
            break
    parts, depth, start = [], 0, first
    for at in range(first, last):
        depth += (words[at] in ('(', '[', '{')) - (words[at] in (')', ']', '}'))
        if depth == 0 and words[at] in (';', ']', '}') and (words[start] != 'use' or words[at] == ';'):
            parts.append(' '.join(words[start:at + 1]))
            start = at + 1
    return parts + ([' '.join(words[start:last])] if start < last else [])


def known_changes():
    """The known changes, each with the sources that it is bound to, or an empty text."""
    out, source = [], ''
    for line in KNOWN.read_text().splitlines():
        if not line:
            source = ''
        elif line.startswith('in '):
            source = line.removeprefix('in ')
        elif '=>' in line:
            out.append((line, source))
    return out


def is_known(change, source, known):
    """Whether a change in this source is what a line of the whitelist says."""
    line, only = known
    pattern = re.escape(line).replace('CRATE', source.split('/')[1])
    for word, form in (('NAMES', r'\w+(?: , \w+)*'), ('NAME', r'(?P<name>\w+)'), ('PATH', r'(?P<path>\w+(?:::\w+)*)')):
        pattern = pattern.replace('BODY', '.*').replace(word, form, 1).replace(word, f'(?P={word.lower()})')
    return (not only or fnmatch.fnmatch(source, only)) and re.fullmatch(pattern, change) is not None


def pairs():
    """Each made file with its source."""
    for path in sorted(path for package in PACKAGES for path in package.rglob('*.rs')):
        text = path.read_text()
        made = MADE.match(text)
        if made and 'target' not in path.parts:
            yield path, text, TOP / made.group(1)


def missing(sources):
    """The sources of the crates that were made, of which no file was made."""
    crates = {source.relative_to(TOP).parts[1] for source in sources}
    every = {path for crate in crates for path in (TOP / 'crates' / crate / 'src').rglob('*.rt')
             if path.name not in LEFT_OUT
             and (crate.endswith('_tests') or 'tests' not in path.relative_to(TOP).with_suffix('').parts)}
    return sorted({str(path.relative_to(TOP)) for path in every - sources} - BY_HAND)


# A source, the Rust that is made from it, and changes of that which have to be told.
SOURCE = """
use std::fmt;
#[derive(Debug, Drop)]
pub struct A { pub ghost small: { x < 9 }, x: u8, }
/// One more.
#[inline(always)]
fn more(a: &A) -> u8 requires { a.x < 9 } ensures { result ≡ a.x + 1 } { crate::one::add(a.x, 1) }
fn kept(alloc: Global, a: &A, b: u8) -> Kept { let alloc = a.alloc(); Kept { alloc, x: f(&b, alloc), b } }
"""
RUST = """
use crate::shim::fmt;
#[derive(Debug)]
pub struct A { x: u8, }
/// One more.
#[cfg_attr(not(debug_assertions), inline(always))]
fn more(a: &A) -> u8 { crate::lexical::one::add(a.x, 1) }
fn kept(a: &A, b: u8) -> Kept { Kept { x: f(&b), b } }
"""
PLANTED = [('1)', '2)'), ('a.x', 'a.y'), (', 1', ''), ('&A', '&mut A'), ('lexical::one', 'pm_span::one'),
           ('not(debug_assertions)', 'debug_assertions'), ('inline(always)', 'inline'), ('shim::fmt', 'fmt'),
           ('fn more', '#[inline] fn more'), ('add', 'sub'), ('Debug', 'Debug, Clone'),
           ('x: u8,', ''), ('{ c', '{ a.x; c'), ('&b', ''), (', b: u8', ''),
           (', b }', ' }'), ('(a: &A, b', '(alloc: Global, a: &A, b'), ('f(&b)', 'f(&b, alloc)')]


def test():
    """How many of the planted changes are not told, and whether the Rust as it is made passes."""
    total, untold = contracts.test()
    known, wrong = known_changes(), 0
    for old, new in [('', '')] + PLANTED:
        note = [change for change, *_ in changes(SOURCE, RUST.replace(old, new))[2]
                if not any(is_known(change, 'crates/lexical/src/a.rt', line) for line in known)]
        if bool(note) != bool(old):
            wrong += 1
            print(f'{old!r} made {new!r}: {note}')
    print('\n'.join(untold), end='\n' if untold else '')
    wrong, total = wrong + len(untold), total + len(PLANTED) + 1
    print(f'{total - wrong} tests of dev/audit passed, {wrong} failed')
    return wrong


def main():
    if sys.argv[1:] == ['--test']:
        sys.exit(test())
    if sys.argv[1:] not in ([], ['--list']):
        sys.exit(__doc__)
    seen, places, sources = collections.Counter(), collections.defaultdict(list), set()
    total = kept = 0
    for path, text, source in pairs():
        sources.add(source)
        count, same, changed = changes(source.read_text(), text)
        total += count
        kept += same
        for change, line, made_line in changed:
            seen[change] += 1
            places[change].append((str(source.relative_to(TOP)), line, f'{path.relative_to(TOP)}:{made_line}'))
    print(f'{total} tokens of {len(sources)} sources, {kept} unchanged ({100 * kept / max(total, 1):.2f} %)')
    if sys.argv[1:]:
        for change, number in seen.most_common():
            print(f'{number:6}  {change}')
        return
    known = known_changes()
    unknown = [(change, place) for change in seen for place in places[change]
               if not any(is_known(change, place[0], line) for line in known)]
    for change, (source, line, made) in unknown:
        print(f'{source}:{line} and {made}: no known change: {change}')
    for line in known:
        if not any(is_known(change, place[0], line) for change in seen for place in places[change]):
            print(f'known, and nowhere now: {line[0]}')
    left_out = missing(sources)
    for source in left_out:
        print(f'nothing was made of {source}')
    page = PAGE.read_text()
    shown = [f'{path.relative_to(TOP)}: {what}' for path, text, source in pairs() if LIBRARY in path.parents
             for what in contracts.differences(source.read_text(), text, page)]
    for difference in shown:
        print(difference)
    sys.exit(1 if unknown or left_out or shown or not sources else 0)


main()
