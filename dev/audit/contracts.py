"""Compares the contracts that doc comments show with the clauses of the proved sources.

It shares no code with dev/erase. A doc comment shows each clause as an item of a list below `# Contract`, and its
words as links to the page `contracts`. With the links and the marks of Markdown taken away, the clauses of each public
function have to be there as in its source, but for white space, and no others. Each link has to lead to a line of the
page.
"""
import html
import re

# One alternative each for comments, texts and characters, names, marks.
TOKEN = re.compile(r'''//[^\n]*|b?c?r(\#*)".*?"\1|"(?:[^"\\]|\\.)*"|'(?:[^'\\]|\\.[^']*)'|\w+|\S''', re.S)
ITEM = re.compile(r'- `(\w+(?: \w+)?)`: <code>(.*)</code>')
LINK = re.compile(r'(?<!\\)\[([^\]\\]+)\](?:\(crate::contracts#([^)]*)\))?')
LABEL = re.compile(r'\[([^\]]+)\]: crate::contracts#(\S+)')
# Functions that only lend the allocator, of which no Rust is made.
LENT = {'alloc', 'allocator'}


def end_of_proof(text, start, word):
    """Where the clause or the ghost item ends that begins at `start`."""
    depth = 0
    for mark in re.compile(r'--[^\n]*|"(?:[^"\\]|\\.)*"|[{};,]').finditer(text, start):
        depth += (mark.group() == '{') - (mark.group() == '}')
        if depth < 0:
            return mark.start()
        if depth == 0 and (mark.group() == '}' and word != 'ghost' or mark.group() in ';,'):
            return mark.end()
    return len(text)


def clauses_of(text):
    """The public functions of a source that have clauses: the name of each, and its clauses."""
    out, last, at, depth, trait, public = [], [], 0, 0, None, False
    while found := TOKEN.search(text, at):
        token, at = found.group(), found.end()
        if token.startswith('//'):
            continue
        if token in ('requires', 'ensures', 'ghost'):
            at = end_of_proof(text, found.start(), token)
            if token != 'ghost' and public:
                out[-1][1].append(' '.join(text[found.start():at].split()))
            continue
        if last[-1:] == ['fn']:
            front = [word for word in last[:-1] if word != 'const'][-1:]
            public = front == ['pub'] or trait is not None and depth == trait
            if public and token not in LENT:
                out.append((token, []))
            public = public and token not in LENT
        if last[-2:] == ['pub', 'trait']:
            trait = depth + 1
        depth += (token == '{') - (token == '}')
        if trait is not None and depth < trait and token == '}':
            trait = None
        last = [*last[-3:], token]
    return [row for row in out if row[1]]


def plain(text):
    """What Markdown shows of a text without links."""
    return html.unescape(re.sub(r'\\(.)', r'\1', LINK.sub(r'\1', text)))


def shown_in(text):
    """The functions of a made file that show a contract, as `clauses_of` answers, and the places that they link to."""
    out, places, lines = [], [], text.splitlines()
    for number, line in enumerate(lines):
        if line.strip() != '/// # Contract':
            continue
        rows = []
        while lines[number].strip().startswith('///'):
            rows.append(lines[number].strip().removeprefix('///').removeprefix(' '))
            number += 1
        while not (name := re.search(r'\bfn (\w+)', lines[number])):
            number += 1
        clauses, words, labels = [], set(), {}
        for item in '\n'.join(rows[2:]).replace('\n  ', ' ').splitlines():
            clause, label = ITEM.fullmatch(item), LABEL.fullmatch(item)
            if label:
                labels[label[1]] = label[2]
            elif clause:
                words |= {found[1] for found in LINK.finditer(clause[2]) if not found[2]}
                places += [found[2] for found in LINK.finditer(clause[2]) if found[2]]
                clauses.append(f'{clause[1]} {{ {plain(clause[2]).strip()} }}')
            elif item:
                clauses.append(item)
        clauses += [f'the link {word}' for word in sorted(words ^ set(labels))]
        out.append((name[1], clauses))
        places += labels.values()
    return out, places


def differences(source, made, page):
    """What a made file shows otherwise than its source says, or links to where the page has no line: each as a text."""
    def squeezed(functions):
        return [(name.removeprefix('try_'), [re.sub(r'\s', '', clause) for clause in clauses])
                for name, clauses in functions]

    shown, places = shown_in(made)
    wanted, seen = squeezed(clauses_of(source)), squeezed(shown)
    out = [f'the contract of {row[0]} is not that of its source' for row in wanted if row not in seen]
    out += [f'{row[0]} shows a contract that its source lacks' for row in seen if row not in wanted]
    if not out and wanted != seen:
        out.append('contracts in another order')
    return out + [f'no line of the page for {place}' for place in places if f'<a id="{place}"></a>' not in page]


# A source, the Rust that is made from it, its page, and changes of these two that have to be told.
SOURCE = '''
/// Adds.
pub fn add(a: &A, s: &str) -> u8
    requires { IsTrue (is_small a.now) × (s ≢ []) }
    ensures ok { result ≡ "x\\"'" ∷ is_small
        a.now }
{ 1 }
fn own() requires { x } {}
pub fn alloc(&self) -> Global ensures { result ≡ x } { self.alloc }
pub trait T { fn next(&self) ensures { A }; } impl T for A { fn next(&self) ensures { B } {} }
'''
RUST = r'''
/// Adds.
///
/// # Contract
///
/// - `requires`: <code>[IsTrue] ([is_small] a.now) × (s ≢ \[\])</code>
/// - `ensures ok`: <code>result ≡ \"x\\\"\'\" ∷ [is_small]
///   a.now</code>
///
/// [IsTrue]: crate::contracts#std.IsTrue
/// [is_small]: crate::contracts#lexical.Size.is_small
#[inline]
pub fn add(a: &A, s: &str) -> u8
{ 1 }
fn own() {}
pub trait T {
    /// # Contract
    ///
    /// - `ensures`: <code>[A](crate::contracts#std.A)</code>
    fn try_next(&self); }
'''
PAGE = '<a id="std.IsTrue"></a> <a id="std.A"></a> <a id="lexical.Size.is_small"></a>'
PLANTED = [('≢', '≡'), (' ok', ''), ('ensures ok', 'requires ok'), ('[IsTrue] (', '('), ('std.IsTrue', 'std.IsFalse'),
           ('Size.is', 'Sizes.is'), ('/// # Contract\n', ''), ('"', "'"), ('pub fn add', 'pub fn added'),
           ('/// - `requires`: <code>[IsTrue] ([is_small] a.now) × (s ≢ \\[\\])</code>\n', ''),
           ('fn own', 'fn own_\n/// # Contract\n///\n/// - `requires`: <code>x</code>\nfn own'),
           ('<code>[A](crate::contracts#std.A)', 'A'),
           ('(crate::contracts#std.A)', '(crate::contracts#std.B)')]


def test():
    """How many tests there are, and those that fail."""
    wrong = [f'contracts: {old!r} made {new!r}' for old, new in [('', '')] + PLANTED
             if bool(differences(SOURCE, RUST.replace(old, new, 1), PAGE)) != bool(old)]
    return len(PLANTED) + 1, wrong
