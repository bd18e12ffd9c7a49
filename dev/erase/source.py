"""Tokens of Rattle's sources (.rt), and the layout that is left where some of them go."""
import re
from dataclasses import dataclass


@dataclass
class Token:
    """A token: its kind, its text and the line where it begins.

    The kinds are `white`, `comment`, `string`, `char`, `lifetime`, `name`, `number`, `mark` (one character), and
    `clause` and `ghost` for what only proofs read, each of these two as one token.
    """

    kind: str
    text: str
    line: int


class Rejected(Exception):
    """A form that no rule knows: the line, and what it is."""

    def __init__(self, line, what):
        super().__init__(what)
        self.line = line
        self.what = what


WHITE = re.compile(r'\s+')
COMMENT = re.compile(r'//[^\n]*')
STRING = re.compile(r'[bc]?"(?:\\.|[^"\\])*"', re.S)
RAW_STRING = re.compile(r'[bc]?r(#*)".*?"\1', re.S)
CHAR = re.compile(r"b?'(?:\\(?:u\{[0-9A-Fa-f_]+\}|x[0-9A-Fa-f]{2}|.)|[^\\'])'", re.S)
LIFETIME = re.compile(r"'[A-Za-z_]\w*", re.A)
NAME = re.compile(r'[A-Za-z_]\w*', re.A)
NUMBER = re.compile(r'[0-9]\w*(?:\.[0-9]\w*)?', re.A)
PLAIN = [('white', WHITE), ('comment', COMMENT), ('string', STRING), ('string', RAW_STRING), ('char', CHAR),
         ('lifetime', LIFETIME), ('name', NAME), ('number', NUMBER)]


def past_braces(text, at, line):
    """The index after the `}` that closes the `{` at `at`, which begins a text of the proof language."""
    depth = 0
    for match in re.compile(r'"(?:\\.|[^"\\])*"|--[^\n]*|[{}]', re.S).finditer(text, at):
        if match.group() == '{':
            depth += 1
        elif match.group() == '}':
            depth -= 1
            if depth == 0:
                return match.end()
    raise Rejected(line, 'a `{` that nothing closes')


def past_white(text, at):
    match = WHITE.match(text, at)
    return match.end() if match else at


def past_clause(text, at, line):
    """The index after a clause `requires {..}` or `ensures label {..}` that begins at `at`."""
    match = re.compile(r'(?:requires|ensures)\s*(?:[A-Za-z_]\w*)?\s*', re.A).match(text, at)
    if not text.startswith('{', match.end()):
        raise Rejected(line, 'a clause of another form')
    return past_braces(text, match.end(), line)


def past_ghost(text, at, line):
    """The index after what is ghost at `at`: a `use`, a member with its type or value, or a field."""
    at = past_white(text, at + len('ghost'))
    if re.compile(r'use\s').match(text, at):
        while at < len(text) and text[at] != ';':
            at = past_braces(text, at, line) if text[at] == '{' else at + 1
        return at + 1
    named = re.compile(r'\w+\s*').match(text, at)
    if not named:
        raise Rejected(line, 'a ghost item of another form')
    first = at = named.end()
    while at < len(text):
        given = re.compile(r'(?:[:=]|by)\s*').match(text, at)
        if given:
            if not text.startswith('{', given.end()):
                break
            at = past_white(text, past_braces(text, given.end(), line))
        elif at > first and text[at] in ';,}':
            return at if text[at] == '}' else at + 1
        else:
            break
    raise Rejected(line, 'a ghost item of another form')


def tokens_of(text):
    """The tokens of a text. What is ghost is one token, with the `pub` before it."""
    out, at, line = [], 0, 1
    while at < len(text):
        kind, end = 'mark', at + 1
        if text.startswith('/*', at):
            raise Rejected(line, 'a block comment')
        for plain, pattern in PLAIN:
            match = pattern.match(text, at)
            if match:
                kind, end = plain, match.end()
                break
        word = text[at:end]
        if kind == 'mark' and not word.isascii():
            raise Rejected(line, f'the character {word} outside of what is ghost')
        if kind == 'name' and word in ('requires', 'ensures'):
            kind, end = 'clause', past_clause(text, at, line)
        elif kind == 'name' and word == 'ghost':
            kind, end = 'ghost', past_ghost(text, at, line)
            remove_visibility(out)
        out.append(Token(kind, text[at:end], line))
        line += text.count('\n', at, end)
        at = end
    return out


def remove_visibility(tokens):
    """Takes away the `pub` or `pub(crate)` that the tokens end with."""
    words = [token.text for token in tokens if is_code(token)]
    size = 1 if words[-1:] == ['pub'] else 4 if words[-4:-2] == ['pub', '('] and words[-1] == ')' else 0
    while size:
        size -= is_code(tokens.pop())


def is_code(token):
    return token.kind not in ('white', 'comment')


def text_of(tokens):
    return ''.join(token.text for token in tokens)


def without(tokens, goes):
    """The tokens without those at the indices of the set, and the white space that is left around them.

    Where whole lines go, no more blank lines are left than stood there on one side.
    """
    out = []
    at = 0
    while at < len(tokens):
        if at not in goes:
            out.append(tokens[at])
            at += 1
            continue
        clause = False
        before = out.pop().text if out and out[-1].kind == 'white' else ''
        after = ''
        while at < len(tokens) and (at in goes or tokens[at].kind == 'white'):
            if at in goes:
                clause = clause or tokens[at].kind == 'clause'
                before, after = longer(before, after), ''
            else:
                after = tokens[at].text
            at += 1
        white = gap(before, after, out, tokens[at] if at < len(tokens) else None, clause)
        if white:
            out.append(Token('white', white, 0))
    return out


def longer(one, other):
    return one if one.count('\n') >= other.count('\n') else other


def gap(before, after, out, following, clause):
    """The white space where something went, which stood between `before` and `after`."""
    lines = max(before.count('\n'), after.count('\n'))
    if not out or following is None:
        return '\n' if out else ''
    if following.text == ';':
        return ''
    if lines == 0:
        return ' ' if before and after else ''
    if out[-1].text == '{' or following.text == '}' or clause and following.text == '{':
        lines = 1
    indent = (after if '\n' in after else before).rsplit('\n', 1)[-1]
    return '\n' * min(lines, 2) + indent
