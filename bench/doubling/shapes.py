"""The shapes of text for bench/doubling.py.

A shape is a name and what stands first, what is repeated, what stands inside, what closes each repetition, and what
stands last. What is left out is empty.
"""
import re

from workspace import TOP, place

REASONS = TOP / place("dev/checks/reasons.txt")

# Those that took to_pretty_string quadratic time, and those that would if a rule of it forgot what it had looked at.
NAMED = [
    ("if in a value", "x = ", "if a { b } else "),
    ("guards of ranges", "fn f() { match a { ", "1.. if a => f(),", "", "", "} }"),
    ("not if", "x = ", "!if "),
    ("equals if", "x ", "=if "),
    ("nested types", "type T = ", "Cons<A, ", "u8", ">", ";"),
    ("where where", "fn f ", "where ", "", "", ";"),
    ("dots behind turbofish", "x = ", "a::<B, ", "C", ">()", ".d().e().f().g();"),
    ("dots in turbofish", "x = ", "a::<B, c.d(e), ", "C", ">().f()", ";"),
    ("macro arms with if", "macro_rules! m { ", "$(#[$m])* if x => y, ", "", "", "}"),
    ("await and ?", "fn f() { a", ".b().await?", "", "", "; }"),
    ("await and index", "fn f() { a", ".await[0]", "", "", " + b; }"),
    ("macro, index, dot", "fn f() { a", ".m!{}[0]", "", "", "; }"),
    ("where in angles", "fn f where A, ", "where .b, A<B, ", "C", ">.d()", ";"),
    ("wide roots of chains", "x = ", "a::<{ b; }, ", "C", ">()", ".d({ e; }).f().g();"),
    # At the usual size each of these has more than 4,000 parts.
    ("nested calls", "x = ", "f(", "a", ")", ";"), ("nested assignments", "x = ", "a = ", "b", "", ";"),
    ("operators by turns", "x = ", "a + b - ", "c", "", ";"),
]

# The shapes of another script, which timed the programs.
GROWN = [
    ("names", "", "a "), ("parentheses", "", "(", "", ")"), ("braces", "", "{", "", "}"),
    ("modules", "", "mod a {", "", "}"), ("if in if", "fn f() {", "if a {", "", "}", "}"),
    ("else if", "fn f() { if a {} ", "else if a {} ", "", "", "}"), ("chain", "fn f() { a", ".b(c)", "", "", "}"),
    ("chain in chain", "fn f() { ", "a.b(", "", ")", "}"), ("sum", "fn f() { a", " + b", "", "", "; }"),
    ("generics", "type A = ", "B<", "u8", ">", ";"), ("closures", "fn f() { ", "|x| ", "x", "", " }"),
    ("references", "fn f(x: ", "&", "u8", "", ") {}"), ("attributes", "", "#[a]\n", "", "", "fn f(){}"),
    ("doc comments", "", "/// a\n", "", "", "fn f(){}"), ("doc attributes", "", '#[doc = " a"]\n', "", "", "fn f(){}"),
    ("fields", "struct A {", "a: u8,", "", "", "}"), ("variants", "enum A {", "A,", "", "", "}"),
    ("items", "", "fn f(){}\n"), ("statements", "fn f(){", "let a = b;", "", "", "}"),
    ("bounds", "fn f() where ", "A: B,", "", "", "{}"), ("parameters", "fn f<", "A: B,", "", "", ">() {}"),
    ("arguments", "fn f() { a(", "b, ", "", "", ") }"), ("array", "const A: [u8; 1] = [", "1, ", "", "", "];"),
    ("one line past ASCII", "fn f() { ", 'é("é"); ', "", "", " }"),
    ("string", 'const A: &str = "', "x", "", "", '";'),
    ("escapes", 'const A: &str = "', "\\n\\u{e9}", "", "", '";'),
    ("raw string", 'const A: &str = r' + "#" * 200 + '"', '"' + "#" * 199, "", "", '"' + "#" * 200 + ";"),
    ("comment", "/*", "/", "", "", "*/"), ("comment in comment", "", "/*", "", "*/"), ("lines", "", "\n"),
    ("line comments", "", "// a\n"), ("lifetimes", "", "'a "), ("characters", "", "'a','b',"),
    ("floats", "", "1.5e3, "), ("ranges", "", "1..2, "), ("paths", "", "a::", "b"),
    ("less in statements", "fn f() {", "a < b; ", "", "", "}"), ("less", "fn f() { a ", "< b ", "", "", "}"),
    ("semicolons", "", ";"), ("bangs", "", "!"), ("bars", "", "|"), ("openers of angles", "", "<"),
    ("closers of angles", "", ">"), ("use in use", "use ", "a::{", "", "}", ";"),
    ("use list", "use a::{", "b, ", "", "", "};"), ("match", "fn f() { match a {", "b => c,", "", "", "} }"),
    ("match in match", "fn f() { ", "match a { b => ", "c", "}", "}"),
    ("visibilities", "", "pub(in a) ", "", "", "fn f(){}"), ("long name", "fn ", "a", "", "", "(){}"),
    ("unclosed parentheses", "", "("), ("odd quotes", "", '"a', "", "", '"'), ("unopened", "", "a ", "", "", ")"),
    ("mismatched", "", "(", "", "]"), ("open string at the end", "", "a\n", "", "", '"'),
    ("open comments", "", "a\n/* "), ("no tokens", "", "a \\ "),
    ("for in types", "fn f(x: ", "for<'a> Fn(", "", ")", ") {}"),
    ("dyn", "type A = dyn B", " + C", "", "", ";"),
    ("let else", "fn f(){", "let A(b) = c else { return };", "", "", "}"),
    ("macro", "m! {", "a b ; ", "", "", "}"), ("macro in macro", "", "m! {", "", "}"),
]

# One or more for each rule of layout, that no other meets.
LAYOUT = [
    ("or", "x = a", " || b", "", "", ";"), ("and in if", "fn f() { if a", " && b", "", "", " {} }"),
    ("bars of patterns", "fn f() { match a { b", " | c", "", "", " => d } }"),
    ("paths of patterns", "fn f() { match a { B::C", " | B::D", "", "", " => { d } } }"),
    ("mixed operators", "x = a", " + b || c && d", "", "", ";"),
    ("assignments", "fn f() { ", "a = b + c; ", "", "", "}"),
    ("chain of assignments", "a", " = b", "", "", ";"), ("chain of fields", "x = a", ".b", "", "", ";"),
    ("chain of ?", "x = a", "?.b", "", "", ";"), ("chains of closures", "fn f() { ", "a.b(|c| ", "d", ").e()", "}"),
    ("blocks of closures", "", "f(|x| { ", "", "})"), ("last arguments", "", "f(a, |b| ", "c", ")"),
    ("formats", "fn f() { ", 'println!("{} {}", a, b);', "", "", "}"),
    ("arguments of a format", 'println!("{}"', ", a", "", "", ");"),
    ("short elements", "x = [", "1, 2, 30, ", "", "", "];"),
    ("long elements", "x = [", '"a long element of a list", ', "", "", "];"),
    ("literals of structs", "x = ", "A { b: c, d: ", "e", " }", ";"),
    ("rest of structs", "x = ", "A { b, ..", "c", " }", ";"),
    ("fields of a literal", "x = A { ", "b: c, ", "", "", "..d };"), ("tuples", "x = ", "(a, ", "b", ")", ";"),
    ("branches in branches", "x = ", "if a { ", "b", " } else { c }", ";"),
    ("branches in arguments", "f(", "if a { b } else { c }, ", "", "", ");"),
    ("branches of statements", "fn f() { ", "return if a { b; } else { c }; ", "", "", "}"),
    ("else with no end", "x = ", "if a { b; } else ", "", "", ";"),
    ("arms of blocks", "match a { ", "b => { c; } ", "", "", "}"),
    ("arms of matches", "match a { ", "b if c => d(|e| { f; }), ", "", "", "}"),
    ("use of a path", "", "use a::b::{c, d};\n"),
    ("items with attributes", "", "#[a] #[b(c)] fn f() { g(); }\n"), ("inner attributes", "", "#![a]\n"),
    ("long derive", "#[derive(", "A, ", "B", "", ")] struct C;"),
    ("long lints", "#![allow(", "a_lint, ", "b", "", ")]"),
    ("commas in a macro's call", "m!(", "f(a, ", "b", ",)", ");"),
    ("bounds of a struct", "struct A<B> where ", "B: C, ", "", "", "{ d: e }"),
    ("angles in bounds", "fn f() where ", "A<B, C>: D<E>, ", "", "", "{ g }"),
    ("where in items", "impl A { ", "fn f() where A: B, { c } ", "", "", "}"),
    ("turbofish", "x = a", "::<B, C>::d", "", "", ";"),
    ("turbofish in turbofish", "x = ", "a::<", "B", ">()", ";"), ("types of calls", "x = ", "a::<B>().c", "d", "", ";"),
    ("less and greater", "x = ", "a < b > c ", "", "", ";"), ("angles that end", "x = ", "a < b; c > d ", "", "", ";"),
    ("open angles", "fn f() { ", "a < ", "b", "", "; }"),
    ("repetitions", "macro_rules! m { ", "($($x:expr),*) => { $($x;)* }; ", "", "", "}"),
    ("repetitions in repetitions", "", "$( ", "$x", " ),*"), ("fragments", "m!(", "$a:expr, ", "", "", ")"),
    ("labels", "fn f() { ", "'a: loop { break 'a; } ", "", "", "}"), ("casts", "x = a", " as b", "", "", ";"),
    ("casts of blocks", "fn f() { ", "{ a } as b; ", "", "", "}"), ("awaits", "x = a", ".await", "", "", ";"),
    ("references to calls", "f(", "&mut a(b), ", "", "", ")"), ("stars", "x = ", "*", "a", "", ";"),
    ("minus", "x = ", "-", "a", "", ";"),
    ("not", "x = ", "!", "a", "", ";"), ("open ranges", "x = [", "a.., ", "", "", "];"),
    ("strings of lines", "f(", '"a\nb", ', "", "", ")"),
    ("tall roots", "x = ", "a({ b; })", "", "", ".c().d();"), ("returns", "fn f() { ", "return a(b, c); ", "", "", "}"),
    ("let with types", "fn f() { ", "let a: B<C> = d; ", "", "", "}"), ("unions", "", "union A { b: c }\n"),
    ("extern", "", 'extern "C" { fn f(); }\n'), ("traits", "", "trait A: B { type C: D; }\n"),
    ("async", "x = ", "async move { ", "a", " }", ";"),
    ("words one after another", "", "fn if else match where "), ("marks one after another", "", "+ - * / % ^ & "),
    ("joint marks", "", "+-*/"),
    ("commas", "", ","), ("dots", "", "."), ("colons", "", ":"), ("arrows", "", "=> -> "), ("hashes", "", "# "),
    ("dollars", "", "$"),
    ("equals", "", "="), ("question marks", "", "?"), ("at signs", "", "@"), ("empty groups", "", "()[]{}"),
    ("blocks", "", "{a}"),
]

# For calls that take what is inside of a literal, for templates, and for doc attributes.
TEXTS = [
    ("holes", "", "#a "), ("lists of holes", "", "#(#b),* "), ("nested lists of holes", "", "#( ", "#b", " )*"),
    ("holes in groups", "", "(#a) "),
    ("doc attributes with escapes", "", '#[doc = "a\\nb\\u{e9}"] ', "", "", "fn f(){}"),
    ("long doc attribute", '#[doc = "', "a \\\"b\\\" ", "", "", '"] fn f(){}'),
    ("unclosed doc attribute", '#[doc = "', "a "),
    ("doc comments of blocks", "", "/** a\n * b */\n", "", "", "fn f(){}"), ("byte strings", "", 'b"a\\x7f" '),
    ("raw strings", "", 'r#"a"# '),
    ("long number", "", "1"), ("long float", "1.", "5"), ("names past ASCII", "", "é "), ("CR LF", "", "a\r\n"),
    ("white space past ASCII", "", "a\u2003"), ("comments past ASCII", "", "// é\n"),
]


def faults() -> list[tuple[str, ...]]:
    """For each kind of fault the first text of dev/checks/reasons.txt, after names, and over and over."""
    rows, seen = [], set()
    for line in REASONS.read_text().split("\n"):
        reason, *rest = line.split("\t")
        if line.startswith("#") or len(rest) != 2 or reason in {"none", *seen}:
            continue
        seen.add(reason)
        text = re.sub(r"\\(u\{([0-9a-f]+)\}|.)", unescaped, rest[1])
        rows += [(f"{reason} at the end", "", "a\n", "", "", text), (f"{reason} repeated", "", text)]
    return rows


def unescaped(found: re.Match) -> str:
    """What an escape of dev/checks/reasons.txt stands for."""
    return chr(int(found[2], 16)) if found[2] else {"n": "\n", "r": "\r", "t": "\t"}.get(found[1], found[1])


def text_of(shape: tuple[str, ...], size: int) -> str:
    """A text of the shape, of about so many bytes. The number of parts is odd: where a quote opens in one part and
    closes in the next, the last stays open in texts of each size."""
    _, first, part, inside, closing, last = (*shape, *[""] * (6 - len(shape)))
    length = lambda text: len(text.encode())
    count = max(1, (size - length(first + inside + last)) // length(part + closing)) | 1
    return first + part * count + inside + closing * count + last


def shapes(named: bool) -> list[tuple[str, ...]]:
    """The named shapes, or all."""
    return NAMED if named else NAMED + GROWN + LAYOUT + TEXTS + faults()
