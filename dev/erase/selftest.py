"""The eraser's own tests: each rule's example, the layout that is left, and each form that is rejected."""
import collections

import checks
import contracts
import known
import rules
from source import Rejected, is_code, text_of, tokens_of

# A file whose modules are partly there by a feature, and what it becomes.
MODULES = ('pub mod laws;\nmod steps;\nmod walk;\n\npub use steps::Steps;\npub use walk::Walk;\n',
           '#[cfg(feature = "whole")]\npub mod laws;\nmod steps;\n#[cfg(feature = "whole")]\nmod walk;\n\n'
           'pub use steps::Steps;\n#[cfg(feature = "whole")]\npub use walk::Walk;\n')

# Texts, and what is said of each: the forms that no rule knows, or that Rust reads otherwise.
REJECTED = [
    ('fn f() { unsafe { g() } }', '`unsafe`'),
    ('fn f(b: &[u8]) -> &str { unsafe { str::from_utf8_unchecked(b); str::from_utf8_unchecked(b) } }', '`unsafe`'),
    ('unsafe fn f() {}', '`unsafe`'),
    ('fn f(x: u8) { prove!(x < 9); }', '`prove!`'),
    ('fn f(x: u8) { prove_eq!(x, 9); }', '`prove_eq!`'),
    ('fn f(x: u8) { assert!(x < 9); }', 'the macro `assert!`'),
    ('fn f() { format!("a"); }', 'without its allocator'),
    ('fn f() { vec![in alloc; 1, 2]?; }', 'the macro `vec!`'),
    ('fn f() -> Vec<Global> {}', 'an allocator in a place'),
    ('fn f(g: A) { g.make(alloc => 1); }', 'an allocator in a place'),
    ('#[derive(Clone)] struct A;', '`Clone` without `Copy`'),
    ('#[derive(Default)] struct A;', 'a derive of `Default`'),
    ('#[repr(C)] struct A;', 'the attribute `repr`'),
    ('#[cfg(feature)] fn f() {}', 'the attribute `cfg`'),
    ('#[cfg_attr(debug_assertions, inline(always))] fn f() {}', 'the attribute `cfg_attr`'),
    ('#[test] fn f(rt: HostRuntime) {}', 'the attribute `test`'),
    ('fn f(rt: &impl Abort) {}', 'a handle'),
    ('struct A { a: u8, } impl Drop for A { fn drop(self) { let A { a } = self; } }', 'the field a, no `Option`'),
    ('struct A { a: Option<u8>, } impl Drop for A { fn drop(self) { f(self); } }', 'does not begin by taking it apart'),
    ('struct A { a: Option<u8>, b: Option<u8>, } impl Drop for A { fn drop(self) { let A { a, .. } = self; } }',
     'does not name each field'),
    ('struct A { a: Option<u8>, } impl Drop for A { fn drop(self) { let A { a } = self; } } '
     'fn f(v: A) { let A { a: Some(b) } = v; }', 'does not name each field'),
    ('fn f() { for x in 250u8.. { g(x); } }', 'a range without an end'),
    ('fn f() { g((250u8..).take(9)); }', 'a range without an end'),
    ('fn f(a: u8) { let r = a..; }', 'a range without an end'),
    ('fn f(v: &[A]) { v.iter().map(|a| a.clone()); }', 'a closure that clones'),
    ('fn f(v: &[A]) { v.iter().cloned(); }', '`cloned`'),
    ('fn f(v: &A) { Clone::clone(v)?; }', '`Clone::clone` by its path'),
    ('fn f<T: Clone>(t: T) {}', 'the bound `Clone`'),
    ('fn f(a: A) -> A { A { b: 1, ..a } }', 'whose other fields come from another'),
    ('trait T { fn f(&self) { g(); } }', "a trait's method with a body"),
    ('trait T { fn len(&self) -> usize; }', "a trait's method `len`, as std has one"),
    ('trait T { fn read(self, b: &mut [u8]); }', "a trait's method `read`, as std has one"),
    ('impl<A> T for A { fn f(&self) {} }', 'an `impl` for a type parameter'),
    ('impl<A> T for &A { fn f(&self) {} }', 'an `impl` for a type parameter'),
    ('fn f(t: &dyn T) {}', 'a trait object'),
    ('fn f(g: fn(u8) -> u8) {}', 'a pointer to a function'),
    ('static mut A: u8 = 1;', '`static mut`'),
    ('extern "C" { fn f(); }', '`extern`'),
    ('macro_rules! m { () => {} }', 'a macro of its own'),
    ('use std::collections::HashSet;', '`std::collections::HashSet`'),
    ('use std::collections::{BTreeMap, BTreeSet};', '`std::collections::BTreeSet`'),
    ('use std::hash::{FoldHasher, Hasher};', '`std::hash::FoldHasher`'),
    ('use std::io; fn f() { io::stdin(); }', '`std::io::stdin`'),
    ('use anyhow::Error;', 'the crate or module `anyhow`'),
    ('mod memchr;', 'a module with the name of the crate `memchr`'),
    ('fn f(s: &str) { s.to_uppercase(); }', 'the method `to_uppercase`'),
    ('fn f(c: char) { c.is_alphabetic(); }', 'the method `is_alphabetic`'),
    ('fn f() { u16::try_from(1u8); }', '`u16::try_from`'),
    ('use std::fmt; fn f<W: fmt::Write>(a: &A, f: &mut fmt::Formatter<W>) { a.fmt(f); }', 'of `Debug` or of `Display`'),
    ('use std::fmt; use std::fmt::Display; impl fmt::Debug for A { fn fmt<W: fmt::Write>(&self, f: '
     '&mut fmt::Formatter<W>) -> fmt::Result { self.0.fmt(f) } }', 'of `Debug` or of `Display`'),
    ('fn f() { g(&[E::Memory(AllocError)]); }', 'a last row of the error of memory'),
    ("impl<T> fmt::Display for A<T> { fn fmt<W: fmt::Write>(&self, f: &mut fmt::Formatter<W>) -> fmt::Result { } }",
     'a type with parameters'),
    ('impl Model for A { fn f() {} }', 'a `Model` that holds code'),
    ('fn f() /* a */ {}', 'a block comment'),
    ('fn f() ≡ {}', 'the character ≡'),
    ('fn f() requires x < 9 {}', 'a clause of another form'),
    ('struct A { ghost x, }', 'a ghost item of another form'),
    ('fn f() ensures { a', '`{` that nothing closes'),
]

# A text with what proofs read, and the same without it, line by line.
LAYOUT = '''\
//! A file.
#![tactic(auto)]

ghost use a.b.{◌≡◌};

use crate::bytes::one;

/// A place.
#[derive(Drop)]
pub struct Place {
    /// What follows.
    pub rest: u8,
    // It is small.
    pub ghost small: { rest < 9 },
}

impl Place {
    ghost use a.{x};

    /// The rest.
    pub fn rest(&self) -> u8
        requires { x }

        // It is what it is.
        ensures value { result ≡ self.now.rest }

        ensures other { "}" }
    {
        self.rest
    }
}

trait Unit {
    ghost unit: { ℕ };

    fn unit() -> u8
        ensures { result ≡ unit };
}
''', '''\
//! A file.

use crate::lexical::bytes::one;

/// A place.
pub struct Place {
    /// What follows.
    pub rest: u8,
    // It is small.
}

impl Place {
    /// The rest.
    pub fn rest(&self) -> u8

        // It is what it is.
    {
        self.rest
    }
}

trait Unit {
    fn unit() -> u8;
}
'''


# A file of specs, a source, and the same with contracts in its doc comments.
SPEC = '''\
-- whether a mark `*` stands there
abbrev pub Small : ℕ → Type 0
Small x = x < 9

module _ {A : Type 0} where
  -- what a reader gives
  pub data Outcome : Type 0 where
    -- nothing, as *p*_q
    Neither : Outcome
    Both : ℕ → Outcome

-- the sizes
pub record Sizes : Type 0 where
  pub Small : ℕ

abbrev pub bare : ℕ
bare = 1
'''
CONTRACT = '''\
ghost use Rattle.lexical.specs.Outcome.{Small, Both as Two, bare};
ghost use Rattle.lexical.specs.Outcome as outcomes;
ghost use Rattle.lexical.specs.declared.kind.Kind.TheVariants as kinds;

impl A {
    /// One.
    #[inline]
    pub const fn one(x: u8, small: &[u8]) -> u8
        requires { Small x × (small ≢ []) }
        ensures value { (outcomes.Neither ≡ Two 1)
            × (λ y. y ≡ kinds.Gap × "a'" ≢ x.now) }
    {
        x
    }

    fn own(x: u8) -> u8 ensures { unknown } { x }
    pub fn two(x: u8) -> u8
        ensures { result ≡ x }
    {
        x
    }
}
''', '''\
impl A {
    /// One.
    ///
    /// # Contract
    ///
    /// - `requires`: <code>[Small] x × (small ≢ \\[\\])</code>
    /// - `ensures value`: <code>(outcomes.[Neither] ≡ [Two] 1) × (λ y. y ≡ kinds.Gap × \\"a\\'\\" ≢ x.now)</code>
    ///
    /// [Small]: crate::contracts#lexical.Outcome.Small
    /// [Neither]: crate::contracts#lexical.Outcome.Neither
    /// [Two]: crate::contracts#lexical.Outcome.Both
    #[inline]
    pub const fn one(x: u8, small: &[u8]) -> u8
    {
        x
    }

    fn own(x: u8) -> u8 { x }
    /// # Contract
    ///
    /// - `ensures`: <code>result ≡ x</code>
    pub fn two(x: u8) -> u8
    {
        x
    }
}
'''
# The lines of the page for the words of that contract.
PAGE = '''\
//! # Words of `lexical`
//!
//! - <a id="lexical.Outcome.Both"></a>**Both**: what a reader gives
//! - <a id="lexical.Outcome.Neither"></a>**Neither**: nothing, as \\*p\\*\\_q
//! - <a id="lexical.Outcome.Small"></a>**Small**: whether a mark `*` stands there
'''
# What a clause may not name, and what is said of it.
UNEXPLAINED = [('bare ≡ x', 'the word `bare` of lexical.Outcome'), ('y ≡ x', 'the name `y` in a clause'),
               ('y.now ≡ x', 'the name `y` in a clause'), ('outcomes.Other ≡ x', 'the word `Other` of lexical.Outcome')]


def documented(text):
    """A text with contracts in its doc comments and all rules applied, and the words that they name."""
    words = contracts.Words()
    words.learn('lexical', 'Outcome', SPEC)
    package = rules.Package(collections.Counter(), ['lexical', 'pm_span'])
    file = rules.File('lexical', known.WITH_UNSAFE, tokens_of(text), package)
    contracts.put(file, words)
    for rule in rules.RULES:
        rule(file)
    return text_of(file.tokens), words


def contracts_failures():
    """What fails of the tests of contracts, each as a text."""
    failures = []
    seen, words = documented(CONTRACT[0])
    if seen != CONTRACT[1]:
        failures.append(f'the contracts are\n{seen}')
    if not words.page().endswith(PAGE):
        failures.append(f'the page of words is\n{words.page()}')
    for clause, what in UNEXPLAINED:
        try:
            seen = documented(CONTRACT[0].replace('result ≡ x', clause))[0]
        except Rejected as error:
            seen = error.what
        if what not in seen:
            failures.append(f'not rejected as {what}: {clause}\n{seen}')
    return failures


def applied(text, tests=False, source=known.WITH_UNSAFE):
    """A text with all rules applied, as a source of `lexical` at this path, and what is rejected in it."""
    names = known.OF_TESTS if tests else known.OF_LIBRARY
    package = rules.Package(collections.Counter(), ['lexical', 'pm_span'], names=names)
    tokens = tokens_of(text)
    code = [token for token in tokens if token.kind not in ('clause', 'ghost')]
    package.learn(code)
    package.learn_fields(code)
    file = rules.File('lexical', source, tokens, package)
    for rule in rules.RULES[:-1]:
        rule(file)
    rejected = checks.rejections(file)
    rules.RULES[-1](file)
    imports = f'use crate::shim::prelude::{{{", ".join(file.prelude)}}}; ' if file.prelude else ''
    return ' '.join([*file.attributes, imports + text_of(file.tokens)]), [what for _, what in rejected]


def rejected_of_jobs(text):
    """What is rejected of a text in the crate of jobs, which may name more than the library."""
    package = rules.Package(collections.Counter(), ['workloads'], ['lexical'], known.OF_JOBS)
    file = rules.File('workloads', 'crates/workloads/src/digest.rt', tokens_of(text), package)
    return [what for _, what in checks.rejections(file)]


def messages_of(text, source=known.WITH_UNSAFE):
    try:
        return applied(text, source=source)[1]
    except Rejected as error:
        return [error.what]


def code_of(text):
    return [token.text for token in tokens_of(text) if is_code(token)]


def example(rule):
    """The example at the end of a rule's documentation: a text, and what it becomes."""
    return rule.__doc__.rstrip().rsplit('\n\n', 1)[1].split('\n        => ', 1)


def run():
    """Runs all tests, tells what fails, and answers how many do."""
    failures = []
    for rule in rules.RULES:
        before, after = example(rule)
        seen, _ = applied(before, tests=True)
        if code_of(seen) != code_of(after.replace(' shim::', ' crate::shim::')):
            failures.append(f'the example of {rule.__name__} becomes\n    {seen}')
        if code_of(seen) == code_of(before):
            failures.append(f'the example of {rule.__name__} is not changed')
    for text, what in REJECTED:
        output = messages_of(text)
        if not any(what in one for one in output):
            failures.append(f'not rejected as {what}: {text}\n    said: {output}')
    if messages_of(example(rules.utf8)[0], 'crates/pm_token/src/symbols.rt') != [known.FORBIDDEN['unsafe']]:
        failures.append('`unsafe` is not rejected outside its file')
    if rejected_of_jobs('use std::hash::{FoldHasher, Hasher}; fn f(a: u64) -> [u8; 8] { a.to_le_bytes() }'):
        failures.append('the jobs may not name their hasher')
    if not rejected_of_jobs('use std::collections::HashSet;'):
        failures.append('the jobs may name anything')
    seen, rejected = applied(LAYOUT[0])
    if seen != LAYOUT[1] or rejected:
        failures.append(f'the layout is\n{seen}{rejected}')
    if rules.by_feature(MODULES[0], 'crates/pm_stream/src/lib.rt') != MODULES[1]:
        failures.append('the modules of the feature `whole` are not there by it')
    failures += contracts_failures()
    for failure in failures:
        print(failure)
    total = 2 * len(rules.RULES) + len(REJECTED) + 5 + 2 + len(UNEXPLAINED)
    print(f'{total - len(failures)} tests of dev/erase passed, {len(failures)} failed')
    return len(failures)
