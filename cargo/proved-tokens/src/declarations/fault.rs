// Made from crates/declarations/src/fault.rt by dev/erase: change that file, not this one.
//! Errors in trees that the grammar does not accept.

use crate::declarations::expected::Expected;
use crate::pm_span::Span;
use crate::pm_stream::{Group, TokenTree};
use crate::shim::fmt;
use crate::shim::fmt::Display;

/// An error: where trees do not fit the grammar.
///
/// The grammar reads trees by signs. A sign is one tree, or a few trees that belong together, such as those of `->`,
/// `::` and `'a`. A group is one tree, and its span is that of the whole group with its delimiters.
///
/// The text of the error says which signs were expected, with four names at most: "expected `:`" for the field `x u8`,
/// and "the declaration ends too early, expected a type" for `x:`, where the span is `None`. Several names come in a
/// fixed order, which is not that of the alphabet: for `struct S` they are "`;`, `{`, `where` or `(`, among others". If
/// the part that was read could go on, the text says so: "expected `:` or more of the pattern" for the parameter `b` of
/// `fn f(b);`.
///
/// In `struct S { } x` the error is after 3 trees, at `x`. In `struct S` it is after 2 trees, and has no span.
///
/// If the trees are those in a group, an error at their end is best reported at the closing delimiter. A call that is
/// given trees does not know the group, nor do `FieldList`, `VariantList`, `Parameters` and `Entries`. Call
/// [`within`](Fault::within) with the group, and the error has this span.
#[derive(Clone, Copy, Debug)]
pub struct Fault {
    /// The number of trees before the first sign that does not fit. It is the number of all trees if more are missing.
    pub at: usize,
    /// The span of the first tree of that sign, or `None` if more trees are missing, to which [`within`](Fault::within)
    /// adds the span of the closing delimiter.
    pub span: Option<Span>,
    /// The signs that can come next.
    expected: Expected,
}

impl Fault {
    /// The error after `at` trees with this span, which does not say what was expected.
    pub(crate) fn at_span(at: usize, span: Option<Span>) -> Fault
    {
        Fault {
            at,
            span,
            expected: Expected::nothing(),
        }
    }

    /// The error after `at` trees, where `left` are the trees that remain. It does not say what was expected.
    pub(crate) fn ahead_of(at: usize, left: &[TokenTree]) -> Fault
    {
        let span = match left.split_first() {
            Some((tree, _)) => Some(tree.span()),
            None => None,
        };
        Fault::at_span(at, span)
    }

    /// The error with these signs as those that can come next.
    pub(crate) fn expecting(self, expected: Expected) -> Fault
    {
        Fault {
            at: self.at,
            span: self.span,
            expected,
        }
    }

    /// The error with this many trees before it.
    pub(crate) fn after(self, at: usize) -> Fault
    {
        Fault {
            at,
            span: self.span,
            expected: self.expected,
        }
    }

    /// Returns the field [`span`](Fault::span): the span of the first tree that does not fit.
    ///
    /// # Contract
    ///
    /// - `ensures`: <code>result ≡ self.now.span</code>
    pub fn span(&self) -> Option<Span>
    {
        self.span
    }

    /// Returns the error of trees that are those in this group.
    ///
    /// If the error has no span, because trees are missing at the end, the result has the span of the group's closing
    /// delimiter. Otherwise the result is the same error. For the trees `&` in `(&)` the error of `split_type` has no
    /// span, and within this group it has the span of `)`.
    ///
    /// # Contract
    ///
    /// - `ensures`: <code>result ≡ [ending_at] ([closing_of] group.now) self</code>
    ///
    /// [ending_at]: crate::contracts#declarations.Ending.ending_at
    /// [closing_of]: crate::contracts#declarations.Ending.closing_of
    pub fn within(self, group: &Group) -> Fault
    {
        self.ending_at(Some(group.span_close()))
    }

    /// The error with this span, if it has none.
    pub(crate) fn ending_at(self, end: Option<Span>) -> Fault
    {
        Fault {
            at: self.at,
            span: or_span(self.span, end),
            expected: self.expected,
        }
    }

    /// Returns the signs that could come after the first `at` trees, in place of what is there.
    ///
    /// A sign is in the set exactly if the first `at` trees, this sign and perhaps more can be a whole part of the kind
    /// that was read. The end is in the set if the first `at` trees are a whole part themselves. For `struct 5` the set
    /// of `parse_type_item` has the words, which can be names, and for `struct S; 5` it has only the end.
    ///
    /// A list, such as `FieldList`, and `parse_file` read one part after the other, and their error has the set of the
    /// part that they could not read. If `,` is missing after a part of a list, the set has `,`, the end and the signs
    /// with which the part could go on. For the list `a: A b: B` it has `,`, `<` and `::`, among others.
    ///
    /// The error of an entry can be in a group without delimiters. Then the set has the signs that could come in this
    /// group, and the end in it is that of the group. `within_generics` and `after_where` do not read the trees in the
    /// brackets and after `where`, so their sets have only `<`, `>` or `where`, which is missing.
    ///
    /// # Contract
    ///
    /// - `ensures`: <code>result ≡ self.now.expected</code>
    pub fn expected(&self) -> Expected
    {
        self.expected
    }
}

impl PartialEq for Fault {
    /// Whether both errors have the same number of trees before them, and the same span or none. The expected signs do
    /// not matter.
    fn eq(&self, other: &Fault) -> bool {
        self.at == other.at && are_same(self.span, other.span)
    }
}

impl Eq for Fault {
}

/// The span, or this other one if there is none.
pub(crate) fn or_span(span: Option<Span>, end: Option<Span>) -> Option<Span>
{
    match span {
        Some(span) => Some(span),
        None => end,
    }
}

/// Whether both are the same span, or both are `None`.
pub(crate) fn are_same(span: Option<Span>, other: Option<Span>) -> bool
{
    match (span, other) {
        (Some(span), Some(other)) => span.eq(&other),
        (None, None) => true,
        _ => false,
    }
}

impl fmt::Display for Fault {
    fn fmt<W: fmt::Write>(&self, f: &mut fmt::Formatter<W>) -> fmt::Result {
        write_message(self.span, self.expected, f)
    }
}

crate::shim::display!(Fault);

/// Writes the text of an error at a tree with this span, or at the end of the trees.
pub(crate) fn write_message<W: fmt::Write>(
    span: Option<Span>,
    expected: Expected,
    f: &mut fmt::Formatter<W>,
) -> fmt::Result
{
    match span {
        Some(_) => write_unexpected(expected, f),
        None => write_early(expected, f),
    }
}

/// Writes the text of an error at a tree.
fn write_unexpected<W: fmt::Write>(expected: Expected, f: &mut fmt::Formatter<W>) -> fmt::Result
{
    if expected.bits() == 0 {
        return f.write_str("not expected here");
    }
    f.write_str("expected ")?;
    expected.fmt(f)
}

/// Writes the text of an error at the end of the trees.
fn write_early<W: fmt::Write>(expected: Expected, f: &mut fmt::Formatter<W>) -> fmt::Result
{
    if expected.bits() == 0 {
        return f.write_str("the declaration ends too early");
    }
    f.write_str("the declaration ends too early, expected ")?;
    expected.fmt(f)
}
