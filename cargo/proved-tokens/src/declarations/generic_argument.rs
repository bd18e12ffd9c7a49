// Made from crates/declarations/src/generic_argument.rt by dev/erase: change that file, not this one.
//! The generic arguments of a path, one at a time.

use crate::declarations::explore::{fault_at_comma, fault_by};
use crate::declarations::fault::Fault;
use crate::declarations::list::past_comma;
use crate::declarations::parameter::past_type;
use crate::declarations::range::past_range;
use crate::declarations::reader::{begins, is, part, past};
use crate::declarations::signs::first_sign;
use crate::declarations::syntax::ARGUMENT;
use crate::item_tables::class::SignClass;
use crate::item_tables::types::TypeState;
use crate::pm_stream::TokenTree;

/// The form of a generic argument.
#[derive(Clone, Copy, Debug)]
pub enum ArgumentKind<'a> {
    /// A lifetime, such as `'a`.
    Lifetime,
    /// A constant: a literal, `-` and a literal, `true`, `false`, or an expression in braces.
    Const,
    /// A type. A path such as `N` is a type here, also if it names a constant.
    Type,
    /// A name with `=` and this type or constant, such as `Item = u8` or `N = 3`.
    Binding(&'a [TokenTree]),
    /// A name with `:` and these bounds, such as `Item: Copy`. The bounds have no trees if nothing follows the `:`.
    Constraint(&'a [TokenTree]),
}

/// A generic argument of a path, such as `'a`, `Vec<T>`, `3` or `Item = u8`.
#[derive(Clone, Copy, Debug)]
pub struct GenericArgument<'a> {
    /// The lifetime, the constant or the type; or the trees before the `=` or the `:`, such as `Item`.
    pub trees: &'a [TokenTree],
    /// The form of the argument, with what comes after a `=` or a `:`.
    pub kind: ArgumentKind<'a>,
}

/// Returns the generic argument at the start of the trees, and the trees after it.
///
/// Pass the trees between angle brackets, or the rest that an earlier call returned. An argument is a lifetime, a
/// constant or a type. After a type that begins with a word there may be `=` and a constant or a type, or `:` and
/// bounds; the call does not check that the trees before them are one name, perhaps with arguments of its own. Types
/// and bounds are not parsed; only their ends are found. A comma within brackets ends no argument. The call allocates
/// nothing.
///
/// If the trees begin with no argument, the call returns a `Fault`. The rule `generic-argument` is in
/// crates/declarations/README.md. For `Item = Vec<(A, B)>, C` the trees are `Item`, the type is `Vec<(A, B)>`, and the
/// rest is `, C`.
///
/// # Contract
///
/// - `ensures ok`: <code>[IfOk] result (λ found. [IsArgumentAt] trees.now found.0 found.1.now)</code>
/// - `ensures only`: <code>[IfOk] result (λ found. [IsOnlyRest] [generic_argument] trees.now
///   found.1.now)</code>
/// - `ensures fewer`: <code>[IfOk] result (λ found. [length] found.1.now &lt; [length] trees.now)</code>
/// - `ensures fault`: <code>[IfErr] result (λ fault. [FaultAt] ([ByRule] [generic_argument]) trees.now
///   fault.at)</code>
/// - `ensures span`: <code>[IfErr] result (λ fault. fault.span ≡ [extent_at] trees.now fault.at)</code>
/// - `ensures expected`: <code>[IfErr] result (λ fault. [Expects] ([ByRule] [generic_argument]) trees.now
///   fault.at fault.expected)</code>
///
/// [IfOk]: crate::contracts#std.IfOk
/// [IsArgumentAt]: crate::contracts#declarations.GenericArgument.IsArgumentAt
/// [IsOnlyRest]: crate::contracts#declarations.Entry.IsOnlyRest
/// [generic_argument]: crate::contracts#declarations.rules.Paths.generic_argument
/// [length]: crate::contracts#std.length
/// [IfErr]: crate::contracts#std.IfErr
/// [FaultAt]: crate::contracts#declarations.Reading.FaultAt
/// [ByRule]: crate::contracts#declarations.rules.Pieces.ByRule
/// [extent_at]: crate::contracts#declarations.Fault.extent_at
/// [Expects]: crate::contracts#declarations.Expected.Expects
pub fn parse_generic_argument(
    trees: &[TokenTree],
) -> Result<(GenericArgument<'_>, &[TokenTree]), Fault>
{
    match argument_of(trees) {
        Ok((argument, rest)) => Ok((argument, rest)),
        Err(left) => Err(fault_by(&ARGUMENT, trees, left)),
    }
}

/// The generic arguments between angle brackets, in order. A `,` is between two arguments, and may be after the last.
///
/// The iterator gives each argument as [`parse_generic_argument`] reads it from the remaining trees. At an error it
/// gives a `Fault`, whose `at` counts from the start of the remaining trees, and then ends. It allocates nothing. For
/// `'a, T, 3` it gives `'a`, `T` and `3`.
///
/// ```text
/// for argument in GenericArguments::new(trees) {
///     let argument = argument?;
///     if let ArgumentKind::Type = argument.kind { .. }
/// }
/// ```
#[derive(Clone, Copy, Debug)]
pub struct GenericArguments<'a> {
    /// The trees that are not yet read.
    pub left: &'a [TokenTree],
}

impl<'a> GenericArguments<'a> {
    /// Returns an iterator over the arguments in these trees, which are those between the angle brackets.
    ///
    /// # Contract
    ///
    /// - `ensures`: <code>result.left.now ≡ trees.now</code>
    pub fn new(trees: &'a [TokenTree]) -> GenericArguments<'a>
    {
        GenericArguments { left: trees }
    }
}

impl<'a> Iterator for GenericArguments<'a> {
    type Item = Result<GenericArgument<'a>, Fault>;

    // At most as many elements come as trees are left.

    fn next(&mut self) -> Option<Result<GenericArgument<'a>, Fault>> {
        if self.left.is_empty() {
            return None;
        }
        match first_argument(self.left) {
            Ok((argument, left)) => {
                self.left = left;
                Some(Ok(argument))
            }
            Err(fault) => {
                self.left = &[];
                Some(Err(fault))
            }
        }
    }
}

/// The first argument of a list, and the trees after its comma.
fn first_argument(trees: &[TokenTree]) -> Result<(GenericArgument<'_>, &[TokenTree]), Fault>
{
    match parse_generic_argument(trees) {
        Ok((argument, rest)) => match past_comma(rest) {
            Some(left) => Ok((argument, left)),
            None => Err(fault_at_comma(&ARGUMENT, trees, rest)),
        },
        Err(fault) => Err(fault),
    }
}

/// Skips bounds.
pub(crate) fn past_bounds(trees: &[TokenTree]) -> Result<&[TokenTree], &[TokenTree]>
{
    past_range(trees, TypeState::Bound)
}

/// Whether the sign is a constant by itself.
pub(crate) fn is_constant(class: SignClass) -> bool
{
    match class {
        SignClass::Literal | SignClass::Braces | SignClass::Block | SignClass::Truth => true,
        _ => false,
    }
}

/// Whether the sign is a word.
fn is_word(class: SignClass) -> bool
{
    match class {
        SignClass::Word(_) => true,
        _ => false,
    }
}

/// Whether a constant can begin with the sign.
fn begins_constant(class: SignClass) -> bool
{
    match class {
        SignClass::Minus
        | SignClass::Literal
        | SignClass::Braces
        | SignClass::Block
        | SignClass::Truth => true,
        _ => false,
    }
}

/// Skips a constant without a minus sign.
fn plain_constant(trees: &[TokenTree]) -> Result<&[TokenTree], &[TokenTree]>
{
    match first_sign(trees) {
        Some((found, rest)) => {
            if is_constant(found) {
                Ok(rest)
            } else {
                Err(trees)
            }
        }
        None => Err(trees),
    }
}

/// Skips a constant, with a minus sign or without.
fn past_constant(trees: &[TokenTree]) -> Result<&[TokenTree], &[TokenTree]>
{
    if begins(trees, SignClass::Minus) {
        past(past(trees, SignClass::Minus)?, SignClass::Literal)
    } else {
        plain_constant(trees)
    }
}

/// Whether a constant can begin here.
fn heads_constant(trees: &[TokenTree]) -> bool
{
    match first_sign(trees) {
        Some((class, _)) => begins_constant(class),
        None => false,
    }
}

/// Skips what a name is bound to: a constant or a type.
fn past_binding_value(trees: &[TokenTree]) -> Result<&[TokenTree], &[TokenTree]>
{
    if heads_constant(trees) {
        past_constant(trees)
    } else {
        past_type(trees)
    }
}

/// Reads what follows a type that begins with a word: `=` and a constant or a type, `:` and bounds, or nothing.
fn constraint_of(trees: &[TokenTree]) -> Result<(ArgumentKind<'_>, &[TokenTree]), &[TokenTree]>
{
    match first_sign(trees) {
        Some((class, from_end)) => {
            if is(SignClass::Equals, class) {
                return match past_binding_value(from_end) {
                    Ok(rest) => Ok((ArgumentKind::Binding(part(from_end, rest)), rest)),
                    Err(left) => Err(left),
                };
            }
            if is(SignClass::Colon, class) {
                return match past_bounds(from_end) {
                    Ok(rest) => Ok((ArgumentKind::Constraint(part(from_end, rest)), rest)),
                    Err(left) => Err(left),
                };
            }
            Ok((ArgumentKind::Type, trees))
        }
        None => Ok((ArgumentKind::Type, trees)),
    }
}

/// The argument that begins with a word, and the trees after it; or the trees from the error on.
fn word_argument_of(
    trees: &[TokenTree],
) -> Result<(GenericArgument<'_>, &[TokenTree]), &[TokenTree]>
{
    match past_type(trees) {
        Ok(from_mark) => match constraint_of(from_mark) {
            Ok((kind, rest)) => {
                let trees = part(trees, from_mark);
                Ok((GenericArgument { trees, kind }, rest))
            }
            Err(left) => Err(left),
        },
        Err(left) => Err(left),
    }
}

/// The type at the start of the trees as an argument, and the trees after it; or the trees from the error on.
fn plain_argument_of(
    trees: &[TokenTree],
) -> Result<(GenericArgument<'_>, &[TokenTree]), &[TokenTree]>
{
    match past_type(trees) {
        Ok(rest) => {
            let trees = part(trees, rest);
            let kind = ArgumentKind::Type;
            Ok((GenericArgument { trees, kind }, rest))
        }
        Err(left) => Err(left),
    }
}

/// The lifetime at the start of the trees as an argument, and the trees after it; or the trees from the error on.
fn lifetime_of(trees: &[TokenTree]) -> Result<(GenericArgument<'_>, &[TokenTree]), &[TokenTree]>
{
    match past(trees, SignClass::Lifetime) {
        Ok(rest) => {
            let trees = part(trees, rest);
            let kind = ArgumentKind::Lifetime;
            Ok((GenericArgument { trees, kind }, rest))
        }
        Err(left) => Err(left),
    }
}

/// The constant at the start of the trees as an argument, and the trees after it; or the trees from the error on.
fn constant_of(trees: &[TokenTree]) -> Result<(GenericArgument<'_>, &[TokenTree]), &[TokenTree]>
{
    match past_constant(trees) {
        Ok(rest) => {
            let trees = part(trees, rest);
            let kind = ArgumentKind::Const;
            Ok((GenericArgument { trees, kind }, rest))
        }
        Err(left) => Err(left),
    }
}

/// The argument at the start of the trees, and the trees after it; or the trees from the error on.
pub(crate) fn argument_of(
    trees: &[TokenTree],
) -> Result<(GenericArgument<'_>, &[TokenTree]), &[TokenTree]>
{
    match first_sign(trees) {
        Some((class, _)) => {
            if is(SignClass::Lifetime, class) {
                return lifetime_of(trees);
            }
            if begins_constant(class) {
                return constant_of(trees);
            }
            if is_word(class) {
                return word_argument_of(trees);
            }
            plain_argument_of(trees)
        }
        None => plain_argument_of(trees),
    }
}
