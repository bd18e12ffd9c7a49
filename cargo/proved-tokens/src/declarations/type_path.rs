// Made from crates/declarations/src/type_path.rt by dev/erase: change that file, not this one.
//! The path of a type, with the name and the arguments of its last segment.

use crate::declarations::bare::bare_trees;
use crate::declarations::explore_path::fault_in_path;
use crate::declarations::fault::Fault;
use crate::declarations::function::return_of;
use crate::declarations::item::{split_name, split_parentheses};
use crate::declarations::part_list::{Element, past_list};
use crate::declarations::reader::{begins, is, part};
use crate::declarations::signs::{first_sign, name_class};
use crate::item_tables::class::SignClass;
use crate::pm_stream::{Group, TokenTree};
use crate::pm_token::Ident;

/// The arguments of a segment of a path.
#[derive(Clone, Copy, Debug)]
pub enum PathArguments<'a> {
    /// No arguments.
    None,
    /// The trees between angle brackets. [`GenericArguments`](crate::declarations::GenericArguments) gives the
    /// arguments one at a time.
    AngleBracketed(&'a [TokenTree]),
    /// A group in parentheses, and the type after its `->`, which has no trees if there is no `->`.
    Parenthesized(&'a Group, &'a [TokenTree]),
}

/// The path of a type, such as `u8`, `Option<T>` or `std::vec::Vec<T>`.
#[derive(Clone, Copy, Debug)]
pub struct TypePath<'a> {
    /// The trees before the name of the last segment, such as `std::vec::`, perhaps none.
    pub prefix: &'a [TokenTree],
    /// The name of the last segment, such as `Vec`.
    pub name: &'a Ident,
    /// The arguments of the last segment.
    pub arguments: PathArguments<'a>,
}

/// A segment of a path up to its arguments.
#[derive(Clone, Copy)]
pub struct Segment<'a> {
    /// The trees from the name on.
    pub from_name: &'a [TokenTree],
    /// The name.
    pub name: &'a Ident,
    /// The trees after the name.
    pub from_arguments: &'a [TokenTree],
}

/// What comes after the name of a segment.
#[derive(Clone, Copy)]
pub struct Transition<'a> {
    /// The arguments of the segment.
    pub arguments: PathArguments<'a>,
    /// The trees after the arguments.
    pub rest: &'a [TokenTree],
    /// The next segment, if `::` comes after the arguments.
    pub next: Option<Segment<'a>>,
}

/// The last segment of a path, its arguments, and the trees after the path.
#[derive(Clone, Copy)]
pub struct Last<'a> {
    /// The segment.
    pub segment: Segment<'a>,
    /// Its arguments.
    pub arguments: PathArguments<'a>,
    /// The trees after the path.
    pub rest: &'a [TokenTree],
}

/// Returns the prefix, the last name and the last arguments of the path that the trees are.
///
/// A path has segments with `::` between two, and perhaps `::` before the first. A segment is a name, perhaps with
/// arguments: `<..>`, or `(..)` and perhaps `->` and a type. There may be a `::` before arguments. A name is a word,
/// `self`, `Self`, `super` or `crate`. For `std::vec::Vec<T>` the prefix is `std::vec::`, the name is `Vec`, and the
/// arguments are `<T>` with the trees `T`. [`GenericArguments`](crate::declarations::GenericArguments) gives the
/// arguments one at a time.
///
/// If the trees are exactly one group without delimiters, as a `macro_rules!` macro passes for `$t:ty`, the call reads
/// the trees inside, through any number of such groups. It allocates nothing.
///
/// If the trees are no path, the call returns a `Fault`. Its position is before the first tree that does not fit, in
/// the innermost of those groups. Types of other forms, such as `&T`, `[T]`, `dyn A`, `m!()` or `<T as A>::B`, are no
/// paths, and the position is then before their first tree, or before the `!`. The rule `type-path` is in
/// crates/declarations/README.md.
///
/// # Contract
///
/// - `ensures ok`: <code>[IfOk] result (λ path. [IsTypePath] ([bare_trees] trees.now) path)</code>
/// - `ensures fault`: <code>[IfErr] result (λ fault. [FaultAt] ([IsWhole] ([ByRule] [type_path])) ([bare_trees]
///   trees.now) fault.at)</code>
/// - `ensures span`: <code>[IfErr] result (λ fault. fault.span ≡ [extent_at] ([bare_trees] trees.now)
///   fault.at)</code>
/// - `ensures expected`: <code>[IfErr] result (λ fault. [Expects] ([ByRule] [type_path]) ([bare_trees]
///   trees.now) fault.at fault.expected)</code>
///
/// [IfOk]: crate::contracts#std.IfOk
/// [IsTypePath]: crate::contracts#declarations.TypePath.IsTypePath
/// [bare_trees]: crate::contracts#declarations.Bare.bare_trees
/// [IfErr]: crate::contracts#std.IfErr
/// [FaultAt]: crate::contracts#declarations.Reading.FaultAt
/// [IsWhole]: crate::contracts#declarations.Whole.IsWhole
/// [ByRule]: crate::contracts#declarations.rules.Pieces.ByRule
/// [type_path]: crate::contracts#declarations.rules.Paths.type_path
/// [extent_at]: crate::contracts#declarations.Fault.extent_at
/// [Expects]: crate::contracts#declarations.Expected.Expects
pub fn parse_type_path(trees: &[TokenTree]) -> Result<TypePath<'_>, Fault>
{
    let inner = bare_trees(trees);
    match path_of(inner) {
        Ok((path, rest)) => {
            if rest.is_empty() {
                Ok(path)
            } else {
                Err(fault_in_path(inner, rest))
            }
        }
        Err(left) => Err(fault_in_path(inner, left)),
    }
}

// ---- arguments in angle brackets

/// Whether the sign opens an angle bracket.
pub(crate) fn opens(class: SignClass) -> bool
{
    match class {
        SignClass::Less | SignClass::LessJoint => true,
        _ => false,
    }
}

pub(crate) fn is_round(class: SignClass) -> bool
{
    match class {
        SignClass::Parentheses | SignClass::Restriction => true,
        _ => false,
    }
}

// ---- segments

/// Whether the sign can be the name of a segment.
pub(crate) fn is_segment(class: SignClass) -> bool
{
    match class {
        SignClass::Word(_) => true,
        SignClass::SelfValue | SignClass::SelfType | SignClass::Super | SignClass::Crate => true,
        _ => false,
    }
}

/// The segment whose name the trees begin with.
fn segment_of(trees: &[TokenTree]) -> Result<Segment<'_>, &[TokenTree]>
{
    match split_name(trees) {
        Ok((name, rest)) => {
            if is_segment(name_class(name)) {
                Ok(Segment {
                    from_name: trees,
                    name,
                    from_arguments: rest,
                })
            } else {
                Err(trees)
            }
        }
        Err(_) => Err(trees),
    }
}

/// The next segment after `::`, if `::` is next.
fn next_segment(trees: &[TokenTree]) -> Result<Option<Segment<'_>>, &[TokenTree]>
{
    match first_sign(trees) {
        Some((class, from_name)) => {
            if is(SignClass::PathSeparator, class) {
                match segment_of(from_name) {
                    Ok(segment) => Ok(Some(segment)),
                    Err(left) => Err(left),
                }
            } else {
                Ok(None)
            }
        }
        None => Ok(None),
    }
}

/// Reads the arguments after a `<`. Returns them as a step, which may lead to a next segment.
fn angle_of(trees: &[TokenTree]) -> Result<Transition<'_>, &[TokenTree]>
{
    match past_list(Element::Argument, trees) {
        Ok(from_close) => match first_sign(from_close) {
            Some((class, rest)) => {
                if is(SignClass::Greater, class) {
                    match next_segment(rest) {
                        Ok(next) => {
                            let arguments = PathArguments::AngleBracketed(part(trees, from_close));
                            Ok(Transition {
                                arguments,
                                rest,
                                next,
                            })
                        }
                        Err(left) => Err(left),
                    }
                } else {
                    Err(from_close)
                }
            }
            None => Err(from_close),
        },
        Err(left) => Err(left),
    }
}

/// Reads the arguments in parentheses. Returns them as a step, which may lead to a next segment.
fn round_of(trees: &[TokenTree]) -> Result<Transition<'_>, &[TokenTree]>
{
    match split_parentheses(trees) {
        Some((group, from_output)) => {
            if begins(from_output, SignClass::Arrow) {
                match return_of(from_output) {
                    Ok((output, rest)) => Ok(Transition {
                        arguments: PathArguments::Parenthesized(group, output),
                        rest,
                        next: None,
                    }),
                    Err(left) => Err(left),
                }
            } else {
                match next_segment(from_output) {
                    Ok(next) => Ok(Transition {
                        arguments: PathArguments::Parenthesized(group, &[]),
                        rest: from_output,
                        next,
                    }),
                    Err(left) => Err(left),
                }
            }
        }
        None => Err(trees),
    }
}

/// Reads what comes after the name of a segment and `::`, which are arguments or the next segment.
fn separated_of<'a>(
    trees: &'a [TokenTree],
    from: &'a [TokenTree],
) -> Result<Transition<'a>, &'a [TokenTree]>
{
    match first_sign(from) {
        Some((class, inside)) => {
            if opens(class) {
                return angle_of(inside);
            }
            if is_round(class) {
                return round_of(from);
            }
            match segment_of(from) {
                Ok(segment) => Ok(Transition {
                    arguments: PathArguments::None,
                    rest: trees,
                    next: Some(segment),
                }),
                Err(left) => Err(left),
            }
        }
        None => Err(from),
    }
}

/// Reads what comes after the name of a segment: its arguments, and `::` and the next segment.
fn step_of(trees: &[TokenTree]) -> Result<Transition<'_>, &[TokenTree]>
{
    match first_sign(trees) {
        Some((class, rest)) => {
            if opens(class) {
                return angle_of(rest);
            }
            if is_round(class) {
                return round_of(trees);
            }
            if is(SignClass::PathSeparator, class) {
                return separated_of(trees, rest);
            }
            Ok(Transition {
                arguments: PathArguments::None,
                rest: trees,
                next: None,
            })
        }
        None => Ok(Transition {
            arguments: PathArguments::None,
            rest: trees,
            next: None,
        }),
    }
}

// ---- paths

/// Finds the last segment of a path that begins with this one.
fn last_of(first: Segment<'_>) -> Result<Last<'_>, &[TokenTree]>
{
    let mut segment = first;
    loop {
        match step_of(segment.from_arguments) {
            Ok(step) => {
                let arguments = step.arguments;
                let rest = step.rest;
                match step.next {
                    Some(next) => segment = next,
                    None => {
                        return Ok(Last {
                            segment,
                            arguments,
                            rest,
                        });
                    }
                }
            }
            Err(left) => return Err(left),
        }
    }
}

/// Skips `::`, if it is next.
fn past_separator(trees: &[TokenTree]) -> &[TokenTree]
{
    match first_sign(trees) {
        Some((found, rest)) => {
            if is(SignClass::PathSeparator, found) {
                rest
            } else {
                trees
            }
        }
        None => trees,
    }
}

/// The path at the start of the trees, and the trees after it; or the trees from the error on.
fn path_of(trees: &[TokenTree]) -> Result<(TypePath<'_>, &[TokenTree]), &[TokenTree]>
{
    match segment_of(past_separator(trees)) {
        Ok(first) => match last_of(first) {
            Ok(last) => {
                let path = TypePath {
                    prefix: part(trees, last.segment.from_name),
                    name: last.segment.name,
                    arguments: last.arguments,
                };
                Ok((path, last.rest))
            }
            Err(left) => Err(left),
        },
        Err(left) => Err(left),
    }
}
