// Made from crates/declarations/src/item_calls.rt by dev/erase: change that file, not this one.
//! Macro calls as items. Each function reads one by a rule, and finds its name. At an error it returns the trees from
//! the error on.

use crate::declarations::any_item::ItemKind;
use crate::declarations::function::is_name;
use crate::declarations::item_front::FoundItem;
use crate::declarations::item_paths::{is_segment, past_call_name, past_segments};
use crate::declarations::reader::past;
use crate::declarations::signs::first_sign;
use crate::item_tables::class::{SignClass, Word};
use crate::pm_stream::TokenTree;

/// Reads what a macro call has after the first segment of its path.
fn past_call(trees: &[TokenTree]) -> Result<FoundItem<'_>, &[TokenTree]>
{
    match past_segments(trees) {
        Ok(from_mark) => match past(from_mark, SignClass::Exclamation) {
            Ok(named) => match past_call_name(named) {
                Ok(rest) => Ok(FoundItem {
                    kind: ItemKind::MacroCall,
                    named,
                    rest,
                }),
                Err(left) => Err(left),
            },
            Err(left) => Err(left),
        },
        Err(left) => Err(left),
    }
}

/// Reads a macro call. `rest` is after the first segment of its path.
pub(crate) fn call_item<'a>(
    trees: &'a [TokenTree],
    rest: &'a [TokenTree],
) -> Result<FoundItem<'a>, &'a [TokenTree]>
{
    past_call(rest)
}

/// Reads a macro call after the `::` that it begins with.
pub(crate) fn separated_call<'a>(
    trees: &'a [TokenTree],
    rest: &'a [TokenTree],
) -> Result<FoundItem<'a>, &'a [TokenTree]>
{
    match first_sign(rest) {
        Some((class, next)) => {
            if is_segment(class) {
                call_item(trees, next)
            } else {
                Err(rest)
            }
        }
        None => Err(rest),
    }
}

/// Whether the sign begins a macro call and no other item.
pub(crate) fn begins_call(class: SignClass) -> bool
{
    match class {
        SignClass::Word(Word::Plain) | SignClass::SelfValue | SignClass::Super | SignClass::Crate =>
            true,
        _ => false,
    }
}

/// Whether the sign begins what a macro call has after a segment of its path.
fn goes_on_call(class: SignClass) -> bool
{
    match class {
        SignClass::Exclamation | SignClass::PathSeparator => true,
        _ => false,
    }
}

/// Whether what a macro call has after a segment of its path is next.
fn begins_call_rest(trees: &[TokenTree]) -> bool
{
    match first_sign(trees) {
        Some((class, _)) => goes_on_call(class),
        None => false,
    }
}

/// Whether the sign begins a macro call, where `rest` comes after it.
pub(crate) fn is_call(class: SignClass, rest: &[TokenTree]) -> bool
{
    begins_call(class) || (is_name(class) && begins_call_rest(rest))
}
