//! The rules, and what they find in the trees of a file.

use crate::trees::{all_lists, debug_calls, is_mark, is_named, DebugCall};
use proved_tokens::error::Fault;
use proved_tokens::items::{first_sign, parse_type_item, parse_type_path, split_attribute, split_generics, split_item};
use proved_tokens::items::{ArgumentKind, AttributeArgs, Attributes, Body, Field, Fields, GenericArguments};
use proved_tokens::items::{PathArguments, SignClass};
use proved_tokens::{Delimiter, Group, Span, TokenTree};

/// A function may have this many parameters.
const MOST_PARAMETERS: usize = 6;

/// What breaks a rule, and where.
pub struct Finding {
    /// The token that is reported.
    pub span: Span,
    /// The name of the rule.
    pub rule: &'static str,
    /// What is wrong.
    pub message: String,
}

/// Returns all findings in the trees of a file, in no particular order, or the error in the fields of a struct.
pub fn findings(trees: &[TokenTree]) -> Result<Vec<Finding>, Fault> {
    let mut found = Vec::new();
    for (list, is_code) in all_lists(trees) {
        found.extend(debug_calls(list).map(|call| debug_macro(&call)));
        for at in 0..list.len() {
            found.extend(allow_without_reason(&list[at..]));
            found.extend(many_parameters(&list[at..]).filter(|_| is_code));
            if is_code {
                add_struct_findings(list, at, &mut found)?;
            }
        }
    }
    Ok(found)
}

fn debug_macro(call: &DebugCall) -> Finding {
    let name = call.name.to_string();
    let message = format!("a call of `{}!`", name.trim_start_matches("r#"));
    Finding { span: call.name.span(), rule: "debug-macro", message }
}

/// Returns the finding if the trees begin with an attribute `allow(..)` that gives no reason.
fn allow_without_reason(trees: &[TokenTree]) -> Option<Finding> {
    let (attribute, _) = split_attribute(trees)?;
    let AttributeArgs::Group(list) = attribute.args() else { return None };
    let is_allow = matches!(attribute.path(), [TokenTree::Ident(name)] if is_named(name, "allow"));
    let breaks_rule = is_allow && list.delimiter() == Delimiter::Parenthesis && !has_reason(list);
    let message = "an `allow` without a reason".to_string();
    breaks_rule.then(|| Finding { span: trees[0].span(), rule: "allow-without-reason", message })
}

/// Whether the list has an entry `reason = ".."`, raw or not. The other entries may be anything, as in a macro's body.
fn has_reason(list: &Group) -> bool {
    list.stream_ref().trees().split(|tree| is_mark(tree, ',')).any(|entry| match entry {
        [TokenTree::Ident(name), mark, TokenTree::Literal(value)] => {
            let is_string = value.text().trim_start_matches(['r', '#']).starts_with('"');
            is_named(name, "reason") && is_mark(mark, '=') && is_string
        }
        _ => false,
    })
}

/// Returns the finding if the trees begin with `fn`, a name, and too many parameters.
fn many_parameters(trees: &[TokenTree]) -> Option<Finding> {
    let [TokenTree::Ident(keyword), TokenTree::Ident(name), rest @ ..] = trees else { return None };
    if *keyword != "fn" {
        return None;
    }
    let (_, [TokenTree::Group(parameters), ..]) = split_generics(rest).ok()? else { return None };
    let count = parameter_count(parameters.stream_ref().trees());
    let message = format!("`{name}` has {count} parameters, more than {MOST_PARAMETERS}");
    (count > MOST_PARAMETERS).then(|| Finding { span: name.span(), rule: "many-parameters", message })
}

/// Returns how many parameters the trees are. A `,` in angle brackets is part of a type.
fn parameter_count(mut left: &[TokenTree]) -> usize {
    let (mut count, mut depth, mut is_between) = (0, 0, true);
    while let Some((class, rest)) = first_sign(left) {
        match class {
            SignClass::Less | SignClass::LessJoint => depth += 1,
            SignClass::Greater => depth -= 1,
            _ => {}
        }
        let is_comma = class == SignClass::Comma && depth == 0;
        count += usize::from(is_between && !is_comma);
        (is_between, left) = (is_comma, rest);
    }
    count
}

/// Adds the findings about the fields of a struct, if the tree at this index is the keyword of one.
fn add_struct_findings(list: &[TokenTree], at: usize, found: &mut Vec<Finding>) -> Result<(), Fault> {
    let is_struct = matches!(&list[at], TokenTree::Ident(keyword) if *keyword == "struct");
    let Some(Ok((trees, _))) = is_struct.then(|| split_item(&list[at..])) else { return Ok(()) };
    let Body::Struct(fields @ (Fields::Named(group) | Fields::Tuple(group))) = parse_type_item(trees)?.body else {
        return Ok(());
    };
    let is_public_struct = list[..at].last().is_some_and(is_pub);
    for field in fields.list() {
        let field = field.map_err(|fault| fault.within(group))?;
        found.extend(missing_docs(&field).filter(|_| is_public_struct));
        found.extend(option_option(&field));
    }
    Ok(())
}

fn is_pub(tree: &TokenTree) -> bool {
    matches!(tree, TokenTree::Ident(keyword) if *keyword == "pub")
}

/// Returns the finding if the field is `pub`, without a restriction, and has no doc comment.
fn missing_docs(field: &Field) -> Option<Finding> {
    let span = field.name.map(|name| name.span()).or(field.field_type.first().map(TokenTree::span))?;
    let is_public = matches!(field.visibility, [keyword] if is_pub(keyword));
    // The value may also be `include_str!(..)`.
    let has_docs = Attributes::new(field.attributes)
        .any(|attribute| attribute.is("doc") && matches!(attribute.args(), AttributeArgs::Value(_)));
    let message = "a public field without a doc comment".to_string();
    (is_public && !has_docs).then_some(Finding { span, rule: "missing-docs", message })
}

/// Returns the finding if the type of the field is `Option<Option<..>>`.
fn option_option(field: &Field) -> Option<Finding> {
    let inner = option_argument(field.field_type)?;
    option_argument(inner)?;
    let message = "an `Option` in an `Option`".to_string();
    Some(Finding { span: inner.first()?.span(), rule: "option-option", message })
}

/// Returns the `T` of a type `Option<T>`, perhaps with a path before it.
fn option_argument(trees: &[TokenTree]) -> Option<&[TokenTree]> {
    let path = parse_type_path(trees).ok()?;
    let PathArguments::AngleBracketed(inside) = path.arguments else { return None };
    let argument = GenericArguments::new(inside).next()?.ok()?;
    let is_type = matches!(argument.kind, ArgumentKind::Type);
    (is_named(path.name, "Option") && is_type).then_some(argument.trees)
}
