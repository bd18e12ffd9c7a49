//! The impl that the derive writes.

use crate::options::Options;
use crate::types::{named_parameters, without_groups};
use proved_macros::proved_tokens::error::CompileError;
use proved_macros::proved_tokens::items::{
    bare_trees, impl_header_where, parse_type_item, where_clause_with, AttributeArgs, Attributes, Body, Field, Fields,
    TypeItem, Variant, VariantList,
};
use proved_macros::proved_tokens::{format_ident, quote, quote_spanned, Ident, Literal, Span, TokenStream, TokenTree};
use proved_macros::Spans;

type Result<T> = std::result::Result<T, CompileError>;

/// The impl of `Describe` for a struct or an enum, or all errors in its attributes.
pub fn describe_impl(item: &TokenStream, spans: &mut Spans) -> Result<TokenStream> {
    let mut item = parse_type_item(item.trees())?;
    let mut errors = Vec::new();
    let options = Options::read(item.attributes, &["crate", "rename"], &mut errors);
    let trait_path = trait_path(options.path("crate"), spans);
    let is_deprecated = Attributes::new(item.attributes).any(|attribute| attribute.is("deprecated"));
    let mut writer = Writer { trait_path, is_deprecated, types: Vec::new(), errors, spans };
    let arms = writer.arms(&item, &options)?;
    let Writer { trait_path, types, errors, spans, .. } = writer;
    all_errors(errors).map_or(Ok(()), Err)?;
    let bounded = named_parameters(&item, &types)?;
    let clause = where_clause_with(&item, &quote! { #( #bounded: #trait_path ),* })?;
    let name = quiet(item.name, spans);
    item.name = &name;
    let header = without_groups(impl_header_where(&item, &trait_path, &clause)?.trees());
    let allowed = allowed_lints(item.attributes);
    let code = quote! { fn describe(&self) -> ::std::string::String { match *self { #arms } } };
    Ok(quote! { #allowed #[automatically_derived] #header { #code } })
}

/// The errors as one, which reports each.
fn all_errors(errors: Vec<CompileError>) -> Option<CompileError> {
    errors.into_iter().reduce(|mut all, error| {
        all.combine(error);
        all
    })
}

/// The path of the trait in this module, or at the root of the caller's crate. If it is missing, the error is at the
/// module.
fn trait_path(module: Option<&[TokenTree]>, spans: &mut Spans) -> TokenStream {
    match module {
        Some([path @ .., last]) => quote_spanned! {located_at(last.span(), spans)=> #path #last::Describe },
        _ => quote! { crate::Describe },
    }
}

/// A span of the macro's own code for which errors are reported at this place. A variable with it does not clash with
/// the caller's.
fn located_at(place: Span, spans: &mut Spans) -> Span {
    let site = proc_macro2::Span::mixed_site().located_at(spans.span(place));
    spans.place(site)
}

/// The name with a span for which rustc does not warn if the name is deprecated.
fn quiet(name: &Ident, spans: &mut Spans) -> Ident {
    let mut name = name.clone();
    name.set_span(located_at(name.span(), spans));
    name
}

/// What allows the lints that the item allows or expects: its names have the caller's spans in the impl too.
fn allowed_lints(attributes: &[TokenTree]) -> TokenStream {
    let allowed = Attributes::new(attributes).map(|attribute| match attribute.args() {
        AttributeArgs::Group(lints) if attribute.is("allow") || attribute.is("expect") => quote! { #[allow #lints] },
        _ => TokenStream::new(),
    });
    allowed.collect()
}

/// What the arms are written with, and what is found on the way.
struct Writer<'a, 's> {
    trait_path: TokenStream,
    /// Whether the item has the attribute `deprecated`. Types that are written may then have a deprecated name in them.
    is_deprecated: bool,
    /// The types of the fields that the trait describes.
    types: Vec<&'a [TokenTree]>,
    errors: Vec<CompileError>,
    spans: &'s mut Spans,
}

/// The code of an arm, to which each field adds.
#[derive(Default)]
struct Arm<'a> {
    patterns: TokenStream,
    /// What is added to the name of the type or the variant.
    sum: TokenStream,
    types: Vec<&'a [TokenTree]>,
}

impl<'a> Writer<'a, '_> {
    /// The arms of the `match` that returns the text.
    fn arms(&mut self, item: &TypeItem<'a>, options: &Options) -> Result<TokenStream> {
        let fields = match item.body {
            Body::Struct(fields) => fields,
            Body::Enum(braces) => return VariantList::new(braces).map(|variant| self.variant_arm(&variant?)).collect(),
            Body::Union(braces) => {
                self.errors.push(CompileError::new(item.keyword.span(), "a union cannot be described"));
                Fields::Named(braces)
            }
        };
        self.arm(&quote! { Self }, &options.name(item.name), &fields, false)
    }

    fn variant_arm(&mut self, variant: &Variant<'a>) -> Result<TokenStream> {
        let options = Options::read(variant.attributes, &["rename", "skip"], &mut self.errors);
        let name = variant.name;
        self.arm(&quote! { Self::#name }, &options.name(name), &variant.fields, options.has_skip())
    }

    /// The arm for the values of this struct or variant. If it is bare, their text is the name alone.
    fn arm(&mut self, path: &TokenStream, name: &str, fields: &Fields<'a>, is_bare: bool) -> Result<TokenStream> {
        let mut arm = Arm::default();
        for (index, field) in fields.list().enumerate() {
            self.add_field(index, &field?, &mut arm);
        }
        if is_bare {
            return Ok(quote! { #path { .. } => ::std::borrow::ToOwned::to_owned(#name), });
        }
        let Arm { patterns, sum, types } = arm;
        self.types.extend(types);
        let [open, close] = match fields {
            Fields::Named(_) if sum.is_empty() => [" {", "}"],
            Fields::Named(_) => [" { ", " }"],
            Fields::Tuple(_) => ["(", ")"],
            Fields::Unit => ["", ""],
        };
        let start = format!("{name}{open}");
        Ok(quote! { #path { #patterns .. } => ::std::borrow::ToOwned::to_owned(#start) #sum + #close, })
    }

    /// Adds a field to the arm, unless it is skipped.
    fn add_field(&mut self, index: usize, field: &Field<'a>, arm: &mut Arm<'a>) {
        let known: &[&str] = if field.name.is_some() { &["rename", "skip", "with"] } else { &["skip", "with"] };
        let options = Options::read(field.attributes, known, &mut self.errors);
        if options.has_skip() {
            return;
        }
        let function = options.path("with");
        if function.is_none() {
            arm.types.push(field.field_type);
        }
        let (local, call) = self.call(index, function, field.field_type);
        let Ok(position) = Literal::usize_unsuffixed(index);
        let member: TokenTree = field.name.map_or(position.into(), |name| quiet(name, self.spans).into());
        let label = field.name.map_or(String::new(), |name| options.name(name) + ": ");
        let before = if arm.sum.is_empty() { label } else { format!(", {label}") };
        arm.patterns.extend([quote! { #member: ref #local, }]);
        arm.sum.extend([quote! { + #before + &::core::convert::identity::<::std::string::String>(#call) }]);
    }

    /// A variable for the field, and the call that returns its text. An error of the call is at the function of `with`,
    /// or else at the field's type.
    fn call(&mut self, index: usize, function: Option<&[TokenTree]>, field_type: &[TokenTree]) -> (Ident, TokenStream) {
        let place = function.map_or_else(|| bare_trees(field_type).first(), <[TokenTree]>::last);
        let place = place.map_or(Span::call_site(), TokenTree::span);
        let (mut local, trait_path) = (format_ident!("described_field_{}", index), &self.trait_path);
        local.set_span(located_at(place, self.spans));
        let called = without_groups(function.unwrap_or(field_type));
        let call = match function {
            Some(_) => quote_spanned! {place=> #called(#local) },
            None if self.is_deprecated => quote_spanned! {place=> #trait_path::describe(#local) },
            None => quote_spanned! {place=> <#called as #trait_path>::describe(#local) },
        };
        (local, call)
    }
}
