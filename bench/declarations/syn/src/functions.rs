//! Functions part by part, by both sides: those of files, impls, traits and blocks of foreign items.
use crate::ours::{Piece, Refusal};
use crate::parts::Part;
use crate::theirs;
use proved_tokens::declarations::{parse_function, ParameterKind, Parameters};
use proved_tokens::pm_stream::TokenTree;
use quote::{quote, ToTokens};
use syn::parse::{Parse, ParseStream};
use syn::spanned::Spanned;
use syn::visit::{self, Visit};
use syn::{
    Attribute, Block, File, FnArg, ForeignItemFn, ImplItemFn, ItemFn, Receiver, ReturnType, Signature, Token,
    TraitItemFn, Variadic, Visibility,
};

/// The source texts of all functions of the file at any depth, outside of macros, with `{}` for each body.
pub fn texts(file: &File) -> Vec<String> {
    let mut found = Functions { texts: Vec::new() };
    found.visit_file(file);
    found.texts
}

struct Functions {
    texts: Vec<String>,
}

impl Functions {
    fn push(&mut self, item: &impl Spanned, body: Option<&Block>) {
        let text = |span: proc_macro2::Span| span.source_text().expect("the item stands in the file");
        let whole = text(item.span());
        self.texts.push(match body {
            Some(body) => format!("{}{{}}", &whole[..whole.len() - text(body.span()).len()]),
            None => whole,
        });
    }
}

impl<'a> Visit<'a> for Functions {
    fn visit_item_fn(&mut self, item: &'a ItemFn) {
        self.push(item, Some(&item.block));
        visit::visit_item_fn(self, item);
    }

    fn visit_impl_item_fn(&mut self, item: &'a ImplItemFn) {
        self.push(item, Some(&item.block));
        visit::visit_impl_item_fn(self, item);
    }

    fn visit_trait_item_fn(&mut self, item: &'a TraitItemFn) {
        self.push(item, item.default.as_ref());
        visit::visit_trait_item_fn(self, item);
    }

    fn visit_foreign_item_fn(&mut self, item: &'a ForeignItemFn) {
        self.push(item, None);
        visit::visit_foreign_item_fn(self, item);
    }
}

/// A function without its body, as syn reads it.
pub struct Function {
    attributes: Vec<Attribute>,
    visibility: Visibility,
    default: Option<Token![default]>,
    pub signature: Signature,
    body: Option<Block>,
}

impl Parse for Function {
    fn parse(input: ParseStream) -> syn::Result<Function> {
        Ok(Function {
            attributes: input.call(Attribute::parse_outer)?,
            visibility: input.parse()?,
            default: input.parse()?,
            signature: input.parse()?,
            body: if input.peek(Token![;]) {
                input.parse::<Token![;]>()?;
                None
            } else {
                Some(input.parse()?)
            },
        })
    }
}

/// The parts by syn, in the order of [`Function`](proved_tokens::declarations::Function), with the parameters.
pub fn theirs(function: &Function) -> Vec<Part> {
    let Signature { constness, asyncness, unsafety, abi, ident, generics, inputs, variadic, output, .. } =
        &function.signature;
    let default = &function.default;
    let mut found = theirs::Parts::default();
    found.attributes(&function.attributes);
    found.part("visibility", &function.visibility);
    found.part("qualifiers", &quote!(#default #constness #asyncness #unsafety #abi));
    found.part("name", ident);
    found.parameters(generics);
    for input in inputs {
        match input {
            FnArg::Receiver(receiver) => of_receiver(&mut found, receiver),
            FnArg::Typed(typed) => {
                found.attributes(&typed.attrs);
                found.part("pattern", &typed.pat);
                found.part("type", &typed.ty);
            }
        }
    }
    if let Some(Variadic { attrs, pat, dots, .. }) = variadic {
        found.attributes(attrs);
        found.part("pattern", &pat.as_ref().map(|(pattern, _)| pattern));
        found.part("type", dots);
    }
    let returned = match output {
        ReturnType::Default => quote!(),
        ReturnType::Type(_, returned) => returned.to_token_stream(),
    };
    found.part("return type", &returned);
    found.where_clause(generics);
    found.part("body", &function.body.as_ref().map(|_| quote!({})));
    found.found
}

fn of_receiver(found: &mut theirs::Parts, receiver: &Receiver) {
    let Receiver { attrs, reference, mutability, self_token, colon_token, ty } = receiver;
    let reference = reference.as_ref().map(|(and, lifetime)| quote!(#and #lifetime));
    found.attributes(attrs);
    found.part("pattern", &quote!(#reference #mutability #self_token));
    found.part("type", &colon_token.map(|_| ty));
}

/// Calls `part` with the name of each part and what it is, in the same order.
///
/// # Errors
///
/// Where the trees are no function, and where its parentheses are no list of parameters, after the parts before that.
pub fn each_part<'a>(trees: &'a [TokenTree], part: impl FnMut(&'static str, Piece<'a>)) -> Result<(), Refusal> {
    let function = parse_function(trees)?;
    let mut parts = crate::ours::Parts { part };
    parts.attributes(function.attributes);
    parts.trees("visibility", function.visibility);
    parts.trees("qualifiers", function.qualifiers);
    parts.name("name", function.name);
    parts.trees("generics", function.generics);
    let dots: &[TokenTree] = &[];
    for parameter in Parameters::new(function.parameters) {
        let parameter = parameter?;
        parts.attributes(parameter.attributes);
        parts.trees("pattern", parameter.pattern);
        match parameter.kind {
            ParameterKind::Typed(ty) | ParameterKind::TypedReceiver(ty) => parts.trees("type", ty),
            ParameterKind::Receiver => parts.trees("type", dots),
            ParameterKind::Variadic => (parts.part)("type", Piece::Dots),
        }
    }
    parts.trees("return type", function.return_type);
    parts.trees("where clause", function.where_clause);
    (parts.part)("body", Piece::Delimiters(function.body.map(|body| body.delimiter())));
    Ok(())
}
