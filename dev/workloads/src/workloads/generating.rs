// Made from crates/workloads/src/generating.rt by dev/erase: change that file, not this one.
//! Writing code: structs with their impls from templates, names and literals; and items taken apart and put together.

use crate::shim::prelude::{Grow, TryClone, format};

use crate::workloads::digest::Digest;
use crate::workloads::fails::Fail;
use crate::workloads::random::Random;
use proved_tokens::proc_macro2::{
    Delimiter, Group, Ident, Literal, Punct, SourceMap, Spacing, Span, TokenStream, TokenTree,
};
use proved_tokens::quoting::{Hole, Quote};

/// A field and what is written of it in three places.
const FIELD: &str = "pub #field: #of";

const GETTER: &str =
    "/// The field of this name.\n#[inline] pub fn #field(&self) -> &#of { &self.#field }";

const SETTER: &str = "self.#field = #field.unwrap_or(#value);";

/// A struct and its impls.
const STRUCT: &str = "#[derive(Clone, Debug)] #[allow(dead_code)] pub struct #name<'a, T: ?Sized> {
    #(#fields),*, rest: ::core::marker::PhantomData<&'a T>,
}
impl<'a, T: ?Sized> #name<'a, T> { pub const NAME: &'static str = #text; #(#getters)* }
impl<'a, T: ?Sized> ::core::cmp::PartialEq for #name<'a, T> {
    fn eq(&self, other: &Self) -> bool { true #(&& self.#names == other.#names)* }
}
impl<'a, T: ?Sized> Update for #name<'a, T> { fn update(&mut self, change: Change) { #(#setters)* } }";

/// No more structs share a map.
const IN_A_MAP: u64 = 500;

/// What is written of the fields of a struct.
struct Fields {
    names: Vec<TokenStream>,
    fields: Vec<TokenStream>,
    getters: Vec<TokenStream>,
    setters: Vec<TokenStream>,
}

/// The templates of a field, read once.
struct Templates {
    field: TokenStream,
    getter: TokenStream,
    setter: TokenStream,
}

/// Writes so many structs, and rebuilds as many items.
pub fn run(
    random: &mut Random,
    structs: u64,
    items: &[&str],
    digest: &mut Digest,
) -> Result<(), Fail> {
    let templates = Templates {
        field: TokenStream::parse_unmapped(FIELD)?,
        getter: TokenStream::parse_unmapped(GETTER)?,
        setter: TokenStream::parse_unmapped(SETTER)?,
    };
    let mut map = SourceMap::new();
    for number in 0..structs {
        if number % IN_A_MAP == 0 {
            map.invalidate();
        }
        let stream = write_struct(random, &templates, &mut map)?;
        let text = format!("{stream}")?;
        digest.text(text.as_str());
        let item = format!("const _: u64 = {number}; {}", random.one_of(items))?;
        rebuild(item.as_str(), digest)?;
    }
    Ok(())
}

// A struct with some fields, and its impls.
fn write_struct(
    random: &mut Random,
    templates: &Templates,
    map: &mut SourceMap,
) -> Result<TokenStream, Fail> {
    let mut parts = Fields {
        names: Vec::new(),
        fields: Vec::new(),
        getters: Vec::new(),
        setters: Vec::new(),
    };
    for _ in 0..random.below(6) {
        push_field(random, templates, &mut parts)?;
    }
    let id = random.below(1_000_000);
    let name = ident(format!("Record{id}")?.as_str())?;
    let text = Literal::string(format!("record \"{id}\"")?.as_str())?;
    let text = TokenStream::from_tree(TokenTree::Literal(text))?;
    let holes = [
        Hole::one("name", &name),
        Hole::one("text", &text),
        Hole::each("names", parts.names.as_slice()),
        Hole::each("fields", parts.fields.as_slice()),
        Hole::each("getters", parts.getters.as_slice()),
        Hole::each("setters", parts.setters.as_slice()),
    ];
    let mut quote = Quote::new();
    quote.parse(STRUCT, map, &holes)?;
    Ok(quote.finish()?)
}

// Adds a field.
fn push_field(
    random: &mut Random,
    templates: &Templates,
    parts: &mut Fields,
) -> Result<(), Fail> {
    let id = random.below(100_000);
    let field = ident(format!("field_{id}")?.as_str())?;
    let of = type_of(random)?;
    let value = value(random)?;
    let holes = [
        Hole::one("field", &field),
        Hole::one("of", &of),
        Hole::one("value", &value),
    ];
    parts.fields.push_fallibly(filled(&templates.field, &holes)?)?;
    parts
        .getters
        .push_fallibly(filled(&templates.getter, &holes)?)?;
    parts
        .setters
        .push_fallibly(filled(&templates.setter, &holes)?)?;
    parts.names.push_fallibly(field)?;
    Ok(())
}

// The template with its holes filled.
fn filled(template: &TokenStream, holes: &[Hole<'_>]) -> Result<TokenStream, Fail> {
    let mut quote = Quote::new();
    quote.fill(template, holes)?;
    Ok(quote.finish()?)
}

// An identifier.
fn ident(text: &str) -> Result<TokenStream, Fail> {
    let ident = Ident::new(text, Span::call_site())?;
    Ok(TokenStream::from_tree(TokenTree::Ident(ident))?)
}

// A type, tree by tree: a path of several names with an argument, or a tuple.
fn type_of(random: &mut Random) -> Result<TokenStream, Fail> {
    let mut of = TokenStream::new();
    for name in ["std", "vec"] {
        push_colons(&mut of, name)?;
    }
    let inner = random.one_of(&["String", "u64", "Vec", "PathBuf", "Option", "bool"]);
    of.extend_trees([TokenTree::Punct(Punct::new('<', Spacing::Alone))])?;
    of.extend_streams([ident(inner)?])?;
    of.extend_trees([TokenTree::Punct(Punct::new('>', Spacing::Alone))])?;
    if random.below(4) != 0 {
        return Ok(of);
    }
    of.extend_trees([TokenTree::Punct(Punct::new(',', Spacing::Alone))])?;
    let group = Group::new(Delimiter::Parenthesis, of);
    Ok(TokenStream::from_tree(TokenTree::Group(group))?)
}

// Two colons and a name.
fn push_colons(of: &mut TokenStream, name: &str) -> Result<(), Fail> {
    let name = Ident::new(name, Span::call_site())?;
    of.extend_trees([
        TokenTree::Punct(Punct::new(':', Spacing::Joint)),
        TokenTree::Punct(Punct::new(':', Spacing::Alone)),
        TokenTree::Ident(name),
    ])?;
    Ok(())
}

// A literal.
fn value(random: &mut Random) -> Result<TokenStream, Fail> {
    let number = random.next();
    let literal = match random.below(7) {
        0 => Literal::u64_suffixed(number)?,
        1 => Literal::usize_unsuffixed(number as usize)?,
        2 => Literal::u8_suffixed((number & 0xff) as u8)?,
        3 => Literal::string("a text\twith \"escapes\"\n")?,
        4 => Literal::byte_string(&number.to_le_bytes())?,
        5 => Literal::character(if number & 1 == 0 { 'é' } else { '\'' })?,
        _ => Literal::u128_unsuffixed(number as u128 * 10_000_000_000)?,
    };
    Ok(TokenStream::from_tree(TokenTree::Literal(literal))?)
}

// Takes an item's trees apart, puts them into a new stream one by one, compares the two, and prints it.
fn rebuild(text: &str, digest: &mut Digest) -> Result<(), Fail> {
    let stream = TokenStream::parse_unmapped(text)?;
    let mut copy = TokenStream::new();
    for tree in stream.try_clone()?.try_into_iter()? {
        copy.extend_trees([opened(tree)?])?;
    }
    digest.number(copy.same_tokens(&stream) as u64);
    digest.number(copy.is_well_spaced() as u64);
    digest.text(format!("{copy}")?.as_str());
    Ok(())
}

// A tree, a group with a list of its own.
fn opened(tree: TokenTree) -> Result<TokenTree, Fail> {
    let TokenTree::Group(group) = tree else {
        return Ok(tree);
    };
    let inside = TokenStream::from_trees(group.stream()?.try_into_iter()?)?;
    let mut copy = Group::new(group.delimiter(), inside);
    copy.set_span(group.span());
    Ok(TokenTree::Group(copy))
}
