//! Writing code by templates, and items taken apart and put together.
use crate::noted::Noted;
use crate::trees::{ask_values, note, parsed};
use proved_tokens::proc_macro2::{
    Delimiter, Group, Ident, Literal, Punct, SourceMap, Spacing, Span, TokenStream, TokenTree,
};
use proved_tokens::quoting::{Hole, Quote};
use workloads::random::Random;

const FIELD: &str = "pub #field: #of";
const GETTER: &str = "/// The field of this name.\n#[inline] pub fn #field(&self) -> &#of { &self.#field }";
const SETTER: &str = "self.#field = #field.unwrap_or(#value);";
const STRUCT: &str = "#[derive(Clone, Debug)] #[allow(dead_code)] pub struct #name<'a, T: ?Sized> {
    #(#fields),*, rest: ::core::marker::PhantomData<&'a T>,
}
impl<'a, T: ?Sized> #name<'a, T> { pub const NAME: &'static str = #text; #(#getters)* }
impl<'a, T: ?Sized> ::core::cmp::PartialEq for #name<'a, T> {
    fn eq(&self, other: &Self) -> bool { true #(&& self.#names == other.#names)* }
}
impl<'a, T: ?Sized> Update for #name<'a, T> { fn update(&mut self, change: Change) { #(#setters)* } }";
const IN_A_MAP: u64 = 500;

/// What is written of the fields of a struct: names, fields, getters and setters.
type Fields = [Vec<TokenStream>; 4];

pub fn ask(random: &mut Random, structs: u64, items: &[&str], noted: &mut Noted) {
    let mut map = SourceMap::new();
    // The job's templates have no places. Here they have, so that what keeps or loses a span is seen.
    let mut of_templates = SourceMap::new();
    let templates = [FIELD, GETTER, SETTER].map(|text| {
        TokenStream::from_str(text, &mut of_templates).expect("the template parses")
    });
    for number in 0..structs {
        if number % IN_A_MAP == 0 {
            map.invalidate();
        }
        let stream = write_struct(random, &templates, &mut map, noted);
        note(&stream, noted);
        rebuild(&format!("const _: u64 = {number}; {}", random.one_of(items)), noted);
    }
    refused(&mut map, noted);
}

fn write_struct(
    random: &mut Random,
    templates: &[TokenStream; 3],
    map: &mut SourceMap,
    noted: &mut Noted,
) -> TokenStream {
    let mut parts = Fields::default();
    for _ in 0..random.below(6) {
        push_field(random, templates, &mut parts, noted);
    }
    let id = random.below(1_000_000);
    let name = ident(&format!("Record{id}"));
    let Ok(text) = Literal::string(&format!("record \"{id}\""));
    let text = alone(TokenTree::Literal(text));
    let [names, fields, getters, setters] = &parts;
    let holes = [
        Hole::one("name", &name),
        Hole::one("text", &text),
        Hole::each("names", names),
        Hole::each("fields", fields),
        Hole::each("getters", getters),
        Hole::each("setters", setters),
    ];
    let mut quote = Quote::new();
    quote.parse(STRUCT, map, &holes).expect("the template is filled");
    quote.finish().expect("the quote is well spaced")
}

fn push_field(random: &mut Random, templates: &[TokenStream; 3], parts: &mut Fields, noted: &mut Noted) {
    let id = random.below(100_000);
    let field = ident(&format!("field_{id}"));
    let of = type_of(random);
    let value = value(random, noted);
    let holes = [Hole::one("field", &field), Hole::one("of", &of), Hole::one("value", &value)];
    for (template, filled) in templates.iter().zip(&mut parts[1..]) {
        let mut quote = Quote::new();
        quote.fill(template, &holes).expect("the template is filled");
        let stream = quote.finish().expect("the quote is well spaced");
        note(&stream, noted);
        filled.push(stream);
    }
    note(&of, noted);
    parts[0].push(field);
}

fn alone(tree: TokenTree) -> TokenStream {
    let Ok(stream) = TokenStream::from_tree(tree);
    stream
}

fn ident(text: &str) -> TokenStream {
    alone(TokenTree::Ident(name(text)))
}

fn name(text: &str) -> Ident {
    Ident::new(text, Span::call_site()).expect("the text is a name")
}

fn mark(mark: char, spacing: Spacing) -> TokenTree {
    TokenTree::Punct(Punct::new(mark, spacing))
}

/// A type, tree by tree, as the job writes it.
fn type_of(random: &mut Random) -> TokenStream {
    let mut of = TokenStream::new();
    for part in ["std", "vec"] {
        let trees = [mark(':', Spacing::Joint), mark(':', Spacing::Alone), TokenTree::Ident(name(part))];
        let Ok(()) = of.extend_trees(trees);
    }
    let inner = random.one_of(&["String", "u64", "Vec", "PathBuf", "Option", "bool"]);
    let Ok(()) = of.extend_trees([mark('<', Spacing::Alone)]);
    let Ok(()) = of.extend_streams([ident(inner)]);
    let Ok(()) = of.extend_trees([mark('>', Spacing::Alone)]);
    if random.below(4) != 0 {
        return of;
    }
    let Ok(()) = of.extend_trees([mark(',', Spacing::Alone)]);
    alone(TokenTree::Group(Group::new(Delimiter::Parenthesis, of)))
}

/// A literal, as the job makes it.
fn value(random: &mut Random, noted: &mut Noted) -> TokenStream {
    let number = random.next();
    let Ok(literal) = match random.below(7) {
        0 => Literal::u64_suffixed(number),
        1 => Literal::usize_unsuffixed(number as usize),
        2 => Literal::u8_suffixed((number & 0xff) as u8),
        3 => Literal::string("a text\twith \"escapes\"\n"),
        4 => Literal::byte_string(&number.to_le_bytes()),
        5 => Literal::character(if number & 1 == 0 { 'é' } else { '\'' }),
        _ => Literal::u128_unsuffixed(number as u128 * 10_000_000_000),
    };
    ask_values(&literal, noted);
    alone(TokenTree::Literal(literal))
}

/// Takes an item's trees apart, puts them into a new stream one by one, and compares the two.
fn rebuild(text: &str, noted: &mut Noted) {
    let stream = parsed(text);
    let mut copy = TokenStream::new();
    let shared = stream.clone();
    let trees = shared.into_iter();
    for tree in trees {
        let Ok(()) = copy.extend_trees([opened(tree)]);
    }
    noted.flag(copy.same_tokens(&stream));
    note(&stream, noted);
    note(&copy, noted);
}

/// A tree, a group with a list of its own.
fn opened(tree: TokenTree) -> TokenTree {
    let TokenTree::Group(group) = tree else { return tree };
    let Ok(shared) = group.stream();
    let trees = shared.into_iter();
    let Ok(inside) = TokenStream::from_trees(trees);
    let mut copy = Group::new(group.delimiter(), inside);
    copy.set_span(group.span());
    TokenTree::Group(copy)
}

/// Notes why templates aren't filled and quotes not finished.
fn refused(map: &mut SourceMap, noted: &mut Noted) {
    let (one, two) = (ident("one"), [ident("a"), ident("b")]);
    let holes = [Hole::one("one", &one), Hole::each("two", &two), Hole::each("none", &[])];
    for template in ["#other", "#two", "#(#one)*", "#(#two #none),*", "#(#(#two)*)*", "a (", "0x", "#one '"] {
        let mut quote = Quote::new();
        noted.shown(&quote.parse(template, map, &holes));
        noted.shown(&quote.finish().map(|stream| stream.to_string()));
    }
}
