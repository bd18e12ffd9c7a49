//! Files, items and their parts, and the headers of impls, by the feature `items`.
//!
//! [`parse_file`] gives the items of a file with their kinds and names, and [`AnyItem::body`] leads to the items inside
//! of modules, traits and impls. [`parse_type_item`] reads a struct, an enum or a union, whose fields, attributes and
//! generics have calls of their own. For a derive, [`impl_header`] writes the header of an impl. Bodies of functions
//! are not read. The functions named `split` cut off the part that stands first.
//!
//! ```
//! use proved_tokens::items::{parse_file, ItemKind};
//! use proved_tokens::{SourceMap, TokenStream};
//!
//! let mut map = SourceMap::new();
//! let stream = TokenStream::from_str("struct S;\n\npub fn f() {}", &mut map)?;
//! for item in parse_file(stream.trees())?.items {
//!     let item = item?;
//!     if let (ItemKind::Function, Some(name)) = (item.kind, item.name) {
//!         let start = name.span().start(&map);
//!         assert_eq!(format!("{name} {}:{}", start.line, start.column), "f 3:7");
//!     }
//! }
//! # Ok::<(), Box<dyn std::error::Error>>(())
//! ```
//!
//! With item headers, an impl for a type with parameters:
//!
//! ```
//! # #[cfg(feature = "item_headers")] {
//! use proved_tokens::items::{impl_header, parse_type_item};
//! use proved_tokens::TokenStream;
//!
//! let stream: TokenStream = "struct S<'a, T: A = B>(&'a T) where T: C;".parse()?;
//! let item = parse_type_item(stream.trees())?;
//! let header = impl_header(&item, &"Clone".parse()?)?;
//! assert_eq!(header.to_string(), "impl < 'a , T : A > Clone for S < 'a , T > where T : C");
//! # }
//! # Ok::<(), Box<dyn std::error::Error>>(())
//! ```
//!
//! A part that stands first, or where it is wrong:
//!
//! ```
//! use proved_tokens::items::{split_field, split_variants};
//! use proved_tokens::TokenStream;
//!
//! let stream: TokenStream = "pub a: Vec<A, B>, b: C".parse()?;
//! let (field, rest) = split_field(stream.trees())?;
//! assert_eq!((field.len(), rest.len()), (9, 4)); // `pub a: Vec<A, B>`, and `, b: C`
//! let stream: TokenStream = "A = f::<X, Y>(), B = , C".parse()?;
//! let fault = split_variants(stream.trees()).unwrap_err();
//! assert_eq!(fault.at, 14); // before the `,` where an expression is wanted
//! # Ok::<(), Box<dyn std::error::Error>>(())
//! ```
#[doc(inline)]
pub use crate::declarations::{
    after_where, bare_trees, check_entries, compile_error, first_sign, is_keyword, parse_entry, parse_field, parse_file,
    parse_function, parse_generic_argument, parse_impl, parse_item, parse_param, parse_parameter, parse_predicate,
    parse_tuple_field, parse_type_item, parse_type_path, parse_variant, split_any_item, split_attribute,
    split_attributes, split_bounds, split_expression, split_field, split_fields, split_generics, split_inner_attributes,
    split_item, split_pattern, split_tuple_field, split_tuple_fields, split_type, split_variant, split_variants,
    split_visibility, split_where, within_generics, AnyItem, ArgumentKind, Attribute, AttributeArgs, Attributes, Body,
    Entries, Entry, EntryKind, EntryProblem, Expected, Field, FieldList, Fields, File, Function, GenericArgument,
    GenericArguments, Impl, ItemKind, Items, Keyword, Param, ParamKind, Parameter, ParameterKind, Parameters,
    PathArguments, Predicate, SignClass, TypeItem, TypePath, Variant, VariantList, Word,
};
#[cfg(feature = "item_headers")]
#[doc(inline)]
pub use crate::item_headers::{
    impl_generics, impl_header, impl_header_where, turbofish, type_generics, where_clause, where_clause_with,
    where_clause_with_bound,
};
