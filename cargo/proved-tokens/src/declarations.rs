// Made from crates/declarations/src/lib.rt by dev/erase: change that file, not this one.
//! Finds items and their parts in token trees: attributes, visibilities, fields, variants, generic parameters, where
//! clauses, and whole structs, enums and unions. It also finds where a type, a pattern or an expression ends.
//!
//! A call that splits borrows trees, and returns the part at their start and the trees after it. It takes time in
//! proportion to the trees of the part, with each group as one tree, and allocates nothing. If it returns a part, the
//! part is what the grammar reads (clause `ok`), and no other part can be read there (`only`). Otherwise no part can be
//! read, and the error is at the end of the longest prefix that other trees could complete (`fault`).
//!
//! The grammar reads signs. A sign is one tree, or two trees that are read as one, such as `::`. The page
//! crates/declarations/README.md has the whole grammar.

mod any_item;
mod attribute;
mod attribute_entry;
mod bare;
mod entry;
mod entry_check;
mod entry_list;
mod expected;
mod expected_text;
mod explore;
mod explore_path;
mod fault;
mod field;
mod file;
mod front;
mod function;
mod generic_argument;
mod generics;
mod goal_syntax;
mod header_syntax;
mod impl_syntax;
mod implementation;
mod inner;
mod item;
mod item_calls;
mod item_front;
mod item_kinds;
mod item_paths;
mod item_rest;
mod item_syntax;
mod keyword;
pub mod laws;
mod list;
mod message;
mod param_parts;
mod parameter;
mod part_list;
mod part_splitting;
mod part_syntax;
mod range;
mod reader;
mod signs;
mod syntax;
mod trait_rest;
mod type_path;
mod variant;
mod walk;

pub use any_item::{AnyItem, ItemKind, split_any_item};
pub use attribute::{Attribute, AttributeArgs, Attributes, split_attribute};
pub use bare::bare_trees;
pub use entry::{Entry, EntryKind, parse_entry};
pub use entry_check::{EntryError, EntryProblem, check_entries};
pub use entry_list::Entries;
pub use expected::Expected;
pub use fault::Fault;
pub use field::{Field, parse_field, parse_tuple_field};
pub use file::{File, Items, parse_file, parse_item};
pub use function::{Function, parse_function};
pub use generic_argument::{
    ArgumentKind, GenericArgument, GenericArguments, parse_generic_argument,
};
pub use generics::{
    Param, ParamKind, Predicate, after_where, parse_param, parse_predicate, within_generics,
};
pub use implementation::{Impl, parse_impl};
pub use item::{Body, Fields, TypeItem, parse_type_item};
pub use crate::item_tables::class::{Keyword, SignClass, Word};
pub use keyword::is_keyword;
pub use list::{FieldList, VariantList};
pub use message::compile_error;
pub use parameter::{Parameter, ParameterKind, Parameters, parse_parameter, split_pattern};
pub use part_splitting::{
    split_attributes, split_bounds, split_expression, split_field, split_fields, split_generics,
    split_inner_attributes, split_item, split_tuple_field, split_tuple_fields, split_type,
    split_variant, split_variants, split_visibility, split_where,
};
pub use signs::first_sign;
pub use type_path::{PathArguments, TypePath, parse_type_path};
pub use variant::{Variant, parse_variant};
