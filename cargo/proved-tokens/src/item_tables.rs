// Made from crates/item_tables/src/lib.rt by dev/erase: change that file, not this one.
//! The tables of types, bounds and expressions: which class of signs may come next, and the state that it leads to.

pub mod class;
mod expression;
pub mod types;
pub mod walk_state;
