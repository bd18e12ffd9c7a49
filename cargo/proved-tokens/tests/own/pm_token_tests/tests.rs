// Made from crates/pm_token_tests/src/tests.rt by dev/erase: change that file, not this one.
//! The tests by their subjects, and what they share.

mod checks;
mod equalities;
mod identifiers;
mod integers;
mod lengths;
mod lexer;
mod lexer_literals;
mod line_columns;
mod marks;
mod piece_checks;
mod piece_equalities;
mod quoted;
mod shown_errors;
mod shown_parts;
mod shown_tokens;
mod shown_units;
mod single_values;
mod source_map;
mod subspans;
mod units;
mod walk;
mod whole_literals;
