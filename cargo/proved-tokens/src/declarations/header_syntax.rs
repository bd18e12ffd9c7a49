// Made from crates/declarations/src/header_syntax.rt by dev/erase: change that file, not this one.
//! Items from their names on as data, for the signs that can come next at an error.

use crate::declarations::part_syntax::{GENERICS, WHERE, WITH_BOUNDS};
use crate::declarations::syntax::{FUNCTION_REST, Goal, Label, Nonterminal, Syntax, Table, Test};
use crate::item_tables::class::{Keyword, SignClass, Word};

/// The name of an item.
pub(crate) const NAME: Syntax<'static> = Syntax::Then(
    &Syntax::Mark(Label::Named),
    &Syntax::Sign(Test::Word),
);

/// The body of an item.
pub(crate) const BRACES: Syntax<'static> = Syntax::Then(
    &Syntax::Mark(Label::Body),
    &Syntax::Sign(Test::Is(SignClass::Braces)),
);

/// The `;` at the end of an item.
pub(crate) const SEMICOLON: Syntax<'static> = Syntax::Then(
    &Syntax::Mark(Label::Rest),
    &Syntax::Sign(Test::Is(SignClass::Semicolon)),
);

/// A body, or `;`.
const BODY_END: Syntax<'static> = Syntax::Either(&BRACES, &SEMICOLON);

/// `=` and the expression of a constant, or nothing.
const VALUE: Syntax<'static> = Syntax::Either(
    &Syntax::Then(
        &Syntax::Mark(Label::Rest),
        &Syntax::Then(
            &Syntax::Sign(Test::Is(SignClass::Equals)),
            &Syntax::Then(
                &Syntax::Mark(Label::Value),
                &Syntax::Then(
                    &Syntax::Sign(Test::NotSemicolon),
                    &Syntax::Many(&Syntax::Sign(Test::NotSemicolon)),
                ),
            ),
        ),
    ),
    &Syntax::Nothing,
);

/// A where clause and `;`.
const WHERE_AND_END: Syntax<'static> = Syntax::Then(&WHERE, &SEMICOLON);

/// The rest of a struct.
const STRUCT_REST: Syntax<'static> = Syntax::Either(
    &Syntax::Then(
        &Syntax::Mark(Label::Fields),
        &Syntax::Then(&Syntax::Sign(Test::Round), &WHERE_AND_END),
    ),
    &Syntax::Then(&WHERE, &BODY_END),
);

/// A where clause and a body.
pub(crate) const WHERE_AND_BODY: Syntax<'static> = Syntax::Then(&WHERE, &BRACES);

/// The rest of a constant or a static after its name.
pub(crate) static TYPE_AND_VALUE_DATA: Syntax<'static> = Syntax::Then(
    &Syntax::Mark(Label::Rest),
    &Syntax::Then(
        &Syntax::Sign(Test::Is(SignClass::Colon)),
        &Syntax::Then(
            &Syntax::Mark(Label::OfType),
            &Syntax::Then(
                &Syntax::Table(Table::Type),
                &Syntax::Then(&VALUE, &SEMICOLON),
            ),
        ),
    ),
);

/// The nonterminal of [`TYPE_AND_VALUE_DATA`].
const TYPE_AND_VALUE: Syntax<'static> = Syntax::Nonterminal(Nonterminal::TypeAndValue);

/// `=`, the type of an alias and a where clause, or nothing.
const ALIAS_VALUE: Syntax<'static> = Syntax::Either(
    &Syntax::Then(
        &Syntax::Mark(Label::Rest),
        &Syntax::Then(
            &Syntax::Sign(Test::Is(SignClass::Equals)),
            &Syntax::Then(
                &Syntax::Mark(Label::Value),
                &Syntax::Then(&Syntax::Table(Table::Type), &WHERE),
            ),
        ),
    ),
    &Syntax::Nothing,
);

/// The rest of a trait or a trait alias.
const TRAIT_REST: Syntax<'static> = Syntax::Either(
    &Syntax::Then(
        &Syntax::Mark(Label::Rest),
        &Syntax::Then(
            &Syntax::Sign(Test::Is(SignClass::Equals)),
            &Syntax::Then(
                &Syntax::Mark(Label::Bounds),
                &Syntax::Then(&Syntax::Table(Table::Bounds), &WHERE_AND_END),
            ),
        ),
    ),
    &Syntax::Then(&WITH_BOUNDS, &Syntax::Then(&WHERE, &BRACES)),
);

/// The rest of a constant after its name.
const CONSTANT_REST: Syntax<'static> = Syntax::Then(&GENERICS, &TYPE_AND_VALUE);

/// A function after `fn`.
pub(crate) const FUNCTION_ITEM: Syntax<'static> = Syntax::Then(
    &NAME,
    &Syntax::Then(&GENERICS, &FUNCTION_REST),
);

/// A function from its `extern` or its `fn` on.
pub(crate) static FUNCTION_FRONT_DATA: Syntax<'static> = Syntax::Either(
    &Syntax::Then(
        &Syntax::Sign(Test::Is(SignClass::Keyword(Keyword::Extern))),
        &Syntax::Then(
            &Syntax::Either(
                &Syntax::Sign(Test::Is(SignClass::Literal)),
                &Syntax::Nothing,
            ),
            &Syntax::To(Test::Is(SignClass::Keyword(Keyword::Fn)), Goal::Function),
        ),
    ),
    &Syntax::To(Test::Is(SignClass::Keyword(Keyword::Fn)), Goal::Function),
);

/// The nonterminal of [`FUNCTION_FRONT_DATA`].
pub(crate) const FUNCTION_FRONT: Syntax<'static> = Syntax::Nonterminal(Nonterminal::FunctionFront);

/// A static after its keyword.
pub(crate) const STATIC: Syntax<'static> = Syntax::Then(
    &Syntax::Either(
        &Syntax::Sign(Test::Is(SignClass::Keyword(Keyword::Mut))),
        &Syntax::Nothing,
    ),
    &Syntax::Then(&NAME, &TYPE_AND_VALUE),
);

/// A type alias after its keyword.
pub(crate) const ALIAS: Syntax<'static> = Syntax::Then(
    &NAME,
    &Syntax::Then(
        &GENERICS,
        &Syntax::Then(
            &WITH_BOUNDS,
            &Syntax::Then(&WHERE, &Syntax::Then(&ALIAS_VALUE, &SEMICOLON)),
        ),
    ),
);

/// A struct after its keyword.
pub(crate) const STRUCT: Syntax<'static> = Syntax::Then(
    &NAME,
    &Syntax::Then(&GENERICS, &STRUCT_REST),
);

/// An enum or a union after its keyword.
pub(crate) const ENUM: Syntax<'static> = Syntax::Then(
    &NAME,
    &Syntax::Then(&GENERICS, &WHERE_AND_BODY),
);

/// A trait after its keyword.
pub(crate) const TRAIT: Syntax<'static> = Syntax::Then(
    &NAME,
    &Syntax::Then(&GENERICS, &TRAIT_REST),
);

/// A module after its keyword.
pub(crate) const MODULE: Syntax<'static> = Syntax::Then(&NAME, &BODY_END);

/// A function after `gen`.
pub(crate) const GEN_FRONT: Syntax<'static> = Syntax::Either(
    &Syntax::To(Test::Safe, Goal::Qualified),
    &FUNCTION_FRONT,
);

/// A function after `async`.
pub(crate) const ASYNC_FRONT: Syntax<'static> = Syntax::Either(
    &Syntax::Then(
        &Syntax::Sign(Test::Is(SignClass::Word(Word::Gen))),
        &GEN_FRONT,
    ),
    &GEN_FRONT,
);

/// An item after `const`.
pub(crate) const CONST_FRONT: Syntax<'static> = Syntax::Either(
    &Syntax::To(Test::Is(SignClass::Keyword(Keyword::Async)), Goal::Async),
    &Syntax::Either(
        &Syntax::To(
            Test::Is(SignClass::Keyword(Keyword::Unsafe)),
            Goal::Qualified,
        ),
        &Syntax::Either(
            &FUNCTION_FRONT,
            &Syntax::Either(
                &Syntax::To(Test::Is(SignClass::Keyword(Keyword::Trait)), Goal::Trait),
                &Syntax::Either(
                    &Syntax::Then(
                        &Syntax::Sign(Test::Is(SignClass::Word(Word::Safe))),
                        &Syntax::Either(&FUNCTION_FRONT, &CONSTANT_REST),
                    ),
                    &Syntax::Either(
                        &Syntax::Then(
                            &Syntax::Sign(Test::Is(SignClass::Word(Word::Gen))),
                            &Syntax::Either(&GEN_FRONT, &CONSTANT_REST),
                        ),
                        &Syntax::Then(
                            &Syntax::Mark(Label::Named),
                            &Syntax::Then(&Syntax::Sign(Test::ConstantName), &CONSTANT_REST),
                        ),
                    ),
                ),
            ),
        ),
    ),
);
