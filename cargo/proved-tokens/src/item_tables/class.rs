// Made from crates/item_tables/src/class.rt by dev/erase: change that file, not this one.
//! The classes of signs that the grammar tells apart.

/// An identifier that is no keyword, or a raw identifier.
#[derive(Clone, Copy, Debug, PartialEq, Eq)]
pub enum Word {
    /// `auto`
    Auto,
    /// `default`
    Default,
    /// `gen`
    Gen,
    /// `safe`
    Safe,
    /// `union`
    Union,
    /// Any other word.
    Plain,
}

/// A keyword that has no class of its own.
#[derive(Clone, Copy, Debug, PartialEq, Eq)]
pub enum Keyword {
    /// `async`
    Async,
    /// `const`
    Const,
    /// `dyn`
    Dyn,
    /// `enum`
    Enum,
    /// `extern`
    Extern,
    /// `fn`
    Fn,
    /// `for`
    For,
    /// `impl`
    Impl,
    /// `macro`
    Macro,
    /// `mod`
    Mod,
    /// `mut`
    Mut,
    /// `pub`
    Pub,
    /// `static`
    Static,
    /// `struct`
    Struct,
    /// `trait`
    Trait,
    /// `type`
    Type,
    /// `unsafe`
    Unsafe,
    /// `use`
    Use,
    /// `where`
    Where,
    /// A keyword that no rule of the grammar names, such as `if`.
    Other,
}

/// The class of a sign in the grammar: a kind of word, keyword, literal, group or punctuation mark.
#[derive(Clone, Copy, Debug, PartialEq, Eq)]
pub enum SignClass {
    /// A word.
    Word(Word),
    /// `self`
    SelfValue,
    /// `Self`
    SelfType,
    /// `super`
    Super,
    /// `crate`
    Crate,
    /// `_`
    Underscore,
    /// `as`
    As,
    /// `true` or `false`
    Truth,
    /// `await`
    Await,
    /// `continue`, `return`, `break` or `yield`.
    Jump,
    /// Any other keyword.
    Keyword(Keyword),
    /// A literal.
    Literal,
    /// `'` and an identifier.
    Lifetime,
    /// `::`
    PathSeparator,
    /// `->`
    Arrow,
    /// `#` and `!`. The spacing of the `#` does not matter.
    HashBang,
    /// `<=`
    LessEquals,
    /// `||`
    Bars,
    /// Parentheses that can restrict `pub`: `(crate)`, `(self)`, `(super)` or `(in ..)`.
    Restriction,
    /// Any other `( .. )`.
    Parentheses,
    /// `[ .. ]`
    Brackets,
    /// `{ .. }`
    Braces,
    /// A group without delimiters that holds a visibility or nothing.
    Visibility,
    /// A group without delimiters that holds only braces, in which a `macro_rules!` macro passes `$b:block`.
    Block,
    /// Any other group without delimiters.
    Invisible,
    /// `<` with the spacing `Alone`.
    Less,
    /// `<` with the spacing `Joint`.
    LessJoint,
    /// `>`
    Greater,
    /// `,`
    Comma,
    /// `:`
    Colon,
    /// `;`
    Semicolon,
    /// `=`
    Equals,
    /// `+`
    Plus,
    /// `-`
    Minus,
    /// `*`
    Star,
    /// `&`
    And,
    /// `?`
    Question,
    /// `!`
    Exclamation,
    /// `#`
    Hash,
    /// `~`
    Tilde,
    /// `|`
    Bar,
    /// `.`
    Dot,
    /// `/`, `%`, `^` or `@`.
    Infix,
    /// Any other mark.
    Mark,
}

/// The number of a class. No two classes have the same number.
///
/// # Contract
///
/// - `ensures`: <code>result ≡ [code] class</code>
///
/// [code]: crate::contracts#item_tables.Classes.code
pub fn code(class: SignClass) -> u8
{
    match class {
        SignClass::Word(Word::Auto) => 0,
        SignClass::Word(Word::Default) => 1,
        SignClass::Word(Word::Safe) => 2,
        SignClass::Word(Word::Union) => 3,
        SignClass::Word(Word::Plain) => 4,
        SignClass::Keyword(Keyword::Async) => 5,
        SignClass::Keyword(Keyword::Const) => 6,
        SignClass::Keyword(Keyword::Dyn) => 7,
        SignClass::Keyword(Keyword::Enum) => 8,
        SignClass::Keyword(Keyword::Extern) => 9,
        SignClass::Keyword(Keyword::Fn) => 10,
        SignClass::Keyword(Keyword::For) => 11,
        SignClass::Keyword(Keyword::Impl) => 12,
        SignClass::Keyword(Keyword::Macro) => 13,
        SignClass::Keyword(Keyword::Mod) => 14,
        SignClass::Keyword(Keyword::Mut) => 15,
        SignClass::Keyword(Keyword::Pub) => 16,
        SignClass::Keyword(Keyword::Static) => 17,
        SignClass::Keyword(Keyword::Struct) => 18,
        SignClass::Keyword(Keyword::Trait) => 19,
        SignClass::Keyword(Keyword::Type) => 20,
        SignClass::Keyword(Keyword::Unsafe) => 21,
        SignClass::Keyword(Keyword::Use) => 22,
        SignClass::Keyword(Keyword::Where) => 23,
        SignClass::Keyword(Keyword::Other) => 24,
        SignClass::SelfValue => 25,
        SignClass::SelfType => 26,
        SignClass::Super => 27,
        SignClass::Crate => 28,
        SignClass::Underscore => 29,
        SignClass::As => 30,
        SignClass::Truth => 31,
        SignClass::Await => 32,
        SignClass::Jump => 33,
        SignClass::Literal => 34,
        SignClass::Lifetime => 35,
        SignClass::PathSeparator => 36,
        SignClass::Arrow => 37,
        SignClass::HashBang => 38,
        SignClass::LessEquals => 39,
        SignClass::Bars => 40,
        SignClass::Restriction => 41,
        SignClass::Parentheses => 42,
        SignClass::Brackets => 43,
        SignClass::Braces => 44,
        SignClass::Visibility => 45,
        SignClass::Invisible => 46,
        SignClass::Less => 47,
        SignClass::LessJoint => 48,
        SignClass::Greater => 49,
        SignClass::Comma => 50,
        SignClass::Colon => 51,
        SignClass::Semicolon => 52,
        SignClass::Equals => 53,
        SignClass::Plus => 54,
        SignClass::Minus => 55,
        SignClass::Star => 56,
        SignClass::And => 57,
        SignClass::Question => 58,
        SignClass::Exclamation => 59,
        SignClass::Hash => 60,
        SignClass::Tilde => 61,
        SignClass::Bar => 62,
        SignClass::Dot => 63,
        SignClass::Infix => 64,
        SignClass::Mark => 65,
        SignClass::Block => 66,
        SignClass::Word(Word::Gen) => 67,
    }
}
