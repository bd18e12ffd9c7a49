// Made from crates/conformance/src/lists.rt by dev/erase: change that file, not this one.
//! The library's answer for a list of trees.
//!
//! Each tree of a list is on a line of its own, as a word, a space and its text. A group is on several lines: its
//! opener, the trees inside, and its closer.
//!
//! | Line | Tree |
//! |---|---|
//! | `ident a`, `raw a` | the identifier, and the raw one |
//! | `alone +`, `joint +` | the mark |
//! | `literal "a"` | the literal of that text |
//! | `integer -3i32`, `integer -3` | what the constructor of that suffix makes of a number from -128 to 127 |
//! | `(` .. `)`, `[` .. `]`, `{` .. `}`, `<` .. `>` | a group, in the last case without delimiters |

use proved_tokens::shim::prelude::{Grow, format};

use crate::conformance::answer::Answer;
use crate::conformance::leaves::leaf;
use proved_tokens::proc_macro2::{Delimiter, Group, ParseError, SourceMap, TokenStream, TokenTree};

/// Returns the printed text of the trees in the list, and after a tab what that text parses to in a new map: the `same`
/// trees up to spans, `other` ones, or a `fault`. Returns `None` if the text is no list.
///
/// If `is_well_spaced` disagrees with this result, that is added after another tab.
///
/// For `joint +` and `ident a` it returns `+a`, a tab and `other`.
pub fn list_answer<'a>(
    asked: &'a str,
    text: &str,
) -> Result<Option<Answer<'a>>, ParseError> {
    let Some(trees) = noted_trees(text)? else {
        return Ok(None);
    };
    let stream = TokenStream::from_trees(trees)?;
    let printed = format!("{stream}")?;
    let back = match TokenStream::from_str(printed.as_str(), &mut SourceMap::new()) {
        Ok(back) => {
            if stream.same_tokens(&back) {
                "same"
            } else {
                "other"
            }
        }
        Err(ParseError::Lex(_)) => "fault",
        Err(error) => return Err(error),
    };
    let spaced = stream.is_well_spaced();
    let answer_text = if spaced == (back == "same") {
        format!("{printed}\t{back}")?
    } else {
        format!("{printed}\t{back}\tis_well_spaced: {spaced}")?
    };
    Ok(Some(Answer {
        kind: asked,
        answer_text,
    }))
}

/// A group whose closer was not read yet.
struct Open {
    /// Its delimiter.
    delimiter: Delimiter,
    /// The trees before it in its list.
    before: Vec<TokenTree>,
}

/// Returns the trees that the lines of the text describe, or `None` if a line describes none, or if groups aren't
/// closed in the right order.
fn noted_trees(text: &str) -> Result<Option<Vec<TokenTree>>, ParseError> {
    let mut open_groups = Vec::new();
    let mut trees = Vec::new();
    for line in text.lines() {
        if let Some(delimiter) = opened_delimiter(line) {
            open_groups.push_fallibly(Open {
                delimiter,
                before: trees,
            })?;
            trees = Vec::new();
        } else if let Some(delimiter) = closed_delimiter(line) {
            let Some(open) = open_groups.pop() else {
                return Ok(None);
            };
            if open.delimiter != delimiter {
                return Ok(None);
            }
            let group = Group::new(delimiter, TokenStream::from_trees(trees)?);
            trees = open.before;
            trees.push_fallibly(TokenTree::Group(group))?;
        } else {
            let Some(tree) = leaf(line)? else {
                return Ok(None);
            };
            trees.push_fallibly(tree)?;
        }
    }
    Ok(if open_groups.is_empty() {
        Some(trees)
    } else {
        None
    })
}

/// Returns the delimiter of the group that the line opens.
fn opened_delimiter(line: &str) -> Option<Delimiter> {
    match line {
        "(" => Some(Delimiter::Parenthesis),
        "[" => Some(Delimiter::Bracket),
        "{" => Some(Delimiter::Brace),
        "<" => Some(Delimiter::None),
        _ => None,
    }
}

/// Returns the delimiter of the group that the line closes.
fn closed_delimiter(line: &str) -> Option<Delimiter> {
    match line {
        ")" => Some(Delimiter::Parenthesis),
        "]" => Some(Delimiter::Bracket),
        "}" => Some(Delimiter::Brace),
        ">" => Some(Delimiter::None),
        _ => None,
    }
}
