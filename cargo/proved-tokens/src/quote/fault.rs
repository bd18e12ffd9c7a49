//! Errors of templates, with messages for people.
use crate::pm_span::{LineColumn, SourceMap, Span};
use crate::pm_stream::{TokenStream, TokenTree};
use crate::pm_token::{Delimiter, ParseError};
use crate::quote::holes::length;
use crate::quote::Holes;
use crate::quoting::TemplateError;
use core::fmt;
use std::format;
use std::string::{String, ToString};
use std::vec::Vec;

/// An error of a template or of its holes, with its line, column and hole.
///
/// ```
/// use proved_tokens::error::TemplateError;
/// use proved_tokens::quote::{Holes, Template};
///
/// let template = Template::parse("let all =\n    [#value];")?;
/// let fault = template.fill(&Holes::new().with("value", &["x", "y"])).unwrap_err();
/// let told = "template, line 2, column 7: `value` is a list: repeat it, as in `#(#value),*`";
/// assert_eq!(fault.to_string(), told);
/// assert!(matches!(fault.error(), TemplateError::LoneList(_)));
/// # Ok::<(), Box<dyn std::error::Error>>(())
/// ```
#[derive(Debug, PartialEq)]
pub struct TemplateFault {
    error: TemplateError,
    name: Option<String>,
    start: Option<LineColumn>,
    text: String,
}

impl TemplateFault {
    /// Returns the kind of the error.
    ///
    /// The span in the error belongs to no source map of the caller. Use [`TemplateFault::start`] instead.
    ///
    /// ```
    /// use proved_tokens::error::TemplateError;
    /// use proved_tokens::quote::{Holes, Template};
    ///
    /// let fault = Template::parse("#( f(); )*")?.fill(&Holes::new()).unwrap_err();
    /// assert!(matches!(fault.error(), TemplateError::NoList(_)));
    /// # Ok::<(), Box<dyn std::error::Error>>(())
    /// ```
    pub fn error(&self) -> &TemplateError {
        &self.error
    }

    /// Returns the name of the hole with the error, without `#`, or `None` if the error is not about one hole.
    ///
    /// ```
    /// use proved_tokens::quote::{Holes, Template};
    ///
    /// let fault = Template::parse("a #b")?.fill(&Holes::new()).unwrap_err();
    /// assert_eq!(fault.name(), Some("b"));
    /// # Ok::<(), Box<dyn std::error::Error>>(())
    /// ```
    pub fn name(&self) -> Option<&str> {
        self.name.as_deref()
    }

    /// Returns the line and the column of the error in the template's text, or `None` if it has no position in a text.
    ///
    /// Lines count from 1. Columns count characters from 0; in the message they count from 1.
    ///
    /// ```
    /// use proved_tokens::quote::{Holes, Template};
    ///
    /// let fault = Template::parse("a\n  #b")?.fill(&Holes::new()).unwrap_err();
    /// assert_eq!(fault.start().map(|start| (start.line, start.column)), Some((2, 3)));
    /// # Ok::<(), Box<dyn std::error::Error>>(())
    /// ```
    pub fn start(&self) -> Option<LineColumn> {
        self.start
    }

    /// Makes the error of a text that cannot be parsed.
    pub(crate) fn of_text(error: ParseError, map: &SourceMap) -> TemplateFault {
        let start = error.span().map(|span| span.start(map));
        let text = error.to_string();
        TemplateFault { error: TemplateError::Parse(error), name: None, start, text }
    }

    /// Makes the error of filling these trees. Each tree must have its own span, which is in the map if there is one.
    pub(crate) fn of_filling(
        error: TemplateError,
        trees: &TokenStream,
        holes: &Holes<'_>,
        map: Option<&SourceMap>,
    ) -> TemplateFault {
        let span = error.span();
        let start = span.and_then(|span| Some(span.start(map?)));
        let found = span.and_then(|span| trees.walk().find(|tree| tree.span().eq(&span)));
        let name = found.filter(|tree| !matches!(tree, TokenTree::Group(_))).map(ToString::to_string);
        let text = match (&error, &name) {
            (TemplateError::NoHole(_), Some(name)) => no_hole(name, holes),
            (TemplateError::LoneList(_), Some(name)) => {
                format!("`{name}` is a list: repeat it, as in `#(#{name}),*`")
            }
            (TemplateError::UnequalLists(span), Some(name)) => unequal(*span, name, trees, holes),
            (TemplateError::NotFinite(_), Some(name)) => format!("`{name}` is infinite or no number"),
            (TemplateError::NotIdent(_), Some(name)) => format!("`{name}` is no name of an identifier"),
            (TemplateError::NoList(_), _) => "this repetition names no list".into(),
            _ => error.to_string(),
        };
        TemplateFault { error, name, start, text }
    }
}

/// Returns the message that no hole has the name, with the most similar name of a hole, if there is one.
fn no_hole(name: &str, holes: &Holes<'_>) -> String {
    let near = holes.names().min_by_key(|other| distance(name, other));
    match near.filter(|other| distance(name, other) <= 1 + name.chars().count() / 4) {
        Some(near) => format!("no hole is named `{name}`; did you mean `{near}`?"),
        None => format!("no hole is named `{name}`"),
    }
}

/// Returns the number of characters to insert, delete, replace or swap with the next to turn one text into the other.
fn distance(one: &str, other: &str) -> usize {
    let (one, other): (Vec<char>, Vec<char>) = (one.chars().collect(), other.chars().collect());
    let mut rows: Vec<Vec<usize>> = (0..=one.len()).map(|index| Vec::from([index])).collect();
    for column in 1..=other.len() {
        rows[0].push(column);
        for row in 1..=one.len() {
            let changed = rows[row - 1][column - 1] + usize::from(one[row - 1] != other[column - 1]);
            let mut least = changed.min(rows[row - 1][column] + 1).min(rows[row][column - 1] + 1);
            if row > 1 && column > 1 && one[row - 2..row].iter().rev().eq(&other[column - 2..column]) {
                least = least.min(rows[row - 2][column - 2] + 1);
            }
            rows[row].push(least);
        }
    }
    rows[one.len()][other.len()]
}

/// Returns the message that lists have different lengths. It names the list `name` and the first in the repetition.
fn unequal(span: Span, name: &str, trees: &TokenStream, holes: &Holes<'_>) -> String {
    let count = |name: &str| holes.value(name).and_then(length);
    let first = repetition(span, trees).and_then(|body| {
        let names = body.walk().zip(body.walk().skip(1)).filter(|(mark, _)| is_pound(mark));
        names.map(|(_, tree)| tree.to_string()).find(|name| count(name).is_some())
    });
    match first.map(|first| (count(&first), count(name), first)) {
        Some((Some(one), Some(other), first)) if one != other => {
            format!("`{first}` has {one} value{} and `{name}` has {other}", if one == 1 { "" } else { "s" })
        }
        Some((_, _, first)) if first != name => format!("`{first}` and `{name}` have lists of different lengths"),
        _ => format!("the lists of `{name}` have different lengths"),
    }
}

/// Returns the trees of the outermost repetition around the tree with this span.
fn repetition(span: Span, trees: &TokenStream) -> Option<TokenStream> {
    let trees = trees.trees();
    for (index, tree) in trees.iter().enumerate() {
        let TokenTree::Group(group) = tree else { continue };
        if !group.stream_ref().walk().any(|tree| tree.span().eq(&span)) {
            continue;
        }
        let is_repeated = group.delimiter() == Delimiter::Parenthesis && index > 0 && is_pound(&trees[index - 1]);
        if is_repeated {
            return Some(group.stream_ref().clone());
        }
        return repetition(span, group.stream_ref());
    }
    None
}

fn is_pound(tree: &TokenTree) -> bool {
    matches!(tree, TokenTree::Punct(mark) if mark.as_char() == '#')
}

impl fmt::Display for TemplateFault {
    fn fmt(&self, f: &mut fmt::Formatter<'_>) -> fmt::Result {
        match self.start {
            Some(LineColumn { line, column }) => write!(f, "template, line {line}, column {}: ", column + 1)?,
            None => f.write_str("template: ")?,
        }
        f.write_str(&self.text)
    }
}

impl core::error::Error for TemplateFault {}
