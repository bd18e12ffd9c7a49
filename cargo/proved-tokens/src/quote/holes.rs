//! The holes of a template, by name.
use crate::pm_stream::TokenStream;
use crate::quote::to_tokens::Alone;
use crate::quote::{InTurns, Template, TemplateFault};
use crate::quoting::{Hole, Value, Values};
use std::vec::Vec;

/// The values of a [`Template`]'s holes: names without `#`, each with a value or a list.
///
/// ```
/// use proved_tokens::quote::{Holes, Template};
/// use proved_tokens::Ident;
///
/// let template = Template::parse("const #name: [u8; #count] = [#( #value ),*];")?;
/// let (name, values) = (Ident::try_from("ALL")?, vec![1u8, 2]);
/// let holes = Holes::new().with("name", &name).with("count", &2usize).with("value", &values);
/// assert_eq!(template.fill(&holes)?.to_string(), "const ALL : [u8 ; 2usize] = [1u8 , 2u8] ;");
/// # Ok::<(), Box<dyn std::error::Error>>(())
/// ```
#[derive(Default)]
pub struct Holes<'a> {
    list: Vec<(&'a str, Value<'a>)>,
}

impl<'a> Holes<'a> {
    /// Returns an empty list of holes.
    ///
    /// ```
    /// use proved_tokens::quote::{Holes, Template};
    ///
    /// assert_eq!(Template::parse("fn f() {}")?.fill(&Holes::new())?.to_string(), "fn f () { }");
    /// # Ok::<(), Box<dyn std::error::Error>>(())
    /// ```
    pub fn new() -> Holes<'a> {
        Holes::default()
    }

    /// Adds a hole `#name`, unless an earlier one has the name.
    ///
    /// ```
    /// use proved_tokens::quote::{Holes, Template};
    ///
    /// let holes = Holes::new().with("text", "a").with("all", &['x', 'y']);
    /// assert_eq!(Template::parse("#text #( #all )+*")?.fill(&holes)?.to_string(), r#""a" 'x' + 'y'"#);
    /// # Ok::<(), Box<dyn std::error::Error>>(())
    /// ```
    pub fn with<T: InTurns + ?Sized>(mut self, name: &'a str, value: &'a T) -> Holes<'a> {
        self.put_in_turns(name, value);
        self
    }

    /// Adds a hole of `quote!` that is outside of its repetitions.
    #[doc(hidden)]
    pub fn put<T: Alone + ?Sized>(&mut self, name: &'a str, value: &'a T) {
        if !self.has(name) {
            self.list.push((name, value.alone()));
        }
    }

    /// Adds a hole of `quote!` that is in a repetition.
    #[doc(hidden)]
    pub fn put_in_turns<T: InTurns + ?Sized>(&mut self, name: &'a str, value: &'a T) {
        if !self.has(name) {
            self.list.push((name, value.in_turns()));
        }
    }

    fn has(&self, name: &str) -> bool {
        self.list.iter().any(|(other, _)| *other == name)
    }

    /// Returns the holes as `Quote::fill` takes them.
    pub(crate) fn as_list(&self) -> Vec<Hole<'_>> {
        self.list.iter().map(|(name, value)| Hole::of(name, value)).collect()
    }

    /// Returns the value of the hole with this name.
    pub(crate) fn value(&self, name: &str) -> Option<&Value<'a>> {
        self.list.iter().find(|(other, _)| *other == name).map(|(_, value)| value)
    }

    /// Returns the names of all holes.
    pub(crate) fn names(&self) -> impl Iterator<Item = &'a str> + '_ {
        self.list.iter().map(|(name, _)| *name)
    }

    /// Fills the template of `quote!`. Panics with the message of the error, if there is one.
    #[doc(hidden)]
    #[track_caller]
    pub fn fill(&self, template: &Template) -> TokenStream {
        template.fill(self).unwrap_or_else(|fault: TemplateFault| panic!("{fault}"))
    }
}

/// Returns the number of values, if the value is a list.
pub(crate) fn length(value: &Value<'_>) -> Option<usize> {
    match value {
        Value::Streams(list) => Some(list.len()),
        Value::Trees(list) => Some(list.len()),
        Value::Idents(list) => Some(list.len()),
        Value::Literals(list) => Some(list.len()),
        Value::Strings(list) => Some(list.len()),
        Value::List(list) => Some(Values::len(list)),
        _ => None,
    }
}
