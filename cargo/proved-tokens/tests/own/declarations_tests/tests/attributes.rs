// Made from crates/declarations_tests/src/tests/attributes.rt by dev/erase: change that file, not this one.

use crate::shim::prelude::HostRuntime;

// Attributes, and the trees in their brackets.
use crate::declarations_tests::tests::checks::{Answer, Reads, check, check_text, check_trees, in_group, parsed};
use proved_tokens::declarations::{Attribute, AttributeArgs, Attributes};
use proved_tokens::proc_macro2::{Delimiter, TokenTree};
use crate::test_helpers::release;

/// The attributes that the trees begin with, and the number of trees that are left after them.
///
/// Each attribute has the numbers of trees in its path and in what comes after the path. `inner` is added to an inner
/// attribute, `is doc` if its path is the word `doc`, and `text` if it has the text of a doc comment.
struct Front<'a> {
    /// The word with which each path is compared.
    word: &'a str,
}

impl Front<'_> {
    /// Writes one attribute.
    fn put_attribute(&self, out: &mut Answer, attribute: Attribute<'_>) {
        out.count("path", attribute.path().len());
        match attribute.args() {
            AttributeArgs::Nothing => {}
            AttributeArgs::Group(group) => {
                out.count(", group", group.stream_ref().trees().len());
            }
            AttributeArgs::Value(value) => out.count(", value", value.len()),
            AttributeArgs::Other(_, trees) => out.count(", other", trees.len()),
        }
        out.flag("inner", attribute.is_inner());
        if attribute.is(self.word) {
            out.text(", is ");
            out.text(self.word);
        }
        out.flag("text", attribute.doc().is_some());
    }
}

impl Reads for Front<'_> {
    fn put(&self, trees: &[TokenTree], out: &mut Answer) {
        let mut attributes = Attributes::new(trees);
        // There are fewer attributes than trees, so the iterator is also asked after the last attribute.
        for _ in trees {
            if let Some(attribute) = attributes.next() {
                out.separate();
                self.put_attribute(out, attribute);
            }
        }
        out.separate();
        out.count("left", attributes.left.len());
    }
}

#[test]
fn an_attribute_has_a_path_and_arguments() {
    let rt = HostRuntime;
    check_text(
        &rt,
        &Front { word: "doc" },
        "#[test] #[a::b(c, d)] #[e = f + 1] /// g\n #[h {}] pub x",
        "path 1; path 4, group 3; path 1, value 3; path 1, value 1, is doc, text; path 1, group 0; left 2",
    );
    check_text(
        &rt,
        &Front { word: "doc" },
        "#![a] //! b\n #[] #[= c] #[(d) e] # (f)",
        "path 1, inner; path 1, value 1, inner, is doc, text; path 0; path 0, value 1; path 0, other 1; left 2",
    );
    check(
        &rt,
        &Front { word: "doc" },
        "
        => left 0
        # => left 1
        #! => left 2
        ",
    );
}

#[test]
fn a_word_is_a_whole_path() {
    let rt = HostRuntime;
    check(
        &rt,
        &Front { word: "getter" },
        "
        #[getter(skip)] #[getter::a] #[r#getter] #[getter] => \
            path 1, group 1, is getter; path 4; path 1; path 1, is getter; left 0
        ",
    );
}

// Each row is the text in the brackets, and the answer.
#[test]
fn what_a_macro_passes_is_looked_through() {
    let rt = HostRuntime;
    let rows = &[
        ("«doc»", "path 1, is doc; left 0"),
        ("«doc = \"a\"»", "path 1, value 1, is doc, text; left 0"),
        (
            "«««««doc = \"a\"»»»»»",
            "path 1, value 1, is doc, text; left 0",
        ),
        ("««doc = 1 + 2»»", "path 1, value 3, is doc; left 0"),
        ("«a::doc(b, c)»", "path 4, group 3; left 0"),
        ("««doc(b) c»»", "path 1, other 1, is doc; left 0"),
        ("«»", "path 0; left 0"),
    ];
    for &(text, wanted) in rows {
        let brackets = in_group(&rt, Delimiter::Bracket, parsed(&rt, text));
        let mut stream = parsed(&rt, "#");
        stream.extend_streams([brackets]).expect(text);
        check_trees(&rt, &Front { word: "doc" }, stream.trees(), text, wanted);
        release(stream);
    }
}
