//! Doc attributes become doc comments exactly if a comment is read as their text: every short text, in three spellings.
//! What a comment is read as is said here by rustc's rules, without the library.
use proved_tokens::print::{with_any_doc_comments, with_doc_comments};
use proved_tokens::{Literal, TokenStream, TokenTree};
use std::error::Error;

type Outcome = Result<(), Box<dyn Error>>;

/// The characters of the texts.
const CHARACTERS: [char; 6] = [' ', '\n', '*', '/', '!', 'a'];

/// What rustc reads the whole text as: whether it is an inner doc comment, and its text. `None` if the text is no doc
/// comment, or is longer than one.
fn read_by_rustc(comment: &str) -> Option<(bool, &str)> {
    let (front, rest) = comment.split_at_checked(3)?;
    let text = match front {
        "///" if rest.starts_with('/') => return None,
        "/**" if rest.starts_with(['*', '/']) => return None,
        "///" | "//!" if rest.contains('\n') => return None,
        "///" | "//!" => rest,
        "/**" | "/*!" => block_text(rest)?,
        _ => return None,
    };
    Some((front.ends_with('!'), text))
}

/// What precedes the `*/` at which a block comment ends, if this is the end of the text. Block comments nest.
fn block_text(rest: &str) -> Option<&str> {
    let mut open = 1;
    let mut at = 0;
    while open > 0 {
        let step = match rest.as_bytes().get(at..at + 2)? {
            b"/*" => (1, 2),
            b"*/" => (-1, 2),
            _ => (0, 1),
        };
        open += step.0;
        at += step.1;
    }
    (at == rest.len()).then(|| &rest[..at - 2])
}

/// The attribute on its line, an inner or an outer one.
fn attribute(inner: bool, literal: &str) -> String {
    let front = if inner { "# ![doc = " } else { "#[doc = " };
    format!("{front}{literal}]\n")
}

/// The comments and the line end after each: one of one line, and a block.
fn comments(inner: bool, text: &str) -> [String; 2] {
    let (line, block) = if inner { ("//!", "/*!") } else { ("///", "/**") };
    [format!("{line}{text}\n"), format!("{block}{text}*/\n")]
}

/// Returns the first of the comments that is read as the text, or else the attribute.
fn wanted(inner: bool, text: &str, forms: &[String], literal: &str) -> String {
    let reads_back = |form: &&String| read_by_rustc(&form[..form.len() - 1]) == Some((inner, text));
    forms.iter().find(reads_back).cloned().unwrap_or_else(|| attribute(inner, literal))
}

/// Returns the value of the doc literal that the library reads, if the written text has the trees of one attribute.
fn value(inner: bool, written: &str) -> Result<String, Box<dyn Error>> {
    let stream: TokenStream = written.parse()?;
    match stream.trees() {
        [TokenTree::Punct(_), middle @ .., TokenTree::Group(group)] if middle.len() == inner as usize => {
            let literal = group.doc().ok_or("no doc attribute")?;
            Ok(literal.str_value()?)
        }
        _ => Err("no attribute".into()),
    }
}

/// Checks what both calls write for the text in each spelling: as `Literal::string` writes it, raw, and in escapes.
fn check(inner: bool, text: &str) -> Outcome {
    let own = Literal::string(text)?.to_string();
    let escapes: String = text.bytes().map(|byte| format!("\\x{byte:02X}")).collect();
    let forms = comments(inner, text);
    for literal in [own.clone(), format!("r\"{text}\""), format!("\"{escapes}\"")] {
        let given = attribute(inner, &literal);
        let written = with_any_doc_comments(&given)?;
        assert_eq!(written, wanted(inner, text, &forms, &literal), "of {given:?}");
        assert_eq!(value(inner, &written)?, text, "of {given:?}");
        // The other call writes comments of one line, and only for the first spelling.
        let lines = if literal == own { &forms[..1] } else { &[] };
        assert_eq!(with_doc_comments(&given)?, wanted(inner, text, lines, &literal), "of {given:?}");
    }
    Ok(())
}

#[test]
fn each_short_text_becomes_a_comment_exactly_if_it_reads_back() -> Outcome {
    let mut texts = vec![String::new()];
    let mut from = 0;
    for _ in 0..5 {
        let to = texts.len();
        for index in from..to {
            texts.extend(CHARACTERS.map(|c| format!("{}{c}", texts[index])));
        }
        from = to;
    }
    assert_eq!(texts.len(), 9331);
    for text in &texts {
        check(false, text)?;
        check(true, text)?;
    }
    Ok(())
}

#[test]
fn a_text_with_a_return_stays() -> Outcome {
    // rustc reads the CR LF of a comment as LF, and rejects every other CR of a doc comment.
    for text in ["\\r", "a\\r\\n", "a\\nb\\r", "\\r\\r\\n"] {
        for inner in [false, true] {
            let given = attribute(inner, &format!("\"{text}\""));
            assert_eq!(with_any_doc_comments(&given)?, given);
        }
    }
    Ok(())
}

#[test]
fn comments_of_several_lines_are_among_others() -> Outcome {
    let given = "# ![doc = r#\" A \"b\".\"#]\nmod m {\n    #[doc = \" C\\n    d. \"]\n    #[doc = \"e */\\n\"]\n}\n";
    let wanted = "//! A \"b\".\nmod m {\n    /** C\n    d. */\n    #[doc = \"e */\\n\"]\n}\n";
    assert_eq!(with_any_doc_comments(given)?, wanted);
    assert_eq!(with_any_doc_comments("#[doc = b\"a\"]\n#[doc = 1]\n")?, "#[doc = b\"a\"]\n#[doc = 1]\n");
    Ok(())
}
