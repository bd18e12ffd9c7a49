//! Finds the braces that are bodies of `match`.
//!
//! The trees of an expression are a flat list, so the list of `match if a { b } else { c } { .. }` does not say which
//! braces are the body. Where an operand must come, braces are a block. After an operand they are the body of the
//! innermost keyword that waits for one: Rust has no struct literal in the head of a `match`, an `if` or a loop.
use proved_tokens::items::{is_keyword, split_attribute, split_type};
use proved_tokens::{Delimiter, Ident, Punct, Spacing, TokenTree};

/// What the trees of a head still need.
#[derive(PartialEq)]
enum Wait {
    /// The body of a `match`.
    Arms,
    /// The body of an `if` or a loop.
    Block,
    /// The `=` after the pattern of a `let`.
    Equals,
    /// The `in` after the pattern of a `for`.
    In,
}

/// The state of the search in one list of trees.
struct Heads<'a> {
    trees: &'a [TokenTree],
    /// The index of the next tree.
    at: usize,
    /// What is waited for, the innermost last. Outside of heads it is empty.
    waits: Vec<Wait>,
    /// Whether an operand must come next.
    wants_operand: bool,
    bodies: Vec<usize>,
}

/// Returns the indexes of the braces in this list that are bodies of `match`. Lists in groups are not looked at.
pub fn match_bodies(trees: &[TokenTree]) -> Vec<usize> {
    let mut heads = Heads { trees, at: 0, waits: Vec::new(), wants_operand: true, bodies: Vec::new() };
    while let Some(tree) = trees.get(heads.at) {
        if let Some((_, rest)) = split_attribute(&trees[heads.at..]) {
            heads.go_to(rest);
            continue;
        }
        heads.at += 1;
        match heads.waits.last() {
            None => heads.outside(tree),
            Some(Wait::Equals | Wait::In) if is_mark(tree, ';') => heads.waits.clear(),
            Some(Wait::Equals) => heads.pattern(is_mark(tree, '=') && !heads.follows_joint()),
            Some(Wait::In) => heads.pattern(is_word(tree, "in")),
            Some(Wait::Arms | Wait::Block) => heads.inside(tree),
        }
    }
    heads.bodies
}

impl<'a> Heads<'a> {
    /// Goes on where these trees begin, which are the end of the list.
    fn go_to(&mut self, rest: &[TokenTree]) {
        self.at = self.trees.len() - rest.len();
    }

    /// The tree that is `back` before the one that was taken last.
    fn before(&self, back: usize) -> Option<&'a TokenTree> {
        self.at.checked_sub(back + 1).map(|index| &self.trees[index])
    }

    fn next_is(&self, mark: char) -> bool {
        self.trees.get(self.at).is_some_and(|tree| is_mark(tree, mark))
    }

    /// Whether a Joint mark is before the tree that was taken last, so that both are one operator.
    fn follows_joint(&self) -> bool {
        matches!(self.before(1), Some(TokenTree::Punct(mark)) if mark.spacing() == Spacing::Joint)
    }

    fn wait(&mut self, wait: Wait) {
        self.waits.push(wait);
        self.wants_operand = true;
    }

    /// Takes a tree outside of all heads, where only `match` matters. In `'match` and `$match` it is no keyword.
    fn outside(&mut self, tree: &TokenTree) {
        let is_name = matches!(self.before(1), Some(TokenTree::Punct(mark)) if matches!(mark.as_char(), '\'' | '$'));
        if is_word(tree, "match") && !is_name {
            self.wait(Wait::Arms);
        }
    }

    /// Takes a tree of a pattern, and says whether the pattern ends with it.
    fn pattern(&mut self, ends: bool) {
        if ends {
            self.waits.pop();
            self.wants_operand = true;
        }
    }

    /// Takes a tree of a head.
    fn inside(&mut self, tree: &TokenTree) {
        match tree {
            TokenTree::Ident(name) => self.word(name),
            TokenTree::Punct(mark) => self.mark(mark),
            TokenTree::Group(group) if group.delimiter() == Delimiter::Brace => self.braces(),
            TokenTree::Group(_) | TokenTree::Literal(_) => self.wants_operand = false,
        }
    }

    fn word(&mut self, name: &Ident) {
        match name.to_string().as_str() {
            _ if self.before(1).is_some_and(|tree| is_mark(tree, '$')) => self.wants_operand = false,
            "match" => self.wait(Wait::Arms),
            "if" | "while" => self.wait(Wait::Block),
            "for" if self.next_is('<') => {
                self.at = after_angles(self.trees, self.at); // of a closure
                self.wants_operand = true;
            }
            "for" => {
                self.wait(Wait::Block);
                self.wait(Wait::In);
            }
            "let" => self.wait(Wait::Equals),
            "as" => self.skip_type(),
            "loop" | "unsafe" | "async" | "const" | "move" | "else" | "static" | "return" | "yield" => {
                self.wants_operand = true;
            }
            _ => self.wants_operand = false,
        }
    }

    /// Takes braces: a block, the input of a macro call, or the body that is waited for.
    fn braces(&mut self) {
        if self.wants_operand || is_macro_call(&self.trees[..self.at - 1]) {
            self.wants_operand = false;
        } else if self.waits.pop() == Some(Wait::Arms) {
            self.bodies.push(self.at - 1);
        }
    }

    fn mark(&mut self, mark: &Punct) {
        let is_joint = mark.spacing() == Spacing::Joint;
        match mark.as_char() {
            '\'' => self.label(),
            '|' if self.wants_operand => self.closure(),
            '<' if self.wants_operand => {
                self.at = after_angles(self.trees, self.at - 1);
                self.wants_operand = false;
            }
            twice @ ('|' | '<') => {
                self.at += usize::from(is_joint && self.next_is(twice)); // `||` and `<<`
                self.wants_operand = true;
            }
            '?' | '$' => {}
            '.' => self.wants_operand = false,
            // These end the expression, so it has no body: the tokens are no Rust.
            ',' | ';' => self.waits.clear(),
            '=' if is_joint && self.next_is('>') => self.waits.clear(),
            _ => self.wants_operand = true,
        }
    }

    /// Skips the name of a label, and the `:` of a loop with this label.
    fn label(&mut self) {
        self.at += 1;
        if self.next_is(':') {
            self.at += 1;
            self.wants_operand = true;
        }
    }

    /// Skips the rest of a closure's parameters, and its return type.
    fn closure(&mut self) {
        let size = self.trees[self.at..].iter().position(|tree| is_mark(tree, '|'));
        self.at = size.map_or(self.trees.len(), |size| self.at + size + 1);
        if self.next_is('-') {
            self.at += 2;
            self.skip_type();
        }
        self.wants_operand = true;
    }

    /// Skips a type, as after `as`. In `x as u8 + y` the `+` seems to belong to the type.
    fn skip_type(&mut self) {
        if let Ok((skipped, rest)) = split_type(self.trees.get(self.at..).unwrap_or_default()) {
            self.go_to(rest);
            self.wants_operand = skipped.last().is_some_and(|tree| is_mark(tree, '+'));
        }
    }
}

pub fn is_mark(tree: &TokenTree, mark: char) -> bool {
    matches!(tree, TokenTree::Punct(punct) if punct.as_char() == mark)
}

fn is_word(tree: &TokenTree, word: &str) -> bool {
    matches!(tree, TokenTree::Ident(ident) if *ident == *word)
}

/// Whether the group after these trees is that of a macro call, as in `m! { .. }`. In `&'a !` the `!` is a type.
fn is_macro_call(before: &[TokenTree]) -> bool {
    match before {
        [.., quote, TokenTree::Ident(_), TokenTree::Punct(_)] if is_mark(quote, '\'') => false,
        [.., TokenTree::Ident(name), TokenTree::Punct(mark)] => mark.as_char() == '!' && !is_keyword(name),
        _ => false,
    }
}

/// The index after the `>` that closes the `<` at the index. The `>` of `->` and `=>` closes nothing.
fn after_angles(trees: &[TokenTree], at: usize) -> usize {
    let (mut depth, mut is_arrow) = (0, false);
    for (index, tree) in trees.iter().enumerate().skip(at) {
        let TokenTree::Punct(mark) = tree else {
            is_arrow = false;
            continue;
        };
        match mark.as_char() {
            '<' => depth += 1,
            '>' if !is_arrow => depth -= 1,
            _ => {}
        }
        if depth == 0 {
            return index + 1;
        }
        is_arrow = matches!(mark.as_char(), '-' | '=') && mark.spacing() == Spacing::Joint;
    }
    trees.len()
}
