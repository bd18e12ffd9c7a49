// Made from crates/pm_stream/src/steps.rt by dev/erase: change that file, not this one.
//! A traversal of a stream's trees, step by step.
//!
//! Groups may nest as deep as a text is long, so the open groups are kept in a list, not on the stack.

use crate::shim::prelude::Grow;

use crate::pm_stream::stream::{Group, TokenStream, TokenTree};
use crate::shim::alloc::AllocError;

/// A step of a traversal, with the trees that follow in the same list.
#[derive(Clone, Copy)]
pub enum Step<'a> {
    /// Enters this group. The steps over its trees come next, and then its `Leave`.
    Enter(&'a Group, &'a [TokenTree]),
    /// Leaves this group. All of its trees were visited.
    Leave(&'a Group, &'a [TokenTree]),
    /// Visits this tree, which is no group.
    Token(&'a TokenTree, &'a [TokenTree]),
}

/// A traversal of a list of trees, which enters and leaves each group. [`TokenStream::steps`] creates it.
pub struct Steps<'a> {
    // The open groups, the outermost first.
    outer: Vec<OpenGroup<'a>>,
    // The trees that are left in the innermost open group, or outside all groups if none is open.
    left: &'a [TokenTree],
}

/// A group that is open, and the trees after it.
#[derive(Clone, Copy)]
struct OpenGroup<'a> {
    group: &'a Group,
    after: &'a [TokenTree],
}

impl TokenStream {
    /// Returns a traversal of all trees of the stream, which enters and leaves each group. It allocates nothing.
    ///
    /// For `a (b) c` the steps visit `a`, enter `(b)`, visit `b`, leave `(b)` and visit `c`.
    ///
    /// # Contract
    ///
    /// - `ensures`: <code>result ≡ [steps] self.now</code>
    ///
    /// [steps]: crate::contracts#pm_stream.Steps.steps
    pub fn steps(&self) -> Steps<'_>
    {
        Steps::new(self.trees())
    }
}

impl<'a> Steps<'a> {
    /// Returns a traversal of these trees. It allocates nothing.
    ///
    /// # Contract
    ///
    /// - `ensures`: <code>result ≡ [steps] ([forest] trees.now)</code>
    ///
    /// [steps]: crate::contracts#pm_stream.Steps.steps
    /// [forest]: crate::contracts#pm_stream.Trees.forest
    pub fn new(trees: &'a [TokenTree]) -> Steps<'a>
    {
        Steps {
            outer: Vec::new(),
            left: trees,
        }
    }

    /// Returns the next step, or `None` after the last.
    ///
    /// It allocates only when it enters a group, to remember the trees after it. If memory runs out, the traversal is
    /// as before, and [`pass_over`](Steps::pass_over) returns the group.
    ///
    /// # Contract
    ///
    /// - `ensures ok`: <code>[IfOk] result (λ next. [MatchOption] next ((self.old ≡ \[\]) × (self.new ≡ \[\])) (λ
    ///   step. self.old ≡ [step_of] step ∷ self.new))</code>
    /// - `ensures siblings`: <code>[IfOk] result (λ next. [IfSome] next (λ step. [FollowedBy] ([step_of] step)
    ///   self.new))</code>
    /// - `ensures memory`: <code>[OnErr] result ([EntersNext] self.old)</code>
    /// - `ensures err`: <code>[OnErr] result (self.new ≡ self.old)</code>
    ///
    /// [IfOk]: crate::contracts#std.IfOk
    /// [MatchOption]: crate::contracts#std.MatchOption
    /// [step_of]: crate::contracts#pm_stream.Steps.step_of
    /// [IfSome]: crate::contracts#std.IfSome
    /// [FollowedBy]: crate::contracts#pm_stream.Steps.FollowedBy
    /// [OnErr]: crate::contracts#std.OnErr
    /// [EntersNext]: crate::contracts#pm_stream.Steps.EntersNext
    #[cfg_attr(not(debug_assertions), inline(always))]
    pub fn try_next(&mut self) -> Result<Option<Step<'a>>, AllocError>
    {
        let Some((tree, after)) = self.left.split_first() else {
            let Some(open) = self.outer.pop() else {
                return Ok(None);
            };
            self.left = open.after;
            return Ok(Some(Step::Leave(open.group, open.after)));
        };
        if let TokenTree::Group(group) = tree {
            self.outer.push_fallibly(OpenGroup { group, after })?;
            self.left = group.stream_ref().trees();
            return Ok(Some(Step::Enter(group, after)));
        }
        self.left = after;
        Ok(Some(Step::Token(tree, after)))
    }

    /// Skips the group that the next step enters, and returns it with the trees that follow. If the next step enters no
    /// group, returns `None` and skips nothing. It allocates nothing.
    ///
    /// # Contract
    ///
    /// - `ensures`: <code>[MatchOption] result (([EntersNext] self.old → ⊥) × (self.new ≡ self.old)) (λ next.
    ///   self.old ≡ [Enter] next.0.now ([forest] next.1.now) ∷ [steps_onto] next.0.now.stream ([Leave] next.0.now
    ///   ([forest] next.1.now) ∷ self.new))</code>
    ///
    /// [MatchOption]: crate::contracts#std.MatchOption
    /// [EntersNext]: crate::contracts#pm_stream.Steps.EntersNext
    /// [Enter]: crate::contracts#pm_stream.Steps.Enter
    /// [forest]: crate::contracts#pm_stream.Trees.forest
    /// [steps_onto]: crate::contracts#pm_stream.Steps.steps_onto
    /// [Leave]: crate::contracts#pm_stream.Steps.Leave
    pub fn pass_over(&mut self) -> Option<(&'a Group, &'a [TokenTree])>
    {
        let Some((tree, after)) = self.left.split_first() else {
            return None;
        };
        let TokenTree::Group(group) = tree else {
            return None;
        };
        self.left = after;
        Some((group, after))
    }

    /// Skips the next `count` trees, each with the trees inside it. They are those left in the innermost group, then
    /// those after that group, and so on.
    pub(crate) fn pass_trees(&mut self, count: usize)
    {
        let mut count = count;
        while count > self.left.len() {
            let Some(open) = self.outer.pop() else {
                return;
            };
            count -= self.left.len();
            self.left = open.after;
        }
        self.left = &self.left[count..];
    }

    /// Returns the tree that the next step enters or visits, or `None` if there is no such tree.
    pub(crate) fn front(&self) -> Option<&'a TokenTree>
    {
        let Some((tree, _)) = self.left.split_first() else {
            return None;
        };
        Some(tree)
    }
}
