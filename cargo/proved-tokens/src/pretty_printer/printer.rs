// Made from crates/pretty_printer/src/printer.rt by dev/erase: change that file, not this one.
//! Reads a stream part by part, and chooses the gaps of each.

use crate::shim::prelude::Grow;

use crate::pretty_printer::atoms::{Lexeme, Role, White};
use crate::pretty_printer::chosen::{Chosen, ListPosition};
use crate::pretty_printer::reading::{Unread, push_list};
use crate::pretty_printer::roles::assign_roles;
use crate::pretty_printer::tree::{Form, NOWHERE, Tree, push_item};
use crate::proc_macro2::TokenStream;
use crate::shim::alloc::AllocError;

/// Chooses the gaps of a stream, one after another.
pub struct Printer<'a> {
    /// The stream's own list, and after it the lists inside the groups of the part that is read.
    tree: Tree,
    groups: Vec<Unread<'a>>,
    /// The numbers of nodes and of groups of the stream's own list, whose parts and its end are the last nodes.
    nodes: usize,
    top_groups: usize,
    /// The next part, and the first group of it.
    part: usize,
    next_group: usize,
    /// The list that is read, up to the end of the part, and the lists around it.
    here: ListPosition,
    outer: Vec<ListPosition>,
    /// The gaps so far.
    chosen: Chosen,
}

impl<'a> Printer<'a> {
    /// Returns a chooser of the gaps of this stream.
    pub fn new(stream: &'a TokenStream) -> Result<Printer<'a>, AllocError> {
        let mut tree = Tree::new()?;
        let mut groups = Vec::new();
        push_list(&mut tree, &mut groups, stream.trees(), false)?;
        let end = tree.atoms.len().saturating_sub(1);
        assign_roles(&mut tree, 1, end, true, Role::Block);
        let part = tree.nodes.len();
        tree.add_parts(NOWHERE, 1, end, true, false);
        tree.push_node(Form::Unread, end, end);
        Ok(Printer {
            nodes: tree.nodes.len(),
            tree,
            top_groups: groups.len(),
            groups,
            part,
            next_group: 0,
            here: ListPosition {
                at: 1,
                end: 1,
                trees: 0,
            },
            outer: Vec::new(),
            chosen: Chosen {
                gaps: Vec::new(),
                at: 0,
                visits: Vec::new(),
                entered: 0,
            },
        })
    }

    /// Returns the gaps of the stream.
    #[cfg_attr(not(debug_assertions), inline(always))]
    pub fn choose(mut self) -> Result<Chosen, AllocError> {
        for _ in 0..usize::MAX {
            if self.pass_atoms()? {} else if let Some(around) = self.outer.pop() {
                let gap = self.tree.atom(self.here.end).gap;
                self.chosen.entered = self.chosen.entered.min(self.outer.len());
                self.chosen.add(gap)?;
                self.here = around;
            } else if self.part.saturating_add(1) < self.nodes {
                self.lay_part();
            } else {
                break;
            }
        }
        match self.tree.failure {
            Some(error) => Err(error),
            None => Ok(self.chosen),
        }
    }

    /// Chooses the gaps before the next atoms of the list, up to a group or the end. Returns whether it enters a group.
    fn pass_atoms(&mut self) -> Result<bool, AllocError> {
        let tree = &self.tree;
        let mut here = self.here;
        let mut before = tree.previous(here.at);
        for own in tree.atoms.get(here.at..here.end).unwrap_or(&[]) {
            let marks = own.is_sign() || own.is_word(Lexeme::Lifetime);
            let touches = marks && before.is_sign() && !before.glued;
            if touches && matches!(own.gap, White::Nothing) && !is_doc_bang(tree, here.at) {
                self.chosen.want(&self.outer, &here)?;
            }
            let tokens = own.tokens();
            self.chosen.add(own.gap)?;
            here.at = here.at.wrapping_add(1);
            here.trees = here.trees.wrapping_add(tokens);
            if own.is_group() {
                let inner = tree.node(own.node);
                self.outer.push_fallibly(here)?;
                (self.here.at, self.here.end, self.here.trees) = (inner.from, inner.until, 0);
                return Ok(true);
            }
            for _ in 1..tokens {
                self.chosen.add(White::Nothing)?;
            }
            before = own;
        }
        self.here = here;
        Ok(false)
    }

    /// Reads the next part, and breaks its lines.
    fn lay_part(&mut self) {
        let part = *self.tree.node(self.part);
        let last = *self.tree.node(self.part.saturating_sub(1));
        self.read_groups(part.end);
        self.tree.place(part.first, part.end.saturating_add(1));
        let node = self.tree.read_part(part.first, part.end, true);
        self.tree.lay_all(node);
        let gap = match part.first {
            1 => White::Nothing,
            _ if self.tree.parts_items(&last, &part) => White::Blank(0),
            _ => White::Line(0),
        };
        self.tree.set_gap(part.first, gap);
        self.part = self.part.saturating_add(1);
        self.here.end = self.tree.node(self.part).first;
    }

    /// Reads and measures the groups of the part that ends here.
    fn read_groups(&mut self, end: usize) {
        let top = self.top_groups;
        let last = self.tree.node(self.nodes.saturating_sub(1)).first;
        self.tree.atoms.truncate(last.saturating_add(1));
        self.tree.nodes.truncate(self.nodes);
        self.groups.truncate(top);
        for next in self.next_group..top {
            let Some(group) = self.groups.get(next).copied() else {
                break
            };
            if self.tree.node(group.node).first >= end {
                break;
            }
            push_item(&mut self.groups, group, &mut self.tree.failure);
            self.next_group = next.saturating_add(1);
        }
        for next in top..usize::MAX {
            let Some(group) = self.groups.get(next).copied() else {
                break
            };
            self.read_group(group);
        }
        // Groups are before the groups inside them, and are measured after them.
        for _ in top..self.groups.len() {
            let Some(last) = self.groups.pop() else { break };
            self.tree.measure_group(last.node);
        }
    }

    /// Reads the list of a group.
    fn read_group(&mut self, group: Unread<'a>) {
        let tree = &mut self.tree;
        let first = tree.atoms.len();
        let at = tree.node(group.node).first;
        let own = *tree.atom(at);
        let call = group.call || tree.previous(at).role == Role::Bang;
        if let Err(error) = push_list(tree, &mut self.groups, group.trees, call) {
            tree.failure = Some(error);
        }
        let end = tree.atoms.len().saturating_sub(1);
        if let Some(node) = tree.nodes.get_mut(group.node) {
            node.from = first;
            node.until = end;
        }
        assign_roles(tree, first, end, own.is_brace(), own.role);
        // In a macro's call a comma at the end of a list is no reason for several lines.
        if group.call && !own.is_brace() && tree.previous(end).role == Role::Comma {
            tree.set_role(end.saturating_sub(1), Role::Separator, 0);
        }
    }
}

/// Returns whether the atom is the `!` of an inner doc attribute, whose marks stay Alone, as they are read from `//!`.
fn is_doc_bang(tree: &Tree, index: usize) -> bool {
    let list = tree.next(index);
    let first = tree.node(list.node).from;
    let named = tree.atom(first).width == "doc".len();
    let text = tree.atom(first.saturating_add(2));
    tree.previous(index).is_mark('#') && list.is_group() && named && text.is_word(Lexeme::String)
}
