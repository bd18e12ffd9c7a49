// Made from crates/pretty_printer/src/parts.rt by dev/erase: change that file, not this one.
//! Reads the parts of lists: statements, items, arms, fields and arguments.

use crate::pretty_printer::atoms::{Kind, Lexeme, Role};
use crate::pretty_printer::tree::{Form, NOWHERE, Tree};

/// The width in characters up to which a part is not read, because no rule breaks its line.
pub const SHORT: usize = 50;

impl Tree {
    /// Adds the parts in `from..until` to the children of a list. If `read`, it is placed, and long parts are read.
    pub fn add_parts(&mut self, list: usize, from: usize, until: usize, block: bool, read: bool) {
        let mut start = from;
        for _ in from..until {
            if start >= until {
                break;
            }
            let past = self.part_end(start, until, block);
            let end = past.saturating_sub(self.previous(past).ends_part() as usize);
            let long = read && (self.is_tall(start, end) || self.width(start, end) > SHORT);
            let part = match long {
                true => self.read_part(start, end, block),
                false => self.push_node(Form::Unread, start, end),
            };
            self.append(list, part);
            start = past;
        }
    }

    /// Reads the parts of a group, which is placed, unless they are read already.
    pub fn read_parts(&mut self, group: usize) {
        let own = *self.node(group);
        if own.child == NOWHERE {
            let block = self.atom(own.first).is_brace();
            self.add_parts(group, own.from, own.until, block, true);
        }
    }

    /// Reads a part, unless it is read already.
    pub fn read_unread(&mut self, part: usize) {
        let own = *self.node(part);
        if own.form == Form::Unread {
            let read = self.read_part(own.first, own.end, false);
            let mut node = *self.node(read);
            node.next = own.next;
            if let Some(own) = self.nodes.get_mut(part) {
                *own = node;
            }
        }
    }

    /// Returns the index after the part that begins here. It ends with a comma outside of angles, and in braces where a
    /// statement, an item or an arm ends.
    pub fn part_end(&self, first: usize, end: usize, block: bool) -> usize {
        let mut bars = false;
        let mut at = first;
        for _ in first..end {
            let own = self.atom(at);
            at = at.wrapping_add(1);
            match own.role {
                _ if own.ends || at >= end => return at,
                _ if block => {}
                Role::Comma if !bars && !own.glued => return at,
                Role::Less if own.node.saturating_add(1) >= end => return end,
                Role::Less => at = own.node.saturating_add(1),
                Role::BarOpen => bars = true,
                Role::BarClose => bars = false,
                _ => {}
            }
        }
        end
    }

    /// Reads the part with these atoms, and returns its node.
    pub fn read_part(&mut self, first: usize, end: usize, block: bool) -> usize {
        let stop = if block { end } else { first };
        for index in first..stop {
            let own = self.atom(index);
            match own.kind {
                Kind::Lexeme(Lexeme::Fn) if self.find_role(index, end, Role::Params) == end =>
                    break,
                Kind::Lexeme(Lexeme::Fn | Lexeme::Impl | Lexeme::Item) => {
                    return self.read_item(first, index, end);
                }
                Kind::Lexeme(Lexeme::Pub | Lexeme::Prefix | Lexeme::Extern | Lexeme::String) => {}
                _ if own.is_list() || own.role == Role::Hash => {}
                _ => break,
            }
        }
        self.read_expression(first, end)
    }

    /// Reads an item, whose keyword is the atom at `at`: its generics, its parameters, its bounds and its body.
    fn read_item(&mut self, first: usize, at: usize, end: usize) -> usize {
        let node = self.push_node(Form::Item, first, end);
        let impls = self.atom(at).is_word(Lexeme::Impl);
        let last = *self.previous(end);
        let stop = end.saturating_sub(last.is_brace() as usize);
        let mut from = at.saturating_add(2).saturating_sub(impls as usize);
        if self.atom(from).role == Role::Less {
            let past = self.atom(from).node.saturating_add(1);
            let generics = self.push_list_node(Form::Group, from, past, false);
            self.append(node, generics);
            from = past;
        }
        let head = self.find_role(from, stop, Role::Where);
        if self.atom(from).is_round() {
            self.append(node, self.atom(from).node);
            from = from.saturating_add(1);
        }
        if !impls && (self.width(from, head) > SHORT || self.is_tall(from, head)) {
            let result = self.read_expression(from.saturating_add(1), head);
            self.append(node, result);
        }
        if head < stop {
            // Only one bound of an `impl` without items may be on the line of its head.
            let single = self.part_end(head, stop, false) >= stop;
            let lone = impls && last.is_brace() && !last.is_full() && single;
            let bounds = self.push_list_node(Form::Bounds, head, stop, !lone);
            self.append(node, bounds);
        }
        if last.is_brace() {
            self.append(node, last.node);
        }
        if let Some(own) = self.nodes.get_mut(node) {
            own.until = head;
        }
        self.finish(node, end);
        node
    }

    /// Adds a list that is not a group: the bounds after `where`, or angles. If `must`, it needs several lines. Its
    /// parts are read when it is laid out.
    pub fn push_list_node(&mut self, form: Form, first: usize, end: usize, must: bool) -> usize {
        let node = self.push_node(form, first, end);
        let until = end.saturating_sub((form == Form::Group) as usize);
        let must = must || self.previous(until).ends_part() || self.is_tall(first, until);
        if let Some(own) = self.nodes.get_mut(node) {
            own.must = must;
            own.from = first.saturating_add(1);
            own.until = until;
        }
        node
    }
}
