// Made from crates/pretty_printer/src/lines.rt by dev/erase: change that file, not this one.
//! Breaks the lines of a part from the outside in, by a list of tasks.

use crate::pretty_printer::atoms::{Role, White};
use crate::pretty_printer::tree::{Form, NOWHERE, Node, Tree, push_item};

/// The number of columns of a line.
pub const WIDTH: usize = 100;
/// The number of columns by which a block is indented.
pub const TAB: usize = 4;
/// The largest column at which a line begins. It keeps the size of a deeply nested text in proportion to its tokens.
pub const DEEPEST: usize = 60;

/// What is to be done.
#[derive(Clone, Copy, PartialEq)]
pub enum LayStep {
    /// Lay out the node, which is not on one line.
    Lay,
    /// Lay out the next child: after one on one line, after one that is not, and with its block on its own line.
    Next,
    Broken,
    Apart,
    /// Lay out the next part or child: on its own line, with as many as fit, and with as many names as fit.
    Part,
    Fill,
    Names,
    /// Write the closer of the child, a group: on its own line, and on this line.
    Close,
    Shut,
}

/// A step that is left: the children of `node` from `child` on.
#[derive(Clone, Copy)]
pub struct Task {
    pub step: LayStep,
    pub node: usize,
    pub child: usize,
    /// The index of the next atom. Of a list: the part before.
    pub at: usize,
    /// The column at which the lines around it begin.
    pub indent: usize,
    /// The number of characters that must follow it on its line.
    pub tail: usize,
}

impl Tree {
    /// Breaks the lines of a node, which begins a line.
    pub fn lay_all(&mut self, node: usize) {
        self.begin_line(self.node(node).first, 0);
        self.tasks.clear();
        self.lay(node, 0, 1);
        // An atom begins at most eight nodes, and a node has at most four tasks. A task that is left keeps its gaps.
        for _ in 0..self.atoms.len().saturating_mul(32) {
            let Some(task) = self.tasks.pop() else { break };
            self.take_task(&task);
        }
    }

    /// Writes a node if it fits on this line. Otherwise that is the next task.
    pub fn lay(&mut self, node: usize, indent: usize, tail: usize) {
        let own = *self.node(node);
        if self.fits(&own, tail) {
            return self.put(own.first, own.end);
        }
        let task = Task {
            step: LayStep::Lay,
            node,
            child: NOWHERE,
            at: NOWHERE,
            indent,
            tail,
        };
        push_item(&mut self.tasks, task, &mut self.failure);
    }

    /// Leaves the children of a task's node from `child` on to this step.
    pub fn push(&mut self, step: LayStep, task: &Task, child: usize, at: usize) {
        let mut left = *task;
        left.step = step;
        left.child = child;
        left.at = at;
        push_item(&mut self.tasks, left, &mut self.failure);
    }

    /// Leaves the children after this one to this step.
    pub fn leave(&mut self, step: LayStep, task: &Task, child: &Node) {
        self.push(step, task, child.next, child.end);
    }

    /// Does what a task says, or leaves tasks for it.
    fn take_task(&mut self, task: &Task) {
        let own = *self.node(task.node);
        match task.step {
            LayStep::Lay => return self.lay_node(task, &own),
            LayStep::Close => return self.close(self.node(task.child).until, task.indent),
            LayStep::Shut => {
                self.column = self.column.saturating_add(1);
                return;
            }
            _ => {}
        }
        let child = *self.node(task.child);
        match own.form {
            Form::Group | Form::Bounds if task.child == NOWHERE => {}
            _ if task.child == NOWHERE => self.write(&own, task.at, own.end),
            Form::Group | Form::Bounds => self.next_part(task, &own, &child),
            Form::Chain => self.next_call(task, &own, &child),
            Form::Operators => self.next_operand(task, &own, &child),
            Form::Assign | Form::Let => self.next_side(task, &own, &child),
            Form::Control => self.next_of_control(task, &own, &child),
            Form::Item => self.next_of_item(task, &own, &child),
            _ => {
                self.reach(task, &own, &child, false);
                let tail = self.tail_of(task, &own, &child);
                self.leave(LayStep::Next, task, &child);
                self.lay(task.child, task.indent, tail);
            }
        }
    }

    /// Begins to lay out a node that is not on one line.
    fn lay_node(&mut self, task: &Task, own: &Node) {
        match own.form {
            Form::Unread => {
                self.read_unread(task.node);
                self.lay(task.node, task.indent, task.tail);
            }
            Form::Group => self.lay_group(task),
            Form::Chain => self.lay_chain(task, own),
            Form::Arm => self.lay_arm(task, own),
            _ => self.push(LayStep::Next, task, own.child, own.first),
        }
    }

    /// Returns the number of characters that must follow a child on its line: up to the opener of the next child, or to
    /// the end.
    pub fn tail_of(&self, task: &Task, own: &Node, child: &Node) -> usize {
        if child.next == NOWHERE {
            return self.rest(child.end, own.end).saturating_add(task.tail);
        }
        let next = self.node(child.next).first;
        let rest = self.rest(child.end, next.saturating_add(1));
        rest.saturating_sub(self.atom(next).width).saturating_add(1)
    }

    /// Returns the width of the atoms in `from..end` with the space before them.
    pub fn rest(&self, from: usize, end: usize) -> usize {
        let space = (from < end && self.atom(from).is_spaced()) as usize;
        self.width(from, end).saturating_add(space)
    }

    /// Returns whether a node fits on the line, with so many characters after it.
    pub fn fits(&self, own: &Node, tail: usize) -> bool {
        !own.must && self.fit(own.first, own.end, tail)
    }

    /// Returns whether these atoms fit on the line, with so many characters after them.
    pub fn fit(&self, from: usize, end: usize, tail: usize) -> bool {
        let width = self.width(from, end).saturating_add(tail);
        !self.is_tall(from, end) && self.column.saturating_add(width) <= WIDTH
    }

    /// Writes the atoms in `from..end` on this line. The gap before them is written.
    pub fn put(&mut self, from: usize, end: usize) {
        self.column = self.column.saturating_add(self.width(from, end));
        // Only `?` may follow closers that a chain goes on from.
        let only = end == from.saturating_add(1) && self.atom(from).role == Role::After;
        self.is_shut = self.is_shut && only;
    }

    /// Writes the space before an atom of a node that is not its first.
    pub fn lead(&mut self, own: &Node, index: usize) {
        if index > own.first && self.atom(index).is_spaced() {
            self.column = self.column.saturating_add(1);
        }
    }

    /// Writes the atoms of a node before one of its children, and the space before it, or a line break if `line`.
    pub fn reach(&mut self, task: &Task, own: &Node, child: &Node, line: bool) {
        self.write(own, task.at, child.first);
        match line {
            true => self.begin_line(child.first, task.indent),
            false => self.lead(own, child.first),
        }
    }

    /// Writes the atoms of a node in `from..end`, and the space before them.
    pub fn write(&mut self, own: &Node, from: usize, end: usize) {
        if from < end {
            self.lead(own, from);
            self.put(from, end);
        }
    }

    /// Begins a line at this column before an atom, unless the atom touches the one before it.
    pub fn begin_line(&mut self, index: usize, column: usize) {
        if self.previous(index).glued {
            return;
        }
        self.set_gap(index, White::Line(column.min(DEEPEST) as u8));
        self.column = column;
        self.is_shut = false;
    }

    /// Writes the closer of a group, whose list ends before this index, on its own line.
    pub fn close(&mut self, until: usize, column: usize) {
        self.begin_line(until, column);
        self.column = self.column.saturating_add(1);
        self.is_shut = true;
    }
}

/// Returns the column of what is inside of something that begins at this column.
pub fn deeper(column: usize) -> usize {
    column.saturating_add(TAB).min(DEEPEST)
}
