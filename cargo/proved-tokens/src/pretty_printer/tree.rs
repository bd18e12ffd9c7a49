// Made from crates/pretty_printer/src/tree.rt by dev/erase: change that file, not this one.
//! The trees that the atoms of lists are read as.

use crate::shim::prelude::Grow;

use crate::pretty_printer::atoms::{Atom, NOTHING, Role, White};
use crate::pretty_printer::lines::Task;
use crate::shim::alloc::AllocError;

/// The index of nothing.
pub const NOWHERE: usize = usize::MAX;
/// The width of a first line that does not exist.
pub const NO_HEAD: usize = usize::MAX;

/// The number of nodes, of open nodes and of tasks for which there is room at first.
const ROOM: usize = 32;

/// The kind of a node.
#[derive(Clone, Copy, PartialEq)]
pub enum Form {
    /// A short part of a list that is not read yet.
    Unread,
    /// A group, or the angles around an item's parameters. Its children are its parts.
    Group,
    /// Atoms on one line, except for its children, as in `a::b(c)?` and `&a`.
    Plain,
    /// A root and its calls, each of which begins with a dot.
    Chain,
    /// Operands with one operator between them.
    Operators,
    /// `a = b`
    Assign,
    /// `let a = b`, and the block after `else`.
    Let,
    /// The body of a closure, and its parameters, if they are read.
    Closure,
    /// `if`, `match` and loops: conditions and blocks.
    Control,
    /// A pattern, its guard if it has one, and its body.
    Arm,
    /// An item: its generics, parameters, bounds and body.
    Item,
    /// `where`, with a child for each bound.
    Bounds,
}

/// Atoms that follow one another in a list, or a group.
#[derive(Clone, Copy)]
pub struct Node {
    pub form: Form,
    /// The index of its first atom, and the one after its last.
    pub first: usize,
    pub end: usize,
    /// Its first child, its last child, and the next child of its parent.
    pub child: usize,
    pub last: usize,
    pub next: usize,
    /// Of a group: the index of its list's first atom, and the one after the last. Of `if`, `match` and loops: the node
    /// of the first block. Of an item: the index after its head.
    pub from: usize,
    pub until: usize,
    /// The width of its first line if its last part can go on over the next lines, or `NO_HEAD`.
    pub head: usize,
    /// Whether it needs several lines.
    pub must: bool,
}

/// No node.
pub static NO_NODE: Node = Node {
    form: Form::Plain,
    first: 0,
    end: 0,
    child: NOWHERE,
    last: NOWHERE,
    next: NOWHERE,
    from: NOWHERE,
    until: 0,
    head: NO_HEAD,
    must: false,
};

/// The state of the reader of an expression.
pub struct Reader {
    /// The nodes that take more operands, each with the strength of its binding.
    pub opens: Vec<(usize, usize)>,
    /// The number of them that are `Control`.
    pub controls: usize,
    /// The operand that is read, and the chain of calls that it ends.
    pub operand: usize,
    pub chain: usize,
}

/// The atoms and nodes of lists.
pub struct Tree {
    pub atoms: Vec<Atom>,
    pub nodes: Vec<Node>,
    pub reader: Reader,
    /// The indexes of `<` without a `>` yet.
    pub angles: Vec<usize>,
    /// What is left to do, the next last.
    pub tasks: Vec<Task>,
    /// The number of characters of the line that is written, and whether it has only closers.
    pub column: usize,
    pub is_shut: bool,
    /// The error of an allocation that failed.
    pub failure: Option<AllocError>,
}

impl Tree {
    /// Returns a tree with one atom, which is before the first list.
    pub fn new() -> Result<Tree, AllocError> {
        let mut atoms = Vec::new();
        atoms.push_fallibly(NOTHING)?;
        Ok(Tree {
            atoms,
            nodes: Vec::with_capacity_fallibly(ROOM)?,
            reader: Reader {
                opens: Vec::with_capacity_fallibly(ROOM)?,
                controls: 0,
                operand: NOWHERE,
                chain: NOWHERE,
            },
            angles: Vec::new(),
            tasks: Vec::with_capacity_fallibly(ROOM)?,
            column: 0,
            is_shut: false,
            failure: None,
        })
    }

    /// Returns the atom at this index.
    pub fn atom(&self, index: usize) -> &Atom {
        self.atoms.get(index).unwrap_or(&NOTHING)
    }

    /// Returns the atom before this index.
    pub fn previous(&self, index: usize) -> &Atom {
        self.atom(index.wrapping_sub(1))
    }

    /// Returns the atom after this index.
    pub fn next(&self, index: usize) -> &Atom {
        self.atom(index.wrapping_add(1))
    }

    /// Returns the node at this index.
    pub fn node(&self, index: usize) -> &Node {
        self.nodes.get(index).unwrap_or(&NO_NODE)
    }

    /// Adds a node without children, and returns its index, or `NOWHERE` once an allocation failed.
    pub fn push_node(&mut self, form: Form, first: usize, end: usize) -> usize {
        let index = self.nodes.len();
        let mut node = NO_NODE;
        node.form = form;
        node.first = first;
        node.end = end;
        push_item(&mut self.nodes, node, &mut self.failure);
        match self.failure {
            Some(_) => NOWHERE,
            None => index,
        }
    }

    /// Makes a finished node the last child of another, unless one of them is missing.
    pub fn append(&mut self, node: usize, child: usize) {
        if child == NOWHERE {
            return;
        }
        let must = self.node(child).must;
        let last = self.node(node).last;
        if let Some(own) = self.nodes.get_mut(node) {
            own.last = child;
            own.must = own.must || must;
            if last == NOWHERE {
                own.child = child;
            }
        }
        if let Some(own) = self.nodes.get_mut(last) {
            own.next = child;
        }
    }

    /// Sets the role of an angle, and the index of the angle that it is paired with, or 0.
    pub fn set_role(&mut self, index: usize, role: Role, paired: usize) {
        if let Some(atom) = self.atoms.get_mut(index) {
            atom.role = role;
            atom.node = paired;
        }
    }

    /// Sets the gap before an atom.
    pub fn set_gap(&mut self, index: usize, gap: White) {
        if let Some(atom) = self.atoms.get_mut(index) {
            atom.gap = gap;
        }
    }

    /// Returns the number of characters between the beginnings of two atoms on one line.
    pub fn distance(&self, from: usize, to: usize) -> usize {
        self.atom(to).offset.saturating_sub(self.atom(from).offset)
    }

    /// Returns the number of characters that the atoms in `from..end` take on one line.
    pub fn width(&self, from: usize, end: usize) -> usize {
        if end <= from {
            return 0;
        }
        self.distance(from, end - 1)
            .saturating_add(self.atom(end - 1).width)
    }

    /// Returns whether an atom in `from..end` needs several lines.
    pub fn is_tall(&self, from: usize, end: usize) -> bool {
        let last = self.previous(end);
        end > from && (last.tall || last.tall_before > self.atom(from).tall_before)
    }

    /// Returns the index of the first atom in `from..end` with this role, or `end`.
    pub fn find_role(&self, from: usize, end: usize, role: Role) -> usize {
        for index in from..end {
            if self.atom(index).role == role {
                return index;
            }
        }
        end
    }
}

/// Adds an item to a list. If the allocation fails, its error is kept.
pub fn push_item<T>(list: &mut Vec<T>, item: T, failure: &mut Option<AllocError>) {
    if let Err(error) = list.push_fallibly(item) {
        *failure = Some(AllocError::from(error));
    }
}
