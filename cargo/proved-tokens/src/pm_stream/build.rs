// Made from crates/pm_stream/src/build.rt by dev/erase: change that file, not this one.
//! Calls that build and change streams.

mod collects;

use crate::pm_stream::stream::{Group, TokenStream, TokenTree};
use crate::pm_token::{Ident, Literal, Punct};
use crate::shim::alloc::AllocError;

impl TokenStream {
    /// Returns the stream of this tree, by the rule `split`. Fails if memory runs out.
    ///
    /// A negative literal gives two trees: `-3i32` gives the mark `-` Alone and the literal `3i32`, both with the span
    /// of `-3i32`. Any other tree gives itself.
    ///
    /// # Contract
    ///
    /// - `ensures ok`: <code>[IfOk] result (λ stream. stream ≡ [split] tree)</code>
    ///
    /// [IfOk]: crate::contracts#std.IfOk
    /// [split]: crate::contracts#pm_stream.Building.split
    pub fn from_tree(tree: TokenTree) -> Result<TokenStream, AllocError>
    {
        let mut stream = TokenStream::new();
        stream.put(tree)?;
        Ok(stream)
    }

    /// Returns the stream of these trees, in order, each by the rule `split`. Fails if memory runs out. Without trees
    /// it never fails.
    ///
    /// # Contract
    ///
    /// - `requires`: <code>[IsFiniteIterable] I.into_iter_gives I.IntoIter.can_next I.IntoIter.remaining
    ///   trees</code>
    /// - `ensures ok`: <code>[IfOk] result (λ stream. [GivesAll] I.into_iter_gives I.IntoIter.next_gives trees (λ
    ///   trees. stream ≡ [trees_of_all] [split] trees))</code>
    /// - `ensures memory`: <code>[IfErr] result (λ \_. [GivesAnItem] I.into_iter_gives I.IntoIter.next_gives
    ///   trees)</code>
    ///
    /// [IsFiniteIterable]: crate::contracts#std.IsFiniteIterable
    /// [IfOk]: crate::contracts#std.IfOk
    /// [GivesAll]: crate::contracts#pm_stream.Building.GivesAll
    /// [trees_of_all]: crate::contracts#pm_stream.Building.trees_of_all
    /// [split]: crate::contracts#pm_stream.Building.split
    /// [IfErr]: crate::contracts#std.IfErr
    /// [GivesAnItem]: crate::contracts#pm_stream.Building.GivesAnItem
    pub fn from_trees<I: IntoIterator<Item = TokenTree>>(
        trees: I,
    ) -> Result<TokenStream, AllocError>
    {
        let mut stream = TokenStream::new();
        stream.extend_trees(trees)?;
        Ok(stream)
    }

    /// Returns the stream of the trees of these streams, one stream after another. Fails if memory runs out. Without
    /// streams it never fails.
    ///
    /// Trees that no other stream shares are moved, not copied.
    ///
    /// # Contract
    ///
    /// - `requires`: <code>[IsFiniteIterable] I.into_iter_gives I.IntoIter.can_next I.IntoIter.remaining
    ///   streams</code>
    /// - `ensures ok`: <code>[IfOk] result (λ stream. [GivesAll] I.into_iter_gives I.IntoIter.next_gives streams (λ
    ///   streams. stream ≡ [trees_of_all] (λ stream. stream) streams))</code>
    /// - `ensures memory`: <code>[IfErr] result (λ \_. [GivesAnItem] I.into_iter_gives I.IntoIter.next_gives
    ///   streams)</code>
    ///
    /// [IsFiniteIterable]: crate::contracts#std.IsFiniteIterable
    /// [IfOk]: crate::contracts#std.IfOk
    /// [GivesAll]: crate::contracts#pm_stream.Building.GivesAll
    /// [trees_of_all]: crate::contracts#pm_stream.Building.trees_of_all
    /// [IfErr]: crate::contracts#std.IfErr
    /// [GivesAnItem]: crate::contracts#pm_stream.Building.GivesAnItem
    pub fn from_streams<I: IntoIterator<Item = TokenStream>>(
        streams: I,
    ) -> Result<TokenStream, AllocError>
    {
        let mut stream = TokenStream::new();
        stream.extend_streams(streams)?;
        Ok(stream)
    }

    /// Appends these trees to the stream, in order, each by the rule `split`.
    ///
    /// If memory runs out, the stream keeps the trees that were appended before. Of a negative literal, both trees are
    /// appended or neither. Without trees the call never fails. Other streams that share the old trees do not change.
    ///
    /// # Contract
    ///
    /// - `requires`: <code>[IsFiniteIterable] I.into_iter_gives I.IntoIter.can_next I.IntoIter.remaining
    ///   trees</code>
    /// - `ensures ran`: <code>[ExtendsWithItems] I.into_iter_gives I.IntoIter.next_gives ([PutsIn] [split]) trees
    ///   self.old self.new result</code>
    /// - `ensures memory`: <code>[OnErr] result ([GivesAnItem] I.into_iter_gives I.IntoIter.next_gives
    ///   trees)</code>
    /// - `ensures refused`: <code>[OnErr] result ([RefusesAnItem] I.into_iter_gives I.IntoIter.next_gives ([PutsIn]
    ///   [split]) trees self.old self.new)</code>
    ///
    /// [IsFiniteIterable]: crate::contracts#std.IsFiniteIterable
    /// [ExtendsWithItems]: crate::contracts#std.ExtendsWithItems
    /// [PutsIn]: crate::contracts#pm_stream.Building.PutsIn
    /// [split]: crate::contracts#pm_stream.Building.split
    /// [OnErr]: crate::contracts#std.OnErr
    /// [GivesAnItem]: crate::contracts#pm_stream.Building.GivesAnItem
    /// [RefusesAnItem]: crate::contracts#pm_stream.Building.RefusesAnItem
    pub fn extend_trees<I: IntoIterator<Item = TokenTree>>(
        &mut self,
        trees: I,
    ) -> Result<(), AllocError>
    {
        for tree in trees {
            self.put(tree)?;
        }
        Ok(())
    }

    /// Appends the trees of these streams, one stream after another.
    ///
    /// If memory runs out, the streams that were appended before remain, and no tree of the next stream is appended.
    /// Trees that no other stream shares are moved, not copied.
    ///
    /// # Contract
    ///
    /// - `requires`: <code>[IsFiniteIterable] I.into_iter_gives I.IntoIter.can_next I.IntoIter.remaining
    ///   streams</code>
    /// - `ensures ran`: <code>[ExtendsWithItems] I.into_iter_gives I.IntoIter.next_gives ([PutsIn] (λ stream.
    ///   stream)) streams self.old self.new result</code>
    /// - `ensures memory`: <code>[OnErr] result ([GivesAnItem] I.into_iter_gives I.IntoIter.next_gives
    ///   streams)</code>
    /// - `ensures refused`: <code>[OnErr] result ([RefusesAnItem] I.into_iter_gives I.IntoIter.next_gives ([PutsIn]
    ///   (λ stream. stream)) streams self.old self.new)</code>
    ///
    /// [IsFiniteIterable]: crate::contracts#std.IsFiniteIterable
    /// [ExtendsWithItems]: crate::contracts#std.ExtendsWithItems
    /// [PutsIn]: crate::contracts#pm_stream.Building.PutsIn
    /// [OnErr]: crate::contracts#std.OnErr
    /// [GivesAnItem]: crate::contracts#pm_stream.Building.GivesAnItem
    /// [RefusesAnItem]: crate::contracts#pm_stream.Building.RefusesAnItem
    pub fn extend_streams<I: IntoIterator<Item = TokenStream>>(
        &mut self,
        streams: I,
    ) -> Result<(), AllocError>
    {
        for stream in streams {
            self.append(stream)?;
        }
        Ok(())
    }

    /// Appends these groups to the stream, as [`extend_trees`](TokenStream::extend_trees) does.
    ///
    /// # Contract
    ///
    /// - `requires`: <code>[IsFiniteIterable] I.into_iter_gives I.IntoIter.can_next I.IntoIter.remaining
    ///   groups</code>
    /// - `ensures ran`: <code>[ExtendsWithItems] I.into_iter_gives I.IntoIter.next_gives ([PutsIn] (λ group.
    ///   [split] (GroupTree group))) groups self.old self.new result</code>
    /// - `ensures memory`: <code>[OnErr] result ([GivesAnItem] I.into_iter_gives I.IntoIter.next_gives
    ///   groups)</code>
    /// - `ensures refused`: <code>[OnErr] result ([RefusesAnItem] I.into_iter_gives I.IntoIter.next_gives ([PutsIn]
    ///   (λ group. [split] (GroupTree group))) groups self.old self.new)</code>
    ///
    /// [IsFiniteIterable]: crate::contracts#std.IsFiniteIterable
    /// [ExtendsWithItems]: crate::contracts#std.ExtendsWithItems
    /// [PutsIn]: crate::contracts#pm_stream.Building.PutsIn
    /// [split]: crate::contracts#pm_stream.Building.split
    /// [OnErr]: crate::contracts#std.OnErr
    /// [GivesAnItem]: crate::contracts#pm_stream.Building.GivesAnItem
    /// [RefusesAnItem]: crate::contracts#pm_stream.Building.RefusesAnItem
    pub fn extend_groups<I: IntoIterator<Item = Group>>(
        &mut self,
        groups: I,
    ) -> Result<(), AllocError>
    {
        for group in groups {
            self.put_group(group)?;
        }
        Ok(())
    }

    /// Appends these identifiers to the stream, as [`extend_trees`](TokenStream::extend_trees) does.
    ///
    /// # Contract
    ///
    /// - `requires`: <code>[IsFiniteIterable] I.into_iter_gives I.IntoIter.can_next I.IntoIter.remaining
    ///   idents</code>
    /// - `ensures ran`: <code>[ExtendsWithItems] I.into_iter_gives I.IntoIter.next_gives ([PutsIn] (λ ident.
    ///   [split] (IdentTree ident))) idents self.old self.new result</code>
    /// - `ensures memory`: <code>[OnErr] result ([GivesAnItem] I.into_iter_gives I.IntoIter.next_gives
    ///   idents)</code>
    /// - `ensures refused`: <code>[OnErr] result ([RefusesAnItem] I.into_iter_gives I.IntoIter.next_gives ([PutsIn]
    ///   (λ ident. [split] (IdentTree ident))) idents self.old self.new)</code>
    ///
    /// [IsFiniteIterable]: crate::contracts#std.IsFiniteIterable
    /// [ExtendsWithItems]: crate::contracts#std.ExtendsWithItems
    /// [PutsIn]: crate::contracts#pm_stream.Building.PutsIn
    /// [split]: crate::contracts#pm_stream.Building.split
    /// [OnErr]: crate::contracts#std.OnErr
    /// [GivesAnItem]: crate::contracts#pm_stream.Building.GivesAnItem
    /// [RefusesAnItem]: crate::contracts#pm_stream.Building.RefusesAnItem
    pub fn extend_idents<I: IntoIterator<Item = Ident>>(
        &mut self,
        idents: I,
    ) -> Result<(), AllocError>
    {
        for ident in idents {
            self.put_ident(ident)?;
        }
        Ok(())
    }

    /// Appends these marks to the stream, as [`extend_trees`](TokenStream::extend_trees) does.
    ///
    /// # Contract
    ///
    /// - `requires`: <code>[IsFiniteIterable] I.into_iter_gives I.IntoIter.can_next I.IntoIter.remaining
    ///   puncts</code>
    /// - `ensures ran`: <code>[ExtendsWithItems] I.into_iter_gives I.IntoIter.next_gives ([PutsIn] (λ punct.
    ///   [split] (PunctTree punct))) puncts self.old self.new result</code>
    /// - `ensures memory`: <code>[OnErr] result ([GivesAnItem] I.into_iter_gives I.IntoIter.next_gives
    ///   puncts)</code>
    /// - `ensures refused`: <code>[OnErr] result ([RefusesAnItem] I.into_iter_gives I.IntoIter.next_gives ([PutsIn]
    ///   (λ punct. [split] (PunctTree punct))) puncts self.old self.new)</code>
    ///
    /// [IsFiniteIterable]: crate::contracts#std.IsFiniteIterable
    /// [ExtendsWithItems]: crate::contracts#std.ExtendsWithItems
    /// [PutsIn]: crate::contracts#pm_stream.Building.PutsIn
    /// [split]: crate::contracts#pm_stream.Building.split
    /// [OnErr]: crate::contracts#std.OnErr
    /// [GivesAnItem]: crate::contracts#pm_stream.Building.GivesAnItem
    /// [RefusesAnItem]: crate::contracts#pm_stream.Building.RefusesAnItem
    pub fn extend_puncts<I: IntoIterator<Item = Punct>>(
        &mut self,
        puncts: I,
    ) -> Result<(), AllocError>
    {
        for punct in puncts {
            self.put_punct(punct)?;
        }
        Ok(())
    }

    /// Appends these literals to the stream, as [`extend_trees`](TokenStream::extend_trees) does. A negative literal
    /// gives its `-` and the rest.
    ///
    /// # Contract
    ///
    /// - `requires`: <code>[IsFiniteIterable] I.into_iter_gives I.IntoIter.can_next I.IntoIter.remaining
    ///   literals</code>
    /// - `ensures ran`: <code>[ExtendsWithItems] I.into_iter_gives I.IntoIter.next_gives ([PutsIn] (λ literal.
    ///   [split] (LiteralTree literal))) literals self.old self.new result</code>
    /// - `ensures memory`: <code>[OnErr] result ([GivesAnItem] I.into_iter_gives I.IntoIter.next_gives
    ///   literals)</code>
    /// - `ensures refused`: <code>[OnErr] result ([RefusesAnItem] I.into_iter_gives I.IntoIter.next_gives ([PutsIn]
    ///   (λ literal. [split] (LiteralTree literal))) literals self.old self.new)</code>
    ///
    /// [IsFiniteIterable]: crate::contracts#std.IsFiniteIterable
    /// [ExtendsWithItems]: crate::contracts#std.ExtendsWithItems
    /// [PutsIn]: crate::contracts#pm_stream.Building.PutsIn
    /// [split]: crate::contracts#pm_stream.Building.split
    /// [OnErr]: crate::contracts#std.OnErr
    /// [GivesAnItem]: crate::contracts#pm_stream.Building.GivesAnItem
    /// [RefusesAnItem]: crate::contracts#pm_stream.Building.RefusesAnItem
    pub fn extend_literals<I: IntoIterator<Item = Literal>>(
        &mut self,
        literals: I,
    ) -> Result<(), AllocError>
    {
        for literal in literals {
            self.put_literal(literal)?;
        }
        Ok(())
    }
}
