// Made by dev/erase from the comments over the definitions in specs/: change those, not this file.
//! How to read the contracts on these pages, and what their words mean.
//!
//! A function's contract is under the heading Contract of its page. `requires` is what the caller has to see to, and
//! `ensures` is what then holds when the function returns: that is proved of the function's body. A name after
//! `ensures` is only a label. The words with links are explained below, by the comments over their definitions in
//! `specs/`.
//!
//! In a clause | Meaning
//! ---|---
//! `result` | what the function returns
//! `x.now` | the value behind the reference `x`
//! `x.old`, `x.new` | the value behind the `&mut` reference `x` before the call and after it
//! `x.entry` | the argument `x` when the function is called
//! `f a b` | the function `f` of `a` and `b`
//! `λ x. a` | the function that gives `a` for `x`
//! `a ≡ b`, `a ≢ b` | both are equal, or are not
//! `A → B`, `A ↔ B` | if A holds then B holds, and the reverse too
//! `A × B`, `A ⊎ B` | both hold, or at least one does
//! `A → ⊥` | A does not hold
//! `(x : T) → A` | A holds for every `x`
//! `(x : T) × A` | there is an `x` for which A holds
//! `[]`, `x ∷ xs`, `xs ++ ys` | no elements, `x` before the elements `xs`, two lists one after the other
//! `pair.0`, `pair.1` | the first and the second of two values
//! `record { a = x; b = y }` | a value with these fields
//! `⟦<T as Trait>⟧.method` | what `T`'s own method of that trait answers
//! `I.next_gives` and the like | what the caller's own iterator, writer or function does
//!
//! A contract sees a value as what it stands for: a text as the list of its characters, a stream as its trees, a span
//! as two positions, and a source map as the texts of its files.
//!
//! # Words of Rattle's own library
//!
//! - <a id="std.All"></a>**All**: the fact holds of each element of the list
//! - <a id="std.Bool"></a>**Bool**: `true` or `false`
//! - <a id="std.Err"></a>**Err**: the error of a `Result`
//! - <a id="std.ExtendsWithItems"></a>**ExtendsWithItems**: the iterator's items extend the collection, and
//!   where the call returns `Ok` they are all of its items
//! - <a id="std.IfErr"></a>**IfErr**: if the result is an error, the fact holds of that error
//! - <a id="std.IfNone"></a>**IfNone**: if there is no value, the fact holds
//! - <a id="std.IfOk"></a>**IfOk**: if the result is `Ok`, the fact holds of its value
//! - <a id="std.IfSome"></a>**IfSome**: if there is a value, the fact holds of it
//! - <a id="std.IsCharBoundary"></a>**IsCharBoundary**: a character begins at this byte offset, or the text
//!   ends there
//! - <a id="std.IsFiniteIterable"></a>**IsFiniteIterable**: what `into_iter` makes of the argument can be
//!   called, and it ends
//! - <a id="std.IsOk"></a>**IsOk**: the result is `Ok`
//! - <a id="std.IsTrue"></a>**IsTrue**: the answer is `true`
//! - <a id="std.IsUtf8"></a>**IsUtf8**: the bytes are UTF-8
//! - <a id="std.List"></a>**List**: the elements in order
//! - <a id="std.MatchOption"></a>**MatchOption**: the first fact holds if there is no value, and the second
//!   holds of the value if there is one
//! - <a id="std.MatchResult"></a>**MatchResult**: the first fact holds of the value of `Ok`, and the second of
//!   the error
//! - <a id="std.None"></a>**None**: no value
//! - <a id="std.Ok"></a>**Ok**: the value of a `Result`
//! - <a id="std.OnErr"></a>**OnErr**: if the result is an error, the fact holds
//! - <a id="std.OnOk"></a>**OnOk**: if the result is `Ok`, the fact holds
//! - <a id="std.Option"></a>**Option**: a value or none
//! - <a id="std.Some"></a>**Some**: a value
//! - <a id="std.SomeIff"></a>**SomeIff**: `Some` of this value if the fact holds, and `None` if it doesn't
//! - <a id="std.WritesOnOk"></a>**WritesOnOk**: if the formatter has no width or other options and the result
//!   is `Ok`, exactly these bytes were written
//! - <a id="std.YieldsFirst"></a>**YieldsFirst**: the answer is the first of what was left, and the others are
//!   left; or nothing was left, and it is `None`
//! - <a id="std.chars"></a>**chars**: the characters of a text, as code points
//! - <a id="std.codes"></a>**codes**: the characters of a text in quotes, as code points
//! - <a id="std.decimal"></a>**decimal**: the digits of a number, as code points
//! - <a id="std.drop"></a>**drop**: the list without so many elements at its front
//! - <a id="std.encode_utf8_all"></a>**encode_utf8_all**: the bytes of UTF-8 for these characters
//! - <a id="std.false"></a>**false**: no
//! - <a id="std.get_or"></a>**get_or**: the element at this index, or a given one if there is none
//! - <a id="std.is_ascii_digit"></a>**is_ascii_digit**: whether the character is one of `0` to `9`
//! - <a id="std.length"></a>**length**: the number of elements
//! - <a id="std.list_all"></a>**list_all**: whether each element of the list passes the test
//! - <a id="std.map"></a>**map**: the list of what the function gives for each element, in order
//! - <a id="std.nat_eq"></a>**nat_eq**: whether the numbers are equal
//! - <a id="std.not"></a>**not**: the other of `true` and `false`
//! - <a id="std.option_copied"></a>**option_copied**: the value behind the reference, if there is one
//! - <a id="std.pointwise"></a>**pointwise**: whether the lists have as many elements, each equal to the one at
//!   its place in the other
//! - <a id="std.reverse"></a>**reverse**: the list from its last element to its first
//! - <a id="std.signed_decimal"></a>**signed_decimal**: what `{}` prints of a signed number, as code points
//! - <a id="std.string_bytes"></a>**string_bytes**: the bytes of a `String`
//! - <a id="std.take"></a>**take**: so many elements at the front of the list
//! - <a id="std.true"></a>**true**: yes
//! - <a id="std.usize"></a>**usize**: what hashing a `usize` feeds to the hasher
//!
//! # Words of `declarations`
//!
//! - <a id="declarations.Attribute.AreArgs"></a>**AreArgs**: the trees after a path have this form
//! - <a id="declarations.Forms.AreAttributes"></a>**AreAttributes**: any number of attributes, each `#` and
//!   brackets
//! - <a id="declarations.Forms.AreBounds"></a>**AreBounds**: bounds, perhaps none
//! - <a id="declarations.Forms.AreFields"></a>**AreFields**: fields, with `,` between two and perhaps after the
//!   last
//! - <a id="declarations.Forms.AreGenerics"></a>**AreGenerics**: generic parameters in angle brackets, or
//!   nothing
//! - <a id="declarations.Forms.AreInnerAttributes"></a>**AreInnerAttributes**: any number of inner attributes,
//!   each `#!` and brackets
//! - <a id="declarations.List.AreInside"></a>**AreInside**: these are the trees inside the group
//! - <a id="declarations.Forms.AreTupleFields"></a>**AreTupleFields**: fields without names, with `,` between
//!   two and perhaps after the last
//! - <a id="declarations.Forms.AreVariants"></a>**AreVariants**: variants, with `,` between two and perhaps
//!   after the last
//! - <a id="declarations.Signs.BeginsWith"></a>**BeginsWith**: the trees begin with a sign of this class, and
//!   the rest comes after it
//! - <a id="declarations.rules.Pieces.ByRule"></a>**ByRule**: the form whose pieces are those of the rule
//! - <a id="declarations.Ending.EndsAt"></a>**EndsAt**: the error is one of these, with this span if trees are
//!   missing at the end
//! - <a id="declarations.Expected.Expects"></a>**Expects**: the set has exactly the classes that can come after
//!   the first `at` trees so that the form can be completed. It has the end if these trees are the whole of a
//!   part
//! - <a id="declarations.EntryExpects.ExpectsEntry"></a>**ExpectsEntry**: the set has exactly the signs that
//!   could come in an entry. The entry may be in a group without delimiters, and its path in another one
//! - <a id="declarations.Reading.FaultAt"></a>**FaultAt**: nothing of this form can be read. The error is after
//!   `at` trees: the longest prefix that other trees could complete
//! - <a id="declarations.File.FileFaultAt"></a>**FileFaultAt**: the trees are no file. The error is in the
//!   inner attributes, or in the first item that cannot be read. The set has exactly the signs that could come
//!   there in the attributes or in the item
//! - <a id="declarations.Field.HasFieldParts"></a>**HasFieldParts**: the trees are a named field with these
//!   parts: attributes, a visibility, a name, `:` and a type
//! - <a id="declarations.Kind.HasKind"></a>**HasKind**: the trees begin with an item of this kind and this
//!   name: attributes, a visibility, qualifiers, the keyword of the kind, and from the name on what the kind
//!   has there
//! - <a id="declarations.EntryCheck.HasNames"></a>**HasNames**: the entries before the left trees have known
//!   names, no two the same. Their positions are in the list, the last first
//! - <a id="declarations.Field.HasTypeParts"></a>**HasTypeParts**: the trees are a field without a name, with
//!   these parts: attributes, a visibility and a type
//! - <a id="declarations.Param.IsAfterWhere"></a>**IsAfterWhere**: the trees after the `where` of a where
//!   clause, or no trees if there is no clause
//! - <a id="declarations.Forms.IsAnyItem"></a>**IsAnyItem**: an item of any kind: what comes before its name,
//!   its name, header and body; or a group without delimiters
//! - <a id="declarations.GenericArgument.IsArgumentAt"></a>**IsArgumentAt**: the trees begin with a generic
//!   argument that has these parts, and the rest comes after it
//! - <a id="declarations.Attribute.IsAttributeAt"></a>**IsAttributeAt**: the trees are the attribute and then
//!   the rest
//! - <a id="declarations.Entry.IsEntryAt"></a>**IsEntryAt**: the trees begin with an entry that has these
//!   parts, and the rest comes after it. The entry may be in a group without delimiters, and its path in
//!   another one
//! - <a id="declarations.EntryCheck.IsEntryError"></a>**IsEntryError**: all entries before the error have known
//!   names, no two the same, and the trees after them are wrong as the error says
//! - <a id="declarations.Entry.IsEntryFault"></a>**IsEntryFault**: the trees are not exactly one entry. The
//!   error is in the entry, or at the first tree after it
//! - <a id="declarations.Forms.IsExpression"></a>**IsExpression**: the expression of a discriminant. Only its
//!   end is found
//! - <a id="declarations.Forms.IsField"></a>**IsField**: a field: attributes, a visibility, a name, `:` and a
//!   type
//! - <a id="declarations.Field.IsFieldAt"></a>**IsFieldAt**: the trees begin with a field of this form that has
//!   these parts, and the rest comes after it
//! - <a id="declarations.File.IsFile"></a>**IsFile**: the trees are inner attributes and then items
//! - <a id="declarations.Function.IsFunction"></a>**IsFunction**: the trees are a function, and these are its
//!   parts
//! - <a id="declarations.Impl.IsImpl"></a>**IsImpl**: the trees are an `impl`, and these are its parts
//! - <a id="declarations.Forms.IsItem"></a>**IsItem**: a struct, an enum or a union: attributes, a visibility,
//!   its keyword and name, generics, where clause and body
//! - <a id="declarations.List.IsListFault"></a>**IsListFault**: the error of a list: its next part cannot be
//!   read, or neither `,` nor the end comes after that part
//! - <a id="declarations.Entry.IsNoEntry"></a>**IsNoEntry**: the trees begin with no entry, and this is the
//!   error
//! - <a id="declarations.Reading.IsOnly"></a>**IsOnly**: no other part and rest can be read from these trees by
//!   the form
//! - <a id="declarations.Param.IsOnlyParam"></a>**IsOnlyParam**: no other parameter, and none with another
//!   rest, is at the start of the trees
//! - <a id="declarations.Entry.IsOnlyPlainRest"></a>**IsOnlyPlainRest**: the trees begin with no group without
//!   delimiters, or whatever the rule reads there, this is the rest after it
//! - <a id="declarations.Param.IsOnlyPredicate"></a>**IsOnlyPredicate**: no other predicate, and none with
//!   another rest, is at the start of the trees
//! - <a id="declarations.Entry.IsOnlyRest"></a>**IsOnlyRest**: whatever the rule reads at the start of the
//!   trees, this is the rest after it
//! - <a id="declarations.Param.IsParamAt"></a>**IsParamAt**: the trees begin with a generic parameter that has
//!   these parts. Each part is what its rule reads after the part before it. Then comes a `,` and the rest, or
//!   nothing
//! - <a id="declarations.Parameter.IsParameterAt"></a>**IsParameterAt**: the trees begin with a function's
//!   parameter that has these parts, and the rest comes after it
//! - <a id="declarations.Param.IsPredicateAt"></a>**IsPredicateAt**: the trees begin with a predicate that has
//!   these parts: a type, and bounds after `:`. Then comes a `,`, or nothing
//! - <a id="declarations.Forms.IsTupleField"></a>**IsTupleField**: a field without a name: attributes, a
//!   visibility and a type
//! - <a id="declarations.Forms.IsType"></a>**IsType**: a type
//! - <a id="declarations.Item.IsTypeItem"></a>**IsTypeItem**: the trees are an item with these parts. In order
//!   the parts are the trees, and each part is what its rule reads from there on
//! - <a id="declarations.TypePath.IsTypePath"></a>**IsTypePath**: the trees are a path, and these are its parts
//! - <a id="declarations.Forms.IsVariant"></a>**IsVariant**: a variant: attributes, a visibility, a name,
//!   perhaps fields, and perhaps a discriminant
//! - <a id="declarations.Variant.IsVariantAt"></a>**IsVariantAt**: the trees begin with a variant that has
//!   these parts, and the rest comes after it
//! - <a id="declarations.Forms.IsVisibility"></a>**IsVisibility**: a visibility or nothing. It is `pub`,
//!   perhaps with a restriction, or a group without delimiters that holds one
//! - <a id="declarations.Forms.IsWhere"></a>**IsWhere**: a where clause, or nothing
//! - <a id="declarations.Whole.IsWhole"></a>**IsWhole**: a piece of the form with nothing after it
//! - <a id="declarations.Param.IsWithin"></a>**IsWithin**: the trees between `<` (60) and `>` (62), or no trees
//!   if there are no generic parameters
//! - <a id="declarations.Param.LacksBracket"></a>**LacksBracket**: the error of trees that are not in angle
//!   brackets: at the first tree, where `<` is missing, or at the end if they begin with `<`, where `>` is
//!   missing
//! - <a id="declarations.Param.LacksWhere"></a>**LacksWhere**: the error of trees that do not begin with
//!   `where`: it is at the first tree, where `where` is missing
//! - <a id="declarations.List.ListsFields"></a>**ListsFields**: the list gives the fields of this struct or
//!   variant
//! - <a id="declarations.Kind.OneKind"></a>**OneKind**: an item that begins the trees has one kind and one name
//! - <a id="declarations.Param.ParamTrees"></a>**ParamTrees**: the parts of a generic parameter, as lists of
//!   trees
//! - <a id="declarations.Param.PredicateTrees"></a>**PredicateTrees**: the parts of a predicate, as lists of
//!   trees
//! - <a id="declarations.Reading.Reads"></a>**Reads**: the trees are the part and then the rest, and the part
//!   has this form if the rest comes after it
//! - <a id="declarations.Whole.ReadsAll"></a>**ReadsAll**: all of the trees are one part of the form
//! - <a id="declarations.Param.ReadsElement"></a>**ReadsElement**: the trees begin with what the rule reads.
//!   Then comes a `,` and the rest, or nothing
//! - <a id="declarations.Syntax.TablesRead"></a>**TablesRead**: each table reads exactly the pieces of its rule
//! - <a id="declarations.Attribute.after_path"></a>**after_path**: the trees after the path that the trees
//!   begin with
//! - <a id="declarations.Attribute.attributes_in"></a>**attributes_in**: the attributes at the start of the
//!   trees, up to the first trees that are no attribute
//! - <a id="declarations.Bare.bare_trees"></a>**bare_trees**: the trees; or if they are one group without
//!   delimiters, the trees in the innermost of such groups
//! - <a id="declarations.File.body_of"></a>**body_of**: the braces with the items of an item of this kind, if
//!   it has such braces
//! - <a id="declarations.Ending.closing_of"></a>**closing_of**: the span of the group's closing delimiter
//! - <a id="declarations.CompileError.compile_error"></a>**compile_error**: the trees of
//!   `::core::compile_error! { "text" }`, each with this span
//! - <a id="declarations.Attribute.doc_of"></a>**doc_of**: the literal, if the trees in the brackets are `doc`,
//!   `=` Alone and that literal
//! - <a id="declarations.Ending.ending_at"></a>**ending_at**: the error with this span, if it has none
//! - <a id="declarations.Entry.entry_extent"></a>**entry_extent**: the span of the first tree of an entry that
//!   has this kind and this path
//! - <a id="declarations.Fault.extent_at"></a>**extent_at**: the span of the tree with this index, or nothing
//!   if there are not so many trees
//! - <a id="declarations.Fault.fault_text"></a>**fault_text**: the message of an error
//! - <a id="declarations.rules.Rules.follows"></a>**follows**: whether a sign of this class may follow the rule
//! - <a id="declarations.rules.Functions.function_item"></a>**function_item**: a function: attributes, a
//!   visibility, qualifiers, `fn`, a name, generic parameters, parameters and the rest
//! - <a id="declarations.rules.Parameters.function_parameter"></a>**function_parameter**: a parameter of a
//!   function: attributes, and then a receiver, a pattern and its type, or `...`
//! - <a id="declarations.rules.Paths.generic_argument"></a>**generic_argument**: a generic argument: a
//!   lifetime, a constant, a type, or a name with `=` and a constant or a type, or `:` and bounds
//! - <a id="declarations.Expected.holds"></a>**holds**: whether the class is in the set
//! - <a id="declarations.Expected.holds_end"></a>**holds_end**: whether the end is in the set
//! - <a id="declarations.rules.ImplItems.impl_item"></a>**impl_item**: an `impl`: attributes, a visibility,
//!   qualifiers, `impl` and the rest
//! - <a id="declarations.Attribute.inside"></a>**inside**: the trees in the attribute's brackets; or if these
//!   are one group without delimiters, the trees in it
//! - <a id="declarations.Item.is_keyword"></a>**is_keyword**: whether an identifier is a keyword, and so cannot
//!   be a name
//! - <a id="declarations.Attribute.is_named"></a>**is_named**: whether the trees are one identifier with this
//!   text, perhaps in groups without delimiters
//! - <a id="declarations.Ending.or_extent"></a>**or_extent**: the span, or this other one if there is none
//! - <a id="declarations.Param.param_trees"></a>**param_trees**: the parts of a generic parameter that the
//!   library returns, as lists of trees
//! - <a id="declarations.rules.Parts.parameter"></a>**parameter**: a generic parameter: a lifetime, a type or a
//!   constant
//! - <a id="declarations.Attribute.parts_of"></a>**parts_of**: the parts of an attribute: its marks and its
//!   brackets
//! - <a id="declarations.Attribute.path_of"></a>**path_of**: the path that the trees begin with
//! - <a id="declarations.rules.Parameters.pattern"></a>**pattern**: a pattern
//! - <a id="declarations.rules.Parts.predicate"></a>**predicate**: a predicate: a type, `:` and bounds
//! - <a id="declarations.Param.predicate_trees"></a>**predicate_trees**: the parts of a predicate that the
//!   library returns, as lists of trees
//! - <a id="declarations.rules.Rules.rules"></a>**rules**: the grammar of each named rule
//! - <a id="declarations.Entry.sole_name"></a>**sole_name**: the identifier, if it is the only tree, perhaps in
//!   groups without delimiters
//! - <a id="declarations.CompileError.span_or_call_site"></a>**span_or_call_site**: the span at which an error
//!   is reported: that of the tree, or the call site if trees are missing
//! - <a id="declarations.rules.Paths.type_path"></a>**type_path**: a path of a type
//!
//! # Words of `explain`
//!
//! - <a id="explain.HintWalk.CameNearest"></a>**CameNearest**: between the cursors `from` and `to` is a quote
//!   and its hash signs, and no quote in the content has more
//! - <a id="explain.Reason.Holds"></a>**Holds**: the reason holds: with this wrong part, it is why no piece of
//!   the grammar begins at the fault
//! - <a id="explain.Explained.IsExplained"></a>**IsExplained**: pieces cover the source up to where reading
//!   stops, the explanation has the openers that are open there, and its reason holds at the fault
//! - <a id="explain.Walk.IsFaulty"></a>**IsFaulty**: the trouble has this error, and the wrong part is all text
//!   between the cursors or its last character
//! - <a id="explain.Hint.IsHint"></a>**IsHint**: the hint fits the explanation of the source
//! - <a id="explain.Walk.IsInside"></a>**IsInside**: the second cursor is right after a quote, and the first
//!   cursor is at that quote or before it
//! - <a id="explain.Walk.IsLeft"></a>**IsLeft**: `left` is the text from the first cursor up to the quote right
//!   before the second
//! - <a id="explain.Walk.IsPast"></a>**IsPast**: `part` is the text between the two cursors
//! - <a id="explain.Explained.IsStretch"></a>**IsStretch**: the `Stretch` has the bytes and the span of this
//!   part of a text, which follows the text `text_before`
//! - <a id="explain.Trouble.IsTrouble"></a>**IsTrouble**: the reason holds of the text at the cursor, and the
//!   wrong part is between the two cursors of the `Trouble`
//! - <a id="explain.HintWalk.LeftComments"></a>**LeftComments**: `depth` comments are open at the end of the
//!   text, and the comment that ended last, if any, is between the two cursors
//! - <a id="explain.Explained.Parses"></a>**Parses**: the source parses to some stream
//! - <a id="explain.Shapes.closed_body"></a>**closed_body**: the body of a string, up to the first `"` that is
//!   in no pair, and that `"`
//! - <a id="explain.Shapes.closed_character"></a>**closed_character**: a character or byte literal that is
//!   closed, whatever is in it, names and digits included
//! - <a id="explain.Shapes.closed_raw_body"></a>**closed_raw_body**: everything up to the first `"` with these
//!   hash signs after it, and both of these
//! - <a id="explain.Shapes.is_hash"></a>**is_hash**: whether the character is `#`
//! - <a id="explain.Words.name_of"></a>**name_of**: the short name of a reason, in words with hyphens
//! - <a id="explain.Shapes.raw_name_start"></a>**raw_name_start**: `r#` and the first character of a name
//! - <a id="explain.Words.sentence_of"></a>**sentence_of**: the message of a reason
//! - <a id="explain.Shapes.single_front"></a>**single_front**: what opens a character or a byte literal
//! - <a id="explain.Shapes.single_opening"></a>**single_opening**: the `b'` that opens a byte literal, or a `'`
//!   with no name or digit after it, which opens a character literal
//! - <a id="explain.Shapes.single_rule"></a>**single_rule**: the rule of a character or a byte literal
//!
//! # Words of `grammars`
//!
//! - <a id="grammars.Deterministic.IsWellFormed"></a>**IsWellFormed**: whether one sign decides at each choice
//!   of each rule, and each rule derives something
//!
//! # Words of `item_headers`
//!
//! - <a id="item_headers.Laws.BoundedClauseReads"></a>**BoundedClauseReads**: the item's where clause with a
//!   bound on each type parameter is read before a body, if the trees of the bound are bounds
//! - <a id="item_headers.Laws.ClauseReads"></a>**ClauseReads**: the item's where clause is read before a body
//! - <a id="item_headers.Fault.HasNoParams"></a>**HasNoParams**: whether the trees are not the generic
//!   parameters of an item
//! - <a id="item_headers.Fault.HasNoPredicates"></a>**HasNoPredicates**: whether the trees are not the where
//!   clause of an item
//! - <a id="item_headers.Fault.HasNotBoth"></a>**HasNotBoth**: whether the trees are not the generic parameters
//!   and the where clause of an item
//! - <a id="item_headers.Header.HasParams"></a>**HasParams**: whether the parameters are all that are in the
//!   brackets
//! - <a id="item_headers.Header.HasPredicates"></a>**HasPredicates**: whether the predicates are all that are
//!   in the where clause
//! - <a id="item_headers.Laws.HeaderReads"></a>**HeaderReads**: the header of an item and then a body in braces
//!   are an `impl` of the trait for the item's type, with the item's parameters without defaults and with its
//!   predicates. The item's trees are those of a stream
//! - <a id="item_headers.Laws.HeaderWithClauseReads"></a>**HeaderWithClauseReads**: the header with this where
//!   clause and then a body in braces are an `impl` of the trait for the item's type, with the item's
//!   parameters without defaults. The item's trees are those of a stream
//! - <a id="item_headers.Fault.IfFault"></a>**IfFault**: if the error is `Fault`, the statement holds
//! - <a id="item_headers.Header.bounds_on_types"></a>**bounds_on_types**: `T: bound` for each parameter that is
//!   a type
//! - <a id="item_headers.Header.header"></a>**header**: `impl<'a, T> Trait for Name<'a, T>` and a where clause
//! - <a id="item_headers.Message.header_span"></a>**header_span**: the span of the error, if it is `Fault` and
//!   has one
//! - <a id="item_headers.Header.impl_generics"></a>**impl_generics**: `<'a, T: A, const N: usize>`: the
//!   parameters without defaults, or nothing if there are none
//! - <a id="item_headers.Header.turbofish"></a>**turbofish**: `::<'a, T, N>`: the parameters' names, as in an
//!   expression
//! - <a id="item_headers.Header.type_generics"></a>**type_generics**: `<'a, T, N>`: the parameters' names, as
//!   in a type
//! - <a id="item_headers.Header.where_with"></a>**where_with**: `where`, the predicates of the item and then
//!   more predicates, or nothing if there are none
//!
//! # Words of `item_tables`
//!
//! - <a id="item_tables.Classes.code"></a>**code**: the number of a class, which is its position in the list of
//!   all classes
//! - <a id="item_tables.Walk.depth_after"></a>**depth_after**: the number of open angle brackets after a sign
//! - <a id="item_tables.Walk.ends"></a>**ends**: whether what is read may end in this state
//! - <a id="item_tables.TypeStep.may_end"></a>**may_end**: whether a type may end in this state, outside of
//!   angle brackets
//! - <a id="item_tables.Walk.step"></a>**step**: the state that a sign of this class leads to, or nothing if
//!   the sign cannot come next
//! - <a id="item_tables.TypeStep.step_of"></a>**step_of**: the step from a state. The last argument says that
//!   no angle bracket is open
//!
//! # Words of `layout`
//!
//! - <a id="layout.Layout.IsLayout"></a>**IsLayout**: `layout`: the text is the stream's tokens and delimiters
//!   in order, with an allowed gap before each, and a gap at the end
//! - <a id="layout.Writing.IsNoWrite"></a>**IsNoWrite**: the error is not that of a writer
//! - <a id="layout.Written.IsWritten"></a>**IsWritten**: the text consists of the stream and the gaps that a
//!   chooser gives. The chooser is called once for each gap of the stream, in order, which takes it from its
//!   old state to its new one
//! - <a id="layout.Laws.LayoutsComeBack"></a>**LayoutsComeBack**: each layout of a built, well-spaced stream
//!   reads back to it
//! - <a id="layout.Laws.PrintedIsLayout"></a>**PrintedIsLayout**: the printed text of a built, well-spaced
//!   stream is one of its layouts
//! - <a id="layout.Writing.ReadsBack"></a>**ReadsBack**: the text reads back to the stream up to spans,
//!   wherever the spans begin
//! - <a id="layout.Written.Writes"></a>**Writes**: a wanted text is written; it is a layout of the stream and
//!   reads back to it
//! - <a id="layout.Written.choice_of"></a>**choice_of**: the choice that consists of a chooser's argument and
//!   its result
//!
//! # Words of `lexical`
//!
//! - <a id="lexical.PieceStep.Answers"></a>**Answers**: whether the step returns the piece that was found, and
//!   `None` if none was found
//! - <a id="lexical.Comment.BlockComment"></a>**BlockComment**: `block-comment`: `/*` up to the `*/` that
//!   closes it, with block comments inside
//! - <a id="lexical.SingleQuoted.Byte"></a>**Byte**: `byte`: a literal between `b'` and `'`
//! - <a id="lexical.Quoted.ByteStr"></a>**ByteStr**: `byte-string`: a literal between `b"` and `"`
//! - <a id="lexical.SingleQuoted.Character"></a>**Character**: `character`: a literal between `'` and `'`
//! - <a id="lexical.Comment.Comment"></a>**Comment**: a line comment or a block comment
//! - <a id="lexical.Rule.Exactly"></a>**Exactly**: exactly this text
//! - <a id="lexical.Piece.FrontMark"></a>**FrontMark**: the byte order mark U+FEFF at the start of a source
//! - <a id="lexical.Piece.HasNoPiece"></a>**HasNoPiece**: whether no piece is at the start of the text
//! - <a id="lexical.Form.HasNone"></a>**HasNone**: whether no piece of the form is at the start of the text
//! - <a id="lexical.Quick.IsAsciiAt"></a>**IsAsciiAt**: whether the first `size` bytes of the text are ASCII
//!   and a piece of the form
//! - <a id="lexical.Found.IsAt"></a>**IsAt**: whether a piece of the form is at the start of the text and has
//!   this many bytes
//! - <a id="lexical.Quick.IsLiteralAt"></a>**IsLiteralAt**: whether a literal of this extent is at the start of
//!   the text, at any byte offset of a source
//! - <a id="lexical.Walk.IsNext"></a>**IsNext**: whether `next` is the next piece of the walk `at`, with its
//!   text and byte offset, and `to` is the walk after it. Only the first piece can be at byte offset 0
//! - <a id="lexical.WhiteRun.IsPastWhite"></a>**IsPastWhite**: whether the text begins with `count` white
//!   characters of ASCII, and `rest` is the text after them, which begins with no more of them
//! - <a id="lexical.Piece.IsPiece"></a>**IsPiece**: whether p is a piece of this kind right before r. `first`
//!   says whether p begins at byte offset 0
//! - <a id="lexical.Found.IsPieceAt"></a>**IsPieceAt**: whether the piece is at the start of the text, with its
//!   numbers of bytes and characters
//! - <a id="lexical.Walk.IsSpaced"></a>**IsSpaced**: whether `next` is the run of white characters at the start
//!   of the walk `at`, with the next piece if there is one. `to` is the walk after both
//! - <a id="lexical.Piece.Kind"></a>**Kind**: the kind of a piece
//! - <a id="lexical.Literal.Literal"></a>**Literal**: `literal`: a literal between quotes or a number
//! - <a id="lexical.Token.Literal"></a>**Literal**: a literal, with its text
//! - <a id="lexical.Token.Mark"></a>**Mark**: a mark, and whether it is Joint
//! - <a id="lexical.Identifier.Name"></a>**Name**: `name`: a piece of the rule `name`
//! - <a id="lexical.Token.Name"></a>**Name**: an identifier: whether it is raw, and its name
//! - <a id="lexical.Number.Number"></a>**Number**: `number`: a piece of the rule `number`
//! - <a id="lexical.Rule.One"></a>**One**: one character that passes
//! - <a id="lexical.RuleMatch.Passes"></a>**Passes**: whether the text from the cursor `at` to the cursor `to`
//!   is a piece of the rule
//! - <a id="lexical.RuleMatch.Reads"></a>**Reads**: whether the step returns the cursor after the rule's piece,
//!   and `None` if there is no piece
//! - <a id="lexical.Rule.Run"></a>**Run**: all the characters that pass, up to the first one that does not
//! - <a id="lexical.WhiteRun.SplitsWhite"></a>**SplitsWhite**: whether `white` is all the white characters at
//!   the start of the text, and `rest` is the text after them
//! - <a id="lexical.Rule.Stands"></a>**Stands**: the form of the rule: whether the text p is a piece of the
//!   rule, if r follows it
//! - <a id="lexical.Quoted.Str"></a>**Str**: `string`: a literal between `"` and `"`
//! - <a id="lexical.PieceStep.Tells"></a>**Tells**: whether the result is the kind that was found for the
//!   comment p, and `None` if none was found
//! - <a id="lexical.Rule.Then"></a>**Then**: a piece of the first rule, and then one of the second
//! - <a id="lexical.Ascii.all_ascii"></a>**all_ascii**: whether each byte is ASCII
//! - <a id="lexical.Quoted.allows"></a>**allows**: whether `\u{..}` may write the character: in a byte string
//!   none, in a C string any but zero
//! - <a id="lexical.Identifier.any_identifier"></a>**any_identifier**: an identifier as it is written, raw or
//!   plain, even if a literal begins there
//! - <a id="lexical.Bytes.ascii_in"></a>**ascii_in**: whether the character is ASCII and in the class
//! - <a id="lexical.Character.backslash"></a>**backslash**: `\`
//! - <a id="lexical.Text.begins_any"></a>**begins_any**: whether the text begins with one of the prefixes
//! - <a id="lexical.Text.begins_with"></a>**begins_with**: whether the second text begins with the first
//! - <a id="lexical.Quoted.body"></a>**body**: `string-body`: units up to the text that closes the literal,
//!   that text, and a suffix
//! - <a id="lexical.Quick.byte_starts"></a>**byte_starts**: what the first byte of a text says about the piece
//!   there. It says nothing if it is past ASCII
//! - <a id="lexical.Character.carriage_return"></a>**carriage_return**: CR
//! - <a id="lexical.SingleQuoted.character"></a>**character**: `character`: `'`, one character or escape, `'`
//!   and a suffix
//! - <a id="lexical.Comment.comment"></a>**comment**: a line comment or a block comment, as a rule
//! - <a id="lexical.PieceFinder.comment_found"></a>**comment_found**: the answer, a comment, with its kind
//! - <a id="lexical.Mark.comment_fronts"></a>**comment_fronts**: the two prefixes of comments, `//` and `/*`
//! - <a id="lexical.CommentKind.comment_kind"></a>**comment_kind**: which kind of piece the comment is, or none
//!   if the text of a doc comment has a CR with no LF after it
//! - <a id="lexical.Quoted.cooked_string"></a>**cooked_string**: `string`, `byte-string`, `c-string`: the
//!   prefix that opens it, and units up to the first `"` that is in no unit
//! - <a id="lexical.Text.ends_with"></a>**ends_with**: whether the text ends with the character
//! - <a id="lexical.Quoted.escape"></a>**escape**: `string-escape`, `byte-escape`, `c-string-escape`: what may
//!   follow a backslash
//! - <a id="lexical.Rule.find"></a>**find**: finds the piece of the rule at the start of a text, and the text
//!   after it
//! - <a id="lexical.PieceFinder.find_lone_quote"></a>**find_lone_quote**: finds a piece of the rule
//!   `lone-quote`: the mark `'` right before the name of a lifetime
//! - <a id="lexical.PieceFinder.find_piece"></a>**find_piece**: the piece at the start of a text. `first` says
//!   whether this is byte offset 0
//! - <a id="lexical.Text.first_passes"></a>**first_passes**: whether the text begins with a character that
//!   passes
//! - <a id="lexical.Mark.follows_quote"></a>**follows_quote**: whether the text begins with an identifier that
//!   may follow a `'`
//! - <a id="lexical.PieceFinder.found_identifier"></a>**found_identifier**: the identifier at the start of a
//!   text. It is a raw one if the text begins with `r#`
//! - <a id="lexical.Quoted.front"></a>**front**: the prefix that opens a string of the kind
//! - <a id="lexical.Quoted.is_code"></a>**is_code**: whether the text has at most six hex digits, and they
//!   write a character that is allowed
//! - <a id="lexical.Quoted.is_code_digit"></a>**is_code_digit**: whether the character is a hex digit or `_`
//! - <a id="lexical.Class.is_ident_continue"></a>**is_ident_continue**: `identifier-continue`: whether the
//!   character may continue an identifier
//! - <a id="lexical.Class.is_ident_start"></a>**is_ident_start**: `identifier-start`: whether the character may
//!   begin an identifier
//! - <a id="lexical.Bytes.is_in"></a>**is_in**: whether the character is in the class
//! - <a id="lexical.MachineWord.is_line_ascii"></a>**is_line_ascii**: whether the byte is ASCII and neither LF
//!   nor CR
//! - <a id="lexical.Mark.is_mark"></a>**is_mark**: whether the character is one of the 22 marks
//! - <a id="lexical.Quoted.is_octal_digit"></a>**is_octal_digit**: whether the character is a digit from 0 to 7
//! - <a id="lexical.Quoted.is_one_of"></a>**is_one_of**: whether the character is one of `characters`
//! - <a id="lexical.SingleQuoted.is_plain"></a>**is_plain**: whether a literal of the kind may have the
//!   character between single quotes without an escape
//! - <a id="lexical.MachineWord.is_plain_ascii"></a>**is_plain_ascii**: whether the byte is ASCII and needs no
//!   escape in a string
//! - <a id="lexical.Identifier.is_reserved"></a>**is_reserved**: `raw-reserved`: whether the name is one of
//!   `reserved_names`
//! - <a id="lexical.Class.is_white"></a>**is_white**: `white`: whether the character is white space or one of
//!   the two marks of direction, U+200E and U+200F
//! - <a id="lexical.Mark.joint_before"></a>**joint_before**: `joint`: whether a mark before r is Joint, because
//!   r begins with a mark and not with a comment
//! - <a id="lexical.Quoted.letters"></a>**letters**: the letters that are an escape after a backslash, in a
//!   string of the kind
//! - <a id="lexical.Literal.literal"></a>**literal**: `literal`: a literal between quotes or a number, as a
//!   rule
//! - <a id="lexical.RawString.may_stand_raw"></a>**may_stand_raw**: whether a raw string of the kind may
//!   contain the character. A CR must also have an LF after it
//! - <a id="lexical.Identifier.name"></a>**name**: `name`: a character that may begin an identifier and all
//!   after it that may continue one
//! - <a id="lexical.Number.number"></a>**number**: `number`: a float, or an integer if no float begins there,
//!   neither a shorter nor a longer one
//! - <a id="lexical.PieceFinder.piece_start"></a>**piece_start**: what the first character of a text says about
//!   the piece there
//! - <a id="lexical.Literal.quoted_literal"></a>**quoted_literal**: `quoted-literal`: a string, a byte string
//!   or a C string, each with escapes or raw, a character or a byte
//! - <a id="lexical.RawString.raw"></a>**raw**: a raw string: the prefix that opens it, hash signs, and the
//!   quotes with the text between them
//! - <a id="lexical.RawString.raw_front"></a>**raw_front**: the prefix that opens a raw string of the kind
//! - <a id="lexical.Identifier.raw_name"></a>**raw_name**: `raw-identifier`: the name after `r#`, which is not
//!   reserved
//! - <a id="lexical.RawString.raw_string"></a>**raw_string**: `raw-string`, `raw-byte-string`, `raw-c-string`:
//!   a raw string of the kind, with at most 255 hash signs
//! - <a id="lexical.SingleQuoted.single"></a>**single**: a literal of one unit: the prefix that opens it, a
//!   unit, `'` and a suffix
//! - <a id="lexical.Character.single_quote"></a>**single_quote**: `'`
//! - <a id="lexical.Quoted.suffix"></a>**suffix**: `suffix`: the longest name there, or nothing if no name
//!   begins there
//! - <a id="lexical.Quoted.unit"></a>**unit**: `string-unit`, `byte-string-unit`, `c-string-unit`: a character
//!   that needs no escape, a line end, or a backslash and what may follow it
//! - <a id="lexical.Finder.while_front"></a>**while_front**: the longest prefix whose characters all pass
//! - <a id="lexical.Finder.while_rest"></a>**while_rest**: the text after the longest prefix whose characters
//!   all pass
//!
//! # Words of `literal_escaper`
//!
//! - <a id="literal_escaper.Within.AreWithin"></a>**AreWithin**: `item-range`: whether the range of each item
//!   or error is in the text and ends at whole characters on both sides
//! - <a id="literal_escaper.Unescaping.Gives"></a>**Gives**: whether the answer is what was read at the cursor
//!   `at`
//! - <a id="literal_escaper.Unescaping.GivesFront"></a>**GivesFront**: whether the item, the warning and the
//!   cursor after them are what was read at the cursor `at`
//! - <a id="literal_escaper.Kind.any_char"></a>**any_char**: the unit of a character of a string, which may be
//!   any
//! - <a id="literal_escaper.Kind.ascii_byte"></a>**ascii_byte**: the unit of a character of a byte string,
//!   which must be ASCII
//! - <a id="literal_escaper.Kind.byte_kind"></a>**byte_kind**: `byte-kind`: the kind of byte strings, whose
//!   units are bytes
//! - <a id="literal_escaper.Items.byte_offset"></a>**byte_offset**: the byte offset in a content of this size
//!   where `rest` is left
//! - <a id="literal_escaper.Text.bytes"></a>**bytes**: how many bytes the text has in UTF-8
//! - <a id="literal_escaper.Kind.c_kind"></a>**c_kind**: `c-kind`: the kind of C strings, whose units are
//!   characters and bytes, none of them zero
//! - <a id="literal_escaper.Kind.character"></a>**character**: the character with this code, or an error
//! - <a id="literal_escaper.Unescaping.cooked_left"></a>**cooked_left**: the items of a content with escapes
//!   that are left after a cursor
//! - <a id="literal_escaper.Errors.errors_in"></a>**errors_in**: `content-errors`: the errors and warnings in a
//!   content of this kind
//! - <a id="literal_escaper.Escape.escape"></a>**escape**: `item-escape`: reads an escape after a backslash
//! - <a id="literal_escaper.EscapeMessage.escape_message"></a>**escape_message**: the message of an error
//! - <a id="literal_escaper.Items.front"></a>**front**: reads one step at the start of the text: a backslash
//!   with LF and the blanks after them, an escape, or one character
//! - <a id="literal_escaper.Unescaping.front_items"></a>**front_items**: an item and the warning after it.
//!   Without an item there is no warning
//! - <a id="literal_escaper.Mode.is_double_quoted"></a>**is_double_quoted**: whether a literal of this kind is
//!   between double quotes
//! - <a id="literal_escaper.Warning.is_fault"></a>**is_fault**: `fatal`: whether the error is not one of the
//!   two warnings
//! - <a id="literal_escaper.ContentClass.is_in"></a>**is_in**: whether the character is in the class
//! - <a id="literal_escaper.Items.items"></a>**items**: `items`: the items of a content with escapes
//! - <a id="literal_escaper.Items.items_from"></a>**items_from**: the items from this text to the end of the
//!   content
//! - <a id="literal_escaper.Mode.prefix"></a>**prefix**: the prefix of a literal of this kind, without its `r`
//! - <a id="literal_escaper.Units.raw_c_char"></a>**raw_c_char**: the unit of a character of a raw C string, or
//!   an error if it is NUL
//! - <a id="literal_escaper.Items.raw_items"></a>**raw_items**: `raw-items`: the items of a raw content
//! - <a id="literal_escaper.Unescaping.raw_left"></a>**raw_left**: the items of a raw content that are left
//!   after a cursor
//! - <a id="literal_escaper.Single.single"></a>**single**: `single-item`: reads the one unit of a content, or
//!   an error
//! - <a id="literal_escaper.Kind.string_kind"></a>**string_kind**: `string-kind`: the kind of strings, whose
//!   units are characters
//! - <a id="literal_escaper.Unescaping.text_at"></a>**text_at**: the text after a cursor
//!
//! # Words of `pm_span`
//!
//! - <a id="pm_span.Lookup.AreInOneFile"></a>**AreInOneFile**: whether one file of the map has both spans
//! - <a id="pm_span.Lookup.EndsAt"></a>**EndsAt**: `line`, `column`: whether the span ends at this line and
//!   column of its file
//! - <a id="pm_span.Extent.Extent"></a>**Extent**: the positions from `lo` to `hi`, in characters
//! - <a id="pm_span.Files.Files"></a>**Files**: the texts of the files 1, 2, .. in order, and the largest
//!   position that may be used
//! - <a id="pm_span.Files.Fits"></a>**Fits**: `fits`: whether a next file with this number of characters ends
//!   within the limit
//! - <a id="pm_span.Lookup.HasBytes"></a>**HasBytes**: `byte-offset`: whether the span begins and ends at these
//!   byte offsets of its file
//! - <a id="pm_span.Lookup.HasName"></a>**HasName**: `file-name`: whether this is the name of the span's file
//! - <a id="pm_span.Lookup.HasText"></a>**HasText**: `source-text`: whether this is the part of its file's text
//!   that the span covers
//! - <a id="pm_span.Files.Holds"></a>**Holds**: `holds`: whether some file of the map has all the positions of
//!   the span
//! - <a id="pm_span.Order.IsBefore"></a>**IsBefore**: whether the first is on an earlier line, or on the same
//!   line at a smaller column
//! - <a id="pm_span.Lookup.IsTextOf"></a>**IsTextOf**: `source-text`: whether some file of the map has the
//!   span, and this is the text that the span covers there
//! - <a id="pm_span.Lookup.StartsAt"></a>**StartsAt**: `line`, `column`: whether the span begins at this line
//!   and column of its file
//! - <a id="pm_span.Lookup.covering_span"></a>**covering_span**: `join`: the smallest span that covers both
//! - <a id="pm_span.Extent.extent_eq"></a>**extent_eq**: whether both have the same positions
//! - <a id="pm_span.Files.new_map"></a>**new_map**: a map that has only file 0, with the largest limit
//! - <a id="pm_span.Files.next_lo"></a>**next_lo**: `next-position`: where the next file begins, one past the
//!   end of the last
//! - <a id="pm_span.Extent.nowhere"></a>**nowhere**: the span of a token that was not read from a text: from 0
//!   to 0
//! - <a id="pm_span.Files.with_file"></a>**with_file**: the map with one more file, which has this text
//!
//! # Words of `pm_stream`
//!
//! - <a id="pm_stream.Places.ArePlaced"></a>**ArePlaced**: the list says where each tree begins and ends, for
//!   the stream that the source parses to
//! - <a id="pm_stream.InOrder.BeginsWithGroup"></a>**BeginsWithGroup**: the first of the trees is a group
//! - <a id="pm_stream.Taken.CanClose"></a>**CanClose**: the sink has taken everything before the piece, which
//!   is the closer, of one character, of the innermost open group
//! - <a id="pm_stream.Taken.CanOpen"></a>**CanOpen**: the sink has taken everything before the piece, which is
//!   an opener of one character
//! - <a id="pm_stream.Taken.CanPass"></a>**CanPass**: the sink has taken everything before the text, which
//!   begins with exactly `size` ASCII white characters
//! - <a id="pm_stream.Taken.CanSkip"></a>**CanSkip**: the sink has taken everything before the piece, which is
//!   no token
//! - <a id="pm_stream.Taken.CanTake"></a>**CanTake**: the sink has taken everything before the piece, which is
//!   of this kind
//! - <a id="pm_stream.Steps.Enter"></a>**Enter**: enters this group; the trees are those that follow it
//! - <a id="pm_stream.Steps.EntersNext"></a>**EntersNext**: the first of the steps enters a group
//! - <a id="pm_stream.Steps.FollowedBy"></a>**FollowedBy**: the steps that follow a step: those over the trees
//!   after it. After `Enter` those over the group's trees come first, and then its `Leave`. A token has no
//!   trees inside
//! - <a id="pm_stream.Forest.Forest"></a>**Forest**: a list of trees: no trees, or a token or a group and then
//!   the other trees
//! - <a id="pm_stream.Building.GivesAll"></a>**GivesAll**: the property holds of the list of all items that the
//!   iterable gives
//! - <a id="pm_stream.Building.GivesAnItem"></a>**GivesAnItem**: the iterable gives at least one item
//! - <a id="pm_stream.Trees.GoesInside"></a>**GoesInside**: the tree may be put into a stream as it is: any
//!   tree but a literal with a `-` before it
//! - <a id="pm_stream.Taken.HasClosed"></a>**HasClosed**: the step took the piece as the closer of this group
//! - <a id="pm_stream.Taken.HasOpened"></a>**HasOpened**: the step took the piece as the opener of this group
//! - <a id="pm_stream.Taken.HasPassed"></a>**HasPassed**: the step skipped the ASCII white characters at the
//!   start of the text
//! - <a id="pm_stream.Taken.HasTaken"></a>**HasTaken**: the step took the piece as one of this kind
//! - <a id="pm_stream.HeldSpans.HoldsAll"></a>**HoldsAll**: the map holds the span of each tree of the stream,
//!   at any depth
//! - <a id="pm_stream.HeldSpans.HoldsEach"></a>**HoldsEach**: the map holds the span of each tree of the list,
//!   at any depth
//! - <a id="pm_stream.Forest.IsBuilt"></a>**IsBuilt**: `built`: each token is one of the grammar's, and no span
//!   ends before it begins. Every stream is built
//! - <a id="pm_stream.DocGroup.IsDocOf"></a>**IsDocOf**: the group is printed as `[doc = `, this text, which is
//!   a literal's, and `]`
//! - <a id="pm_stream.Fault.IsFault"></a>**IsFault**: the error is the fault of the source, as an empty span,
//!   or memory ran out
//! - <a id="pm_stream.Taken.IsLexed"></a>**IsLexed**: the text begins with the piece, and the position after it
//!   is less than 2^32
//! - <a id="pm_stream.Fault.IsStray"></a>**IsStray**: the piece is a closer that doesn't close the innermost of
//!   the open groups
//! - <a id="pm_stream.WellSpaced.IsWellSpaced"></a>**IsWellSpaced**: `well-spaced`: spacings fit what follows,
//!   and each group has delimiters, so parsing the printed text gives the stream
//! - <a id="pm_stream.Steps.Leave"></a>**Leave**: leaves this group; the trees are those that follow it
//! - <a id="pm_stream.OpenGroups.Opened"></a>**Opened**: an open group: the trees before it, its delimiter, and
//!   the position where it begins
//! - <a id="pm_stream.Parsing.ParsesTo"></a>**ParsesTo**: `parses-to`: the stream's flattening is the expansion
//!   of a cover of the source
//! - <a id="pm_stream.PrintsText.PrintsText"></a>**PrintsText**: the bytes are the printed text of the stream
//!   that the source parses to
//! - <a id="pm_stream.Building.PutsIn"></a>**PutsIn**: the new stream has the old trees, and then the trees of
//!   each item
//! - <a id="pm_stream.Reading.ReadsAll"></a>**ReadsAll**: the sink has taken all events of the stream that the
//!   source parses to
//! - <a id="pm_stream.Reading.ReadsTo"></a>**ReadsTo**: the source was read up to the rest, and the sink has
//!   taken its events up to there
//! - <a id="pm_stream.Building.RefusesAnItem"></a>**RefusesAnItem**: memory ran out at some item, and exactly
//!   the items before it were put in
//! - <a id="pm_stream.Parsing.ReportsFault"></a>**ReportsFault**: a value comes only if the source has no
//!   fault, and a syntax error has the only fault, as an empty extent
//! - <a id="pm_stream.Same.Same"></a>**Same**: `same`: the streams are equal but for their spans
//! - <a id="pm_stream.Trees.alone"></a>**alone**: the stream of this tree alone
//! - <a id="pm_stream.Forest.chain"></a>**chain**: the trees of the first stream, and then those of the second
//! - <a id="pm_stream.DelimSpan.closing_span"></a>**closing_span**: `close-span`: the span of a group's last
//!   character, which is empty if the group's span is empty
//! - <a id="pm_stream.DocGroup.doc_of"></a>**doc_of**: the literal of the group of a doc comment, `[doc =
//!   ".."]`, and `None` for any other group
//! - <a id="pm_stream.TreeSpan.extent_of"></a>**extent_of**: the span of a tree
//! - <a id="pm_stream.WellSpaced.fits"></a>**fits**: whether the token may come before the next tree, which is
//!   given if it is a token. `'` is never Alone
//! - <a id="pm_stream.Forest.flattening"></a>**flattening**: `flattening`: the tokens and delimiters of the
//!   trees in reading order, with their positions
//! - <a id="pm_stream.Trees.forest"></a>**forest**: the stream of the trees of a list
//! - <a id="pm_stream.InOrder.in_order"></a>**in_order**: `reading-order`: the trees of a stream, each group
//!   before the trees inside it
//! - <a id="pm_stream.InOrder.in_order_onto"></a>**in_order_onto**: the trees of a stream, each group before
//!   the trees inside it, and then other trees
//! - <a id="pm_stream.Trees.inside"></a>**inside**: the trees inside a group; a token has none
//! - <a id="pm_stream.Size.is_nil"></a>**is_nil**: whether there are no trees
//! - <a id="pm_stream.WellSpaced.next_token"></a>**next_token**: the first tree, if it is a token
//! - <a id="pm_stream.Forest.nil"></a>**nil**: no trees
//! - <a id="pm_stream.Taken.nothing"></a>**nothing**: nothing was read yet, of a source that begins at this
//!   position
//! - <a id="pm_stream.Reading.openers_of"></a>**openers_of**: the delimiter of each group, and the position of
//!   its opener
//! - <a id="pm_stream.DelimSpan.opening_span"></a>**opening_span**: `open-span`: the span of a group's first
//!   character, which is empty if the group's span is empty
//! - <a id="pm_stream.Printed.printed"></a>**printed**: `printed`: the printed text of a stream
//! - <a id="pm_stream.Building.split"></a>**split**: `split`: the trees that a stream gets for one tree that is
//!   put in. A negative literal gives its `-` and the rest
//! - <a id="pm_stream.Steps.step_of"></a>**step_of**: the value in contracts of a step that the traversal gave
//! - <a id="pm_stream.Steps.steps"></a>**steps**: the steps over a stream
//! - <a id="pm_stream.Steps.steps_onto"></a>**steps_onto**: the steps over these trees, and then others
//! - <a id="pm_stream.PrinterRule.text_by_rule"></a>**text_by_rule**: the text of the trees, one after another
//! - <a id="pm_stream.DocGroup.trees_of"></a>**trees_of**: the trees of a stream as a list, without those
//!   inside groups
//! - <a id="pm_stream.Building.trees_of_all"></a>**trees_of_all**: the trees of each item, one item after
//!   another
//! - <a id="pm_stream.TreeSpan.with_span"></a>**with_span**: the tree with this span; the trees in a group keep
//!   their spans
//!
//! # Words of `pm_token`
//!
//! - <a id="pm_token.Value.Answers"></a>**Answers**: whether a call returns this value, which `seen` takes from
//!   its result, or runs out of memory. It never runs out of memory instead of returning `InvalidLiteralKind`
//! - <a id="pm_token.KindLaws.ByteStringsAreByteStrings"></a>**ByteStringsAreByteStrings**: the byte string
//!   literal of some bytes is a byte string of the grammar, with nothing after it
//! - <a id="pm_token.ValueLaws.ByteStringsComeBack"></a>**ByteStringsComeBack**: the value of the byte string
//!   literal of some bytes is these bytes
//! - <a id="pm_token.ValueLaws.ByteStringsHaveValues"></a>**ByteStringsHaveValues**: the value of a byte string
//!   without CR is what its units give together
//! - <a id="pm_token.ValueLaws.ByteValuesComeBack"></a>**ByteValuesComeBack**: the value of the literal of a
//!   byte is the byte
//! - <a id="pm_token.KindLaws.BytesAreBytes"></a>**BytesAreBytes**: the literal of a byte is a byte literal of
//!   the grammar, with nothing after it
//! - <a id="pm_token.ValueLaws.BytesComeBack"></a>**BytesComeBack**: the text between the quotes of a byte's
//!   literal is one unit, which is the byte
//! - <a id="pm_token.ValueLaws.BytesHaveUnits"></a>**BytesHaveUnits**: the text between the quotes of a byte
//!   literal is one unit, which is its value if no suffix follows
//! - <a id="pm_token.KindLaws.CStringsAreCStrings"></a>**CStringsAreCStrings**: the C string literal of some
//!   bytes, none of them zero, is a C string of the grammar, with nothing after it
//! - <a id="pm_token.ValueLaws.CStringsComeBack"></a>**CStringsComeBack**: the value of the C string literal of
//!   some bytes, none of them zero, is these bytes and a zero byte
//! - <a id="pm_token.ValueLaws.CStringsHaveValues"></a>**CStringsHaveValues**: the value of a C string without
//!   CR is what its units give together, and a zero byte
//! - <a id="pm_token.ValueLaws.CharacterValuesComeBack"></a>**CharacterValuesComeBack**: the value of the
//!   literal of a character is the character
//! - <a id="pm_token.KindLaws.CharactersAreCharacters"></a>**CharactersAreCharacters**: the literal of a
//!   character is a character literal of the grammar, with nothing after it
//! - <a id="pm_token.ValueLaws.CharactersComeBack"></a>**CharactersComeBack**: the text between the quotes of a
//!   character's literal is one unit, which is the character
//! - <a id="pm_token.ValueLaws.CharactersHaveUnits"></a>**CharactersHaveUnits**: the text between the quotes of
//!   a character literal is one unit, which is its value if no suffix follows
//! - <a id="pm_token.Outcome.IfLex"></a>**IfLex**: whether this is true of the error's span, if the error is a
//!   syntax error
//! - <a id="pm_token.Built.IsBuiltToken"></a>**IsBuiltToken**: `built`: whether the token is an allowed name,
//!   one of the 22 marks, or a `literal-token`
//! - <a id="pm_token.CString.IsCStringText"></a>**IsCStringText**: `c-string-text`: whether the text is the C
//!   string literal of the bytes
//! - <a id="pm_token.LiteralText.IsLiteralText"></a>**IsLiteralText**: whether a `Literal` may have the text:
//!   it is a `literal-token`, or a negative literal, which no stream has
//! - <a id="pm_token.Text.IsText"></a>**IsText**: `text`: whether each character is a Unicode scalar, as it is
//!   in every `&str`
//! - <a id="pm_token.SingleValue.IsUnsuffixed"></a>**IsUnsuffixed**: whether the text is a literal of this form
//!   without a suffix, so that its closing quote is at the end
//! - <a id="pm_token.LiteralText.IsWholeLiteral"></a>**IsWholeLiteral**: `whole-literal`: whether the text is
//!   one literal or a negative literal, with nothing before or after it
//! - <a id="pm_token.Leaf.Mark"></a>**Mark**: a mark: its character, its spacing and its span
//! - <a id="pm_token.Leaf.Name"></a>**Name**: an identifier: its name without `r#`, whether it is raw, and its
//!   span
//! - <a id="pm_token.ValueLaws.RawByteStringsHaveBodies"></a>**RawByteStringsHaveBodies**: the value of a raw
//!   byte string is the bytes of its body
//! - <a id="pm_token.ValueLaws.RawCStringsHaveBodies"></a>**RawCStringsHaveBodies**: the value of a raw C
//!   string is the bytes of its body and a zero byte
//! - <a id="pm_token.ValueLaws.RawStringsHaveBodies"></a>**RawStringsHaveBodies**: the value of a raw string is
//!   its body
//! - <a id="pm_token.KindLaws.StringsAreStrings"></a>**StringsAreStrings**: the string literal of a text is a
//!   string of the grammar, with nothing after it
//! - <a id="pm_token.ValueLaws.StringsComeBack"></a>**StringsComeBack**: the value of the string literal of a
//!   text is the text
//! - <a id="pm_token.ValueLaws.StringsHaveValues"></a>**StringsHaveValues**: the value of a string without CR
//!   is what its units give together
//! - <a id="pm_token.Value.byte_str_value"></a>**byte_str_value**: `byte-string-value`: the bytes of a byte
//!   string literal's value, or the error
//! - <a id="pm_token.Escaped.byte_string_text"></a>**byte_string_text**: `byte-string-text`: the literal of
//!   some bytes
//! - <a id="pm_token.Escaped.byte_text"></a>**byte_text**: `byte-text`: the literal of a byte
//! - <a id="pm_token.SingleValue.byte_value"></a>**byte_value**: `byte-value`: the byte that is the value of a
//!   byte literal, or the error
//! - <a id="pm_token.Value.bytes_of"></a>**bytes_of**: the bytes of a vector
//! - <a id="pm_token.Value.c_bytes"></a>**c_bytes**: the bytes of a C string's units and a zero byte, or the
//!   error
//! - <a id="pm_token.SingleValue.char_value"></a>**char_value**: `character-value`: the character that is the
//!   value of a character literal, or the error
//! - <a id="pm_token.Escaped.character_text"></a>**character_text**: `character-text`: the literal of a
//!   character
//! - <a id="pm_token.Escaped.content"></a>**content**: `content`: how all the characters are written, in order
//! - <a id="pm_token.Content.cooked_content"></a>**cooked_content**: `cooked-content`: the text after this
//!   prefix and before a quote at the end
//! - <a id="pm_token.Value.cstr_value"></a>**cstr_value**: `c-string-value`: the bytes of a C string literal's
//!   value, the last of them zero, or the error
//! - <a id="pm_token.Message.fault_span"></a>**fault_span**: the span of a syntax error
//! - <a id="pm_token.Negative.has_minus"></a>**has_minus**: whether the text begins with `-`. The text of a
//!   `Literal` does so exactly if it is a `negative-literal`
//! - <a id="pm_token.CString.has_no_zero"></a>**has_no_zero**: whether no byte is zero
//! - <a id="pm_token.IdentFault.ident_fault"></a>**ident_fault**: `identifier-fault`: the first reason why the
//!   text is not a valid name, raw or plain; `None` if it is valid
//! - <a id="pm_token.Escaped.is_bare"></a>**is_bare**: `bare`: whether the character is printable ASCII, or
//!   another character that isn't hidden
//! - <a id="pm_token.Leaf.is_joint"></a>**is_joint**: whether the spacing is Joint
//! - <a id="pm_token.Leaf.mark_token"></a>**mark_token**: the token of a mark
//! - <a id="pm_token.Negative.minus_of"></a>**minus_of**: the mark of a negative literal: `-`, Alone, with the
//!   literal's span
//! - <a id="pm_token.Spelling.name_text"></a>**name_text**: the characters of the identifier as it is written,
//!   with `r#` if it is raw
//! - <a id="pm_token.Leaf.name_token"></a>**name_token**: the token of an identifier
//! - <a id="pm_token.Negative.number_of"></a>**number_of**: the number of a negative literal, with the
//!   literal's span
//! - <a id="pm_token.Content.raw_content"></a>**raw_content**: `raw-content`: the text after this prefix,
//!   without its quotes and hash signs
//! - <a id="pm_token.SingleValue.single_content"></a>**single_content**: `single-content`: the text after this
//!   prefix and before a `'` at the end
//! - <a id="pm_token.Spelling.spelled"></a>**spelled**: the characters of a text, equal to `chars` of it. For
//!   an ASCII text they are its bytes, so they compute if the text is a constant
//! - <a id="pm_token.Spelling.spelling"></a>**spelling**: the bytes of the identifier as it is written
//! - <a id="pm_token.Value.str_value"></a>**str_value**: `string-value`: the characters of a string literal's
//!   value, or the error
//! - <a id="pm_token.Escaped.string_text"></a>**string_text**: `string-text`: the string literal of a text
//! - <a id="pm_token.Subspan.subspan"></a>**subspan**: `subspan`: the part, or `None` if it would end before it
//!   begins or past the end of the span
//! - <a id="pm_token.Value.text_of"></a>**text_of**: the characters of a string
//! - <a id="pm_token.Value.units"></a>**units**: the units of a content with escapes, or its last error
//! - <a id="pm_token.Value.value_from"></a>**value_from**: `literal-value`: the value of a content with escapes
//!   or of a raw content, or else the error
//! - <a id="pm_token.Outcome.was_read"></a>**was_read**: whether the text was read: it was parsed, or it has a
//!   syntax error
//! - <a id="pm_token.Value.with_zero"></a>**with_zero**: the bytes, and a zero byte after them
//! - <a id="pm_token.Escaped.written_char"></a>**written_char**: how a character without a short escape is
//!   written in strings
//!
//! # Words of `pretty_printer`
//!
//! - <a id="pretty_printer.PrettyText.IsPrettyText"></a>**IsPrettyText**: the text is a layout of the respaced
//!   stream in which some marks are joined, and reads back to it. A well spaced stream need not be respaced
//! - <a id="pretty_printer.Laws.JoinsOnce"></a>**JoinsOnce**: joining again with the same answers changes
//!   nothing
//! - <a id="pretty_printer.Laws.NothingWanted"></a>**NothingWanted**: joining without an answer changes nothing
//! - <a id="pretty_printer.Laws.OnlySpacing"></a>**OnlySpacing**: joining changes only spacings
//! - <a id="pretty_printer.Laws.SpacedAsInItsText"></a>**SpacedAsInItsText**: the pretty text of a well spaced
//!   stream, whose marks are spaced as in this text, is a layout of it and reads back to it
//! - <a id="pretty_printer.Laws.StaysWellSpaced"></a>**StaysWellSpaced**: a well spaced stream stays well
//!   spaced
//! - <a id="pretty_printer.Laws.WasWellSpaced"></a>**WasWellSpaced**: a stream is well spaced if it is when it
//!   is joined
//!
//! # Words of `proc_macro2`
//!
//! - <a id="proc_macro2.Laws.BrokenLine"></a>**BrokenLine**: if a source parses, a line feed may be put in
//!   after any piece of its cover that is neither a mark nor a number; the stream stays the same, up to spans
//! - <a id="proc_macro2.Laws.ComesBack"></a>**ComesBack**: a built stream comes back from its printed text
//!   exactly if it is well spaced
//! - <a id="proc_macro2.Laws.GivenIsWellSpaced"></a>**GivenIsWellSpaced**: every stream that a source parses
//!   to, up to spans, is well spaced
//! - <a id="proc_macro2.Laws.JoinedTexts"></a>**JoinedTexts**: two texts with a line feed between them parse to
//!   the two streams joined, up to spans, unless the second begins with U+FEFF
//! - <a id="proc_macro2.GivesBack.ListedGiveBack"></a>**ListedGiveBack**: in the map after the parse, each tree
//!   of a list that makes the parsed stream gives back its text
//! - <a id="proc_macro2.Laws.NeverBoth"></a>**NeverBoth**: a source that parses has no fault
//! - <a id="proc_macro2.Laws.OneCover"></a>**OneCover**: a source has at most one cover
//! - <a id="proc_macro2.Laws.OneFault"></a>**OneFault**: a source has at most one fault
//! - <a id="proc_macro2.Laws.OneStream"></a>**OneStream**: a source parses to at most one stream
//! - <a id="proc_macro2.Laws.OneText"></a>**OneText**: two built streams that are well spaced are the same up
//!   to spans exactly if they print the same text
//! - <a id="proc_macro2.Laws.ParsedIsBuilt"></a>**ParsedIsBuilt**: every stream that a text parses to is built
//! - <a id="proc_macro2.Laws.ParsedIsWellSpaced"></a>**ParsedIsWellSpaced**: every parsed stream is well spaced
//! - <a id="proc_macro2.Laws.ParsesOrFails"></a>**ParsesOrFails**: a source parses or has a fault
//! - <a id="proc_macro2.Laws.PrintedIsText"></a>**PrintedIsText**: the printed text of a built stream is a text
//! - <a id="proc_macro2.GivesBack.SpansGiveBack"></a>**SpansGiveBack**: each tree of a parsed stream gives back
//!   its text, in every map that extends the one after the parse
//! - <a id="proc_macro2.Laws.TreesStandWhole"></a>**TreesStandWhole**: a tree of a stream goes into another
//!   stream whole
//! - <a id="proc_macro2.Laws.WellSpacedIsParsed"></a>**WellSpacedIsParsed**: a built stream is well spaced
//!   exactly if some text gives it
//!
//! # Words of `quoting`
//!
//! - <a id="quoting.Laws.AFaultIsHopeless"></a>**AFaultIsHopeless**: no choice of spacings makes a stream with
//!   a `first-fault` well spaced
//! - <a id="quoting.Items.Each"></a>**Each**: the filling of a hole: trees, the reason why it has none, or a
//!   list of which each turn takes the next value
//! - <a id="quoting.Choice.HopelessIfNamed"></a>**HopelessIfNamed**: the error is `Memory`, or no choice of
//!   spacings makes the stream well spaced
//! - <a id="quoting.Fault.IsFaultOf"></a>**IsFaultOf**: the error is the `first-fault` of the stream, unless it
//!   is `Memory`
//! - <a id="quoting.TextFault.IsTextFault"></a>**IsTextFault**: the error is that of the template, or the
//!   syntax error of its text. After `Memory` the text parses; after `Parse(Memory)` nothing is known
//! - <a id="quoting.Choice.KeepsAllItMay"></a>**KeepsAllItMay**: if some well spaced choice of spacings keeps
//!   the spacing of a mark, the new stream keeps it too
//! - <a id="quoting.Laws.KeepsWhatItMay"></a>**KeepsWhatItMay**: a mark keeps its spacing if some well spaced
//!   choice of spacings keeps it
//! - <a id="quoting.TextFault.LeavesMap"></a>**LeavesMap**: the map after the call. It has the text as its next
//!   file, unless the text did not fit or memory ran out during parsing
//! - <a id="quoting.Laws.NothingToDo"></a>**NothingToDo**: respacing does not change a well spaced stream
//! - <a id="quoting.Items.One"></a>**One**: the filling of a hole: trees, the reason why it has none, or a list
//!   of which each turn takes the next value
//! - <a id="quoting.Laws.OnlySpacing"></a>**OnlySpacing**: respacing changes only spacings
//! - <a id="quoting.Given.UnlessMemory"></a>**UnlessMemory**: the statement holds, unless memory ran out. The
//!   error is not one of parsing a text
//! - <a id="quoting.Laws.WellSpacedWithoutFault"></a>**WellSpacedWithoutFault**: a respaced stream without a
//!   `first-fault` is well spaced
//! - <a id="quoting.Items.and_last"></a>**and_last**: the list with one more value at the end
//! - <a id="quoting.Joined.begins_operator"></a>**begins_operator**: whether the two marks begin an operator or
//!   a comment if they are written close
//! - <a id="quoting.Items.each_of"></a>**each_of**: the list of the values of `xs`
//! - <a id="quoting.Items.end"></a>**end**: the values of a list, in order. Each is trees, or the reason why it
//!   has none, or a list
//! - <a id="quoting.Filled.fill_template"></a>**fill_template**: `filled`: the template with its holes filled,
//!   or its first error in reading order, where a group comes before its contents. So `NoList` comes before any
//!   error inside the repetition. At one pair of parentheses `TooDeep` comes before `NoList`. In a repetition
//!   the errors of the names come first, and then those of its turns in order
//! - <a id="quoting.Fault.first_fault"></a>**first_fault**: `first-fault`: the first error of the stream in
//!   reading order that no choice of spacings repairs
//! - <a id="quoting.Joined.joined"></a>**joined**: `joined`: the same trees with the same spans, in which each
//!   mark that is wanted and may be joined is Joint. `wants` has an answer for each mark in reading order
//! - <a id="quoting.Given.name_and_filling"></a>**name_and_filling**: the hole's name and its filling
//! - <a id="quoting.Given.named_all"></a>**named_all**: the names and the fillings of the holes
//! - <a id="quoting.Respaced.respace_marks"></a>**respace_marks**: `respaced`: the same trees with the same
//!   spans at any depth, in which each mark is respaced
//! - <a id="quoting.Message.template_span"></a>**template_span**: the span of the error, if it has one
//! - <a id="quoting.Values.value_of"></a>**value_of**: the filling that a value stands for
//! - <a id="quoting.Visited.visited_marks"></a>**visited_marks**: `visited-marks`: for each mark of the trees,
//!   at any depth and in reading order, whether it is visited. A visit counts once its tree comes. The visits
//!   after it wait for it
//!
//! # Words of `relayout`
//!
//! - <a id="relayout.Commented.CommentsStay"></a>**CommentsStay**: if allowed parts cover a source, their
//!   pieces with comments instead of the attributes cover the new text, which gives the same tokens
//! - <a id="relayout.Relaid.HasNoCover"></a>**HasNoCover**: no pieces cover the source
//! - <a id="relayout.Relaid.IfNoPiece"></a>**IfNoPiece**: if the error is `NoPiece`, `holds` is true
//! - <a id="relayout.Comments.IsCommented"></a>**IsCommented**: the text is the source with a comment instead
//!   of each attribute that begins its line and that a comment can replace, and gives the same tokens. `any`
//!   says whether literals may be spelled in any way and comments be blocks; the tokens are then the same up to
//!   the spelling of doc literals
//! - <a id="relayout.Relaid.IsRelaid"></a>**IsRelaid**: the text is the source with these choices; the same
//!   pieces cover it except for white characters, and it gives the same tokens up to spans
//! - <a id="relayout.Laws.PiecesStay"></a>**PiecesStay**: if pieces cover a source, they also cover the text
//!   with other white space between them, provided that no run is added or removed and that each run after a
//!   line comment begins with LF
//! - <a id="relayout.Laws.TokensStay"></a>**TokensStay**: if the same pieces cover two texts, except for white
//!   characters, both texts give the same tokens
//!
//! # Words of `token_buffer`
//!
//! - <a id="token_buffer.Reads.Begins"></a>**Begins**: whether the token or group comes first, and then the
//!   trees of the other cursor
//! - <a id="token_buffer.Reads.BeginsWith"></a>**BeginsWith**: whether the token comes first, and then the
//!   trees of the other cursor
//! - <a id="token_buffer.Reads.BeginsWithGroup"></a>**BeginsWithGroup**: whether the group of the second
//!   cursor's trees comes first, and then the trees of the last cursor
//! - <a id="token_buffer.Many.HasManyTokens"></a>**HasManyTokens**: whether some first pieces of the source
//!   already give more events than a buffer can hold
//! - <a id="token_buffer.Refused.IfFault"></a>**IfFault**: whether this is true of the fault's extent, if the
//!   error is a syntax error
//! - <a id="token_buffer.Refused.IfTooLong"></a>**IfTooLong**: whether this is true, if the error is `TooLong`
//! - <a id="token_buffer.Entries.IsWithin"></a>**IsWithin**: whether the text of the entry can be cut out, and
//!   its token ends at a position that a span may have
//! - <a id="token_buffer.Arguments.after_arguments"></a>**after_arguments**: the trees after the generic
//!   arguments that come first
//! - <a id="token_buffer.Arguments.after_turbofish"></a>**after_turbofish**: the trees after the turbofish that
//!   comes first: `::` and generic arguments
//! - <a id="token_buffer.Parts.at_zero"></a>**at_zero**: the event, with its positions set to 0
//! - <a id="token_buffer.Entries.event_of"></a>**event_of**: the event that the entry means
//! - <a id="token_buffer.Message.fault_span"></a>**fault_span**: the span of a syntax error
//! - <a id="token_buffer.Reads.first_extent"></a>**first_extent**: the span of the first tree, or `None`
//! - <a id="token_buffer.Reads.group_first"></a>**group_first**: the delimiter of the group that comes first,
//!   or `None`
//! - <a id="token_buffer.Reads.left"></a>**left**: the trees that are left
//! - <a id="token_buffer.Reads.lifetime_first"></a>**lifetime_first**: whether a lone quote and a name come
//!   first
//! - <a id="token_buffer.Reads.literal_first"></a>**literal_first**: whether a literal comes first
//! - <a id="token_buffer.Reads.literal_text"></a>**literal_text**: the text of a literal as it is written
//! - <a id="token_buffer.Reads.mark_first"></a>**mark_first**: whether a mark comes first
//! - <a id="token_buffer.Reads.name_first"></a>**name_first**: whether an identifier comes first
//! - <a id="token_buffer.Outer.outer"></a>**outer**: the trees, where each group has only the trees that it
//!   keeps
//! - <a id="token_buffer.Parts.part_event"></a>**part_event**: the event of a part, with its positions set to 0
