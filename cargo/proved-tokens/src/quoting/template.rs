// Made from crates/quoting/src/template.rt by dev/erase: change that file, not this one.
//! The calls of `Quote` that fill a template.

use crate::quoting::errors::TemplateError;
use crate::quoting::fill::fill_template;
use crate::quoting::holes::Hole;
use crate::quoting::owned::filled_in_place;
use crate::quoting::quote::Quote;
use crate::proc_macro2::{ParseError, SourceMap, TokenStream};

/// The number of groups that may be nested in a template.
const DEPTH_LIMIT: usize = 64;

impl Quote {
    /// Fills the holes of the template and adds its trees at the end of the quote (rule `filled`).
    ///
    /// `#name` and `#0` are replaced by the value of the first hole of that name. `#( .. )*` is replaced by one turn
    /// for each value of the lists that are named inside. `#( .. ),*` also puts the mark between two turns. In a turn
    /// each list is its value for the turn, also in the repetitions inside. So a list is used up by the outermost
    /// repetition that names it, and a repetition inside needs a list of lists.
    ///
    /// All other trees are kept with their spans, any other `#` too. Groups are filled inside. A mark right before a
    /// hole or a repetition becomes Alone, so that it does not join with the trees that replace it.
    ///
    /// Fails with the template's first error (`TemplateError`), or if memory runs out. Then the quote is unchanged.
    ///
    /// With the lists `x` of `a` and `y` of `b`, `#( #x: #y ),*` gives `a : b`. Without a hole `y` the error is
    /// `NoHole` at `y`. Without both holes it is `NoList` at the parentheses.
    ///
    /// # Contract
    ///
    /// - `ensures ok`: <code>[OnOk] result ((stream : [Forest]) × ([fill_template] ([named_all] holes.now)
    ///   template.now ≡ [Ok] stream) × (self.new ≡ [chain] self.old stream))</code>
    /// - `ensures fault`: <code>[IfErr] result (λ fault. [UnlessMemory] fault ([fill_template] ([named_all]
    ///   holes.now) template.now ≡ [Err] fault))</code>
    /// - `ensures kept`: <code>[OnErr] result (self.new ≡ self.old)</code>
    ///
    /// [OnOk]: crate::contracts#std.OnOk
    /// [Forest]: crate::contracts#pm_stream.Forest.Forest
    /// [fill_template]: crate::contracts#quoting.Filled.fill_template
    /// [named_all]: crate::contracts#quoting.Given.named_all
    /// [Ok]: crate::contracts#std.Ok
    /// [chain]: crate::contracts#pm_stream.Forest.chain
    /// [IfErr]: crate::contracts#std.IfErr
    /// [UnlessMemory]: crate::contracts#quoting.Given.UnlessMemory
    /// [Err]: crate::contracts#std.Err
    /// [OnErr]: crate::contracts#std.OnErr
    pub fn fill(&mut self, template: &TokenStream, holes: &[Hole<'_>]) -> Result<(), TemplateError>
    {
        let stream = fill_template(template, holes, &[], DEPTH_LIMIT)?;
        self.push_stream(stream)?;
        Ok(())
    }

    /// Parses the text of a template, fills its holes, and adds its trees at the end of the quote, as `fill` does.
    ///
    /// The text becomes the next file of the map, and the template's spans are in that file.
    ///
    /// Fails with `Parse(Lex)` if the text has a syntax error. It fails with `Parse(MapFull)` exactly if the text would
    /// end past the map's limit, and with `Parse(Memory)` if memory runs out during parsing. Any other error is one of
    /// `fill`. After an error the quote is unchanged. The map is unchanged only after `Parse(MapFull)` and
    /// `Parse(Memory)`; otherwise the text is its next file.
    ///
    /// If the hole `name` has the value `x`, `fn #name() {}` gives `fn x() {}`.
    ///
    /// # Contract
    ///
    /// - `ensures ok`: <code>[OnOk] result ((trees : [Forest]) × (stream : [Forest]) × [ParsesTo] ([next_lo]
    ///   map.old) ([chars] template.now) trees × ([fill_template] ([named_all] holes.now) trees ≡ [Ok] stream) ×
    ///   (self.new ≡ [chain] self.old stream))</code>
    /// - `ensures fault`: <code>[IfErr] result ([IsTextFault] ([next_lo] map.old) ([chars] template.now)
    ///   ([named_all] holes.now))</code>
    /// - `ensures map_full`: <code>(result ≡ [Err] (TemplateError.Parse ParseError.MapFull)) ↔ ([Fits] map.old
    ///   ([length] ([chars] template.now)) → ⊥)</code>
    /// - `ensures map`: <code>[LeavesMap] map.old ([chars] template.now) map.new result</code>
    /// - `ensures kept`: <code>[OnErr] result (self.new ≡ self.old)</code>
    ///
    /// [OnOk]: crate::contracts#std.OnOk
    /// [Forest]: crate::contracts#pm_stream.Forest.Forest
    /// [ParsesTo]: crate::contracts#pm_stream.Parsing.ParsesTo
    /// [next_lo]: crate::contracts#pm_span.Files.next_lo
    /// [chars]: crate::contracts#std.chars
    /// [fill_template]: crate::contracts#quoting.Filled.fill_template
    /// [named_all]: crate::contracts#quoting.Given.named_all
    /// [Ok]: crate::contracts#std.Ok
    /// [chain]: crate::contracts#pm_stream.Forest.chain
    /// [IfErr]: crate::contracts#std.IfErr
    /// [IsTextFault]: crate::contracts#quoting.TextFault.IsTextFault
    /// [Err]: crate::contracts#std.Err
    /// [Fits]: crate::contracts#pm_span.Files.Fits
    /// [length]: crate::contracts#std.length
    /// [LeavesMap]: crate::contracts#quoting.TextFault.LeavesMap
    /// [OnErr]: crate::contracts#std.OnErr
    pub fn parse(
        &mut self,
        template: &str,
        map: &mut SourceMap,
        holes: &[Hole<'_>],
    ) -> Result<(), TemplateError>
    {
        let template = TokenStream::from_str(template, map)?;
        let stream = filled_in_place(template, holes, DEPTH_LIMIT)?;
        self.push_stream(stream)?;
        Ok(())
    }
}
