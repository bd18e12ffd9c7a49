// Made from crates/explain/src/words.rt by dev/erase: change that file, not this one.
//! The name and the message of each reason.

use crate::explain::reason::Reason;

impl Reason {
    /// Returns a short name, which never changes: `unclosed-string` for [`Reason::UnclosedString`].
    ///
    /// # Contract
    ///
    /// - `ensures`: <code>result.now ≡ [name_of] self.now</code>
    ///
    /// [name_of]: crate::contracts#explain.Words.name_of
    pub fn name(&self) -> &'static str
    {
        match self {
            Reason::UnclosedComment => "unclosed-comment",
            Reason::BareReturnInDoc => "bare-return-in-doc",
            Reason::UnclosedString => "unclosed-string",
            Reason::UnclosedRawString => "unclosed-raw-string",
            Reason::TooManyHashes => "too-many-hashes",
            Reason::HashesWithoutQuote => "hashes-without-quote",
            Reason::ReservedRawName => "reserved-raw-name",
            Reason::UnclosedCharacter => "unclosed-character",
            Reason::Content(_) => "literal-content",
            Reason::DigitLifetime => "digit-lifetime",
            Reason::HashAfterLifetime => "hash-after-lifetime",
            Reason::NoDigits => "no-digits",
            Reason::BadDigit => "bad-digit",
            Reason::BadNumberEnd => "bad-number-end",
            Reason::MisplacedMark => "misplaced-mark",
            Reason::NoToken => "no-token",
            Reason::StrayCloser => "stray-closer",
            Reason::MismatchedCloser => "mismatched-closer",
            Reason::UnclosedOpener => "unclosed-opener",
        }
    }

    /// Returns a message of a few words: `the innermost opener waits for another closer` for
    /// [`Reason::MismatchedCloser`].
    ///
    /// # Contract
    ///
    /// - `ensures`: <code>result.now ≡ [sentence_of] self.now</code>
    ///
    /// [sentence_of]: crate::contracts#explain.Words.sentence_of
    pub fn message(&self) -> &'static str
    {
        match self {
            Reason::UnclosedComment => "unclosed block comment",
            Reason::BareReturnInDoc => "CR in a doc comment that no LF follows",
            Reason::UnclosedString => "unclosed string",
            Reason::UnclosedRawString => "unclosed raw string",
            Reason::TooManyHashes => "more than 255 hash signs before a raw string",
            Reason::HashesWithoutQuote => "neither a quote nor a name follows the hash signs",
            Reason::ReservedRawName => "this name is never raw",
            Reason::UnclosedCharacter => "unclosed character",
            Reason::Content(error) => error.message(),
            Reason::DigitLifetime => "a lifetime begins with no digit",
            Reason::HashAfterLifetime => "a hash sign right after a lifetime",
            Reason::NoDigits => "no digit follows the prefix of the number",
            Reason::BadDigit => "this digit is too large for its number's base",
            Reason::BadNumberEnd => "this character is no part of the number before it",
            Reason::MisplacedMark => "U+FEFF that is not at the front of the text",
            Reason::NoToken => "no token begins with this character",
            Reason::StrayCloser => "no opener waits for this closer",
            Reason::MismatchedCloser => "the innermost opener waits for another closer",
            Reason::UnclosedOpener => "no closer matches this opener",
        }
    }
}
