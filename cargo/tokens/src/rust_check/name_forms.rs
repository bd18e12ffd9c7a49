// Made from crates/rust_check/src/name_forms.rt by dev/erase: change that file, not this one.
//! The names of a text by their normal form NFKC.

use proved_tokens::shim::prelude::GrowText;

use proved_tokens::shim::alloc::AllocError;
use proved_tokens::shim::collections::HashMap;
use proved_tokens::shim::unicode_normalization::to_nfkc;

/// The names that were seen so far. For each NFKC form the first name is kept.
pub struct NameForms {
    /// The first name of each form.
    pub first: HashMap<String, String>,
}

impl NameForms {
    /// Returns the names before any name is seen.
    pub fn new() -> NameForms
    {
        NameForms {
            first: HashMap::new(),
        }
    }

    /// Takes one more name, and returns whether another name with the same form was first.
    pub fn take(&mut self, name: &str) -> Result<bool, AllocError>
    {
        let form = to_nfkc(name)?;
        if let Some(first) = self.first.get(form.as_str()) {
            return Ok(first.as_str() != name);
        }
        let name = String::from_str_fallibly(name)?;
        self.first.insert(form, name)?;
        Ok(false)
    }
}
