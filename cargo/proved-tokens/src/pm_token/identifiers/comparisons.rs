// Made from crates/pm_token/src/identifiers/comparisons.rt by dev/erase: change that file, not this one.
//! Equality, order and hash of identifiers. All three use the bytes of an identifier as it is written.

use super::Ident;
use crate::shim::cmp::Ordering;
use crate::shim::hash::{Hash, Hasher};

impl PartialEq for Ident {
    /// Returns whether both have the same name, and are both raw or both plain (`identifier-equality`). Spans
    /// are ignored.
    #[cfg_attr(not(debug_assertions), inline(always))]
    fn eq(&self, other: &Ident) -> bool
    {
        self.name.same(&other.name)
    }
}

impl Eq for Ident {
}

impl PartialOrd for Ident {
    fn partial_cmp(&self, other: &Ident) -> Option<Ordering> {
        Some(self.cmp(other))
    }
}

impl Ord for Ident {
    /// Compares the bytes of both identifiers as they are written (`identifier-order`): `r`, then raw `a`, then
    /// `ra`.
    fn cmp(&self, other: &Ident) -> Ordering
    {
        let name = self.name.as_str();
        let other_name = other.name.as_str();
        let raw = self.name.is_raw();
        if raw == other.name.is_raw() {
            return name.cmp(other_name);
        }
        // A plain name has no `#`, so its first two characters decide.
        if raw {
            "r#".cmp(other_name)
        } else {
            name.cmp("r#")
        }
    }
}

impl Hash for Ident {
    /// Feeds the hasher what the text of the identifier would, but `r#` in a separate write
    /// (`identifier-hash`).
    fn hash<H: Hasher>(&self, state: &mut H)
    {
        let name = self.name.as_str();
        if self.name.is_raw() {
            state.write(b"r#");
        }
        name.hash(state);
    }
}
