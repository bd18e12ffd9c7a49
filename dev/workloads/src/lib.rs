//! The jobs that `bench/run` times, for scripts that count their instructions or look at all of their answers.
//!
//! The modules are those of `crates/workloads`, made into plain Rust by `dev/erase` as those of [`proved_tokens`] are.
//! By hand are `fails.rs`, whose Rattle source has derives of the toolchain, `shim.rs` and each `main`.
#![forbid(unsafe_code)]

pub mod fails;
mod shim;

// What only clauses name is unused in an erased text. Its style is that of Rattle's text.
#[allow(dead_code, unreachable_code, unused_imports, clippy::complexity, clippy::style)]
mod workloads {
    pub use crate::fails;

    pub mod awkward;
    pub mod digest;
    pub mod editing;
    pub mod generating;
    pub mod listing;
    pub mod prettifying;
    pub mod random;
    pub mod reading;
    pub mod texts;
}

pub use workloads::{awkward, digest, editing, generating, listing, prettifying, random, reading, texts};
