//! Turns the two ways to ask for span locations into one cfg.
use std::env;

fn main() {
    let exempt = env::var_os("CARGO_CFG_PROCMACRO2_SEMVER_EXEMPT").is_some();
    if exempt || env::var_os("CARGO_FEATURE_SPAN_LOCATIONS").is_some() {
        println!("cargo:rustc-cfg=span_locations");
    }
}
