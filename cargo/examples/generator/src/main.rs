//! Uses what the build script generated.
include!(concat!(env!("OUT_DIR"), "/units.rs"));

fn main() {
    for unit in [Unit::Millimeter, Unit::Inch, Unit::Meter] {
        println!("{unit:?}: {} micrometers", unit.micrometers());
    }
}
