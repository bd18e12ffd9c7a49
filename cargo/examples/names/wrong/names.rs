//! A variant with fields, and two whose names are no literals: the errors are shown there.
use names::Names;

#[derive(Names)]
enum Color {
    Red,
    Other(u8),
}

#[derive(Names)]
enum Shape {
    #[name(square)]
    Square,
}

#[derive(Names)]
enum Size {
    #[name = small]
    Small,
}
