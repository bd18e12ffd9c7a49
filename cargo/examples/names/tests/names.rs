use names::Names;

/// It has a doc comment.
#[derive(Names)]
#[allow(dead_code)]
pub(crate) enum Color {
    Red,
    /// And so has this.
    #[allow(non_camel_case_types)]
    r#fn,
    #[name = "sky"]
    Blue,
}

/// A variant without fields can't use a parameter that is a type or a lifetime.
#[derive(Names)]
enum Level<const N: usize = 2>
where
    [u8; N]: Sized,
{
    Low,
    High,
}

#[test]
fn parameters_and_where_clauses_are_taken_over() {
    assert_eq!([Level::<7>::Low, Level::High].map(|level| level.name()), ["Low", "High"]);
}

#[test]
fn a_value_has_the_name_of_its_variant() {
    assert_eq!([Color::Red, Color::r#fn, Color::Blue].map(|color| color.name()), ["Red", "r#fn", "sky"]);
}
