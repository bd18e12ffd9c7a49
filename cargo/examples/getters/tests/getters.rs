use getters::Getters;

mod pairs {
    #[derive(super::Getters)]
    pub struct Pair<'a, T: Ord> {
        pub(crate) key: &'a str,
        pub r#type: Vec<T>,
    }

    pub fn pair() -> Pair<'static, u8> {
        let (key, r#type) = ("a", vec![1]);
        Pair { key, r#type }
    }
}

#[test]
fn a_field_is_lent_by_its_name() {
    let pair = pairs::pair();
    assert_eq!((*pair.key(), pair.r#type()), ("a", &vec![1]));
}
