//! A hole whose name is misspelled: rustc's error is at that very name.
use proved_tokens::quote;

#[test]
fn a_wrong_name_does_not_compile() {
    let (name, fields) = ("a", ["x"]);
    let made = quote! {
        fn #nmae() {
            #( self.#feilds )*
        }
    };
    assert_eq!((name, fields), ("a", ["x"]), "{made}");
}
