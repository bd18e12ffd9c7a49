//! Enums and their variants.

use crate::{hidden, Describe, Silent};
use describe::Describe;

#[test]
fn variants_of_each_kind() {
    #[derive(Describe)]
    enum Shape {
        Circle { radius: u8 },
        Square(u8, bool),
        Point,
        Braces {},
        Parentheses(),
    }
    let shapes = [
        Shape::Circle { radius: 1 },
        Shape::Square(2, true),
        Shape::Point,
        Shape::Braces {},
        Shape::Parentheses(),
    ];
    let wanted = "[Circle { radius: 1 }, Square(2, true), Point, Braces {}, Parentheses()]";
    assert_eq!(shapes.describe(), wanted);
}

#[test]
fn discriminants() {
    #[derive(Describe)]
    #[repr(u8)]
    enum Code {
        Low = 1,
        High = 1 << 7,
    }
    assert_eq!([Code::Low, Code::High].describe(), "[Low, High]");
}

#[test]
fn enum_without_variants() {
    #[derive(Describe)]
    enum Never {}
    assert_eq!(None::<Never>.describe(), "nothing");
}

#[test]
fn variant_that_cannot_be() {
    #[derive(Describe)]
    enum Never {}
    #[derive(Describe)]
    enum Answer {
        Known(u8),
        #[allow(dead_code)]
        Wrong(Never),
    }
    assert_eq!(Answer::Known(1).describe(), "Known(1)");
}

#[test]
fn renamed_and_skipped_variants() {
    #[derive(Describe)]
    #[describe(rename = "never shown")]
    enum Event {
        #[describe(rename = "key press")]
        Key { code: u8 },
        #[describe(skip)]
        Secret(#[allow(dead_code)] Silent, #[allow(dead_code)] u8),
        #[describe(skip)]
        #[describe(rename = "gone")]
        #[allow(dead_code)]
        Lost { at: Silent },
    }
    let events = [Event::Key { code: 7 }, Event::Secret(Silent, 1), Event::Lost { at: Silent }];
    assert_eq!(events.describe(), "[key press { code: 7 }, Secret, gone]");
}

#[test]
fn attributes_of_fields_in_variants() {
    #[derive(Describe)]
    enum Message {
        Text(#[describe(skip)] (), #[describe(with = hidden)] Silent, char),
        Mail {
            #[describe(rename = "to")]
            receiver: u8,
            #[describe(skip)]
            #[allow(dead_code)]
            body: Silent,
        },
    }
    let messages = [Message::Text((), Silent, 'c'), Message::Mail { receiver: 2, body: Silent }];
    assert_eq!(messages.describe(), "[Text(hidden, c), Mail { to: 2 }]");
}

#[test]
fn raw_names_of_variants() {
    #[derive(Describe)]
    #[allow(non_camel_case_types)]
    enum Word {
        r#loop(u8),
        r#yield { r#in: u8 },
    }
    assert_eq!([Word::r#loop(1), Word::r#yield { r#in: 2 }].describe(), "[loop(1), yield { in: 2 }]");
}
