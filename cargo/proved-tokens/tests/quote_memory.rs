//! `quote!` and templates keep no more memory after many calls than after a few.
#![cfg(feature = "quote")]
use proved_tokens::quote::{Holes, Template};
use proved_tokens::{quote, quote_spanned, Span};
use std::alloc::{GlobalAlloc, Layout, System};
use std::cell::Cell;

/// Rust's allocator, which counts the bytes that each thread has allocated and not freed. The thread that waits for the
/// test allocates too, at any time.
struct Counting;

thread_local! {
    static IN_USE: Cell<usize> = const { Cell::new(0) };
}

#[allow(unsafe_code)]
unsafe impl GlobalAlloc for Counting {
    unsafe fn alloc(&self, layout: Layout) -> *mut u8 {
        IN_USE.set(IN_USE.get().wrapping_add(layout.size()));
        unsafe { System.alloc(layout) }
    }

    unsafe fn dealloc(&self, at: *mut u8, layout: Layout) {
        IN_USE.set(IN_USE.get().wrapping_sub(layout.size()));
        unsafe { System.dealloc(at, layout) }
    }
}

#[global_allocator]
static COUNTING: Counting = Counting;

#[test]
fn a_million_calls_keep_no_memory() {
    let template = Template::parse("f(#x)").expect("it is a text");
    let turn = |number: u32| {
        let (x, several) = (number, ["a", "b"]);
        let made = quote!(f(#x));
        assert_eq!(made.trees().len(), 2);
        if number % 16 == 0 {
            quote_spanned!(Span::call_site()=> #(#made #several)* #x);
            let made = template.fill(&Holes::new().with("x", &x)).expect("it is filled");
            assert_eq!(made.trees().len(), 2);
            assert!(template.fill(&Holes::new()).is_err());
        }
    };
    turn(0);
    let before = IN_USE.get();
    (1..=1_000_000).for_each(turn);
    assert_eq!(IN_USE.get(), before);
}
