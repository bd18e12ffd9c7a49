//! `doubling CALL FILE..` makes the call on the text of each file, or on the stream that it is. What is counted is
//! within the function `measured`, which is entered once for each file, or not where the text is no stream: a line for
//! each file says how often. `doubling` alone prints the names of all calls.
mod calls;
mod heap;

use heap::Heap;
use std::sync::atomic::Ordering;
use std::{env, fs, io, process, thread};

#[global_allocator]
static HEAP: Heap = Heap::new();

/// How large the stack is: Debug of groups calls itself.
const STACK: usize = 1 << 30;

fn main() {
    let words: Vec<String> = env::args().skip(1).collect();
    let Some((call, paths)) = words.split_first() else {
        for (name, _) in calls::CALLS {
            println!("{name}");
        }
        return;
    };
    let Some((_, found)) = calls::CALLS.iter().find(|(name, _)| name == call) else {
        eprintln!("no such call: {call}");
        process::exit(2);
    };
    // What standard output keeps is had before anything is taken back.
    let _ = io::stdout().lock();
    thread::scope(|scope| {
        let made = || paths.iter().for_each(|path| make_on(found, path));
        thread::Builder::new().stack_size(STACK).spawn_scoped(scope, made).expect("a thread begins");
    });
}

/// Makes the call on the text of a file.
fn make_on(call: &fn(&str), path: &str) {
    let used = HEAP.used();
    let text = fs::read_to_string(path).expect("the file is a text");
    println!("{}", made_on(call, &text));
    drop(text);
    HEAP.go_back(used);
}

/// Makes the call on a text, and answers how often something was counted.
fn made_on(call: &fn(&str), text: &str) -> usize {
    let before = calls::MADE.load(Ordering::Relaxed);
    call(text);
    calls::MADE.load(Ordering::Relaxed) - before
}
