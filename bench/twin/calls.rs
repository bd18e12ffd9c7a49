//! The processor time of single calls.
use proc_macro2::{extra, token_stream, Span, TokenStream, TokenTree};
use std::hint::black_box;
use std::time::Duration;

/// What the calls took together, and a number that says whether another program's answers are the same.
pub struct Measured {
    pub time: Duration,
    pub check: usize,
}

/// Makes the call that the word names `count` times; `None` where it names none.
pub fn measure(word: &str, count: u32, text: &str) -> Option<Measured> {
    let mut clock = Clock::default();
    let mut check = 0;
    for _ in 0..count {
        extra::invalidate_current_thread_spans();
        check += match word {
            "from_str" => from_str(&mut clock, text),
            "display" => display(&mut clock, text),
            "clone" => clone(&mut clock, text),
            "drop" => drop_stream(&mut clock, text),
            "into_iter" => into_iter(&mut clock, text),
            "extend" => extend(&mut clock, text),
            "lines" => lines(&mut clock, text),
            _ => lookups(&mut clock, word, text)?,
        };
    }
    Some(Measured {
        time: clock.spent,
        check,
    })
}

fn parsed(text: &str) -> TokenStream {
    text.parse().expect("the text has no fault")
}

/// The text is parsed.
fn from_str(clock: &mut Clock, text: &str) -> usize {
    clock.start();
    let stream = parsed(text);
    clock.stop();
    stream.into_iter().count()
}

/// The stream of the text is printed.
fn display(clock: &mut Clock, text: &str) -> usize {
    let stream = parsed(text);
    clock.start();
    let printed = stream.to_string();
    clock.stop();
    printed.len()
}

/// The stream of the text is cloned a thousand times, and each clone is dropped.
fn clone(clock: &mut Clock, text: &str) -> usize {
    let stream = parsed(text);
    clock.start();
    for _ in 0..1000 {
        drop(black_box(stream.clone()));
    }
    clock.stop();
    stream.into_iter().count()
}

/// The stream of the text is dropped.
fn drop_stream(clock: &mut Clock, text: &str) -> usize {
    let stream = parsed(text);
    clock.start();
    drop(stream);
    clock.stop();
    0
}

/// All trees are taken out of the stream of the text, those in groups after the group.
fn into_iter(clock: &mut Clock, text: &str) -> usize {
    let stream = parsed(text);
    clock.start();
    let count = count_taken(stream.into_iter());
    clock.stop();
    count
}

fn count_taken(trees: token_stream::IntoIter) -> usize {
    let mut count = 0;
    let mut open = vec![trees];
    while let Some(trees) = open.last_mut() {
        match trees.next() {
            Some(tree) => {
                count += 1;
                if let TokenTree::Group(group) = tree {
                    open.push(group.stream().into_iter());
                }
            }
            None => {
                open.pop();
            }
        }
    }
    count
}

/// The trees of the text, those in groups left there, are put into a new stream, each by a call of its own.
fn extend(clock: &mut Clock, text: &str) -> usize {
    let trees = parsed(text).into_iter();
    let mut stream = TokenStream::new();
    clock.start();
    for tree in trees {
        stream.extend([tree]);
    }
    clock.stop();
    stream.into_iter().count()
}

/// Each line is parsed as a text of its own, and its stream is dropped.
fn lines(clock: &mut Clock, text: &str) -> usize {
    let mut count = 0;
    clock.start();
    for line in text.split('\n') {
        count += usize::from(!parsed(line).is_empty());
    }
    clock.stop();
    count
}

/// Each span of the text is looked up, in the order that the word names: `byte_range-forwards` and its like.
fn lookups(clock: &mut Clock, word: &str, text: &str) -> Option<usize> {
    let (call, order) = word.split_once('-')?;
    let mut spans = Vec::new();
    push_spans(&mut spans, parsed(text));
    match order {
        "forwards" => {}
        "backwards" => spans.reverse(),
        "random" => shuffle(&mut spans),
        _ => return None,
    }
    clock.start();
    let mut check = 0;
    match call {
        "byte_range" => {
            for span in &spans {
                check += span.byte_range().start;
            }
        }
        "source_text" => {
            for span in &spans {
                check += span.source_text().map_or(0, |text| text.len());
            }
        }
        _ => return None,
    }
    clock.stop();
    Some(check)
}

/// Adds the span of each tree, each group's before those inside it.
fn push_spans(spans: &mut Vec<Span>, stream: TokenStream) {
    for tree in stream {
        spans.push(tree.span());
        if let TokenTree::Group(group) = tree {
            push_spans(spans, group.stream());
        }
    }
}

/// Puts the spans into a fixed order without order.
fn shuffle(spans: &mut [Span]) {
    let mut state: u32 = 1;
    for last in (1..spans.len()).rev() {
        state = state.wrapping_mul(1664525).wrapping_add(1013904223);
        spans.swap(last, (state >> 4) as usize % (last + 1));
    }
}

/// A clock of the processor time of this process.
#[derive(Default)]
struct Clock {
    spent: Duration,
    started: Duration,
}

impl Clock {
    fn start(&mut self) {
        self.started = process_time();
    }

    fn stop(&mut self) {
        self.spent += process_time() - self.started;
    }
}

#[repr(C)]
struct Timespec {
    seconds: i64,
    nanoseconds: i64,
}

extern "C" {
    fn clock_gettime(clock: i32, time: *mut Timespec) -> i32;
}

/// Linux's number of the clock of a process.
const CLOCK_PROCESS_CPUTIME_ID: i32 = 2;

fn process_time() -> Duration {
    let mut time = Timespec {
        seconds: 0,
        nanoseconds: 0,
    };
    let failed = unsafe { clock_gettime(CLOCK_PROCESS_CPUTIME_ID, &mut time) };
    assert_eq!(failed, 0, "the clock was not read");
    Duration::new(time.seconds as u64, time.nanoseconds as u32)
}
