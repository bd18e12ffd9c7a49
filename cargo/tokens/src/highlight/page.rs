// Made from crates/highlight/src/page.rt by dev/erase: change that file, not this one.
//! The text before and after the marked text.

use crate::highlight::format::Format;

/// The text before and after the marked text.
#[derive(Clone, Copy)]
pub struct Frame {
    pub head: &'static str,
    pub foot: &'static str,
}

/// Returns the frame of a format: the head and foot of a page, and nothing for a terminal.
pub fn frame_of(format: Format) -> Frame
{
    match format {
        Format::Html => Frame {
            head: HEAD,
            foot: FOOT,
        },
        Format::Term => Frame { head: "", foot: "" },
    }
}

/// The head of a page. Browsers ignore the line feed after `<pre>`, so that a line feed at the start of the text stays.
/// The anchor of the first line ends the head; the other anchors follow their line feeds.
const HEAD: &str = r#"<!DOCTYPE html>
<html lang="en">
<head>
<meta charset="utf-8">
<meta name="viewport" content="width=device-width, initial-scale=1">
<title>Source text</title>
<style>
:root {
  color-scheme: light dark;
  --back: #ffffff; --text: #1f2328; --quiet: #6a737d; --doc: #4d6b57;
  --keyword: #8a1c8f; --raw: #6f42c1; --lifetime: #0b6e7f;
  --string: #1a6b2d; --character: #2f7d11; --number: #a04100; --mark: #4b5563;
  --fault: #ffffff; --fault-back: #c62828; --unread: #8b4a4a;
  --d0: #b07900; --d1: #9c27b0; --d2: #1565c0; --d3: #00838f; --d4: #558b2f; --d5: #d84315;
}
@media (prefers-color-scheme: dark) {
  :root {
    --back: #15181d; --text: #dfe3e8; --quiet: #8b949e; --doc: #9dbda8;
    --keyword: #dd9bf0; --raw: #b9a4f5; --lifetime: #6fd3e3;
    --string: #8fd19e; --character: #b5d98a; --number: #f0a873; --mark: #b3bac4;
    --fault: #ffffff; --fault-back: #c93c37; --unread: #d39c9c;
    --d0: #e6c15c; --d1: #dd9bf0; --d2: #7cb7ff; --d3: #5fd0d8; --d4: #a5d26b; --d5: #ff9e73;
  }
}
body { margin: 0; background: var(--back); color: var(--text); }
pre {
  margin: 0; padding: 1.25rem 1.5rem; tab-size: 4; counter-reset: line;
  font: 14px/1.5 ui-monospace, "SF Mono", Menlo, Consolas, "DejaVu Sans Mono", monospace;
}
a::before {
  counter-increment: line; content: counter(line); display: inline-block; width: 3em; padding-right: 1em;
  text-align: right; color: var(--quiet); font-style: normal; font-weight: 400;
}
a:target::before { color: var(--fault); background: var(--fault-back); }
.k { color: var(--keyword); font-weight: 600; }
.r { color: var(--raw); }
.l { color: var(--lifetime); }
.s, .rs, .bs, .cs { color: var(--string); }
.c, .b { color: var(--character); }
.i, .f, .e { color: var(--number); }
.lc, .bc { color: var(--quiet); font-style: italic; }
.dc { color: var(--doc); font-style: italic; }
.m { color: var(--mark); }
.d0 { color: var(--d0); } .d1 { color: var(--d1); } .d2 { color: var(--d2); }
.d3 { color: var(--d3); } .d4 { color: var(--d4); } .d5 { color: var(--d5); }
.x { color: var(--fault); background: var(--fault-back); border-radius: 2px; }
.u { color: var(--unread); }
</style>
</head>
<body>
<pre>
<a id=L1></a>"#;

const FOOT: &str = "</pre>\n</body>\n</html>\n";
