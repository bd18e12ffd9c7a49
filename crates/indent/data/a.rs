macro_rules! maps {
($($key:expr => $value:expr),* $(,)?) => {{   
let mut map = Map::new();
      $(
map.insert($key, $value); // "{" opens nothing
)*
  map
  }};
}

fn text() -> &'static str {
if true {
"  a
  b"
} else {
/* c
 d */ ""
}
}
