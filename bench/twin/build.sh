#!/usr/bin/env bash
# build.sh CRATE IDENT OUT: builds the twin with the Rust crate proc-macro2, whose sources lie in the folder CRATE
# (with src/lib.rs), over unicode-ident, whose sources lie in IDENT. The program is OUT/twin. No network is used.
# The crate's escaper is private to it, so the twin asks a second crate, made of the crate's own two files of it.
set -euo pipefail
here=$(cd "$(dirname "$0")" && pwd)
sources=$(cd "$1/src" && pwd)
out=$(mkdir -p "$3" && cd "$3" && pwd)
options=(-C opt-level=3 -C codegen-units=1 --edition 2021 --out-dir "$out" --cap-lints allow)
locations=(--cfg span_locations --cfg procmacro2_semver_exempt)
rustc "${options[@]}" --crate-type rlib --crate-name unicode_ident "$2/src/lib.rs"
rustc "${options[@]}" "${locations[@]}" --crate-type rlib --crate-name proc_macro2 "$sources/lib.rs" \
  --extern unicode_ident="$out/libunicode_ident.rlib"
for part in num rustc_literal_escaper; do
  echo "#[path = \"$sources/$part.rs\"] pub mod $part;"
done > "$out/escaper.rs"
rustc "${options[@]}" --crate-type rlib --crate-name escaper "$out/escaper.rs"
rustc "${options[@]}" -C lto=fat --crate-name twin "$here/main.rs" \
  --extern proc_macro2="$out/libproc_macro2.rlib" --extern escaper="$out/libescaper.rlib" -L "$out"
echo "$out/twin"
