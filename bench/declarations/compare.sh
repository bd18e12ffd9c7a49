#!/usr/bin/env bash
# Compares all items in folders of Rust files with syn 2, by kind, name and extent. Structs, enums, unions, functions
# and attributes are compared part by part. It times both.
#
#   bench/declarations/compare.sh FOLDER..
#
# syn, quote and proc-macro2 are the distribution's, from CARGO_REGISTRY or /usr/share/cargo/registry, where
# cargo/packages.sh puts them; nothing is fetched. Files that syn doesn't read are left out, and so are items in macros.
# Each difference without a known cause is printed, then counts and times: for each file the least of 5 runs over its
# items' streams, by the clock. The status is 1 if there is such a difference.
set -eu
[ $# -gt 0 ] || { sed -n '2,5s/^# *//p' "$0"; exit 2; }
registry=$(cd "${CARGO_REGISTRY:-/usr/share/cargo/registry}" && pwd)
package=$(dirname "$0")/syn
room=$(mktemp -d)
trap 'rm -rf "$room"' EXIT

CARGO_TARGET_DIR=$room cargo build --release --offline --quiet --manifest-path "$package/Cargo.toml" \
    --config 'source.crates-io.replace-with = "here"' --config "source.here.directory = '$registry'"
"$room/release/declarations-beside-syn" "$@"
