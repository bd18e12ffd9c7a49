#!/usr/bin/env bash
# Times flat tokens beside syn's buffer and the public crate's trees.
#
#   dev/bench_flat.sh REGISTRY SOURCES
#
# REGISTRY is a folder with the unpacked crates syn, proc-macro2 and those that they need, as cargo/packages.sh FOLDER
# leaves in FOLDER/registry; nothing is fetched. SOURCES is a folder with files of Rust. Of each line the least time is
# printed, in nanoseconds of processor time for some 3 MB.
set -eu
registry=$(cd "$1" && pwd)
sources=$(cd "$2" && pwd)
cd "$(dirname "$0")"
room=$(mktemp -d)
trap 'rm -rf "$room"' EXIT

mkdir -p "$room/bench" "$room/bench_flat/.cargo"
cp -r bench/src "$room/bench"
cp -r bench_flat/Cargo.toml bench_flat/src "$room/bench_flat"
sed -i "s|path = \"../../cargo/|path = \"$(cd ../cargo && pwd)/|" "$room/bench_flat/Cargo.toml"
cat > "$room/bench_flat/.cargo/config.toml" << END
[source.crates-io]
replace-with = "here"
[source.here]
directory = "$registry"
END
cd "$room/bench_flat"
cargo build --release --offline --quiet
target/release/flat-bench "$sources"
