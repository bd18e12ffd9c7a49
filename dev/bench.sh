#!/usr/bin/env bash
# Times the Cargo package and the public crate, by one program built over each.
#
#   dev/bench.sh CRATE SOURCES [RUNS]
#
# CRATE is the unpacked public crate proc-macro2, SOURCES a folder with files of Rust. syn, quote and unicode-ident are
# the distribution's, from CARGO_REGISTRY or /usr/share/cargo/registry; nothing is fetched. The two programs run in
# turn, so many times each (else 3), and the least times are printed in nanoseconds, sizes in bytes, and how long each
# crate with its dependencies and default features takes to compile for release, in processor milliseconds.
#
# Where the linker happens to place a loop changes calls of a few nanoseconds by up to a third. So in both programs
# each block that no other code runs into begins at a multiple of 64 bytes, and no branch crosses or ends at a multiple
# of 32, where some processors decode it anew each time. Each run links the functions in another order, which takes a
# linker that knows --shuffle-sections, such as the lld of rustc since 1.90.
set -eu
crate=$(cd "$1" && pwd)
sources=$(cd "$2" && pwd)
runs=${3:-3}
cd "$(dirname "$0")"
registry=${CARGO_REGISTRY:-/usr/share/cargo/registry}
room=$(mktemp -d)
trap 'rm -rf "$room"' EXIT

# Compiles the dependencies of an empty program in this room, and prints the processor time in milliseconds.
compile() {
    local TIMEFORMAT='%U %S'
    rm -rf "$1/target"
    { time cargo build --release --offline --quiet --manifest-path "$1/Cargo.toml" 2> /dev/null; } 2>&1 |
        awk '{ print "compile_ms", ($1 + $2) * 1000 }'
}

# Builds the program of this folder, with its functions in the order that this number gives.
link() {
    local aligned="-C llvm-args=-align-all-nofallthru-blocks=6 -C llvm-args=-x86-branches-within-32B-boundaries"
    (cd "$1" && RUSTFLAGS=$aligned cargo rustc --release --offline --quiet -- \
        -C "link-arg=-Wl,--shuffle-sections=.text.*=$2")
}

for name in package public; do
    path=$(cd ../cargo/proc-macro2 && pwd)
    [ $name = public ] && path=$crate
    mkdir -p "$room/$name/.cargo" "$room/$name/empty/src"
    cp -r bench/Cargo.toml bench/src "$room/$name"
    cat > "$room/$name/.cargo/config.toml" << END
[source.crates-io]
replace-with = "here"
[source.here]
directory = "$registry"
[patch.crates-io]
proc-macro2 = { path = "$path" }
END
    sed '/^\(quote\|syn\) =/d' bench/Cargo.toml > "$room/$name/empty/Cargo.toml"
    echo 'fn main() {}' > "$room/$name/empty/src/main.rs"
done
for run in $(seq "$runs"); do
    for name in package public; do
        link "$room/$name" "$run"
    done
    for name in package public; do
        (cd "$room/$name" && target/release/token-bench "$sources" && compile empty) |
            sed "s/^/$name /" >> "$room/times"
    done
done
awk '
    { key = $1 " " $2; if (!(key in least) || $3 < least[key]) least[key] = $3; if (!seen[$2]++) order[n++] = $2 }
    END {
        printf "%-24s %14s %14s %8s\n", "what", "package", "public", "ratio"
        for (i = 0; i < n; i++) {
            a = least["package " order[i]]; b = least["public " order[i]]
            printf "%-24s %14.1f %14.1f %8.2f\n", order[i], a, b, a / b
        }
    }' "$room/times"
