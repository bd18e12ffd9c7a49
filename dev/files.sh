#!/usr/bin/env bash
# Prints each file of Rust below a folder, and tells the spans in it, by `tokens` as cargo builds it and by another
# program with the same words, and compares what they say byte for byte.
#
#   dev/files.sh FOLDER [PROGRAM]
#
# PROGRAM is the `tokens` that Rattle built, in crates/tokens/out, if it isn't given; the twin over the Rust crate that
# bench/twin/build.sh builds is one too. Each difference has a line. The last line is `N passed, M failed`, with two
# passes for a file, and the status is 1 if anything failed.
set -u
folder=$(realpath "$1") || exit 2
program=$(realpath "${2:-$(dirname "$0")/../crates/tokens/out/tokens}") || exit 2
cd "$(dirname "$0")" || exit 2
room=$(mktemp -d)
trap 'rm -rf "$room"' EXIT
CARGO_TARGET_DIR=$room/target cargo install --offline --quiet --path ../cargo/tokens --bin tokens --root "$room" \
    || exit 2
passed=0
failed=0

# What a program says of a file: both streams and its status, in a file of this name.
told() {
    local name=$1 said=$2 word=$3 file=$4
    "$name" "$word" < "$file" > "$said" 2> "$said.errors"
    echo "status $?" | cat "$said.errors" - >> "$said"
}

while IFS= read -r -d '' file; do
    for word in print spans; do
        told "$room/bin/tokens" "$room/here" $word "$file"
        told "$program" "$room/there" $word "$file"
        if cmp -s "$room/here" "$room/there"; then
            passed=$((passed + 1))
        else
            failed=$((failed + 1))
            echo "differs: $word of $file"
        fi
    done
done < <(find "$folder" -name '*.rs' -type f -print0 | sort -z)
echo "$passed passed, $failed failed"
[ "$passed" -gt 0 ] && [ "$failed" -eq 0 ]
