#!/usr/bin/env bash
# The proved functions as Rust, the programs, the Cargo package over them and the bridge to any other, with their tests
# and examples over syn and quote; the demo in C under sanitizers; and how many instructions the library takes.
#
#   cargo/test.sh
#
# What is left out is named, and counted by the line `skipped: N` before the last: what wants Python, valgrind (for
# bench/counts of the version that bench/counts.txt names), a C compiler, cargo with Rust 1.82 (the Cargo package:
# 1.88), or sources of syn, quote and the public crate, which cargo/packages.sh gets. c/archive.sh builds the archive
# where it is older than its sources. The last line is `N passed, M failed`, and the status is 1 if anything failed.
set -u
cd "$(dirname "$0")" || exit 1
room=$(mktemp -d)
trap 'rm -rf "$room"' EXIT
passed=0
failed=0
skipped=0

# Says what is left out, and why.
skip() {
    skipped=$((skipped + 1))
    echo "left out: $1"
}

# Runs a command, whose output is shown where it fails.
try() {
    local what=$1
    shift
    if "$@" > "$room/said" 2>&1; then
        passed=$((passed + 1))
        echo "passed: $what"
    else
        failed=$((failed + 1))
        cat "$room/said"
        echo "FAILED: $what"
    fi
}

finish() {
    [ "$skipped" -eq 0 ] || echo "skipped: $skipped"
    echo "$passed passed, $failed failed"
    [ "$failed" -eq 0 ]
    exit
}

export CARGO_TARGET_DIR=$room/target
minor=$(cargo --version 2> /dev/null | sed -n 's/^cargo 1\.\([0-9]*\)\..*/\1/p')

if command -v python3 > /dev/null; then
    try "dev/erase rejects what it doesn't know, and its rules do what they say" python3 ../dev/erase --test
    try "cargo/proved-tokens, cargo/tokens and dev/workloads are what dev/erase makes of the proved sources" \
        python3 ../dev/erase --check
    try "dev/audit tells changes that are planted" python3 ../dev/audit --test
    try "the proved sources and what is made of them differ as is known, and not otherwise" python3 ../dev/audit
    if command -v rt > /dev/null; then
        try "the tables of cargo/proved-tokens are what the proved crates answer" python3 ../dev/facts --check
    else
        skip "the tables of cargo/proved-tokens beside what the proved crates answer: no rt"
    fi
else
    skip "cargo/proved-tokens, cargo/tokens and dev/workloads beside the proved sources: no python3"
fi
if command -v python3 > /dev/null && command -v git > /dev/null; then
    try "bench/run compares what both checkouts print, but for answers that changed on purpose" ../bench/run --test
else
    skip "bench/run over stubs: no python3 or git"
fi

# The program of cargo/tokens, as `cargo install` builds it.
programs() {
    local built=$room/installed/bin
    try "cargo install of cargo/tokens" cargo install --offline --quiet --path tokens --root "$room/installed"
    is_alone() { [ "$(ls "$built")" = tokens ]; }
    try "it installs one program, tokens" is_alone
    # Runs a command on the stored input of its crate, if there is one, in the folder of its files, if there is one.
    in_its_data() {
        local crate=$PWD/../crates/$1 input=/dev/null
        [ -f "$crate/stdin" ] && input=$crate/stdin
        (cd "$crate/data" 2> /dev/null || cd "$crate" && exec "$built/tokens" "${@:2}" < "$input")
    }
    stored() {
        local name command words wanted status
        for name in tokens highlight find_calls pretty rust_check same indent outline; do
            case $name in
                tokens) command=() ;;
                find_calls) command=(find) ;;
                rust_check) command=(check) ;;
                *) command=("$name") ;;
            esac
            words=()
            wanted=0
            status=0
            [ -f "../crates/$name/args" ] && mapfile -t words < "../crates/$name/args"
            [ -f "../crates/$name/status" ] && wanted=$(< "../crates/$name/status")
            in_its_data "$name" "${command[@]}" "${words[@]}" > "$room/seen" || status=$?
            [ "$status" -eq "$wanted" ] && cmp "../crates/$name/stdout" "$room/seen" || return 1
        done
    }
    try "its commands on the stored runs of their crates" stored
    # Runs a command on the text of the first word, and compares its status and what it says with the next two.
    refused() {
        local status=0
        printf '%b' "$1" | "$built/tokens" "${@:4}" > "$room/seen" 2> "$room/errors" || status=$?
        [ "$status" -eq "$2" ] && [ ! -s "$room/seen" ] && printf '%b' "$3" | cmp - "$room/errors"
    }
    try "the pretty text of each Rust file here has the tokens of the file" ../bench/reads_back.sh "$built/tokens" ..
    try "tokens print says where the fault of a text stands" refused 'a\n(' 1 'fault 2:0\n' print
    try "tokens highlight says which byte is no text" \
        refused 'a\0377' 2 '-: error: not UTF-8 at byte 1\n' highlight html
    if command -v python3 > /dev/null; then
        try "the rows of dev/checks/programs on its commands" \
            env "CARGO_BUILD=$built" ../dev/checks/programs tokens highlight find_calls pretty rust_check same indent \
            outline
        try "the commands that pages show print what they show" \
            ../dev/checks/pages "$built" ../README.md ../docs/GUIDE.md tokens/README.md \
            ../crates/{rust_check,highlight,pretty}/README.md
    fi
    if command -v python3 > /dev/null && command -v valgrind > /dev/null; then
        try "twice the text takes at most 2.1 times the instructions, by the named shapes of bench/doubling.py" \
            ../bench/doubling.py --named
    else
        skip "how instructions grow with the text: no python3 or no valgrind"
    fi
    tools() { (cd tokens && cargo "$@"); }
    try "the words and messages of its commands" tools test --offline --quiet
    documented_tools() { RUSTDOCFLAGS="-D warnings" tools doc --offline --quiet --no-deps; }
    try "the documents of cargo/tokens" documented_tools
    if cargo clippy --version > /dev/null 2>&1; then
        try "clippy on cargo/tokens" tools clippy --offline --quiet --all-targets -- -D warnings
    fi
}

# The jobs of dev/workloads, with overflow checks. The digests are those that dev/checks/programs wants of Rattle's
# build.
workloads() {
    jobs() { (cd ../dev/workloads && cargo "$@"); }
    digest() { jobs run --offline --quiet -- "${@:2}" < ../crates/workloads/stdin | cmp - <(echo "$2 $1"); }
    try "the jobs of dev/workloads answer as Rattle's build does" digest 2a1d336fd5d5c167 all 7 2
    try "a job of dev/workloads alone does too" digest 888960273426151e edit 3 1
    documented_jobs() { RUSTDOCFLAGS="-D warnings" jobs doc --offline --quiet --no-deps --lib; }
    try "the documents of dev/workloads" documented_jobs
    if cargo clippy --version > /dev/null 2>&1; then
        try "clippy on dev/workloads" jobs clippy --offline --quiet --all-targets -- -D warnings
    fi
}

# What bench/ counts and compares, by programs that Cargo builds.
measured() {
    if ! command -v python3 > /dev/null; then
        skip "the counts and the answers of the workloads: no python3"
        return
    fi
    try "the library answers all that the workloads' texts can be asked as recorded" ../bench/answers --check
    try "bench/answers tells bugs that the workloads' own digests don't show" ../bench/answers --test
    if ! command -v valgrind > /dev/null || [ "$minor" -lt 88 ]; then
        skip "the counts of instructions beside their record: no valgrind, or no cargo of Rust 1.88 or later"
        return
    fi
    try "bench/counts tells a loop that is planted" ../bench/counts --test
    local status=0
    ../bench/counts --check > "$room/counts" 2>&1 || status=$?
    grep '^RENEW' "$room/counts"
    if grep -q '^skipped: ' "$room/counts"; then
        cat "$room/counts"
        skip "the counts of instructions beside their record, which is of other tools"
        return
    fi
    counts() { cat "$room/counts" && [ "$status" -eq 0 ]; }
    try "no row of bench/counts takes over 3 % more instructions than its record" counts
}

if [ "${minor:-0}" -ge 82 ]; then
    proved() { (cd proved-tokens && cargo "$@"); }
    documented() { RUSTDOCFLAGS="-D warnings" proved doc --offline --quiet --no-deps --all-features; }
    [ -x "${TOKENS:-../crates/tokens/out/tokens}" ] || skip "every source printed as by Rattle's build: no tokens there"
    tested() { proved test --offline --quiet --all-features; }
    try "cargo/proved-tokens, with overflow checks: recorded answers, sources, the shim" tested
    try "cargo/proved-tokens without its features" proved build --offline --quiet
    try "the documents of cargo/proved-tokens" documented
    without_shim() { ! grep -rlw --include='*.html' shim "$room/target/doc/proved_tokens"; }
    try "no page of them names what is hidden in the shim" without_shim
    if cargo clippy --version > /dev/null 2>&1; then
        try "clippy on cargo/proved-tokens" proved clippy --offline --quiet --all-features --all-targets -- -D warnings
    fi
    programs
    workloads
    measured
else
    skip "cargo/proved-tokens, cargo/tokens and dev/workloads: no cargo of Rust 1.82 or later"
fi

# The static library for C, its header, its tests, its demo, and a Python program over it.
callers_in_c() {
    local archive=../crates/pm_c/out/libpm_c.a cc=${CC:-cc} cxx=${CXX:-c++} heap
    if ! command -v rt > /dev/null; then
        skip "the archive, and what is over it in C and Python: no rt"
        return
    fi
    try "the archive" ../c/archive.sh
    if command -v python3 > /dev/null; then
        try "pm_c.h is what the sources say, and the archive exports its calls" ../dev/header.py --check "$archive"
    fi
    if ! command -v "$cc" > /dev/null; then
        skip "the tests, the demo and the Python program over the archive: no C compiler"
        return
    fi
    local flags=(-D_DEFAULT_SOURCE -std=c11 -Wall -Wextra -Werror -g)
    local checked=(-fsanitize=address,undefined -fno-sanitize-recover=all)
    # Builds a program with the heap of the second word, by the flags that follow, and runs it on the demo's text.
    run_demo() {
        "$cc" "${flags[@]}" "${@:3}" "$1" "$archive" "$2" -o "$room/demo" || return 1
        "$room/demo" < ../c/demo.stdin > "$room/seen" || return 1
        diff ../c/demo.stdout "$room/seen"
    }
    try "the demo in C, under the sanitizers of addresses and of undefined behaviour" \
        run_demo ../c/demo.c ../c/heap.c "${checked[@]}"
    heap=$(dirname "$(rt doc 2> /dev/null)")/c/liblibc_c.a
    try "the demo over the toolchain's heap, under both" run_demo ../c/demo.c "$heap" "${checked[@]}"
    tests() { "$cc" "${flags[@]}" "${checked[@]}" ../c/tests.c "$archive" -o "$room/tests" && "$room/tests"; }
    try "the tests in C: each code, what it leaves, mistakes, and each allocation refused in turn" tests
    freed_twice() { ! "$room/tests" twice 2> "$room/errors" && grep -q double-free "$room/errors"; }
    try "the sanitizer reports a session that is freed twice" freed_twice
    if command -v "$cxx" > /dev/null; then
        in_cpp() { echo '#include "pm_c.h"' | "$cxx" -x c++ -std=c++17 -Wall -Wextra -Werror -I../c -fsyntax-only -; }
        try "pm_c.h as C++" in_cpp
    else
        skip "pm_c.h as C++: no C++ compiler"
    fi
    if command -v python3 > /dev/null; then
        functions() {
            local whole=(-Wl,--whole-archive "$archive" -Wl,--no-whole-archive)
            "$cc" -shared -fPIC -o "$room/libpm_c.so" "${whole[@]}" ../c/heap.c || return 1
            (cd .. && c/functions.py "$room/libpm_c.so" c/functions.rs.txt) > "$room/seen" || return 1
            diff ../c/functions.stdout "$room/seen"
        }
        try "a Python program over the library lists a file's functions" functions
    fi
}
callers_in_c

if [ "${minor:-0}" -lt 88 ]; then
    skip "the Cargo package, the bridge and the examples: no cargo of Rust 1.88 or later"
    finish
fi
package() { (cd proc-macro2 && cargo "$@"); }
exempt() { RUSTFLAGS="--cfg procmacro2_semver_exempt" RUSTDOCFLAGS="--cfg procmacro2_semver_exempt" package "$@"; }
documented_package() { RUSTDOCFLAGS="-D warnings" package doc --offline --quiet --no-deps --features span-locations; }
try "the Cargo package" package test --offline --quiet
try "the Cargo package without the compiler's tokens" package test --offline --quiet --no-default-features
try "the Cargo package with span locations" package test --offline --quiet --features span-locations
try "the Cargo package with what is exempt from semantic versioning" exempt test --offline --quiet
try "the documents of the Cargo package" documented_package
is_small() { [ "$(cat proc-macro2/src/*.rs | grep -vcE '^\s*(//.*)?$')" -le 1200 ]; }
try "the Cargo package has at most 1,200 lines, beside blank ones and comments" is_small
if cargo clippy --version > /dev/null 2>&1; then
    try "clippy on the Cargo package" package clippy --offline --quiet --all-targets -- -D warnings
    try "clippy on it with span locations" \
        package clippy --offline --quiet --all-targets --features span-locations -- -D warnings
fi

# The bridge and the examples, in copies, with which cargo's locks go.
copies=$room/cargo
mkdir "$copies" "$room/dev"
ln -s "$PWD/proved-tokens" "$PWD/proc-macro2" "$copies"
ln -s "$PWD/../docs" "$PWD/../crates" "$room"
cp -r proved-macros examples "$copies"
cp -r ../dev/quotes "$room/dev"
in_copy() { (cd "$copies/$1" && cargo "${@:2}"); }
over_package=(--config 'patch.crates-io.proc-macro2.path="../proc-macro2"')
bridge() { rm -f "$copies/proved-macros/Cargo.lock" && in_copy proved-macros "$@"; }
documented_bridge() { RUSTDOCFLAGS="-D warnings" bridge doc --offline --quiet --no-deps "${over_package[@]}"; }
try "the bridge over the package" bridge test --offline --quiet --all-features "${over_package[@]}"
try "the documents of the bridge" documented_bridge
if cargo clippy --version > /dev/null 2>&1; then
    try "clippy on the bridge" \
        bridge clippy --offline --quiet --all-features --all-targets "${over_package[@]}" -- -D warnings
fi

./packages.sh "$room/packages" 2> "$room/said" || sed '/^not had/!d' "$room/said"
has() { compgen -G "$room/packages/registry/$1*" > /dev/null; }
mkdir "$room/.cargo"
cat > "$room/.cargo/config.toml" << END
[source.crates-io]
replace-with = "here"
[source.here]
directory = "$room/packages/registry"
END

# Looks for what clippy finds in examples.
neat() {
    local example
    cargo clippy --version > /dev/null 2>&1 || return
    for example in "$@"; do
        try "clippy on examples/$example" \
            in_copy "examples/$example" clippy --offline --quiet --all-targets -- -D warnings
    done
}

if has proc-macro2-1 && has unicode-ident-1 && command -v python3 > /dev/null; then
    try "what would be published is complete, and cargo builds it from what it packages" \
        ../dev/checks/packages "$room/packages/registry"
else
    skip "what would be published: no proc-macro2, unicode-ident or python3"
fi
try "the example of a lint" in_copy examples/arms test --offline --quiet
try "the example of a lint with five rules, which also rewrites files" \
    in_copy examples/lint_calls test --offline --quiet
neat arms lint_calls
if has proc-macro2-1 && has unicode-ident-1; then
    try "the bridge over the public crate" bridge test --offline --quiet --all-features
    # Macros over the bridge: their own tests, and the lines and columns at which they tell errors.
    #
    #   told EXAMPLE [ERROR LINE:COLUMN]..
    told() {
        local example=$1
        shift
        local build=(test --offline --quiet --features wrong --test wrong)
        ! in_copy "$example" "${build[@]}" > "$room/seen" 2>&1 || return 1
        while [ $# -gt 0 ]; do
            if ! grep -A 1 "^error.*: $1" "$room/seen" | grep -q -- "--> wrong/.*\.rs:$2$"; then
                cat "$room/seen"
                return 1
            fi
            shift 2
        done
    }
    try "the example of a derive over the bridge and the public crate" in_copy examples/names test --offline --quiet
    try "its errors stand at its user's tokens" \
        told examples/names "a variant has a name alone" 7:10 "a name is a literal" 12:6 "a name is a literal" 18:14
    try "the example of an attribute over the bridge" in_copy examples/traced test --offline --quiet
    wanted="only a function with a body is traced"
    try "its errors stand at its user's tokens" told examples/traced "$wanted" 5:1 "$wanted" 9:5
    try "the example of a builder over the bridge" in_copy examples/builder test --offline --quiet
    try "the example of a memoizing attribute over the bridge" in_copy examples/memoized test --offline --quiet
    try "the example of a derive that reports all errors at once" in_copy examples/describe test --offline --quiet
    neat names traced builder memoized describe
else
    skip "the bridge over the public crate, and its examples: no proc-macro2 or unicode-ident"
fi

if has quote-1 && has proc-macro2-1 && has unicode-ident-1; then
    try "quote! gives the tokens of the public macro, of 2,000 templates" in_copy ../dev/quotes test --offline --quiet
    wanted="cannot find value \`.*\` in this scope"
    try "a misspelled hole is told at its name" told ../dev/quotes "$wanted" 8:13 "$wanted" 9:22
else
    skip "quote! beside the public macro: no quote, proc-macro2 or unicode-ident"
fi

generated() {
    in_copy examples/generator run --offline --quiet > "$room/seen" || return 1
    printf 'Millimeter: 1000 micrometers\nInch: 25400 micrometers\nMeter: 1000000 micrometers\n' | cmp - "$room/seen"
}
if has quote-1; then
    try "the example of a build script over quote and the package" generated
    neat generator
else
    skip "the example of a build script: no quote"
fi
for version in 2 1; do
    if ! has "syn-$version" || ! has quote-1 || ! has unicode-ident-1; then
        skip "the examples over syn $version, quote and the package: no syn $version, quote or unicode-ident"
        continue
    fi
    rm -f "$copies"/examples/{,getters/}Cargo.lock
    sed -i "/^syn = /s/\">*[0-9][^\"]*\"/\"$version\"/" "$copies"/examples/{,derive/,getters/}Cargo.toml
    try "a file parsed by syn $version and printed by quote over the package, and a macro over it" \
        in_copy examples run --offline --quiet -- src/main.rs
    try "the example of a derive over syn $version, quote and the package" \
        in_copy examples/getters test --offline --quiet
    neat . derive getters
done
finish
