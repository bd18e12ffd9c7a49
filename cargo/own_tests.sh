#!/usr/bin/env bash
# Runs syn's and quote's own tests over the Cargo package and over the public crate, and compares them test by test.
#
#   cargo/own_tests.sh CRATE [TABLE]
#
# CRATE is the unpacked public crate proc-macro2. syn, of the version SYN (2 if that is there, else 1), and quote are
# the distribution's, from CARGO_REGISTRY or /usr/share/cargo/registry, and so are the crates that their tests want;
# cargo/packages.sh gets them. Left out on both sides, and named, are files of tests that fetch the Rust repository, and
# those that want a crate that isn't there.
#
# Each test that doesn't pass over both has a line, and the file TABLE gets a line for every test. A test fails here if
# it passes over the public crate and not over the package. The last line is `N passed, M failed`: of the tests that
# pass over the public crate, how many pass over the package too, and how many don't. The status is 1 if one doesn't.
set -eu
crate=$(cd "$1" && pwd)
table=${2:+$(realpath "$2")}
cd "$(dirname "$0")"
registry=${CARGO_REGISTRY:-/usr/share/cargo/registry}
compgen -G "$registry/syn-2.*" > /dev/null && newest=2
syn=${SYN:-${newest:-1}}
room=$(mktemp -d)
trap 'rm -rf "$room"' EXIT
# What is built of no crate under test serves both sides.
export CARGO_TARGET_DIR=$room/target INSTA_UPDATE=no

# Takes a file of tests of this crate away, and what its manifest says of it, for this reason.
leave_out() {
    local name=$1 file=$2 reason=$3 manifest
    manifest=$(dirname "$file")/../Cargo.toml
    rm "$file"
    awk -v RS= -v ORS='\n\n' -v path="\"tests/$(basename "$file")\"" \
        '!/^\[\[test\]\]/ || !index($0, path)' "$manifest" > "$manifest.left"
    mv "$manifest.left" "$manifest"
    echo "$name/tests/$(basename "$file") $reason: left out on both sides"
}

# Whether a file of tests names this crate, by itself or by syn's module of macros for tests.
wants() {
    local wanted=$1 file=$2
    grep -q "\b$wanted::" "$file" && return
    grep -q '^mod macros;' "$file" && grep -rq "\b$wanted::" "$(dirname "$file")"/{macros,debug}
}

# Says where crates are, and which is under test, and lays out syn and quote with the tests that can be run, in this
# room. What is left out has a line.
prepare() {
    local path=$1 room=$2 name version wanted file
    mkdir -p "$room/.cargo"
    cat > "$room/.cargo/config.toml" << END
[source.crates-io]
replace-with = "here"
[source.here]
directory = "$registry"
[patch.crates-io]
proc-macro2 = { path = "$path" }
END
    for name in syn quote; do
        version=1
        [ $name = syn ] && version=$syn
        cp -rL "$registry/$name-$version".* "$room/$name"
        for file in "$room/$name"/tests/*.rs; do
            grep -q '^mod repo;' "$file" && leave_out $name "$file" "fetches the Rust repository"
        done
        rm -rf "$room/$name"/tests/{repo,common}
        # Items that are configured out, which newer compilers refuse to read all the same.
        sed -i '/^ *#\[cfg(any())\]$/,/^ *impl.*{}$/d' "$room/$name"/tests/*.rs
        for wanted in $(sed -nE 's/^\[(target\..*\.)?dev-dependencies\.(.*)\]$/\2/p' "$room/$name/Cargo.toml"); do
            if ! compgen -G "$registry/$wanted-[0-9]*" > /dev/null; then
                for file in "$room/$name"/tests/*.rs; do
                    wants "${wanted//-/_}" "$file" && leave_out $name "$file" "wants $wanted"
                done
            elif grep -rq "\b${wanted//-/_}::" "$room/$name"/tests; then
                continue
            fi
            # No test that is left wants it.
            sed -i -E "/^\[(target\..*\.)?dev-dependencies\.$wanted\]$/,/^$/d" "$room/$name/Cargo.toml"
        done
        sed -i '/^\[\[bench\]\]$/,/^$/d' "$room/$name/Cargo.toml"
        rm -rf "$room/$name/benches"
        printf '\n[workspace]\n' >> "$room/$name/Cargo.toml"
    done
}

# One line for each test: the crate, the file, the test, and what came of it. Of a file that this compiler refuses there
# is one line, as if it were a test, and so of one that doesn't end within ten minutes.
run() {
    local name=$1 room=$2 file target status features=()
    [ "$name" = syn ] && features=(--features "full visit visit-mut fold extra-traits")
    cd "$room/$name"
    cargo build --offline --tests --keep-going "${features[@]}" > "$room/$name.log" 2>&1 || true
    for file in src/lib.rs tests/*.rs; do
        target=(--test "$(basename "$file" .rs)")
        [ "$file" = src/lib.rs ] && target=(--lib)
        status=0
        timeout 600 cargo test --offline "${target[@]}" "${features[@]}" > "$room/ran" 2>&1 || status=$?
        awk -v name="$name" -v file="$file" '
            $1 == "test" && /\.\.\. (ok|FAILED|ignored)/ {
                print name, file, $2, /\.\.\. ok/ ? "ok" : /FAILED/ ? "FAILED" : "ignored"
            }
            ' "$room/ran"
        if [ $status -eq 124 ]; then
            echo "$name $file all unended"
        elif ! grep -q '^running ' "$room/ran"; then
            echo "$name $file all refused"
        fi
    done
}

for kind in package public; do
    path=$(pwd)/proc-macro2
    [ $kind = public ] && path=$crate
    prepare "$path" "$room/$kind" > "$room/left_out.$kind"
    for name in syn quote; do
        (run $name "$room/$kind") > "$room/$kind.$name"
        if ! grep -q ' ok$' "$room/$kind.$name"; then
            tail -n 30 "$room/$kind/$name.log"
            echo "FAILED: no test of $name was run over the $kind crate"
            exit 1
        fi
    done
    cat "$room/$kind".{syn,quote} | sed 's/ \([^ ]*\)$/\t\1/; s/ /:/g; s/\t/ /' | sort > "$room/$kind.all"
done
cat "$room/left_out.package"
diff "$room/left_out.package" "$room/left_out.public"
join -a 1 -a 2 -e none -o 0,1.2,2.2 "$room/package.all" "$room/public.all" > "$room/both"
[ -z "$table" ] || cp "$room/both" "$table"
awk '
    { split($1, at, ":"); crate = at[1]; run[crate]++; if ($2 == "ok") ours[crate]++; if ($3 == "ok") public[crate]++ }
    $2 != "ok" || $3 != "ok" { print $1 ": package " $2 ", public crate " $3 }
    $3 == "ok" { if ($2 == "ok") passed++; else failed++ }
    END {
        for (crate in run)
            printf "%s: %d tests, passed over the package %d, over the public crate %d\n",
                crate, run[crate], ours[crate], public[crate]
        print passed + 0 " passed, " failed + 0 " failed"
        exit failed > 0
    }' "$room/both"
