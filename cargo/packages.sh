#!/usr/bin/env bash
# Gets the sources of syn (2, and 1 too where it is had), quote, proc-macro2 and unicode-ident, for cargo to build from.
#
#   cargo/packages.sh FOLDER [PACKAGE..]
#
# The sources come to be in FOLDER/registry, a directory source of cargo. They are the distribution's packages: those in
# CARGO_REGISTRY or /usr/share/cargo/registry, and where these lack one, what `apt-get download` gives (of Debian's
# release trixie, which has both of syn); nothing is installed. Where that gives nothing, `cargo vendor` asks cargo's
# registry. With PACKAGE.. these packages of the distribution are had too, and what they depend on.
# Each crate that can't be had has a line on standard error, and the status is 1 if any.
set -u
mkdir -p "$1/registry" || exit 2
room=$(cd "$1" && pwd)
shift
registry=$room/registry
wanted=(syn-2 syn-1 quote-1 proc-macro2-1 unicode-ident-1)

lacking() {
    local crate lacks=1
    for crate in "${wanted[@]}"; do
        compgen -G "$registry/$crate.*" > /dev/null || { echo "$crate"; lacks=0; }
    done
    return $lacks
}

installed() {
    local crate path
    for crate in "${wanted[@]}"; do
        for path in "${CARGO_REGISTRY:-/usr/share/cargo/registry}/$crate".*; do
            [ -d "$path" ] && cp -rL "$path" "$registry"
        done
    done
}

# apt-get or apt-cache with all that they write below the room.
apt() {
    "apt-$1" -qq -o Dir::Etc::sourcelist="$room/apt/sources.list" -o Dir::Etc::sourceparts=- \
        -o Dir::State="$room/apt/state" -o Dir::State::status=/dev/null -o Dir::Cache="$room/apt/cache" \
        -o Acquire::Retries=0 -o Acquire::http::Timeout=20 -o APT::Sandbox::User="$(id -un)" "${@:2}"
}

# The packages, with all packages of Rust sources that they depend on.
closure() {
    apt cache depends --recurse --no-recommends --no-suggests --no-conflicts --no-breaks --no-replaces --no-enhances \
        "$@" | sed -n 's/^\(librust-[^:]*\).*/\1/p' | sort -u
}

downloaded() {
    local packages=(librust-{syn,syn-1,quote,proc-macro2,unicode-ident}-dev) mirror deb
    local keys=/usr/share/keyrings/debian-archive-keyring.gpg
    command -v apt-get > /dev/null && command -v dpkg-deb > /dev/null && [ -f $keys ] || return
    mirror=$(cat /etc/apt/sources.list /etc/apt/sources.list.d/* 2> /dev/null \
        | sed -nE 's/^URIs: *([^ ]+).*/\1/p; s/^deb +(\[[^]]*\] +)?([^ ]+).*/\2/p' | grep -v security | head -n 1)
    mkdir -p "$room/apt/state/lists/partial" "$room/apt/cache/archives/partial" "$room/debs"
    echo "deb [signed-by=$keys] $mirror trixie main" > "$room/apt/sources.list"
    apt get update || return
    [ $# -eq 0 ] || mapfile -t -O ${#packages[@]} packages < <(closure "$@")
    (cd "$room/debs" && apt get download "${packages[@]}") || return
    for deb in "$room"/debs/*.deb; do
        dpkg-deb -x "$deb" "$room/unpacked"
    done
    cp -rL "$room"/unpacked/usr/share/cargo/registry/* "$registry"
}

vendored() {
    mkdir -p "$room/vendor/src"
    touch "$room/vendor/src/lib.rs"
    cat > "$room/vendor/Cargo.toml" << 'TOML'
[package]
name = "wanted"
version = "0.1.0"
edition = "2021"

[dependencies]
quote = "1"
syn = "2"
syn-1 = { package = "syn", version = "1" }
TOML
    export CARGO_NET_RETRY=0 CARGO_HTTP_TIMEOUT=20
    (cd "$room/vendor" && cargo vendor --quiet --versioned-dirs "$registry") > /dev/null
}

installed
if lacking > /dev/null || [ $# -gt 0 ]; then
    downloaded "$@" >&2 || vendored >&2
fi
left=$(lacking)
[ -z "$left" ] || printf 'not had: %s\n' $left >&2
[ -z "$left" ]
