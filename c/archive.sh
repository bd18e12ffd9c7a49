#!/usr/bin/env bash
# Builds the static library, crates/pm_c/out/libpm_c.a, where it is older than its sources.
#
#   c/archive.sh
#
# It is `rt lib`, which takes what earlier checks kept. Where there are only the libraries that `rt ci` left, without
# the stamp that `rt lib` asks for, it is the build with which `rt lib` ends, over those: so pm_c alone is proved once
# more.
set -eu
crates=$(cd "$(dirname "$0")/../crates" && pwd)
archive=$crates/pm_c/out/libpm_c.a

# Whether this file is there, and newer than all sources of the crates.
is_new() {
    [ -f "$1" ] && [ -z "$(find "$crates" "$crates/../crates.txt" -path '*/out' -prune -o -path '*/must-fail' -prune \
        -o -newer "$1" \( -name '*.rt' -o -name '*.antt' -o -name crates.txt \) -print -quit)" ]
}

is_new "$archive" && exit
cd "$crates/pm_c"
libraries=$(sed -n 's/^pm_c staticlib: //p' ../../crates.txt)
for name in $libraries; do
    left=../$name/out/rlib
    if [ -d "../$name" ] && { [ -e "$left/stamp" ] || ! is_new "$left/$name.rlib/format"; }; then
        exec rt lib
    fi
done
python3 - "$(dirname "$(readlink -f "$(command -v rt)")")" << 'END' || exec rt lib
import os
import sys

sys.path.insert(0, sys.argv[1])
sys.dont_write_bytecode = True
import rtlib

crate = rtlib.Crate(os.getcwd(), os.path.realpath("../.."), {})
if not all(os.path.isdir(library.rlib) for library in crate.below()):
    sys.exit(1)
os.makedirs("out", exist_ok=True)
sys.exit(crate.build_static(["--jobs", "2"]))
END
