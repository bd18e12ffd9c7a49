#!/bin/sh
# Tries edits that plant bugs: the prover must refuse each. `dev/bugs/try.sh --help` says more.
exec python3 "$(dirname "$0")/try_edits.py" "$@"
