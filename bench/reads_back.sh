#!/usr/bin/env bash
# Checks that pretty texts read back: that what `tokens pretty` writes for a Rust file has the tokens of the file, but
# for the spacing of marks and the spelling of doc literals. `tokens pretty` writes a mark close to the next one where
# the layout wants no space, as `*@` for `* @` in a macro. It writes `#[doc = r" a"]` as a comment, whose literal is
# `" a"`.
#
#   bench/reads_back.sh TOKENS FOLDER
#
# TOKENS is the program that `cargo build --release` in cargo/tokens makes. Every file below FOLDER is read whose name
# ends with `.rs`. The last line is `N read back, M don't, K don't parse`, and the status is 0 only if all files read
# back, and there are some.
set -u
tokens=$(realpath "$1") || exit 1
room=$(mktemp -d)
trap 'rm -rf "$room"' EXIT
text=$room/text

# Whether the tokens of two files are the same, but that the second may lack spaces between two marks of the first, and
# that doc literals need only have the same value.
same_but_for_marks() {
    "$tokens" print < "$1" > "$room/first" && "$tokens" print < "$2" > "$room/second" || return 1
    python3 - "$room/first" "$room/second" << 'END'
import re
import sys
SHORT = {"n": "\n", "r": "\r", "t": "\t", "0": "\0"}


def unescaped(escape):
    """What an escape in a string stands for."""
    text = escape[1]
    if text[0].isspace():
        return ""
    return chr(int(text[1:].strip("{}").replace("_", ""), 16)) if text[0] in "xu" else SHORT.get(text, text)


def spelled(doc):
    """A doc attribute whose literal is its value, in one spelling."""
    value = doc[2] if doc[2] is not None else re.sub(r"\\(x..|u\{[^}]*\}|\n\s*|.)", unescaped, doc[3])
    return f"[doc = {value!r}]"


def texts(name):
    """The text with one spelling for each value of a doc literal."""
    text = open(name, encoding="utf-8", newline="").read()
    return re.sub(r'\[doc = (?:r(#*)"(.*?)"\1|"((?:[^"\\]|\\.)*)")\]', spelled, text, flags=re.S)


first, second = map(texts, sys.argv[1:])
marks, at = set("~!@#$%^&*-=+|;:,<.>/?'"), 0
for place, character in enumerate(first):
    if second[at:at + 1] == character:
        at += 1
    elif character != " " or not {*first[place - 1:place], *first[place + 1:place + 2]} <= marks:
        sys.exit(f"{sys.argv[1]}: the texts differ at {first[place:place + 40]!r}")
sys.exit(at != len(second))
END
}

has_same_tokens() {
    "$tokens" same -- "$1" "$2" > /dev/null || same_but_for_marks "$1" "$2"
}

same=0
differ=0
faulty=0

while IFS= read -r -d '' file; do
    status=0
    "$tokens" pretty -- "$file" > "$text" 2> /dev/null || status=$?
    if [ "$status" -eq 1 ]; then
        faulty=$((faulty + 1))
        echo "doesn't parse: $file"
    elif [ "$status" -eq 0 ] && has_same_tokens "$file" "$text"; then
        same=$((same + 1))
    else
        differ=$((differ + 1))
        echo "FAILED: $file"
    fi
done < <(find "$2" -name '*.rs' -type f -print0 | sort -z)
echo "$same read back, $differ don't, $faulty don't parse"
[ "$((differ + faulty))" -eq 0 ] && [ "$same" -gt 0 ]
