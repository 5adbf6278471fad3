#!/usr/bin/env bash
# Tests ./cdcaudit: which program it runs, when it builds, and what it says where it can't. The toolchain's rt is a script of
# this test's own, which counts its calls and makes a program, or fails.
set -u
cd "$(dirname "${BASH_SOURCE[0]}")/.."
room=$(mktemp -d)
trap 'rm -rf "$room"' EXIT
top=$room/checkout
passed=0
failed=0

# A checkout with one crate, whose program at hand prints the words that it got.
checkout() {
    rm -rf "$room/checkout" "$room/calls"
    mkdir -p "$top/bin" "$top/tools" "$top/crates/cdcaudit/src"
    cp cdcaudit "$top/"
    cp tools/sources "$top/tools/"
    echo "cdcaudit:" >"$top/crates.txt"
    echo "fn main() {}" >"$top/crates/cdcaudit/src/main.rt"
    program "$top/bin/cdcaudit-x86_64-linux" "at hand"
    "$top/tools/sources" >"$top/bin/SOURCES"
}

program() {
    printf '#!/bin/sh\necho "%s: $*"\nexit 9\n' "$2" >"$1"
    chmod +x "$1"
}

# An rt that makes the program, or with the word `fails` none.
toolchain() {
    mkdir -p "$room/toolchain"
    {
        echo '#!/bin/sh'
        echo "echo call >>'$room/calls'"
        [ "$1" = fails ] || echo "mkdir -p out; printf '#!/bin/sh\\necho \"built: \$*\"\\nexit 3\\n' >out/cdcaudit; chmod +x out/cdcaudit"
        echo 'echo "error: a proof is open" >&2; exit 1'
    } >"$room/toolchain/rt"
    chmod +x "$room/toolchain/rt"
}

calls() {
    [ -f "$room/calls" ] && wc -l <"$room/calls" | tr -d ' ' || echo 0
}

# expect NAME OUTPUT STATUS CALLS, of the wrapper's run with these words; $path is its PATH.
expect() {
    local name=$1 output=$2 status=$3 builds=$4
    shift 4
    local got got_status
    got=$(PATH=$path "$top/cdcaudit" "$@" 2>"$room/errors")
    got_status=$?
    if [ "$got" = "$output" ] && [ "$got_status" -eq "$status" ] && [ "$(calls)" = "$builds" ]; then
        passed=$((passed + 1))
    else
        failed=$((failed + 1))
        echo "$name: '$got', status $got_status, $(calls) builds; wanted '$output', status $status, $builds builds"
        cat "$room/errors"
    fi
}

says() {
    if grep -qF "$2" "$room/errors"; then
        passed=$((passed + 1))
    else
        failed=$((failed + 1))
        echo "$1: standard error lacks '$2':"
        cat "$room/errors"
    fi
}

without=/usr/bin:/bin
with=$room/toolchain:$without
path=$without

checkout
expect "the program at hand runs without a toolchain" "at hand: audit n c" 9 0 audit n c
find "$top/crates" -exec touch {} +
expect "newer times of the same sources build nothing" "at hand: x" 9 0 x
CDCAUDIT_WHICH=1 expect "it can be asked which program runs" "at hand: x" 9 0 x
says "it can be asked which program runs" "bin/cdcaudit-x86_64-linux"

program "$top/bin/cdcaudit-x86_64-linux" '$(ulimit -Ss)'
ulimit -Ss 4096
expect "the program gets as much stack as it may" "$(ulimit -Hs): x" 9 0 x

echo "// changed" >>"$top/crates/cdcaudit/src/main.rt"
expect "other sources without a toolchain are refused" "" 125 0 x
says "other sources without a toolchain are refused" "rt is not on the path"

path=$with
toolchain makes
expect "other sources are built" "built: x y" 3 1 x y
expect "what was built runs again" "built: x" 3 1 x
git_back=$(cat "$top/crates/cdcaudit/src/main.rt")
echo "// broken" >>"$top/crates/cdcaudit/src/main.rt"
toolchain fails
expect "a failed build runs nothing older" "" 125 2 x
says "a failed build runs nothing older" "could not be built"
echo "$git_back" >"$top/crates/cdcaudit/src/main.rt"
toolchain makes
expect "sources that came back are built again" "built: x" 3 3 x

checkout
CDCAUDIT_BUILD=1 expect "a build can be asked for" "built: x" 3 1 x
checkout
rm "$top/bin/SOURCES"
expect "a program without its checksum doesn't count" "built: x" 3 1 x

echo "$passed passed, $failed failed"
[ "$failed" -eq 0 ]
