#!/usr/bin/env bash
# Runs the program on each example and compares its output and status with what is stored beside it. An example is
# NAME.v, NAME.toml and NAME.expected, whose last line is the status. NAME.words, where there is one, has the words behind
# the program's name, as for a record NAME.json of the design of another example.
set -u
cd "$(dirname "${BASH_SOURCE[0]}")"
program=${1:-../cdcaudit}
passed=0
failed=0
for expected in *.expected; do
    name=${expected%.expected}
    words=(audit "$name.v" "$name.toml")
    [ -f "$name.words" ] && read -r -a words <"$name.words"
    answer=$("$program" "${words[@]}"; echo "status $?")
    if [ "$answer" = "$(cat "$expected")" ]; then
        passed=$((passed + 1))
    else
        failed=$((failed + 1))
        echo "$name differs:"
        diff <(cat "$expected") <(echo "$answer")
    fi
done
echo "$passed passed, $failed failed"
[ "$failed" -eq 0 ]
