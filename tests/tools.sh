#!/usr/bin/env bash
# Tests the scripts that make a waveform of a replay and a page of a verdict: what they make of examples is what is stored here and in
# docs/. They need Python 3.11, and nothing is tested where it isn't there.
#     tests/tools.sh PROGRAM
set -u
cd "$(dirname "${BASH_SOURCE[0]}")/../examples"
program=${1:-../cdcaudit}
passed=0
failed=0
refusal=$(head -n 1 no_netlist.expected)

if ! python3 -c 'import tomllib' 2>/dev/null; then
    echo "no Python 3.11: the scripts of tools/ are not tested"
    echo "0 passed, 0 failed"
    exit 0
fi

# expect NAME FILE: what is read is what the file has.
expect() {
    if diff "$2" -; then
        passed=$((passed + 1))
    else
        failed=$((failed + 1))
        echo "$1 differs"
    fi
}

replay() {
    "$program" replay early_acknowledgement.v early_acknowledgement.toml torn_data.json
}

page() {
    "$program" audit --json "$1.v" "$1.toml" | ../tools/report - "$1.v" "$1.toml"
}

expect "the waveform of torn_data" ../tests/torn_data.vcd < <(replay | ../tools/replay-to-vcd)
expect "the picture of torn_data" ../docs/torn_data.svg \
    < <(../tools/wave-svg ca cb req s1 s2 k1 k2 data s3 'races.race_x[1]' x <../tests/torn_data.vcd)
expect "a refusal as a replay" <(echo "replay-to-vcd: no text of a replay: $refusal") < <(echo "$refusal" | ../tools/replay-to-vcd 2>&1)
for name in binary_counter chip fifo_both_ways patterns; do
    expect "the report of $name" "../tests/$name.rows" < <(page "$name" | ../tests/table_rows)
done
expect "the report of a refusal" <(echo "report: no verdict: $refusal") < <(page no_netlist 2>&1)
echo "$passed passed, $failed failed"
[ "$failed" -eq 0 ]
