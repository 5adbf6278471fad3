#!/usr/bin/env bash
# Makes the table of docs/campaigns.md anew: for each design of examples/ with a finding V1, V2, V7 or V8, in which step a campaign of 1,000
# steps with the seed 1 finds a capture, or that it finds none. What the last column says is kept from the page.
#     captures.sh [PROGRAM]            prints the rows
#     captures.sh [PROGRAM] --check    compares them with those of the page
set -u
top=$(cd "$(dirname "${BASH_SOURCE[0]}")/.." && pwd)
program=$(realpath "${1:-$top/bin/cdcaudit-x86_64-linux}") || exit 1
page=$top/docs/campaigns.md
cd "$top/examples" || exit 1

# The step of the capture, which is the last one of the record; or none.
step_of() {
    local record status
    record=$("$program" campaign 1000 1 "$1.v" "$1.toml")
    status=$?
    case $status in
    0) echo none ;;
    1) grep -o '"edges"' <<<"$record" | wc -l ;;
    *) echo "status $status" ;;
    esac
}

rows() {
    local expected name found note
    for expected in *.expected; do
        name=${expected%.expected}
        found=$(grep -oE '^V[1-8]' "$expected" | sort -u | paste -s -d, | sed 's/,/, /g')
        if [ -f "$name.v" ] && grep -qE '^V[1278] ' "$expected"; then
            note=$(grep -F "| [$name.v]" "$page" | sed -E 's/^(\|[^|]*){3}\| ?(.*[^ ])? ?\|$/\2/')
            echo "| [$name.v](../examples/$name.v) | $found | $(step_of "$name") | ${note:+$note }|"
        fi
    done
}

if [ "${2:-}" = --check ]; then
    diff <(grep -E '^\| \[[a-z_0-9]+\.v\]' "$page") <(rows) && echo "the table is as the program has it"
else
    rows
fi
