#!/usr/bin/env bash
# Tests the table "A file for each refusal" of docs/constraints.md: each change of examples/files/every_key.toml, or of every_key.v beside it,
# is refused by the line that the page has.
#     tests/constraints.sh PROGRAM
set -u
cd "$(dirname "${BASH_SOURCE[0]}")/../examples"
program=${1:-../cdcaudit}
page=../docs/constraints.md
room=$(mktemp -d)
trap 'rm -rf "$room"' EXIT
passed=0
failed=0

# row LINE TOML [NET]: by these scripts of sed the one file is changed, and the other one.
row() {
    local line=$1 got
    sed -E "$2" files/every_key.toml >"$room/con.toml"
    sed -E "${3:-}" files/every_key.v >"$room/net.v"
    got=$("$program" audit "$room/net.v" "$room/con.toml"; echo "status $?")
    if [ "$got" = "$line"$'\nstatus 4' ] && grep -qF "| \`$line\` |" "$page"; then
        passed=$((passed + 1))
    else
        failed=$((failed + 1))
        echo "$2 ${3:-}: '$got'; wanted '$line', which the page has $(grep -cF "| \`$line\` |" "$page") times"
    fi
}

unclocked='s/posedge cb or negedge rst_n/posedge ca/; s/if \(!rst_n\) .* else//'
row "error E401: not TOML" '0,/\[\[clock\]\]/s//[[clock]/'
row "error E401: not TOML" 's/settle = 2/settle = 99999999999999999999/'
row "error E402: wrong key: settel" 's/settle = 2/settel = 2/'
row "error E402: wrong key: top" '/^top/d'
row "error E402: wrong key: top" 's/^top = "m"/top = 3/'
row "error E402: wrong key: group" 's/group = "B"/group = ""/'
for value in 0 4 2.0 '"2"'; do
    row "error E402: wrong key: settle" "s/settle = 2/settle = $value/"
done
row "error E402: wrong key: active" 's/"low"/"Low"/'
row "error E402: wrong key: reason" '/^reason/d'
row "error E402: wrong key: reason" 's/"reviewed"/""/'
row "error E402: wrong key: static" 's/^top.*/&\nstatic = ["mode"]/; /^\[\[static\]\]/,/^name/d'
row "error E404: name declared twice: ca" '$s/$/\n[[static]]\nname = "ca"/'
row "error E409: no such clock: cc" 's/clock = "ca"/clock = "cc"/'
row "error E410: finding waived twice: V2 a -> s1: no second flop" '$s/$/\n[[waive]]\nfinding = "V2 a -> s1: no second flop"\nreason = "again"/'
row "error E403: no such input or reset: z" '$s/$/\n[[static]]\nname = "z"/'
row "error E407: clock is not one bit: cb" '' "s/ca, cb, d/ca, input [1:0] cb, input d/; $unclocked"
row "error E408: reset is not one bit: rst_n" '' "s/d, rst_n, mode/d, input [1:0] rst_n, input mode/; $unclocked"
row "error E405: input not declared: d" '/^\[\[input\]\]/,/^clock/d'
row "error E406: no declared clock pin: s" '' 's/^  always @\(posedge ca\) s <= d;/  wire g; assign g = ca \& mode; always @(posedge g) s <= d;/'
row "error E406: no declared clock pin: s" '' 's/s <= d;/s <= d ^ cb;/'
row "error E411: waiver meets no finding: V2 a -> s9: no second flop" 's/-> s1:/-> s9:/'
rows=$(sed -n '/^## A file for each refusal/,/^## /p' "$page" | grep -c '^| .*`error ')
if [ "$rows" -eq 19 ]; then
    passed=$((passed + 1))
else
    failed=$((failed + 1))
    echo "the page has $rows rows, of which 19 are tested here"
fi

echo "$passed passed, $failed failed"
[ "$failed" -eq 0 ]
