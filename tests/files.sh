#!/usr/bin/env bash
# Tests what the machine's files may be: pipes, directories, files that aren't there or may not be read, texts with other bytes than a
# netlist has, and an output that takes nothing. Messages and statuses are those of docs/messages.md.
#     tests/files.sh PROGRAM
set -u
cd "$(dirname "${BASH_SOURCE[0]}")/../examples"
program=${1:-../cdcaudit}
room=$(mktemp -d)
trap 'rm -rf "$room"' EXIT
passed=0
failed=0

# says NAME OUTPUT STATUS WORDS: with these words the program prints that, with this status, and nothing on standard error.
says() {
    local name=$1 wanted=$2 status=$3 got
    shift 3
    "$program" "$@" >"$room/output" 2>"$room/errors"
    got=$?
    if [ "$(cat "$room/output")" = "$wanted" ] && [ "$got" -eq "$status" ] && [ ! -s "$room/errors" ]; then
        passed=$((passed + 1))
    else
        failed=$((failed + 1))
        echo "$name: status $got and '$(cat "$room/output")'; wanted $status and '$wanted'; on standard error '$(cat "$room/errors")'"
    fi
}

clean=$'cover a -> s1 two-flop 2\nclean crossings=1'
finding=$'V2 a -> s1: no second flop\n  path s1 <- a\n  at 3:3\nviolations=1 crossings=1'

# Files that are no plain files
says "a netlist at standard input" "$clean" 0 audit /dev/stdin two_flop.toml <two_flop.v
says "constraints at standard input" "$clean" 0 audit two_flop.v /dev/stdin <two_flop.toml
says "a netlist from a pipe" "$clean" 0 audit /dev/stdin two_flop.toml < <(cat two_flop.v)
says "both from pipes" "$clean" 0 audit <(cat two_flop.v) <(cat two_flop.toml)
says "a pipe that gives a byte at a time" "$clean" 0 audit <(while IFS= read -r -n 1 -d '' byte; do printf '%s' "$byte"; done <two_flop.v) two_flop.toml
mkfifo "$room/pipe"
cat two_flop.v >"$room/pipe" &
says "a pipe with a name" "$clean" 0 audit "$room/pipe" two_flop.toml
ln -s "$PWD/two_flop.v" "$room/link"
says "a link" "$clean" 0 audit "$room/link" two_flop.toml
says "a device without bytes" "error E301: no top module: m" 3 audit /dev/null two_flop.toml
says "a record from a pipe" "error E501: not JSON" 5 replay two_flop.v two_flop.toml /dev/stdin < <(echo '{')

# Files that can't be read: the line names the one that was asked last
says "a missing netlist" "error E001: cannot read: nowhere.v" 6 audit nowhere.v two_flop.toml
says "missing constraints" "error E001: cannot read: nowhere.toml" 6 audit two_flop.v nowhere.toml
says "the first of two that are missing" "error E001: cannot read: nowhere.v" 6 audit nowhere.v nowhere.toml
says "missing constraints of a netlist that would be refused" "error E001: cannot read: nowhere.toml" 6 audit no_netlist.v nowhere.toml
says "a missing record" "error E001: cannot read: nowhere.json" 6 replay two_flop.v two_flop.toml nowhere.json
says "a missing certificate" "error E001: cannot read: nowhere.cert" 6 check two_flop.v two_flop.toml nowhere.cert
says "a directory" "error E001: cannot read: $room" 6 audit "$room" two_flop.toml
says "a directory as constraints" "error E001: cannot read: $room" 6 certify two_flop.v "$room"
says "a file as a directory" "error E001: cannot read: two_flop.v/net.v" 6 audit two_flop.v/net.v two_flop.toml
says "a name without bytes" "error E001: cannot read" 6 audit "" two_flop.toml
says "a name with a line feed" "error E001: cannot read: no?where" 6 audit $'no\nwhere' two_flop.toml
ln -s circle "$room/circle"
says "a link to itself" "error E001: cannot read: $room/circle" 6 audit "$room/circle" two_flop.toml
says "no standard input" "error E001: cannot read: /dev/stdin" 6 audit /dev/stdin two_flop.toml <&-
cp two_flop.v "$room/locked"
chmod 000 "$room/locked"
if [ "$(id -u)" -eq 0 ]; then
    echo "root may read every file: one without permission isn't tested"
else
    says "a file without permission" "error E001: cannot read: $room/locked" 6 audit "$room/locked" two_flop.toml
fi

# Texts with other bytes
: >"$room/empty"
says "an empty netlist" "error E301: no top module: m" 3 audit "$room/empty" two_flop.toml
says "empty constraints" "error E402: wrong key: top" 4 audit two_flop.v "$room/empty"
says "an empty record" "error E501: not JSON" 5 replay two_flop.v two_flop.toml "$room/empty"
says "an empty certificate" "error E510: not a certificate: line 1" 5 check two_flop.v two_flop.toml "$room/empty"
for name in one_flop.v one_flop.toml chip.sdc gateway.cert; do
    sed 's/$/\r/' "$name" >"$room/$name"
done
says "a netlist and constraints with carriage returns" "$finding" 1 audit "$room/one_flop.v" "$room/one_flop.toml"
says "SDC with carriage returns" "$(sed '$d' chip.expected)" 0 audit chip.v "$room/chip.sdc"
says "a certificate with carriage returns" "error E510: not a certificate: line 1" 5 check gateway.v gateway.toml "$room/gateway.cert"
printf 'module m;\n \0endmodule\n' >"$room/nul.v"
printf 'top = "m"\n\0\n' >"$room/nul.toml"
printf 'current_design m\n\0\n' >"$room/nul.sdc"
says "a netlist with a zero byte" "error E101: no token begins here at 2:2" 3 audit "$room/nul.v" two_flop.toml
says "constraints with a zero byte" "error E401: not TOML" 4 audit two_flop.v "$room/nul.toml"
says "SDC with a zero byte" "error E413: SDC words not read" 4 audit two_flop.v "$room/nul.sdc"
says "a record that is a zero byte" "error E501: not JSON" 5 replay two_flop.v two_flop.toml /dev/stdin < <(printf '\0')
says "a certificate that is a zero byte" "error E510: not a certificate: line 1" 5 check two_flop.v two_flop.toml /dev/stdin < <(printf '\0')
says "a netlist in another encoding" "error E101: no token begins here at 1:1" 3 audit /dev/stdin two_flop.toml < <(printf '\377\376m\0')
says "bytes of the program itself" "error E101: no token begins here at 1:1" 3 audit "$program" two_flop.toml
says "a word that is no UTF-8" "$(head -n 1 usage.expected)" 2 audit $'no\377where' two_flop.toml

# An output that takes nothing: status 7, whatever the words ask for
silent() {
    local name=$1 status=$2
    if [ "$status" -eq 7 ] && [ ! -s "$room/errors" ]; then
        passed=$((passed + 1))
    else
        failed=$((failed + 1))
        echo "$name: status $status; on standard error '$(cat "$room/errors")'"
    fi
}
for words in "audit two_flop.v two_flop.toml" "audit --json one_flop.v one_flop.toml" "audit nowhere two_flop.toml" "replay two_flop.v two_flop.toml unsettled_flop.json" \
    "selftest 2" "certify gateway.v gateway.toml" "check gateway.v gateway.toml gateway.cert" help version "no words"; do
    read -r -a split <<<"$words"
    if [ -c /dev/full ]; then
        "$program" "${split[@]}" >/dev/full 2>"$room/errors"
        silent "a full disk: $words" $?
    fi
    "$program" "${split[@]}" >&- 2>"$room/errors"
    silent "no output: $words" $?
done
{ sleep 0.2; "$program" audit two_flop.v two_flop.toml 2>"$room/errors"; echo "$?" >"$room/status"; } | true
silent "a pipe that nobody reads" "$(cat "$room/status")"

echo "$passed passed, $failed failed"
[ "$failed" -eq 0 ]
