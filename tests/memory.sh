#!/usr/bin/env bash
# Tests want of memory: the address space is cut down (`ulimit -v`), from where the program can't be loaded up to where its text is whole. In
# between every run ends with status 8, or with the status that it has with ample memory, and with a front of its text; none is ended by a
# signal. Where the limit can't be set nothing is tested.
#     tests/memory.sh PROGRAM
set -u
cd "$(dirname "${BASH_SOURCE[0]}")/../examples"
program=${1:-../cdcaudit}
room=$(mktemp -d)
trap 'rm -rf "$room"' EXIT
passed=0
failed=0

if ! (ulimit -v 4000) 2>/dev/null; then
    echo "the address space can't be limited here: want of memory isn't tested"
    echo "0 passed, 0 failed"
    exit 0
fi

# The status of the words with that many KiB; the text is in the room.
run() {
    local limit=$1
    shift
    (ulimit -v "$limit"; exec "$program" "$@") >"$room/output" 2>"$room/errors"
}

# The least limit, in steps of 4 KiB, at which the words end otherwise than by the loader's refusal (127). Sought from where the program's
# own file just fits.
loaded=$(($(stat -L -c %s "$program") / 1024 + 800))
run "$loaded" version
if [ $? -ne 127 ]; then
    echo "the loader doesn't refuse the program with $loaded KiB: want of memory isn't tested"
    echo "0 passed, 0 failed"
    exit 0
fi
for step in 64 4; do
    while run "$loaded" version; [ $? -eq 127 ]; do
        loaded=$((loaded + step))
    done
    [ "$step" -eq 4 ] || loaded=$((loaded - step))
done

# wants NAME STEP WORDS: from there on by STEP KiB, until the text is whole.
wants() {
    local name=$1 step=$2 limit=$loaded wanted status refusals=0
    shift 2
    "$program" "$@" >"$room/whole"
    wanted=$?
    while true; do
        run "$limit" "$@"
        status=$?
        if [ -s "$room/errors" ] || ! cmp -s "$room/output" <(head -c "$(stat -c %s "$room/output")" "$room/whole") \
            || { [ "$status" -ne 8 ] && { [ "$status" -ne "$wanted" ] || ! cmp -s "$room/output" "$room/whole"; }; }; then
            failed=$((failed + 1))
            echo "$name: status $status with $limit KiB: '$(tail -c 200 "$room/output")' and '$(cat "$room/errors")'"
            return
        fi
        [ "$status" -eq 8 ] || break
        refusals=$((refusals + 1))
        limit=$((limit + step))
    done
    if [ "$refusals" -gt 0 ]; then
        passed=$((passed + 1))
    else
        failed=$((failed + 1))
        echo "$name: no run ended for want of memory"
    fi
}

wants "help" 12 help
wants "a small audit" 12 audit two_flop.v two_flop.toml
wants "an audit with findings, as JSON" 12 audit --json binary_counter.v binary_counter.toml
wants "a refused netlist" 12 audit no_netlist.v no_netlist.toml
wants "an audit under SDC" 12 audit chip.v chip.sdc
wants "a replay" 12 replay early_acknowledgement.v early_acknowledgement.toml torn_data.json
wants "a certificate" 12 certify gateway.v gateway.toml
wants "the check of a certificate" 12 check gateway.v gateway.toml gateway.cert
../bench/design.sh channels 500 >"$room/net.v"
../bench/design.sh constraints >"$room/con.toml"
wants "500 channels" 1000 audit "$room/net.v" "$room/con.toml"
wants "a certificate of 500 channels" 1000 certify "$room/net.v" "$room/con.toml"
wants "a selftest of 200 channels" 600 selftest 200
head -c 8000000 /dev/zero | tr '\0' ' ' >"$room/long.v"
wants "a netlist of 8 million spaces" 2000 audit "$room/long.v" "$room/con.toml"

echo "$passed passed, $failed failed"
[ "$failed" -eq 0 ]
