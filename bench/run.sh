#!/usr/bin/env bash
# Processor time and peak memory of the program, a line a run: what was run, seconds, MiB, and the last line that it printed.
# Where iverilog is installed, its own reading of the same netlist (-g2005 -t null) stands beside it, for two minutes at most.
#   run.sh [PROGRAM]             the designs
#   run.sh [PROGRAM] fifos       those with FIFOs alone, and the same without
#   run.sh [PROGRAM] certificates    checks of certificates beside the audits of the same designs
#   run.sh [PROGRAM] campaign    a replay and a campaign of 500 channels, beside a simulation by iverilog's vvp
#   run.sh [PROGRAM] hostile     the texts that ask for trouble
set -eu
cd "$(dirname "${BASH_SOURCE[0]}")"
program=${1:-../bin/cdcaudit-x86_64-linux}
room=$(mktemp -d)
trap 'rm -rf "$room"' EXIT

timed() {
    local name=$1
    shift
    python3 - "$name" "$room/output" "$@" <<'P'
import os, subprocess, sys
name, output, words = sys.argv[1], sys.argv[2], sys.argv[3:]
with open(output, "wb") as sink:
    child = subprocess.Popen(words, stdout=sink, stderr=subprocess.STDOUT)
    _, status, used = os.wait4(child.pid, 0)
took = used.ru_utime + used.ru_stime
with open(output, "rb") as said:
    said.seek(max(0, os.path.getsize(output) - 200))
    lines = said.read().decode(errors="replace").splitlines()
print("%-34s %8.2f s %7.0f MiB  %s" % (name, took, used.ru_maxrss / 1024, lines[-1][:70] if lines else ""), flush=True)
if "updates" in os.environ and os.waitstatus_to_exitcode(status) < 2:
    print("%-34s %8.2f million a second" % ("  register-bit updates", int(os.environ["updates"]) / took / 1e6), flush=True)
P
}

compiler() {
    if command -v iverilog >/dev/null; then
        timed "  iverilog on it" timeout 120 iverilog -g2005 -t null "$room/net.v"
    fi
}

audit() {
    ./design.sh "$@" >"$room/net.v"
    timed "audit of $*" "$program" audit "$room/net.v" "$room/con.toml"
    compiler
}

# Replays of that many steps, in each of which all register bits tick: 10 of a handshake, 12,000 of 500 channels.
replay() {
    ./design.sh "$3" ${4+"$4"} >"$room/net.v"
    ./design.sh record "$1" >"$room/run.json"
    updates=$(($2 * $1)) timed "replay of $1 steps of $3" "$program" replay "$room/net.v" "$room/con.toml" "$room/run.json"
}

# FIFOs of 16 words of 32 bits, recognised and not: the search for FIFOs and the findings are what differs.
fifos() {
    for count in 100 500; do
        audit fifos "$count"
        audit no_fifos "$count"
    done
}

# The check of a clean design's certificate beside its audit.
certificate() {
    ./design.sh "$@" >"$room/net.v"
    timed "audit of $*" "$program" audit "$room/net.v" "$room/con.toml"
    "$program" certify "$room/net.v" "$room/con.toml" >"$room/cert"
    timed "  check of its certificate" "$program" check "$room/net.v" "$room/con.toml" "$room/cert"
}

certificates() {
    certificate channels 500
    certificate channels 10000
    certificate fifos 500
}

# A campaign of that many steps of 500 channels: eight runs, in which ca ticks in 13 of 16 steps on average and cb in 10, each the clock of
# half of the register bits. Beside it one run of a simulator, with clocks and inputs drawn in the same way.
campaign() {
    ./design.sh channels 500 >"$room/net.v"
    local ticking=$((12000 * $1 * 23 / 32))
    updates=$((8 * ticking)) timed "campaign of $1 steps of channels" "$program" campaign "$1" 1 "$room/net.v" "$room/con.toml"
    if command -v iverilog >/dev/null && command -v vvp >/dev/null; then
        ./design.sh testbench "$1" >"$room/bench.v"
        iverilog -g2005 -s bench -o "$room/bench.vvp" "$room/bench.v" "$room/net.v"
        updates=$ticking timed "  one run by vvp" timeout 600 vvp -n "$room/bench.vvp"
    fi
}

./design.sh constraints >"$room/con.toml"
case ${2:-} in
fifos)
    fifos
    exit
    ;;
certificates)
    certificates
    exit
    ;;
campaign)
    replay 10000 12000 channels 500
    campaign 10000
    exit
    ;;
esac
if [ "${2:-}" = hostile ]; then
    for kind in identifier parentheses comment spaces ports labels drivers wires deep; do
        ./design.sh hostile "$kind" >"$room/net.v"
        timed "$kind" "$program" audit "$room/net.v" "$room/con.toml"
    done
    ./design.sh hostile inputs >"$room/net.v"
    ./design.sh many_inputs 1000000 >"$room/inputs.toml"
    timed "a million inputs" "$program" audit "$room/net.v" "$room/inputs.toml"
    ./design.sh channels 100 >"$room/net.v"
    ./design.sh waivers 1000000 >"$room/waivers.toml"
    timed "a million waivers" "$program" audit "$room/net.v" "$room/waivers.toml"
    { head -c 268435400 /dev/zero | tr '\0' a && echo ' = 1'; } >"$room/key.toml"
    timed "one key of 256 MiB" "$program" audit "$room/net.v" "$room/key.toml"
    exit
fi
timed "selftest 10000" "$program" selftest 10000
for count in 100 500 2000 10000; do
    audit channels "$count"
done
for count in 1000 4000 16000; do
    audit blocks "$count"
done
for count in 880 3520 14080; do
    audit chip "$count"
done
fifos
audit gates 1000000
audit doublings
certificates
replay 100000 10 handshake
replay 10000 12000 channels 500
campaign 10000
