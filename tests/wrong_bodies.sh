#!/usr/bin/env bash
# Tests tools/try-wrong-bodies with a prover that only looks at the text: a function is proved where its body is `right`, has no proof
# of its own where it is `wrong`, and none because of what it calls where it is `right` and calls a wrong one. The file `said` beside it
# grows by a line with each check.
set -u
tools=$(cd "$(dirname "${BASH_SOURCE[0]}")/../tools" && pwd)
room=$(mktemp -d)
trap 'rm -rf "$room"' EXIT
passed=0
failed=0

mkdir -p "$room/bin" "$room/kit/bin" "$room/tools" "$room/crates/low/src" "$room/crates/low/wrong-bodies"
cp "$tools/try-wrong-bodies" "$tools/edits.py" "$room/tools/"
echo "low:" >"$room/crates.txt"
printf '#!/bin/sh\necho %s/kit/START-HERE.md\n' "$room" >"$room/bin/rt"
cat >"$room/kit/bin/rattle" <<'EOF'
#!/usr/bin/env python3
import re
import sys

open(sys.argv[0].replace("bin/rattle", "said"), "a").write("checked\n")
bodies = dict(re.findall(r"fn (\w+) (.*)", open("src/lib.rt").read()))
asked = [sys.argv[at + 1] for at, word in enumerate(sys.argv) if word == "--only"]
verdicts = {}
for name, body in bodies.items():
    calls = [it for it in bodies if f"calls {it}" in body and "wrong" in bodies[it]]
    if "wrong" in body:
        verdicts[name] = "not proved"
    else:
        verdicts[name] = f"no proof: it calls `low::{calls[0]}`, which is not proved" if calls else "proved"
for name in asked or bodies:
    print(f"fn low::{name}: {verdicts[name]}")
proved = all(it == "proved" for it in verdicts.values())
print(f"only={len(asked)}" if asked else "logic=proved" if proved else "logic=not-proved")
EOF
chmod +x "$room/bin/rt" "$room/kit/bin/rattle"
printf 'fn above right, calls below\nfn below right\nfn beside right\n' >"$room/crates/low/src/lib.rt"

# A wrong body: its name, its function, what stands there, and what is put there.
add() {
    printf 'fn: %s\nfile: src/lib.rt\nold: %s\nnew: %s\n' "$2" "$3" "$4" >"$room/crates/low/wrong-bodies/$1.edit"
}

# Tries all that were added, with the flags that follow, and compares the lines with those that are wanted.
expect() {
    local wanted=$1 said
    shift
    said=$(PATH="$room/bin:$PATH" XDG_CACHE_HOME="$room/cache" GATE_ENDED="$room/crates.txt" "$room/tools/try-wrong-bodies" "$@" 2>&1 | sort)
    if [ "$said" = "$wanted" ]; then
        passed=$((passed + 1))
    else
        failed=$((failed + 1))
        printf 'wanted:\n%s\nand it says:\n%s\n' "$wanted" "$said"
    fi
    rm -f "$room"/crates/low/wrong-bodies/*
}

# How many checks there were so far.
expect_checks() {
    if [ "$(wc -l <"$room/kit/said")" -eq "$1" ]; then
        passed=$((passed + 1))
    else
        failed=$((failed + 1))
        echo "wanted: $1 checks, and there were $(wc -l <"$room/kit/said")"
    fi
}

add one above "fn above right" "fn above wrong"
add two below "fn below right" "fn below wrong"
add three below "fn below right" "fn below all wrong"
expect "3 passed, 0 failed
wrong body low/one: refused: not proved
wrong body low/three: refused: not proved
wrong body low/two: refused: not proved"

# It isn't refused because what it calls is wrong, nor because another is.
add passes above "fn above right" "fn above right too"
add two below "fn below right" "fn below wrong"
expect "1 passed, 1 failed
wrong body low/passes: NOT REFUSED: logic=proved
wrong body low/two: refused: not proved"

# Where its own function is proved, another one may refuse it.
add elsewhere above "fn beside right" "fn beside wrong"
expect "1 passed, 0 failed
wrong body low/elsewhere: refused: fn low::beside: not proved"

add gone above "fn above left" "fn above wrong"
expect "0 passed, 1 failed
wrong body low/gone: NOT REFUSED: it can't be applied"

# Beside a gate what was refused is kept, and what wasn't is not; each change of what was read has it tried again.
rm "$room/kit/said"
beside_gate() {
    add one above "fn above right" "fn above wrong"
    add passes below "fn below right" "fn below right too"
    expect "$1" --beside-gate
}
told="1 passed, 1 failed
wrong body low/one: refused: not proved
wrong body low/passes: NOT REFUSED: logic=proved"
beside_gate "$told"
expect_checks 3
beside_gate "${told/not proved/not proved (kept)}"
expect_checks 6
printf 'fn other right\n' >>"$room/crates/low/src/lib.rt"
beside_gate "$told"
expect_checks 9
add one above "fn above right" "fn above very wrong"
expect "1 passed, 0 failed
wrong body low/one: refused: not proved" --beside-gate
expect_checks 10

echo "$passed passed, $failed failed"
[ "$failed" -eq 0 ]
