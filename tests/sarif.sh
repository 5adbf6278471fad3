#!/usr/bin/env bash
# Tests tools/sarif.jq: that the SARIF of some verdicts has each field that code scanning asks for, and the counts of the verdict.
#     tests/sarif.sh [PROGRAM]
set -u
cd "$(dirname "${BASH_SOURCE[0]}")/.."
program=${1:-bin/cdcaudit-x86_64-linux}
passed=0
failed=0

fields='
def is_text: type == "string" and length > 0;
def is_rule: (.id | is_text) and ([.shortDescription, .fullDescription, .help] | all(.text | is_text));
def is_region: [.startLine, .startColumn, .endLine, .endColumn] | all(type == "number" and . >= 1);
def is_place: (.artifactLocation.uri == $net) and (.region | is_region);
def is_result($rules): ($rules[.ruleIndex].id == .ruleId) and (.message.text | is_text) and (.locations | length == 1)
  and (.locations[0].physicalLocation | is_place) and (.partialFingerprints.primaryLocationLineHash | is_text);
(."$schema" | is_text) and .version == "2.1.0" and (.runs | length == 1)
and (.runs[0] | .tool.driver as $driver
  | ($driver.name | is_text) and ($driver.rules | all(is_rule)) and (.results | all(is_result($driver.rules)))
  and (.results | length == ($verdict.findings | length))
  and ([.results[] | select(.suppressions)] | length == ($verdict.waived // 0)))'

for name in two_flop logic_before_flop one_flop counter_by_three two_first_flops two_readers flags_combined data_not_held data_not_gated register_file; do
    net=examples/$name.v
    verdict=$("$program" audit --json "$net" "examples/$name.toml")
    if echo "$verdict" | jq --arg net "$net" -f tools/sarif.jq | jq -e --arg net "$net" --argjson verdict "$verdict" "$fields" >/dev/null; then
        passed=$((passed + 1))
    else
        failed=$((failed + 1))
        echo "the SARIF of $name lacks something"
    fi
done
echo "$passed passed, $failed failed"
[ "$failed" -eq 0 ]
