# A verdict as SARIF 2.1.0, for code scanning. It stands outside the proofs.
#     cdcaudit audit --json NET CON | jq --arg net NET -f tools/sarif.jq
# `net` is the path of the netlist in the repository. A finding with a waiver is there as a suppressed result.

def rules: [
  {id: "V1", name: "NoScheme", short: "No scheme guards the crossing",
   help: "Register the logic on its source's clock and synchronize that one bit. For data of several bits use a handshake."},
  {id: "V2", name: "NoSecondFlop", short: "The synchronizer is too short or is read on its way",
   help: "Add flops on the same clock, let only the next flop read each of them, and take logic and outputs from the last one."},
  {id: "V3", name: "SeveralBits", short: "Several bits of a word that is no Gray register are synchronized one by one",
   help: "Send the word as Gray code, or hold it under a handshake."},
  {id: "V4", name: "SeveralFirstFlops", short: "One bit enters a group by several synchronizers",
   help: "Synchronize it once and let all read the last flop."},
  {id: "V5", name: "SeveralClocks", short: "Bits of one word enter a group by flops of several clocks",
   help: "Synchronize the word on one clock of the group."},
  {id: "V6", name: "SeveralFamilies", short: "A register reads synchronized copies of several bits that aren't one Gray code",
   help: "Combine them in a register of their own clock, send them as one Gray register, or hold them under one handshake."},
  {id: "V7", name: "NotHeld", short: "The data that a handshake's gate loads isn't held",
   help: "Let the data's register load only while request and last flop agree."},
  {id: "V8", name: "NotGated", short: "Data that a handshake holds is read without its gate",
   help: "Load it only where two neighbours of the ring, from the second flop on, differ."}
];

def rule:
  {id, name,
   shortDescription: {text: .short},
   fullDescription: {text: .short},
   help: {text: .help},
   defaultConfiguration: {level: "error"}};

def reason: .lines[-1] | select(startswith("  waived: ")) | .[10:];

def result:
  . as $finding
  | {ruleId: .code,
     ruleIndex: (.code[1:] | tonumber - 1),
     level: "error",
     message: {text: (.lines | join("\n"))},
     locations: [{physicalLocation: {
       artifactLocation: {uri: $net},
       region: {startLine: .at.line, startColumn: .at.column, endLine: .at.line, endColumn: (.at.column + 1)}}}],
     partialFingerprints: {primaryLocationLineHash: .lines[0]}}
  | . + ([$finding | reason] | if length > 0 then {suppressions: [{kind: "external", justification: .[0]}]} else {} end);

{"$schema": "https://json.schemastore.org/sarif-2.1.0.json",
 version: "2.1.0",
 runs: [{
   tool: {driver: {name: "cdcaudit", rules: (rules | map(rule))}},
   results: [.findings[] | result]}]}
