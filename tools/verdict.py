"""The verdict of `cdcaudit audit --json`, with the bits that its lines name, and the clocks and groups of bits."""
import re
from collections import Counter

from names import BIT, SIGNAL, signal_of
from netlist_clocks import Clocks

BETWEEN_BITS = re.compile(rf"V[1278] ({BIT}) -> ({BIT}): .*")
INTO_GROUP = re.compile(rf"V[345] ({BIT}) -> (.*): (?:several clocks|several first flops|\d+ bits by .*)")
ARRIVALS = re.compile(rf"V6 ({BIT}): arrivals of several families from (.*)")
FLOP_LINE = re.compile(rf"  flop ({BIT}) -> ({BIT})")
ARRIVAL_LINE = re.compile(rf"  arrival ({BIT}) of ({BIT}) depth (\d+)")
PATH = "  path "
WAIVED = "  waived: "
FIFO = re.compile(rf"fifo \d+: ({SIGNAL}) -> ({SIGNAL}) depth \d+ crossings (\d+)")
UNKNOWN = "not found"


class Finding:
    """A finding: its code and first line, its path (from the source on), flops (source, flop) or arrivals (bit, source, depth)."""

    def __init__(self, entry):
        self.code = entry["code"]
        self.lines = entry["lines"]
        self.line, *more = self.lines
        self.place = (entry["at"]["line"], entry["at"]["column"])
        self.path = [node for line in more if line.startswith(PATH) for node in line.removeprefix(PATH).split(" <- ")][::-1]
        self.flops = [found.groups() for line in more if (found := FLOP_LINE.fullmatch(line))]
        self.arrivals = [found.groups() for line in more if (found := ARRIVAL_LINE.fullmatch(line))]
        self.reader = found[1] if (found := ARRIVALS.fullmatch(self.line)) else None
        self.declared = self.signal_of_place()
        self.waiver = next((line.removeprefix(WAIVED) for line in more if line.startswith(WAIVED)), None)

    def signal_of_place(self):
        """The signal whose declaration stands at the place."""
        if found := BETWEEN_BITS.fullmatch(self.line):
            return signal_of(found[2])
        if found := INTO_GROUP.fullmatch(self.line) or ARRIVALS.fullmatch(self.line):
            return signal_of(found[1])
        return None

    def groups(self, domains):
        """The groups from which and to which it leads."""
        if found := BETWEEN_BITS.fullmatch(self.line):
            return domains.group_of(found[1]), domains.group_of(found[2])
        if found := INTO_GROUP.fullmatch(self.line):
            return domains.group_of(self.flops[0][0] if self.flops else found[1]), found[2]
        if found := ARRIVALS.fullmatch(self.line):
            return found[2], domains.group_of(found[1])
        return UNKNOWN, UNKNOWN


class Domains:
    """The clocks and groups of bits, by the constraints and what is found in the netlist; the groups are in the order of the constraints."""

    def __init__(self, constraints, netlist):
        self.groups = {clock["name"]: clock["group"] for clock in constraints.get("clock", [])}
        self.order = list(dict.fromkeys(self.groups.values()))
        self.inputs = {entry["name"]: entry["clock"] for entry in constraints.get("input", [])}
        self.clocks = Clocks(netlist, constraints["top"], self.groups)

    def is_input(self, bit):
        return signal_of(bit) in self.inputs

    def clock_of(self, bit):
        signal = signal_of(bit)
        return self.inputs.get(signal) or self.clocks.clock_of(signal) or UNKNOWN

    def group_of(self, bit):
        return self.groups.get(self.clock_of(bit), UNKNOWN)


class Verdict:
    def __init__(self, value):
        self.crossings = value["crossings"]
        self.covers = value["covers"]
        self.rings = value["rings"]
        self.gray = value["gray"]
        self.fifos = value.get("fifos", [])
        self.findings = [Finding(entry) for entry in value["findings"]]
        self.waived = value.get("waived", 0)

    def crossings_by_scheme(self, domains):
        """How many crossings lead from a group to another by a scheme: counts by (from, to, scheme)."""
        counts = Counter()
        for cover in self.covers:
            counts[domains.group_of(cover["from"]), domains.group_of(cover["to"]), cover["scheme"]] += 1
        for line in self.fifos:
            source, target, number = FIFO.fullmatch(line).groups()
            counts[domains.group_of(source), domains.group_of(target), "fifo"] += int(number)
        return counts
