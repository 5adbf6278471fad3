"""Finds the clock of each register of a netlist in the language of docs/language.md.

It reads what tells clocks and skips the rest: ports, instances, plain copies, and the events and targets of clocked processes. It takes
a netlist that cdcaudit has accepted, and answers None where it finds no declared clock. It is no part of what is proved.
"""
import re

from names import path_of

TOKEN = re.compile(
    r"""
    \s+ | //[^\n]* | /\*.*?\*/ | `[^\n]*
  | \(\*(?!\s*\))(?:"(?:\\.|[^"\\])*"|[^"])*?\*\)
  | (?P<kept> \\[!-~]+ | [A-Za-z_][A-Za-z0-9_$]* | (?:\d[\d_]*)?\s*'[bodhBODH]\s*[0-9A-Fa-f_?]+ | \d[\d_]* | <= | >= | == | != | . )
    """,
    re.VERBOSE | re.DOTALL,
)
GATES = {"and", "nand", "or", "nor", "xor", "xnor", "buf", "not"}
DECLARATIONS = {"input", "output", "wire", "reg", "parameter", "localparam"}
CLOSED_BY = {"(": ")", "[": "]", "{": "}"}


def tokens_of(text):
    return [found["kept"] for found in TOKEN.finditer(text) if found["kept"]]


def is_name(token):
    return token.startswith("\\") or token[0].isalpha() or token[0] == "_"


def bare(token):
    return token.removeprefix("\\")


def split(tokens, separator=","):
    """The parts of a list between separators that stand in no brackets."""
    parts, depth = [[]], 0
    for token in tokens:
        depth += (token in "([{") - (token in ")]}")
        if token == separator and depth == 0:
            parts.append([])
        else:
            parts[-1].append(token)
    return parts


def outside_brackets(tokens):
    """The tokens that stand in no square brackets."""
    kept, depth = [], 0
    for token in tokens:
        depth -= token == "]"
        if depth == 0 and token != "]":
            kept.append(token)
        depth += token == "["
    return [token for token in kept if token != "["]


class Module:
    def __init__(self):
        self.ports = []
        self.edges = {}  # the signals of the event of a register's process
        self.copied = {}  # what a wire is a plain copy of
        self.instances = {}  # the module of an instance, and its connections by position or by name

    def connection(self, instance, port, modules):
        module, connections = self.instances[instance]
        if port in connections:
            return connections[port]
        ports = modules[module].ports if module in modules else []
        return connections.get(ports.index(port)) if port in ports else None


class Reader:
    def __init__(self, tokens):
        self.tokens = tokens
        self.at = 0

    def peek(self):
        return self.tokens[self.at] if self.at < len(self.tokens) else ""

    def take(self):
        token = self.peek()
        if not token:
            raise EOFError("the netlist ends too early")
        self.at += 1
        return token

    def take_if(self, token):
        found = self.peek() == token
        self.at += found
        return found

    def take_until(self, *ends):
        """The tokens up to the first of the ends that stands in no brackets; that one is passed over."""
        start, depth = self.at, 0
        while depth > 0 or self.peek() not in ends:
            token = self.take()
            depth += (token in "([{") - (token in ")]}")
        self.at += 1
        return self.tokens[start : self.at - 1]

    def brackets(self):
        """The tokens inside the brackets that open here."""
        return self.take_until(CLOSED_BY[self.take()])

    def modules(self):
        modules = {}
        while self.peek():
            self.take()
            name = bare(self.take())
            modules[name] = self.module()
        return modules

    def module(self):
        module = Module()
        if self.take_if("#"):
            self.brackets()
        if self.peek() == "(":
            module.ports = [port for part in split(self.brackets()) if (port := port_name(part))]
        self.take_until(";")
        while not self.take_if("endmodule"):
            self.item(module)
        return module

    def item(self, module):
        word = self.take()
        if word in DECLARATIONS:
            read_copies(self.take_until(";"), module, word == "wire")
        elif word == "assign":
            read_copies(self.take_until(";"), module, True)
        elif word in GATES:
            read_gates(word, self.take_until(";"), module)
        elif word in ("always", "initial"):
            edges = self.event() if self.take_if("@") else []
            self.statement(module, edges)
        else:
            read_instances(bare(word), self.take_until(";"), module)

    def event(self):
        """The signals whose edges an event names; none for `@*`."""
        if self.take_if("*"):
            return []
        words = self.brackets()
        return [bare(name) for edge, name in zip(words, words[1:]) if edge in ("posedge", "negedge")]

    def statement(self, module, edges):
        self.delay()
        if self.take_if("begin"):
            if self.take_if(":"):
                self.take()
            while not self.take_if("end"):
                self.statement(module, edges)
        elif self.take_if("if"):
            self.brackets()
            self.statement(module, edges)
            if self.take_if("else"):
                self.statement(module, edges)
        elif self.peek() in ("case", "casez"):
            self.take()
            self.brackets()
            while not self.take_if("endcase"):
                self.case_item(module, edges)
        elif not self.take_if(";"):
            self.assignment(module, edges)

    def delay(self):
        if self.take_if("#"):
            self.brackets() if self.peek() == "(" else self.take()

    def case_item(self, module, edges):
        if self.take_if("default"):
            self.take_if(":")
        else:
            self.case_label()
        self.statement(module, edges)

    def case_label(self):
        """Passes over a label and its `:`; each `?` in it has a `:` of its own."""
        choices = 1
        while choices:
            self.take_until(":", "?")
            choices += 1 if self.tokens[self.at - 1] == "?" else -1

    def assignment(self, module, edges):
        target = self.take_until("<=", "=")
        self.take_until(";")
        if edges:
            for token in outside_brackets(target):
                if is_name(token):
                    module.edges[bare(token)] = edges


def port_name(part):
    """The name of a port, which stands last in its entry, before a start value."""
    names = [token for token in outside_brackets(split(part, "=")[0]) if is_name(token)]
    return bare(names[-1]) if names else None


def read_copies(tokens, module, may_copy):
    """Keeps `target = source` where both are plain names."""
    for part in split(tokens):
        sides = split(part, "=")
        if may_copy and len(sides) == 2 and len(sides[1]) == 1 and is_name(sides[1][0]):
            module.copied[bare(outside_brackets(sides[0])[-1])] = bare(sides[1][0])


def read_gates(gate, tokens, module):
    for part in split(tokens):
        terminals = split(part[part.index("(") + 1 : -1]) if "(" in part else []
        if gate == "buf" and len(terminals) == 2 and all(len(terminal) == 1 for terminal in terminals):
            module.copied[bare(terminals[0][0])] = bare(terminals[1][0])


def read_instances(name, tokens, module):
    for part in split(tokens):
        reader = Reader(part)
        if reader.take_if("#"):
            reader.brackets()
        instance = bare(reader.take())
        module.instances[instance] = (name, connections_of(reader.brackets()))


def connections_of(tokens):
    """Plain names by the number or the name of the port to which they are connected."""
    connections = {}
    for position, part in enumerate(split(tokens)):
        if part[:1] == ["."]:
            key, part = bare(part[1]), part[3:-1]
        else:
            key = position
        if len(part) == 1 and is_name(part[0]):
            connections[key] = bare(part[0])
    return connections


class Clocks:
    """The clocks of a netlist's registers, by the names that the constraints give to clocks."""

    def __init__(self, text, top, clocks):
        self.modules = Reader(tokens_of(text)).modules()
        self.top = top
        self.clocks = {path_of(clock): clock for clock in clocks}
        self.known = {}

    def module_at(self, instances):
        module = self.modules.get(self.top)
        for instance in instances:
            module = module and self.modules.get(module.instances.get(instance, (None,))[0])
        return module

    def clock_of(self, signal):
        """The clock of a register by its printed name, or None."""
        *instances, name = path_of(signal)
        module = self.module_at(instances)
        if module is None:
            return None
        edges = module.edges.get(name) or module.edges.get(re.sub(r"\[\d+\]$", "", name), [])
        clocks = {clock for edge in edges if (clock := self.clock_of_net(tuple(instances), edge))}
        return clocks.pop() if len(clocks) == 1 else None

    def clock_of_net(self, instances, name):
        if (instances, name) not in self.known:
            self.known[instances, name] = None  # where a net leads back to itself
            self.known[instances, name] = self.find_clock(instances, name)
        return self.known[instances, name]

    def find_clock(self, instances, name):
        if instances + (name,) in self.clocks:
            return self.clocks[instances + (name,)]
        module = self.module_at(instances)
        if name in module.copied:
            return self.clock_of_net(instances, module.copied[name])
        if name in module.ports and instances:
            outer = self.module_at(instances[:-1]).connection(instances[-1], name, self.modules)
            return outer and self.clock_of_net(instances[:-1], outer)
        return self.clock_from_below(instances, name, module)

    def clock_from_below(self, instances, name, module):
        """The clock that an instance hands out to this net."""
        for instance, (inner_name, _) in module.instances.items():
            inner = self.modules.get(inner_name)
            for port in inner.ports if inner else []:
                hands_out = port in inner.copied or instances + (instance, port) in self.clocks
                if hands_out and module.connection(instance, port, self.modules) == name:
                    return self.clock_of_net(instances + (instance,), port)
        return None
