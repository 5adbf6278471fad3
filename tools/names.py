"""Names as cdcaudit prints them: parts joined by dots, a part that is no plain identifier as `\\`, its bytes and a space."""
import re

PART = r"(?:\\[!-~]+ |[A-Za-z_][A-Za-z0-9_$]*)"
SIGNAL = rf"{PART}(?:\.{PART})*"
BIT = rf"{SIGNAL}(?:\[\d+\])?"


def printed_parts(name):
    return re.findall(PART, name)


def signal_of(bit):
    return re.match(SIGNAL, bit)[0]


def path_of(name):
    """The instances and the signal, each without the marks of an escaped name."""
    return tuple(part[1:-1] if part.startswith("\\") else part for part in printed_parts(name))
