"""The ports of the designs of this folder, read from their headers.

A range is of decimal numbers, parameters with decimal defaults, `+` and `-`.
"""

import os
import re

# A direction, the bounds of a range or nothing, and the names.
GROUP = (
    r"\b(input|output)\b(?:\s+(?:wire|reg|signed))*"
    r"\s*(?:\[([^:\]]*):([^\]]*)\])?"
    r"\s*(\w+(?:\s*,\s*(?!input\b|output\b)\w+)*)"
)

FOLDER = os.path.dirname(os.path.realpath(__file__))


def source(name):
    with open(os.path.join(FOLDER, name + ".v")) as file:
        return file.read()


def names():
    """The designs, in the order of their names."""
    return sorted(name[:-2] for name in os.listdir(FOLDER) if name.endswith(".v"))


def value(text, parameters):
    """The value of a bound: a sum of numbers and parameters."""
    terms = re.findall(r"([+-]?)\s*(\w+)", text)
    return sum((-1 if sign == "-" else 1) * (int(term) if term.isdigit() else parameters[term]) for sign, term in terms)


def ports_of(text):
    """The inputs without the clock `clk`, and the outputs, each a list of names and widths in the order of the text."""
    header = re.sub(r"//.*", "", text)
    header = header[: header.index(";")]
    parameters = {name: int(number) for name, number in re.findall(r"(\w+)\s*=\s*(\d+)\s*(?=[,)])", header)}
    ports = {"input": [], "output": []}
    for kind, high, low, listed in re.findall(GROUP, header):
        width = value(high, parameters) - value(low, parameters) + 1 if high else 1
        ports[kind] += [(name.strip(), width) for name in listed.split(",") if name.strip() != "clk"]
    return ports["input"], ports["output"]
