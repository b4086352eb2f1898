#!/usr/bin/env -S python3 -B
"""Looks for synchronisers in the structure of a circuit, which no simulation shows.

    crossings.py NETLIST CLOCK.. --skews NAME..

NETLIST is yosys' JSON of a flat circuit of gates (`simplemap`). Each input but those CLOCKs, each
output of a part of the chip, and each flip-flop that another clock's flip-flops depend on, must go
to exactly one flip-flop of that clock, and from there to exactly one more, with no gate but an
inverter between. A bit of one of the NAMEs, which are wires, may cross without: it stands still
when it is read. Prints how many bits cross, or which do otherwise (status 1)."""

import json
import sys
from collections import defaultdict

FLIP_FLOPS = ("$_DFF_P_", "$_DFF_N_")


class Circuit:
    def __init__(self, module):
        self.cells, self.ports = module["cells"], module["ports"]
        self.names, self.readers, self.driver = {}, defaultdict(list), {}
        for name, net in module["netnames"].items():
            for place, bit in enumerate(net["bits"]):
                self.names.setdefault(bit, f"{name}[{place}]")
        for name, cell in self.cells.items():
            for port, bits in cell["connections"].items():
                for bit in bits:
                    if cell["port_directions"][port] == "output":
                        self.driver[bit] = name
                    else:
                        self.readers[bit].append((name, port))

    def is_flip_flop(self, name):
        return self.cells[name]["type"] in FLIP_FLOPS

    def pin(self, name, port):
        return self.cells[name]["connections"][port][0]

    def clock_of(self, name):
        return self.pin(name, "C"), self.cells[name]["type"]

    def read_by(self, bit):
        """The cells and pins that read a bit, or its opposite."""
        for name, port in self.readers[bit]:
            if self.cells[name]["type"] == "$_NOT_":
                yield from self.read_by(self.pin(name, "Y"))
            else:
                yield name, port

    def outputs_of(self, name):
        cell = self.cells[name]
        return [bit for port, bits in cell["connections"].items()
                if cell["port_directions"][port] == "output" for bit in bits]

    def clocks_behind(self, bit):
        """The clocks of the flip-flops that a bit reaches, through any gates."""
        seen, found, left = set(), set(), [bit]
        while left:
            bit = left.pop()
            for name, port in self.readers[bit]:
                if self.is_flip_flop(name):
                    found |= {self.clock_of(name)} if port == "D" else set()
                elif (name not in seen and "CLK" not in port
                      and self.cells[name]["type"].startswith("$")):
                    seen.add(name)
                    left += self.outputs_of(name)
        return found

    def is_synchronised(self, bit, clock):
        """Whether two flip-flops of a clock take a bit, and nothing else of that clock does."""
        for _ in range(2):
            readers = [(name, port) for name, port in self.read_by(bit)
                       if not self.is_flip_flop(name) and "CLK" not in port and any(
                           clock in self.clocks_behind(out) for out in self.outputs_of(name))
                       or self.is_flip_flop(name) and self.clock_of(name) == clock]
            if len(readers) != 1 or readers[0][1] != "D" or not self.is_flip_flop(readers[0][0]):
                return False
            bit = self.pin(readers[0][0], "Q")
        return True


def look(circuit, clocks, still):
    """How many bits cross well, and what is said of the others."""
    asked = [(bit, None) for name, port in circuit.ports.items()
             if port["direction"] == "input" and name not in clocks for bit in port["bits"]]
    asked += [(bit, circuit.clock_of(name) if circuit.is_flip_flop(name) else None)
              for name, cell in circuit.cells.items()
              if circuit.is_flip_flop(name) or not cell["type"].startswith("$")
              for bit in circuit.outputs_of(name)]
    good, wrong = 0, []
    for bit, own in asked:
        name = circuit.names[bit]
        for clock in circuit.clocks_behind(bit) - {own}:
            if name.split("[")[0] in still:
                continue
            if circuit.is_synchronised(bit, clock):
                good += 1
            else:
                wrong.append(f"{name} crosses to {circuit.names[clock[0]]} otherwise")
    return good, wrong


def main(netlist, *words):
    at = words.index("--skews")
    with open(netlist, encoding="utf-8") as file:
        module, = [module for module in json.load(file)["modules"].values()
                   if module["attributes"].get("top")]
    good, wrong = look(Circuit(module), words[:at], words[at + 1:])
    if wrong or not good:
        sys.exit("\n".join(sorted(wrong)) or "nothing crosses")
    print("bits that cross, by two flip-flops each:", good)


main(*sys.argv[1:])
