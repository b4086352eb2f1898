#!/usr/bin/env -S python3 -B
"""Compares the pins of both boards with the makers' own files.

    pins.py LPF LPF_OF_MAKER PCF PCF_OF_MAKER

Each pin of LPF must be where the maker's file has the one of that name, but fire1, which is its
btn[1], and must have all that the maker's file says of it: its IOBUF and its frequency. Each pin
of PCF must be where the maker's file has the one that NAMES tells. Prints how many there are, or
what differs (status 1)."""

import re
import sys

PMODS = {"pmod1a": "P1A", "pmod1b": "P1B", "pmod2": "P2_"}
NAMES = {"clk": "CLK", "button_n": "BTN_N", "red_n": "LEDR_N", "green_n": "LEDG_N"}
NAMES.update({f"{name}[{bit}]": f"{maker}{(1, 2, 3, 4, 7, 8, 9, 10)[bit]}"
              for name, maker in PMODS.items() for bit in range(8)})


def lines_of(path):
    with open(path, encoding="utf-8") as file:
        return [line.split("#")[0].strip() for line in file]


def read_lpf(path):
    """By the kind of line and the name what it says."""
    found = {}
    for line in lines_of(path):
        match = re.fullmatch(r'(LOCATE COMP|IOBUF PORT|FREQUENCY PORT) "(\S+)" (.*);', line)
        if match:
            found[match[1], match[2]] = match[3].split()
    return found


def read_pcf(path):
    """By the name the pin."""
    rows = [line.split() for line in lines_of(path) if line]
    assert all(row[0] == "set_io" for row in rows)
    return {row[-2]: int(row[-1]) for row in rows}


def main(lpf, maker_lpf, pcf, maker_pcf):
    own, maker = read_lpf(lpf), read_lpf(maker_lpf)
    named = {name: name.replace("fire1", "btn[1]") for _, name in own}
    wanted = {(kind, name): said for name, called in named.items()
              for (kind, maker_name), said in maker.items() if maker_name == called}
    wrong = [f"{kind} {name}: {own.get((kind, name))}, of the maker {wanted.get((kind, name))}"
             for kind, name in own | wanted
             if own.get((kind, name)) != wanted.get((kind, name))]
    own_pcf, maker = read_pcf(pcf), read_pcf(maker_pcf)
    wrong += [f"{name}: {pin}, of the maker {maker.get(NAMES.get(name))}"
              for name, pin in own_pcf.items() if maker.get(NAMES.get(name)) != pin]
    if wrong:
        sys.exit("\n".join(wrong))
    pins = sum(kind == "LOCATE COMP" for kind, _ in own)
    print(f"{pins} pins and {len(own) - pins} settings of a ULX3S, {len(own_pcf)} of an iCEBreaker")


main(*sys.argv[1:])
