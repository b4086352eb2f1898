#!/usr/bin/env python3
"""A world of your own: a driver alone beside a generator alone, over a RAM that this script keeps.

Both work by turns, and each picture is printed: a stroke from x0, y0 to x1, y1 in 1/512 of a screen
unit, with its intensity. Nothing is proved of such a loop; "Events" in include/dvg.h says what it
owes. Tested, not proved.
"""

from gerbilargent import RETURNS, Draft, Driver, Generator, Kind

ram, rom = bytearray(2048), RETURNS
with Driver(rom) as driver, Generator() as generator:

    def tick() -> Kind:
        """The driver acts once, and this does what it says."""
        entry = driver.tick(generator.halted, ram[1])
        if entry.kind is Kind.WROTE:
            ram[entry.address] = entry.value
        elif entry.kind is Kind.SENT:
            generator.strobe()
        return entry.kind

    while tick() is not Kind.IDLE:  # the driver boots
        pass
    for x in (512, 700):
        driver.offer(Draft().labs(x, 400).vctr(9, -100, 100, 7).halt())
        while tick() is not Kind.IDLE or not generator.halted:
            if not generator.halted:
                generator.fetch_from(ram, rom)
        print(*generator.strokes)
