#!/usr/bin/env python3
"""ADC and SBC of an NMOS 6502 in decimal mode, as Bruce Clark describes them in "Decimal Mode"
(6502.org, appendix A), for the definition of the 6502 and the page's 6502 beside it:

    decimal_sums.py

For ADC, and then for SBC, with C clear and then set, of each A and of each operand two bytes: what
A is after that, and the flags N, V, Z and C by their bits in the status. 524,288 bytes in all.
"""
import sys

NEGATIVE, OVERFLOW, ZERO, CARRY = 0x80, 0x40, 0x02, 0x01


def signed(byte):
    return byte - 256 if byte > 127 else byte


def flags(negative, overflow, zero, carry):
    return negative * NEGATIVE | overflow * OVERFLOW | zero * ZERO | carry * CARRY


def adc(accumulator, operand, carry):
    """Sequences 1 and 2; Z is that of the binary sum."""
    low = (accumulator & 0x0F) + (operand & 0x0F) + carry
    if low >= 0x0A:
        low = ((low + 0x06) & 0x0F) + 0x10
    total = (accumulator & 0xF0) + (operand & 0xF0) + low
    shown = signed(accumulator & 0xF0) + signed(operand & 0xF0) + low
    if total >= 0xA0:
        total += 0x60
    is_zero = (accumulator + operand + carry) & 0xFF == 0
    return total & 0xFF, flags(shown & 0x80 != 0, not -128 <= shown <= 127, is_zero, total >= 0x100)


def sbc(accumulator, operand, carry):
    """Sequence 3; all flags are those of the binary difference."""
    low = (accumulator & 0x0F) - (operand & 0x0F) + carry - 1
    if low < 0:
        low = ((low - 0x06) & 0x0F) - 0x10
    total = (accumulator & 0xF0) - (operand & 0xF0) + low
    if total < 0:
        total -= 0x60
    binary = accumulator - operand + carry - 1
    shown = signed(accumulator) - signed(operand) + carry - 1
    return total & 0xFF, flags(binary & 0x80 != 0, not -128 <= shown <= 127, binary & 0xFF == 0,
                               binary >= 0)


sys.stdout.buffer.write(bytes(
    byte for operation in (adc, sbc) for carry in (0, 1) for accumulator in range(256)
    for operand in range(256) for byte in operation(accumulator, operand, carry)))
