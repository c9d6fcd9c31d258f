"""Integers with a prefix, as RFC 7541 section 5.1 spells them."""


def integer(value, bits, flag):
    if value < 2**bits - 1:
        return bytes([flag | value])
    out, value = [flag | (2**bits - 1)], value - (2**bits - 1)
    while value >= 128:
        out.append(value % 128 + 128)
        value //= 128
    return bytes(out + [value])
