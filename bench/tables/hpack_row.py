#!/usr/bin/python3
"""Prints the octets 0 to 255 in Huffman code, a row of the tests, in hexadecimal digits.

Debian's python3-hpack makes the row. nghttp2 reads it back, and its own bytes of these octets, with so many short
symbols behind them that it takes the Huffman code at all, begin with the same bits.

usage: bench/tables/hpack_row.py        (after `apt-get install python3-hpack libnghttp2-14`)
"""
import ctypes

from hpack.huffman import HuffmanEncoder
from hpack.huffman_constants import REQUEST_CODES, REQUEST_CODES_LENGTH

from hpack_integer import integer

OCTETS = bytes(range(256))
MORE = b"a" * 3000
lib = ctypes.CDLL("libnghttp2.so.14")
lib.nghttp2_hd_deflate_hd.restype = ctypes.c_ssize_t
lib.nghttp2_hd_inflate_hd2.restype = ctypes.c_ssize_t


class Pair(ctypes.Structure):
    _fields_ = [("name", ctypes.c_void_p), ("value", ctypes.c_void_p), ("namelen", ctypes.c_size_t), ("valuelen", ctypes.c_size_t), ("flags", ctypes.c_uint8)]


def deflated(value):
    """A block of the header x with this value, as nghttp2 writes it."""
    deflater, block, held = ctypes.c_void_p(), ctypes.create_string_buffer(65536), ctypes.create_string_buffer(value, len(value))
    assert lib.nghttp2_hd_deflate_new(ctypes.byref(deflater), ctypes.c_size_t(4096)) == 0
    name = ctypes.create_string_buffer(b"x", 1)
    pair = Pair(ctypes.addressof(name), ctypes.addressof(held), 1, len(value), 1)
    length = lib.nghttp2_hd_deflate_hd(deflater, block, ctypes.c_size_t(65536), ctypes.byref(pair), ctypes.c_size_t(1))
    return block.raw[:length]


def inflated(block):
    """The value of the block's first header, as nghttp2 reads it."""
    inflater, pair, flags, held = ctypes.c_void_p(), Pair(), ctypes.c_int(0), ctypes.create_string_buffer(block, len(block))
    assert lib.nghttp2_hd_inflate_new(ctypes.byref(inflater)) == 0
    assert lib.nghttp2_hd_inflate_hd2(inflater, ctypes.byref(pair), ctypes.byref(flags), held, ctypes.c_size_t(len(block)), 1) > 0
    return ctypes.string_at(pair.value, pair.valuelen)


def main():
    encoder = HuffmanEncoder(REQUEST_CODES, REQUEST_CODES_LENGTH)
    row, longer = encoder.encode(OCTETS), encoder.encode(OCTETS + MORE)
    assert deflated(OCTETS + MORE).endswith(integer(len(longer), 7, 128) + longer)
    assert longer.startswith(row[:-1])
    assert inflated(b"\0\1x" + integer(len(row), 7, 128) + row) == OCTETS
    print(row.hex())


main()
