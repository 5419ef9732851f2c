"""Writes the octets of one direction of a connection, a message.transfer over and over.

usage: capture.py maps|bodies OCTETS

`maps`: each with both structs of a header, a map of 20 entries and a body of 100 octets.
`bodies`: each with the same header and a body of 100,000 octets, in frames of 65,535.
"""
import struct
import sys

HEADER_SIZE = 12
MAX_FRAME = 65_535
FIRST_SEGMENT, LAST_SEGMENT, FIRST_FRAME, LAST_FRAME = 8, 4, 2, 1
COMMAND, HEADER, BODY = 1, 2, 3


def str8(text):
    return bytes([len(text)]) + text


def str16(text):
    return struct.pack(">H", len(text)) + text


def string_map(count):
    """A map of str16 values."""
    entries = b"".join(
        str8(b"key-%02d" % i) + b"\x95" + str16(b"value-%03d" % i) for i in range(count)
    )
    octets = struct.pack(">I", count) + entries
    return struct.pack(">I", len(octets)) + octets


def struct32(octets):
    return struct.pack(">I", len(octets)) + octets


def frames(channel, segments):
    for place, (kind, octets) in enumerate(segments):
        flags = (FIRST_SEGMENT if place == 0 else 0) | (LAST_SEGMENT if place == len(segments) - 1 else 0)
        step = MAX_FRAME - HEADER_SIZE
        parts = [octets[at : at + step] for at in range(0, len(octets), step)] or [b""]
        for number, part in enumerate(parts):
            marks = (FIRST_FRAME if number == 0 else 0) | (LAST_FRAME if number == len(parts) - 1 else 0)
            yield struct.pack(">BBHBBHI", flags | marks, kind, len(part) + HEADER_SIZE, 0, 1, channel, 0) + part


def transfer(body):
    command = b"\x04\x01\x01\x00" + b"\x07\x00" + str8(b"amq.topic") + b"\x01\x00"
    delivery = b"\x04\x01" + b"\x38\x02" + b"\x04\x02" + struct.pack(">Q", 1000) + str8(b"stock.ibm.nyse")
    message = b"\x04\x03" + b"\x11\x01" + struct.pack(">Q", len(body)) + str8(b"text/plain") + string_map(20)
    header = struct32(delivery) + struct32(message)
    return b"".join(frames(1, [(COMMAND, command), (HEADER, header), (BODY, body)]))


def main():
    kind, size = sys.argv[1], int(sys.argv[2])
    unit = transfer(bytes(range(100)) if kind == "maps" else bytes(100_000))
    for _ in range(-(-size // len(unit))):
        sys.stdout.buffer.write(unit)


main()
