#!/usr/bin/env python3
"""Files of execution data of one header and many records, for measurements.

    python3 bench/lib/exec_bytes.py PATH PROBES SIZE

PATH becomes a file of at most SIZE bytes with as many records as fit, whose number is printed. Each record has another id
and at least one hit, and its count of PROBES in the shortest spelling, so that merging the file writes it again.
"""
import sys

HEADER = b"\x01\xc0\xc0\x10\x07"
NAME = b"demo/Measured"


def count_bytes(number):
    """A count, seven bits a byte, the low ones first."""
    text = bytearray()
    while number >= 0x80:
        text.append(number % 0x80 + 0x80)
        number //= 0x80
    text.append(number)
    return bytes(text)


def behind_id(probes):
    """What stands behind the id of a record."""
    bits = bytearray((k * 37 + 1) % 256 for k in range((probes + 7) // 8))
    if probes % 8:
        bits[-1] &= (1 << probes % 8) - 1
    return len(NAME).to_bytes(2, "big") + NAME + count_bytes(probes) + bytes(bits)


def spread_ids(count):
    """Ids that a hash spreads."""
    return (k * 0x9E3779B97F4A7C15 % 2**64 for k in range(count))


def write_records(path, probes, ids):
    """A file with a record of each id."""
    tail = behind_id(probes)
    with open(path, "wb") as out:
        out.write(HEADER)
        out.writelines(b"\x11" + number.to_bytes(8, "big") + tail for number in ids)


def records_within(probes, size):
    """How many records fit into a file of this size."""
    return (size - len(HEADER)) // (9 + len(behind_id(probes)))


if __name__ == "__main__":
    records = records_within(int(sys.argv[2]), int(sys.argv[3]))
    write_records(sys.argv[1], int(sys.argv[2]), spread_ids(records))
    print(records)
