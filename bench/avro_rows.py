#!/usr/bin/env python3
"""Writes an Avro object container of rows (id long, name optional string) in blocks of 64,000 bytes: FILE ROWS."""
import json
import sys

SYNC = bytes(range(16))
SCHEMA = {
    "type": "record",
    "name": "table",
    "fields": [
        {"name": "id", "type": "long", "field-id": 1},
        {"name": "name", "type": ["null", "string"], "default": None, "field-id": 2},
    ],
}


def long(n):
    n = (n << 1) ^ (n >> 63)
    out = bytearray()
    while n >= 128:
        out.append(n & 127 | 128)
        n >>= 7
    out.append(n)
    return bytes(out)


def text(data):
    return long(len(data)) + data


def main(path, rows):
    meta = {b"avro.codec": b"null", b"avro.schema": json.dumps(SCHEMA).encode()}
    with open(path, "wb") as file:
        file.write(b"Obj\x01" + long(len(meta)))
        for key, value in meta.items():
            file.write(text(key) + text(value))
        file.write(long(0) + SYNC)
        body, count = bytearray(), 0
        for row in range(rows):
            body += long(row)
            body += long(0) if row % 3 == 0 else long(1) + text(b"name %07d" % row)
            count += 1
            if len(body) >= 64000 or row == rows - 1:
                file.write(long(count) + long(len(body)) + body + SYNC)
                body, count = bytearray(), 0


main(sys.argv[1], int(sys.argv[2]))
