#!/usr/bin/env python3
"""Avro's own Python library as a peer: `write FILE` writes rows of many types, `same FILE FILE` compares two files' rows."""
import json
import sys

from avro.datafile import DataFileReader, DataFileWriter
from avro.io import DatumReader, DatumWriter
from avro.schema import parse

SCHEMA = {
    "type": "record",
    "name": "table",
    "namespace": "peer",
    "fields": [
        {"name": "id", "type": "long"},
        {"name": "small", "type": "int"},
        {"name": "flag", "type": "boolean"},
        {"name": "half", "type": "float"},
        {"name": "whole", "type": "double"},
        {"name": "name", "type": ["null", "string"], "default": None},
        {"name": "blob", "type": "bytes"},
        {"name": "key", "type": {"type": "fixed", "name": "md5", "size": 4}},
        {"name": "suit", "type": {"type": "enum", "name": "Suit", "symbols": ["SPADES", "HEARTS"]}},
        {"name": "list", "type": {"type": "array", "items": {"type": "map", "values": "long"}}},
        {"name": "again", "type": ["peer.md5", "null", {"type": "record", "name": "inner", "fields": [{"name": "s", "type": "peer.Suit"}]}]},
    ],
}


def row(n):
    return {
        "id": (-1) ** n * n**4,
        "small": -n,
        "flag": n % 2 == 0,
        "half": n / 4,
        "whole": n / 3,
        "name": None if n % 3 == 0 else "náme %d" % n,
        "blob": bytes(range(n % 200)),
        "key": b"%04d" % (n % 10000),
        "suit": "HEARTS" if n % 5 else "SPADES",
        "list": [{"k%d" % k: k * n for k in range(n % 4)} for _ in range(n % 3)],
        "again": [b"abcd", None, {"s": "SPADES"}][n % 3],
    }


def write(path):
    with DataFileWriter(open(path, "wb"), DatumWriter(), parse(json.dumps(SCHEMA))) as file:
        for n in range(5000):
            file.append(row(n))


def rows(path):
    with DataFileReader(open(path, "rb"), DatumReader()) as file:
        return list(file)


if sys.argv[1] == "write":
    write(sys.argv[2])
else:
    one, other = rows(sys.argv[2]), rows(sys.argv[3])
    if one != other or len(one) != 5000:
        sys.exit("the rows differ")
    print(len(one), "rows are the same")
