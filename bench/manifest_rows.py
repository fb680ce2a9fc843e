#!/usr/bin/env python3
"""Writes a manifest of many entries, or a manifest list of many rows, to be measured: manifest|list FILE COUNT.

The schemas are those of tests/manifest_schemas.py. Each entry has the six maps of metrics for ten columns. A thousand
different objects are written again and again, in blocks of 64,000 bytes, so that making the file takes little time.
"""
import pathlib
import struct
import sys

sys.path.insert(0, str(pathlib.Path(__file__).resolve().parent.parent / "tests"))
sys.dont_write_bytecode = True
from avro_bytes import Codec, block, header  # noqa: E402
from manifest_files import compact, data_file, entry, keys, pairs, row  # noqa: E402
from manifest_schemas import entry_schema, list_schema  # noqa: E402

SYNC = bytes(range(16))
COLUMNS = range(1, 11)


def measured_entry(n):
    longs = [pairs(*((column, (n + 1) * 7919 * column % limit) for column in COLUMNS)) for limit in (2**30, 2**20, 2**10, 3)]
    bounds = [pairs(*((column, struct.pack("<q", base + n * column)) for column in COLUMNS)) for base in (-(2**40), 2**40)]
    names = ("column_sizes", "value_counts", "null_value_counts", "nan_value_counts", "lower_bounds", "upper_bounds")
    return entry(1, 70, None, None, data_file(n, partition={}, **dict(zip(names, longs + bounds))))


def measured_row(n):
    summaries = [{"contains_null": False, "contains_nan": None, "lower_bound": struct.pack("<q", n), "upper_bound": struct.pack("<q", 2 * n)}]
    return row(f"/warehouse/db/t/metadata/m{n:06}.avro", partitions=summaries)


def main(kind, path, count):
    schema, made = (entry_schema([]), measured_entry) if kind == "manifest" else (list_schema(), measured_row)
    coder = Codec(schema)
    objects = [coder.encode(made(n)) for n in range(min(count, 1000))]
    meta = {**(keys([], "data") if kind == "manifest" else {}), "avro.schema": compact(schema), "avro.codec": "null"}
    with open(path, "wb") as file:
        file.write(header({key: value.encode() for key, value in meta.items()}, SYNC))
        body, size = [], 0
        for n in range(count):
            body.append(objects[n % len(objects)])
            size += len(body[-1])
            if size >= 64000 or n == count - 1:
                file.write(block(len(body), b"".join(body), SYNC, "null"))
                body, size = [], 0


main(sys.argv[1], sys.argv[2], int(sys.argv[3]))
