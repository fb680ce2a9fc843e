#!/usr/bin/env python3
"""Writes the three manifest lists of this table, each an Avro object container without a block: FOLDER.

A manifest list is a container of records that name manifests (Apache Iceberg table specification, "Manifest Lists").
Those of this table have no record: its snapshots have no manifest. The layout of the bytes is that of Apache Avro 1.11,
"Object Container Files".
"""
import json
import pathlib
import struct
import sys

SUMMARY = {
    "fields": [
        {"field-id": 509, "name": "contains_null", "type": "boolean"},
        {"default": None, "field-id": 518, "name": "contains_nan", "type": ["null", "boolean"]},
        {"default": None, "field-id": 510, "name": "lower_bound", "type": ["null", "bytes"]},
        {"default": None, "field-id": 511, "name": "upper_bound", "type": ["null", "bytes"]},
    ],
    "name": "r508",
    "type": "record",
}

REQUIRED = [
    (500, "manifest_path", "string"),
    (501, "manifest_length", "long"),
    (502, "partition_spec_id", "int"),
    (517, "content", "int"),
    (515, "sequence_number", "long"),
    (516, "min_sequence_number", "long"),
    (503, "added_snapshot_id", "long"),
    (504, "added_files_count", "int"),
    (505, "existing_files_count", "int"),
    (506, "deleted_files_count", "int"),
    (512, "added_rows_count", "long"),
    (513, "existing_rows_count", "long"),
    (514, "deleted_rows_count", "long"),
]

OPTIONAL = [
    (507, "partitions", {"element-id": 508, "items": SUMMARY, "type": "array"}),
    (519, "key_metadata", "bytes"),
]


def schema():
    fields = [{"field-id": i, "name": name, "type": kind} for i, name, kind in REQUIRED]
    fields += [{"default": None, "field-id": i, "name": name, "type": ["null", kind]} for i, name, kind in OPTIONAL]
    record = {"fields": fields, "name": "manifest_file", "type": "record"}
    return json.dumps(record, sort_keys=True, separators=(",", ":")).encode()


def number(n):
    """A number that isn't negative, zig-zag and in groups of seven bits, the lowest first."""
    n, out = 2 * n, b""
    while n > 127:
        out += struct.pack("B", n & 127 | 128)
        n >>= 7
    return out + struct.pack("B", n)


def text(data):
    return number(len(data)) + data


def container(sync):
    meta = text(b"avro.codec") + text(b"null") + text(b"avro.schema") + text(schema())
    return b"Obj\x01" + number(2) + meta + number(0) + sync


def main(folder):
    for snapshot in (11, 22, 33):
        pathlib.Path(folder, f"l{snapshot}.avro").write_bytes(container(struct.pack(">QQ", 0, snapshot)))


main(sys.argv[1])
