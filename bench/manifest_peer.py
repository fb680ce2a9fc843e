#!/usr/bin/env python3
"""Compares what the Avro C library reads with what was put into the files of tests/manifests: PROGRAM, built of manifest_peer.c."""
import json
import pathlib
import subprocess
import sys

sys.path.insert(0, str(pathlib.Path(__file__).resolve().parent.parent / "tests"))
sys.dont_write_bytecode = True
from avro_bytes import Codec  # noqa: E402
from manifest_files import FOLDER, all_files  # noqa: E402


def value_of(codec, value, schema):
    """A value out of the program's JSON, where text and bytes are in base 16, and a union is its value."""
    kind, schema = codec.found(schema)
    if kind == "union":
        return None if value is None else value_of(codec, value, next(branch for branch in schema if branch != "null"))
    if kind == "record":
        return {field["name"]: value_of(codec, value[field["name"]], field["type"]) for field in schema["fields"]}
    if kind == "array":
        return [value_of(codec, item, schema["items"]) for item in value]
    if kind == "map":
        return {key: value_of(codec, item, schema["values"]) for key, item in value.items()}
    if kind in ("bytes", "fixed", "string"):
        return bytes.fromhex(value) if kind != "string" else bytes.fromhex(value).decode()
    return schema["symbols"][value] if kind == "enum" else value


def main(program):
    files, count = [file for file in all_files() if file.codec == "null"], 0
    for file in files:
        told = subprocess.run([program, FOLDER / file.name], check=True, capture_output=True, text=True).stdout
        rows = [value_of(Codec(file.schema), json.loads(line), file.schema) for line in told.splitlines()]
        if rows != file.rows:
            sys.exit(f"{file.name}: the C library reads other values")
        count += len(rows)
    print(f"the Avro C library has read the {count} entries and rows of {len(files)} files, with equal values")


main(sys.argv[1])
