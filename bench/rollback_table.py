#!/usr/bin/env python3
"""Writes a table with a chain of snapshots, as `upkeep` reads it: FOLDER COUNT. Prints the id of the first snapshot.

The version file has about 300 bytes of JSON for each snapshot, and an item of the snapshot log for each of them. The
manifest lists that it names aren't written: a rollback reads none of them.
"""
import json
import pathlib
import sys

FIRST_ID = 300000000000000000
FIRST_MS = 1700000000000


def snapshot(folder, n):
    item = {
        "manifest-list": f"{folder}/metadata/snap-{FIRST_ID + n}.avro",
        "schema-id": 0,
        "sequence-number": n + 1,
        "snapshot-id": FIRST_ID + n,
        "summary": {"added-data-files": "20", "added-records": "20000", "operation": "append"},
        "timestamp-ms": FIRST_MS + 1000 * n,
    }
    if n > 0:
        item["parent-snapshot-id"] = FIRST_ID + n - 1
    return item


def metadata(folder, count):
    last = count - 1
    return {
        "current-schema-id": 0,
        "current-snapshot-id": FIRST_ID + last,
        "default-sort-order-id": 0,
        "default-spec-id": 0,
        "format-version": 2,
        "last-column-id": 1,
        "last-partition-id": 999,
        "last-sequence-number": count,
        "last-updated-ms": FIRST_MS + 1000 * last,
        "location": folder,
        "metadata-log": [],
        "partition-specs": [{"fields": [], "spec-id": 0}],
        "properties": {},
        "refs": {"main": {"snapshot-id": FIRST_ID + last, "type": "branch"}},
        "schemas": [
            {
                "fields": [{"id": 1, "name": "id", "required": True, "type": "long"}],
                "schema-id": 0,
                "type": "struct",
            }
        ],
        "snapshot-log": [
            {"snapshot-id": FIRST_ID + n, "timestamp-ms": FIRST_MS + 1000 * n} for n in range(count)
        ],
        "snapshots": [snapshot(folder, n) for n in range(count)],
        "sort-orders": [{"fields": [], "order-id": 0}],
        "table-uuid": "5b1f3a52-0f3e-4a0c-9d1e-3f2a1c4b5d6e",
    }


def main(folder, count):
    place = pathlib.Path(folder, "metadata")
    place.mkdir(parents=True)
    text = json.dumps(metadata(folder, count), sort_keys=True, separators=(",", ":"))
    place.joinpath("v1.metadata.json").write_text(text)
    print(FIRST_ID)


main(sys.argv[1], int(sys.argv[2]))
