#!/usr/bin/env python3
"""Makes the manifests and manifest lists of tests/manifests: some laid out as Apache Iceberg's Java writer lays them out, some
with the liberties that the specification leaves.

    tests/manifest_files.py                 makes them
    tests/manifest_files.py --check         compares what stands with what would be made, and ends with 1 on a difference
    tests/manifest_files.py --broken FOLDER writes the bad files that tests/manifests/broken.json lists into a folder

The manifests stand once more as constants in crates/manifest_tests/src/made.rt, since the tests read no files; it is made and
compared with the files.
Fields, ids and their order are those of the Apache Iceberg table specification ("Manifests", "Manifest Lists", "Appendix A:
Avro"); the bytes come from avro_bytes.py. Beside each file stands a JSON text with its keys, its ids and the values that were
put in, where bytes are `{"hex": ..}` and `at` is the offset in the file. Where Avro's own Python library is installed, it reads
each file and finds the same values.
"""
import hashlib
import json
import pathlib
import struct
import sys
import warnings

sys.dont_write_bytecode = True
sys.path.insert(0, str(pathlib.Path(__file__).resolve().parent))
from avro_bytes import Codec, block, header, read_container  # noqa: E402
from manifest_faults import broken  # noqa: E402
from manifest_schemas import PARTS, entry_schema, list_schema, mixed, spec_fields, table_schema  # noqa: E402

FOLDER = pathlib.Path(__file__).resolve().parent / "manifests"
CONSTANTS = FOLDER.parents[1] / "crates/manifest_tests/src/made.rt"


def compact(tree):
    return json.dumps(tree, separators=(",", ":"))


def plain(value):
    """A value as JSON has it."""
    if isinstance(value, bytes):
        return {"hex": value.hex()}
    if isinstance(value, dict):
        return {key: plain(item) for key, item in value.items()}
    return [plain(item) for item in value] if isinstance(value, list) else value


def ids_of(schema):
    """The names of a schema's fields by their paths, with their ids."""
    found = {}

    def walk(schema, path):
        for branch in schema if isinstance(schema, list) else [schema]:
            if isinstance(branch, dict):
                for word in ("element-id", "key-id", "value-id"):
                    if word in branch:
                        found[f"{path}.{word[:-3]}"] = branch[word]
                for inside in ("items", "values"):
                    walk(branch.get(inside, "null"), path + ".element")
                for field in branch.get("fields", []):
                    found[f"{path}.{field['name']}"] = field["field-id"]
                    walk(field["type"], f"{path}.{field['name']}")

    walk(schema, "")
    return found


class File:
    """A file that is made: its schema, its keys, its objects, how many of them a block has, and the layout of arrays."""

    def __init__(self, name, schema, keys, rows, a_block=2, sized=False, codec="null"):
        self.name, self.schema, self.keys, self.rows = name, schema, keys, rows
        self.a_block, self.sized, self.codec = a_block, sized, codec
        self.sync = hashlib.sha256(name.encode()).digest()[:16]

    def bytes(self):
        coder = Codec(self.schema, most=2 if self.sized else None, sized=self.sized)
        meta = {"avro.schema": compact(self.schema).encode(), "avro.codec": self.codec.encode()}
        out = header({**{key: text.encode() for key, text in self.keys.items()}, **meta}, self.sync)
        for at in range(0, len(self.rows), self.a_block):
            rows = self.rows[at:at + self.a_block]
            out += block(len(rows), b"".join(coder.encode(row) for row in rows), self.sync, self.codec)
        return out

    def told(self):
        """What the file says, as JSON."""
        places = [at for at, _ in read_container(self.bytes())[1]]
        rows = [{"at": at, "values": plain(row)} for at, row in zip(places, self.rows)]
        heads = [f'"{name}":{compact(of)}' for name, of in (("file", self.name), ("keys", self.keys), ("ids", ids_of(self.schema)))]
        lines = ",\n".join(json.dumps(of, separators=(",", ":"), ensure_ascii=False) for of in rows)
        return ("{" + ",\n".join(heads) + ',\n"rows":[\n' + lines + "\n]}\n").encode()


def pairs(*items):
    return [{"key": key, "value": value} for key, value in items]


def partition(n):
    """The partition of the entry n: in the second one each value is null."""
    return {name: None if n == 1 or transform == "void" else values[n % len(values)]
            for _, name, transform, _, _, values in PARTS}


def data_file(n, **others):
    file = {"content": 0, "file_path": f"/warehouse/db/t/data/é-{n:05}.parquet", "file_format": "PARQUET",
            "partition": partition(n), "record_count": 1000 + n, "file_size_in_bytes": 2**33 + n,
            "column_sizes": pairs((1, 128), (2, 2**40)), "value_counts": pairs((1, 1000 + n), (2, 1000 + n)),
            "null_value_counts": pairs((1, 0), (2, n)), "nan_value_counts": pairs((4, 3)),
            "lower_bounds": pairs((1, b"\0"), (2, b"\xfe\xff\xff\xff")), "upper_bounds": pairs((1, b"\1"), (2, b"")),
            "key_metadata": b"key\0", "split_offsets": [4, 2**32], "equality_ids": None, "sort_order_id": 0,
            "referenced_data_file": None}
    if n % 2 == 1:
        file.update({name: None for name in ("column_sizes", "value_counts", "null_value_counts", "nan_value_counts",
                                             "lower_bounds", "upper_bounds", "key_metadata", "split_offsets", "sort_order_id")})
    return {**file, **others}


def entry(status, snapshot, sequence, file_sequence, file):
    return {"status": status, "snapshot_id": snapshot, "sequence_number": sequence, "file_sequence_number": file_sequence,
            "data_file": file}


def keys(fields, content, spec_id=0, schema_id="0"):
    """The keys of a manifest in the order of the Java writer, which has no `schema-id`."""
    named = {"schema": compact(table_schema()), "partition-spec": compact(fields), "partition-spec-id": str(spec_id),
             "format-version": "2", "content": content}
    return {**named, "schema-id": schema_id} if schema_id else named


def row(path, **others):
    return {"manifest_path": path, "manifest_length": 7000, "partition_spec_id": 0, "content": 0, "sequence_number": 7,
            "min_sequence_number": 3, "added_snapshot_id": 70, "added_files_count": 1, "existing_files_count": 1,
            "deleted_files_count": 1, "added_rows_count": 1000, "existing_rows_count": 2**40, "deleted_rows_count": 0,
            "partitions": None, "key_metadata": None, **others}


def unknown(n):
    """Values of the fields that no reader knows: a map with string keys, and a record within a record."""
    return {"hints": {"a": n, "b": -n, "c": 2**62} if n % 2 == 0 else None, "extra": {"deep": {"text": "über", "bits": b"\1\2"}},
            "ratio": n / 4, "kind": "TWO"}


def data_manifest():
    numbers = [(1, 70, None, None), (1, None, None, None), (0, 30, 3, 3), (0, -(2**63), 2**63 - 1, None), (2, 70, 2, 2)]
    rows = [entry(*of, data_file(n)) for n, of in enumerate(numbers)]
    return File("data_manifest.avro", entry_schema(PARTS), keys(spec_fields(PARTS), "data", schema_id=None), rows)


def delete_manifest():
    """Java's names and ids, with the liberties that the specification leaves: `mixed` has the schema's."""
    positions = data_file(0, content=1, referenced_data_file="/warehouse/db/t/data/é-00000.parquet", file_format="avro")
    equal = data_file(3, content=2, equality_ids=[2, 3, 10], file_format="Orc")
    rows = []
    for n, file in enumerate((positions, equal, dict(positions, referenced_data_file=None))):
        file = {**file, **unknown(n), "partition": {"big": None if n == 1 else -5 - n, "day": 19000 + n}}
        rows.append({**entry(1 if n < 2 else 0, 70 + n, None if n == 0 else 5, None, file), "hints": unknown(n)["hints"]})
    parts = [part for part in PARTS if part[1] in ("big", "at_day")]
    schema = mixed(entry_schema([]))
    return File("delete_manifest.avro", schema, keys(spec_fields(parts), "deletes", spec_id=3), rows, sized=True)


def manifest_list():
    summaries = [{"contains_null": n % 2 == 0, "contains_nan": None if n else False, "lower_bound": b"\0\0" if n else None,
                  "upper_bound": b"\xff" * n if n else None} for n in range(3)]
    rows = [row("/warehouse/db/t/metadata/m0.avro", partitions=summaries), row("/warehouse/db/t/metadata/m1.avro", partitions=[]),
            row("file:/warehouse/db/t/metadata/é.avro", content=1, partition_spec_id=3, sequence_number=2**63 - 1, key_metadata=b"k")]
    keys = {"snapshot-id": "70", "parent-snapshot-id": "30", "sequence-number": "7", "format-version": "2"}
    return File("manifest_list.avro", list_schema(), keys, rows)


def mixed_list():
    made = manifest_list()
    rows = [{**of, "hints": unknown(n)["hints"], "extra": unknown(n)["extra"]} for n, of in enumerate(made.rows)]
    return File("mixed_list.avro", mixed(made.schema), {}, rows, a_block=3, sized=True)


def null_numbers():
    """A list row of sequence number 7 and snapshot 70, and its manifest, whose added entry has no numbers of its own."""
    files = [data_file(n, partition={}) for n in range(3)]
    rows = [entry(1, None, None, None, files[0]), entry(0, 30, 3, 3, files[1]), entry(2, 70, 2, 2, files[2])]
    manifest = File("null_numbers_manifest.avro", entry_schema([]), keys([], "data"), rows, a_block=3)
    listed = row("/w/t/metadata/null_numbers_manifest.avro", manifest_length=len(manifest.bytes()), min_sequence_number=3,
                 added_rows_count=1000, existing_rows_count=1001, deleted_rows_count=1002)
    return manifest, File("null_numbers_list.avro", list_schema(), {}, [listed])


def deflated():
    """The same manifest under another codec, which the program refuses with the cause Codec; broken.json has its place."""
    made = null_numbers()[0]
    return File("deflate_manifest.avro", made.schema, made.keys, made.rows, codec="deflate")


def all_files():
    return [data_manifest(), delete_manifest(), manifest_list(), mixed_list(), *null_numbers(), deflated()]


def bad_files():
    """Each bad file: its name, its kind, its bytes, the cause and the place."""
    refused = deflated().bytes()
    return [("deflate_manifest", "manifest", refused, "Container(Codec)", refused.index(b"\x0edeflate")), *broken(*null_numbers())]


def made():
    """Each file of the folder, by its name."""
    found = {}
    for file in all_files():
        found[file.name] = file.bytes()
        if file.codec == "null":
            found[file.name.replace(".avro", ".json")] = file.told()
    lines = [{"name": name, "kind": kind, "cause": cause, "at": at, "length": len(data),
              "sha256": hashlib.sha256(data).hexdigest()[:8]} for name, kind, data, cause, at in bad_files()]
    found["broken.json"] = ("[\n" + ",\n".join(compact(line) for line in lines) + "\n]\n").encode()
    return found


def literal(data):
    """The bytes as lines of a literal, each of at most 115 characters."""
    lines, line = [], ""
    for byte in data:
        plain = 32 < byte < 127 or (byte == 32 and line)
        char = "\\" * (byte in b'"\\') + chr(byte) if plain else f"\\x{byte:02x}"
        if len(line + char) > 114:
            lines.append(line)
            line, char = "", "\\x20" if byte == 32 else char
        line += char
    return "\\\n    ".join(lines + [line])


def listed(items):
    return f"Items {{ items: [{', '.join(items)}] }}"


def shown(value, kind=None):
    """A value as the program shows it: one of a partition with its type, or one within a list."""
    kind = kind["type"] if isinstance(kind, dict) else kind
    if isinstance(value, bytes):
        text = f"Bytes {{ inner: {list(value)} }}"
    elif isinstance(value, str):
        text = f'Text {{ inner: "{value}" }}'
    elif isinstance(value, dict):
        text = f"({shown(value['key'])}, {shown(value['value'])})"
    elif kind in ("float", "double"):
        text = list(struct.pack("<f" if kind == "float" else "<d", value)) if value is not None else ""
    else:
        text = str(value).lower()
    variant = {"boolean": "Bool", "int": "Int", "long": "Long", "float": "Float4", "double": "Float8", "string": "Str", "bytes": "Blob",
               "fixed": "Fix"}
    return "Null" if value is None else f"{variant[kind]}({text})" if kind else text


def told_of_file(file):
    """The partition, the lists and the bounds of a data file as the program shows them."""
    partition = listed(shown(file["partition"][name], avro) for _, name, _, _, avro, _ in PARTS)
    lists = [file[name] for name in ("column_sizes", "value_counts", "null_value_counts", "nan_value_counts", "lower_bounds",
                                     "upper_bounds", "split_offsets")]
    told = ["None" if of is None else f"Some({listed(map(shown, of))})" for of in lists]
    return f"Fields({partition}) " + " ".join(told)


def constants():
    """Some of the files as constants of the tests."""
    named = {"DATA": data_manifest(), "DELETES": delete_manifest(), "NULL_NUMBERS": null_numbers()[0]}
    lines = ["//! Manifests as other writers lay them out, made by tests/manifest_files.py, which has their values in tests/manifests."]
    for name, file in named.items():
        lines.append(f'\n/// `{file.name}`.\npub(crate) const {name}: &[u8] =\n    b"{literal(file.bytes())}";')
    told = [json.dumps(told_of_file(row["data_file"]), ensure_ascii=False) for row in named["DATA"].rows]
    lines.append("\n/// The partitions and the lists of its files.\npub(crate) const DATA_FILES: [&str; 5] = [")
    lines += [f"    {text}," for text in told] + ["];"]
    return ("\n".join(lines) + "\n").encode()


def unmarked(schema):
    """A schema without its logical types, by which the library would give dates and decimals in place of what is written."""
    if isinstance(schema, dict):
        return {key: unmarked(of) for key, of in schema.items() if key != "logicalType"}
    return [unmarked(of) for of in schema] if isinstance(schema, list) else schema


def read_back():
    """Reads each file with the decoder here, and with Avro's library where it is; the values are those that were put in."""
    for file in all_files():
        if [value for _, value in read_container(file.bytes())[1]] != file.rows:
            sys.exit(f"{file.name}: other values are read than were put in")
    try:
        from avro.datafile import DataFileReader
        from avro.io import DatumReader
        from avro.schema import parse
    except ImportError:
        return "Avro's Python library isn't here, so avro_bytes.py alone has read them"
    warnings.simplefilter("ignore")  # of logical types that it doesn't know
    for file in all_files():
        with DataFileReader(open(FOLDER / file.name, "rb"), DatumReader()) as rows:
            rows.datum_reader.writers_schema = parse(json.dumps(unmarked(file.schema)))
            for n, (theirs, ours) in enumerate(zip(rows, file.rows, strict=True)):
                if theirs != ours:
                    sys.exit(f"{file.name}: Avro's library reads another entry {n}")
    return "Avro's Python library has read each entry of them too"


def main(words):
    if words[:1] == ["--broken"] and len(words) == 2:
        folder = pathlib.Path(words[1])
        folder.mkdir(parents=True, exist_ok=True)
        for name, kind, data, _, _ in bad_files():
            (folder / f"{name}.{kind}.avro").write_bytes(data)
        return 0
    if words not in ([], ["--check"]):
        sys.exit(__doc__)
    files = made()
    FOLDER.mkdir(exist_ok=True)
    if words == ["--check"]:
        stands = {file.name: file.read_bytes() for file in FOLDER.iterdir()}
        other = sorted(name for name in stands.keys() | files.keys() if stands.get(name) != files.get(name))
        if CONSTANTS.read_bytes() != constants():
            sys.exit(f"{CONSTANTS}: isn't what the script makes")
        for name in other:
            print(f"tests/manifests/{name}: isn't what the script makes")
        if other:
            return 1
    else:
        for name, data in files.items():
            (FOLDER / name).write_bytes(data)
        CONSTANTS.write_bytes(constants())
    print(f"{len(files)} files, {sum(map(len, files.values()))} bytes; {read_back()}")
    return 0


if __name__ == "__main__":
    sys.exit(main(sys.argv[1:]))
