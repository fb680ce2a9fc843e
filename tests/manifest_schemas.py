"""The Avro schemas of manifests and manifest lists, as Apache Iceberg's Java writer lays them out.

Ids, names and types are those of the Apache Iceberg table specification ("Manifests", "Manifest Lists"). The columns and the
partition fields of the table in tests/manifests stand here too.
"""
import copy

DECIMAL = {"type": "fixed", "name": "decimal_9_2", "size": 4, "logicalType": "decimal", "precision": 9, "scale": 2}
UUID = {"type": "fixed", "name": "uuid_fixed", "size": 16, "logicalType": "uuid"}
FIXED = {"type": "fixed", "name": "fixed_5", "size": 5}
DATE = {"type": "int", "logicalType": "date"}
TIME = {"type": "long", "logicalType": "time-micros"}
LOCAL = {"type": "long", "logicalType": "timestamp-micros", "adjust-to-utc": False}
UTC = {"type": "long", "logicalType": "timestamp-micros", "adjust-to-utc": True}

# name, Iceberg's type, Avro's type, values of it; the ids count from 1
COLUMNS = [
    ("flag", "boolean", "boolean", [True, None, False]),
    ("small", "int", "int", [-(2**31), None, 2**31 - 1]),
    ("big", "long", "long", [2**63 - 1, None, -(2**63)]),
    ("half", "float", "float", [1.5, None, -0.0]),
    ("whole", "double", "double", [2.0**-1074, None, -1e308]),
    ("day", "date", DATE, [19000, None, -1]),
    ("clock", "time", TIME, [0, None, 86399999999]),
    ("at", "timestamp", LOCAL, [1600000000000000, None, -1]),
    ("at_utc", "timestamptz", UTC, [0, None, 1600000000000000]),
    ("name", "string", "string", ["", None, "naïve €"]),
    ("key", "uuid", UUID, [bytes(range(16)), None, b"\xff" * 16]),
    ("code", "fixed[5]", FIXED, [b"fixed", None, bytes(5)]),
    ("blob", "binary", "bytes", [b"", None, bytes(range(256))]),
    ("price", "decimal(9, 2)", DECIMAL, [b"\0\0\x27\x0f", None, b"\xff\xff\xff\xff"]),
    ("old", "string", "string", ["unseen"]),
]


def source(name):
    return 1 + [column[0] for column in COLUMNS].index(name)


# field id, name, transform, source id, Avro's type, values of it
PARTS = [
    (1000, "big_bucket", "bucket[16]", source("big"), "int", [15, None, 0]),
    (1001, "name_trunc", "truncate[4]", source("name"), "string", ["naïv", None, ""]),
    (1002, "small_trunc", "truncate[10]", source("small"), "int", [-10, None, 0]),
    (1003, "big_trunc", "truncate[100]", source("big"), "long", [-(2**62), None, 100]),
    (1004, "price_trunc", "truncate[50]", source("price"), DECIMAL, [b"\0\0\0\x32", None, b"\xff\xff\xff\xce"]),
    (1005, "at_year", "year", source("at"), "int", [50, None, -1]),
    (1006, "at_month", "month", source("at"), "int", [608, None, -1]),
    (1007, "at_day", "day", source("at"), DATE, [18518, None, -1]),
    (1008, "at_hour", "hour", source("at_utc"), "int", [444444, None, -1]),
    *((1009 + n, name, "identity", n + 1, avro, values) for n, (name, _, avro, values) in enumerate(COLUMNS[:14])),
    (1023, "old_void", "void", source("old"), "string", [None]),
    (1024, "old_void_int", "void", source("old"), "int", [None]),
]


def table_schema():
    fields = [{"id": n + 1, "name": name, "required": False, "type": kind} for n, (name, kind, _, _) in enumerate(COLUMNS)]
    return {"type": "struct", "schema-id": 0, "fields": fields}


def spec_fields(parts):
    return [{"name": name, "transform": transform, "source-id": of, "field-id": id} for id, name, transform, of, _, _ in parts]


def field(id, name, kind, doc=None):
    return {"name": name, "type": kind, **({"doc": doc} if doc else {}), "field-id": id}


def optional(id, name, kind, doc=None):
    made = field(id, name, ["null", kind], doc)
    return {**{key: value for key, value in made.items() if key != "field-id"}, "default": None, "field-id": id}


def pair_list(key, value, kind):
    pair = {"type": "record", "name": f"k{key}_v{value}", "fields": [field(key, "key", "int"), field(value, "value", kind)]}
    return {"type": "array", "items": pair, "logicalType": "map"}


def once(parts):
    """The partition's fields, where a type whose name was written before is that name alone."""
    seen, fields = set(), []
    for id, name, _, _, avro, _ in parts:
        if isinstance(avro, dict) and "name" in avro:
            seen_before, of = avro["name"] in seen, avro["name"]
            seen.add(of)
            avro = of if seen_before else avro
        fields.append(optional(id, name, avro))
    return fields


def entry_schema(parts):
    file = [
        field(134, "content", "int", "Contents of the file: 0=data, 1=position deletes, 2=equality deletes"),
        field(100, "file_path", "string", "Location URI with FS scheme"),
        field(101, "file_format", "string", "File format name: avro, orc, or parquet"),
        field(102, "partition", {"type": "record", "name": "r102", "fields": once(parts)}, "Partition data tuple, schema based on the partition spec"),
        field(103, "record_count", "long", "Number of records in the file"),
        field(104, "file_size_in_bytes", "long", "Total file size in bytes"),
        optional(108, "column_sizes", pair_list(117, 118, "long"), "Map of column id to total size on disk"),
        optional(109, "value_counts", pair_list(119, 120, "long"), "Map of column id to total count, including null and NaN"),
        optional(110, "null_value_counts", pair_list(121, 122, "long"), "Map of column id to null value count"),
        optional(137, "nan_value_counts", pair_list(138, 139, "long"), "Map of column id to number of NaN values in the column"),
        optional(125, "lower_bounds", pair_list(126, 127, "bytes"), "Map of column id to lower bound"),
        optional(128, "upper_bounds", pair_list(129, 130, "bytes"), "Map of column id to upper bound"),
        optional(131, "key_metadata", "bytes", "Encryption key metadata blob"),
        optional(132, "split_offsets", {"type": "array", "items": "long", "element-id": 133}, "Splittable offsets"),
        optional(135, "equality_ids", {"type": "array", "items": "int", "element-id": 136}, "Equality comparison field IDs"),
        optional(140, "sort_order_id", "int", "Sort order ID"),
        optional(143, "referenced_data_file", "string", "Fully qualified location (URI with FS scheme) of a data file that all deletes reference"),
    ]
    fields = [
        field(0, "status", "int"),
        optional(1, "snapshot_id", "long"),
        optional(3, "sequence_number", "long"),
        optional(4, "file_sequence_number", "long"),
        field(2, "data_file", {"type": "record", "name": "r2", "fields": file}),
    ]
    return {"type": "record", "name": "manifest_entry", "fields": fields}


def list_schema():
    summary = [
        field(509, "contains_null", "boolean", "True if any file has a null partition value"),
        optional(518, "contains_nan", "boolean", "True if any file has a nan partition value"),
        optional(510, "lower_bound", "bytes", "Partition lower bound for all files"),
        optional(511, "upper_bound", "bytes", "Partition upper bound for all files"),
    ]
    items = {"type": "array", "items": {"type": "record", "name": "r508", "fields": summary}, "element-id": 508}
    fields = [
        field(500, "manifest_path", "string", "Location URI with FS scheme"),
        field(501, "manifest_length", "long", "Total file size in bytes"),
        field(502, "partition_spec_id", "int", "Spec ID used to write"),
        field(517, "content", "int", "Contents of the manifest: 0=data, 1=deletes"),
        field(515, "sequence_number", "long", "Sequence number when the manifest was added"),
        field(516, "min_sequence_number", "long", "Lowest sequence number in the manifest"),
        field(503, "added_snapshot_id", "long", "Snapshot ID that added the manifest"),
        field(504, "added_files_count", "int", "Added entry count"),
        field(505, "existing_files_count", "int", "Existing entry count"),
        field(506, "deleted_files_count", "int", "Deleted entry count"),
        field(512, "added_rows_count", "long", "Added rows count"),
        field(513, "existing_rows_count", "long", "Existing rows count"),
        field(514, "deleted_rows_count", "long", "Deleted rows count"),
        optional(507, "partitions", items, "Summary for each partition"),
        optional(519, "key_metadata", "bytes", "Encryption key metadata blob"),
    ]
    return {"type": "record", "name": "manifest_file", "fields": fields}


def strange(within):
    """Fields that no reader knows; only here a map has string keys, as none of the fields that the specification names has."""
    hints = {"type": "map", "values": "long", "key-id": 9001, "value-id": 9002}
    deep = {"type": "record", "name": "r9004", "fields": [field(9005, "text", "string"), field(9006, "bits", ["null", "bytes"])]}
    extra = {"type": "record", "name": "r9003", "fields": [field(9004, "deep", deep)]}
    kind = {"type": "enum", "name": "kinds", "symbols": ["ONE", "TWO"]}
    found = [optional(9000, "hints", hints), field(9003, "extra", [extra, "null"])]
    return found + [field(9007, "ratio", "double"), field(9008, "kind", kind)] if within else found


def turned(fields):
    """Fields in another order, none with a default, and some of the optional ones with null behind their type."""
    made = []
    for n, of in enumerate(fields[1:] + fields[:1]):
        of = {key: value for key, value in of.items() if key not in ("default", "doc")}
        if isinstance(of["type"], list) and n % 2 == 0:
            of["type"] = of["type"][::-1]
        made.append(of)
    return made


def mixed(schema):
    """The same fields as the specification lets another writer lay them out, with unknown ones between."""
    schema = copy.deepcopy(schema)
    fields = turned(schema["fields"])
    if any(of["field-id"] == 2 for of in fields):
        file = next(of for of in fields if of["field-id"] == 2)["type"]
        of_file = turned(file["fields"])
        part = next(of for of in of_file if of["field-id"] == 102)["type"]
        # a long as an int, a date without its logical type
        part["fields"] = [field(1011, "big", ["int", "null"]), field(1007, "day", ["null", "int"])]
        odd = strange(True)
        file["fields"] = odd[2:3] + of_file[:5] + odd[:1] + of_file[5:9] + odd[3:] + of_file[9:] + odd[1:2]
        schema["fields"] = fields[:2] + [optional(9100, "hints", {"type": "map", "values": "long", "key-id": 9101, "value-id": 9102})] + fields[2:]
    else:
        odd = strange(False)
        schema["fields"] = odd[:1] + fields[:7] + odd[1:] + fields[7:]
    return schema
