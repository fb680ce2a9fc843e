"""The files that a table's metadata reaches: manifest lists, manifests, data and delete files, statistics.

Reads Avro's object container files of codec `null` and `deflate` (Apache Avro 1.11, "Object Container Files" and "Binary
Encoding") in plain Python, and shares nothing with the program.
"""
import json
import struct
import zlib

MAGIC = b"Obj\x01"


class Broken(Exception):
    """A file isn't of its form."""


class Bytes:
    """Bytes that are read from the front."""

    def __init__(self, data):
        self.data, self.at = data, 0

    def take(self, length):
        if length < 0 or self.at + length > len(self.data):
            raise Broken("it ends too early")
        self.at += length
        return self.data[self.at - length : self.at]

    def long(self):
        number = shift = 0
        while True:
            byte = self.take(1)[0]
            number |= (byte & 0x7F) << shift
            shift += 7
            if byte < 0x80:
                return (number >> 1) ^ -(number & 1)

    def blocks(self, item):
        """The items of an array or a map, which come in blocks up to an empty one."""
        found = []
        while True:
            count = self.long()
            if count == 0:
                return found
            if count < 0:
                count = -count
                self.long()
            found += [item() for _ in range(count)]


def value(data, schema, names):
    """One value of a schema; `names` are the types that were named so far."""
    kind = schema["type"] if isinstance(schema, dict) else schema
    if isinstance(schema, list):
        at = data.long()
        if not 0 <= at < len(schema):
            raise Broken("it has a branch that isn't there")
        return value(data, schema[at], names)
    if isinstance(kind, (dict, list)):
        return value(data, kind, names)
    if isinstance(schema, dict) and "name" in schema:
        names[schema["name"]] = schema
    if kind == "record":
        return {field["name"]: value(data, field["type"], names) for field in schema["fields"]}
    if kind == "array":
        return data.blocks(lambda: value(data, schema["items"], names))
    if kind == "map":
        return dict(data.blocks(lambda: (data.take(data.long()), value(data, schema["values"], names))))
    if kind in ("int", "long"):
        return data.long()
    if kind == "enum":
        return schema["symbols"][data.long()]
    if kind == "fixed":
        return data.take(schema["size"])
    if kind == "string":
        return data.take(data.long()).decode()
    plain = {"null": lambda: None, "boolean": lambda: data.take(1) == b"\1", "bytes": lambda: data.take(data.long())}
    plain["float"] = lambda: struct.unpack("<f", data.take(4))[0]
    plain["double"] = lambda: struct.unpack("<d", data.take(8))[0]
    if kind in plain:
        return plain[kind]()
    if kind in names:
        return value(data, names[kind], names)
    raise Broken(f"it has the type {kind}")


def items_of(file):
    """The items of a container file."""
    data = Bytes(file)
    if data.take(4) != MAGIC:
        raise Broken("it is no container file")
    header = dict(data.blocks(lambda: (data.take(data.long()), data.take(data.long()))))
    schema, codec = json.loads(header[b"avro.schema"]), header.get(b"avro.codec", b"null")
    marker, found = data.take(16), []
    while data.at < len(data.data):
        count, block = data.long(), data.take(data.long())
        if codec not in (b"null", b"deflate"):
            raise Broken(f"it has the codec {codec}")
        rows = Bytes(zlib.decompress(block, -15) if codec == b"deflate" else block)
        names = {}
        found += [value(rows, schema, names) for _ in range(count)]
        if rows.at != len(rows.data) or data.take(16) != marker:
            raise Broken("a block has another end")
    return found


def fault_of(files, tree):
    """Why metadata isn't whole over these files, which are bytes by their paths; None where it is."""
    read = {}

    def items(path, of):
        if path not in read:
            if not files.get(path):
                raise Broken(f"it isn't there, and {of} names it")
            try:
                read[path] = items_of(files[path])
            except (ValueError, KeyError, IndexError, zlib.error) as e:
                raise Broken(f"it can't be read ({e})") from e
        return read[path]

    at = "the metadata"
    try:
        for snapshot in tree["snapshots"]:
            at = path_of(snapshot["manifest-list"])
            for row in items(at, f"snapshot {snapshot['snapshot-id']}"):
                at = path_of(row["manifest_path"])
                for entry in items(at, path_of(snapshot["manifest-list"])):
                    at = path_of(entry["data_file"]["file_path"])
                    # 2 is a deleted entry
                    if entry["status"] != 2 and at not in files:
                        raise Broken(f"it isn't there, and {path_of(row['manifest_path'])} names it")
        for it in tree.get("statistics", []) + tree.get("partition-statistics", []):
            at = path_of(it["statistics-path"])
            if at not in files:
                raise Broken("it isn't there, and the metadata names it")
    except Broken as e:
        return f"{at}: {e}"
    return None


def path_of(text):
    """The path of a place."""
    return text[len("file:"):] if text.startswith("file:") else text
