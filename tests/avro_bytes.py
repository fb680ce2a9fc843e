"""Avro's binary encoding and container files, written and read by a few functions of their own.

The layout is that of the Apache Avro specification 1.11 ("Binary encoding", "Object Container Files"), so bytes made or read
here owe nothing to the program that they test. A value of a union is the value alone: null, or the first other branch. Bytes
and fixed are `bytes`, records dicts by field name, arrays lists, maps dicts.
"""
import json
import struct
import zlib

MAGIC = b"Obj\x01"
PRIMITIVE = {"null", "boolean", "int", "long", "float", "double", "bytes", "string"}


def number(n):
    """A long: zig-zag, then groups of seven bits, the lowest first."""
    n, out = 2 * n if n >= 0 else -2 * n - 1, bytearray()
    while n > 127:
        out.append(n & 127 | 128)
        n >>= 7
    return bytes(out) + bytes([n])


def blob(data):
    return number(len(data)) + data


def read_number(data, at):
    n = 0
    for shift in range(0, 70, 7):
        if at >= len(data):
            raise ValueError(f"the number runs past the end at {at}")
        n |= (data[at] & 127) << shift
        at += 1
        if data[at - 1] < 128:
            if n >= 2**64:
                raise ValueError(f"the number before {at} has more than 64 bits")
            return (n >> 1) ^ -(n & 1), at
    raise ValueError(f"more than ten bytes in the number before {at}")


def take(data, at, size):
    if size < 0 or at + size > len(data):
        raise ValueError(f"{size} bytes at {at} aren't there")
    return data[at:at + size], at + size


class Codec:
    """A schema's encoder and decoder. Arrays and maps have `most` items a block, and say their size where `sized` is set."""

    def __init__(self, schema, most=None, sized=False):
        self.schema, self.most, self.sized, self.names = schema, most, sized, {}
        self.learn(schema)

    def learn(self, schema):
        """Keeps the named types, so that a later name finds them."""
        if isinstance(schema, list):
            for branch in schema:
                self.learn(branch)
        elif isinstance(schema, dict):
            if schema["type"] in ("record", "fixed", "enum"):
                self.names[schema["name"].rsplit(".", 1)[-1]] = schema
            for field in schema.get("fields", []):
                self.learn(field["type"])
            for inside in ("items", "values"):
                self.learn(schema.get(inside, "null"))
            if not isinstance(schema["type"], str):
                self.learn(schema["type"])

    def found(self, schema):
        """The kind of a schema, and the schema itself, where names and `{"type": T}` were followed."""
        while True:
            if isinstance(schema, list):
                return "union", schema
            kind = schema if isinstance(schema, str) else schema["type"]
            if not isinstance(kind, str):
                schema = kind
            elif kind in PRIMITIVE or isinstance(schema, dict):
                return kind, schema
            else:
                schema = self.names[kind.rsplit(".", 1)[-1]]

    def blocks(self, items):
        out, most = b"", self.most or len(items)
        for at in range(0, len(items), most or 1):
            part = items[at:at + most]
            body = b"".join(part)
            out += (number(-len(part)) + number(len(body)) if self.sized else number(len(part))) + body
        return out + number(0)

    def encode(self, value, schema=None):
        kind, schema = self.found(self.schema if schema is None else schema)
        if kind == "union":
            branch = next(n for n, of in enumerate(schema) if (of == "null") == (value is None))
            return number(branch) + self.encode(value, schema[branch])
        if kind == "record":
            return b"".join(self.encode(value[field["name"]], field["type"]) for field in schema["fields"])
        if kind == "array":
            return self.blocks([self.encode(item, schema["items"]) for item in value])
        if kind == "map":
            return self.blocks([blob(key.encode()) + self.encode(item, schema["values"]) for key, item in value.items()])
        if kind in ("int", "long"):
            return number(value)
        if kind in ("string", "bytes"):
            return blob(value.encode() if kind == "string" else value)
        if kind == "enum":
            return number(schema["symbols"].index(value))
        if kind == "fixed":
            assert len(value) == schema["size"]
            return value
        return {"null": lambda: b"", "boolean": lambda: bytes([value]), "float": lambda: struct.pack("<f", value),
                "double": lambda: struct.pack("<d", value)}[kind]()

    def items(self, data, at, read):
        found = []
        while True:
            count, at = read_number(data, at)
            if count == 0:
                return found, at
            if count < 0:
                size, at = read_number(data, at)
            end = at + size if count < 0 else None
            for _ in range(abs(count)):
                item, at = read(at)
                found.append(item)
            if end not in (None, at):
                raise ValueError(f"the block's items end at {at}, and not at {end}")

    def decode(self, data, at=0, schema=None):
        """The value at a place, and its end."""
        kind, schema = self.found(self.schema if schema is None else schema)
        if kind == "union":
            branch, at = read_number(data, at)
            if not 0 <= branch < len(schema):
                raise ValueError(f"there is no branch {branch} before {at}")
            return self.decode(data, at, schema[branch])
        if kind == "record":
            value = {}
            for field in schema["fields"]:
                value[field["name"]], at = self.decode(data, at, field["type"])
            return value, at
        if kind == "array":
            return self.items(data, at, lambda at: self.decode(data, at, schema["items"]))
        if kind == "map":
            pairs, at = self.items(data, at, lambda at: self.pair(data, at, schema["values"]))
            return dict(pairs), at
        if kind in ("int", "long", "enum"):
            value, at = read_number(data, at)
            if kind != "long" and not -(2**31) <= value < 2**31:
                raise ValueError(f"the int before {at} has more than 32 bits")
            if kind == "enum" and not 0 <= value < len(schema["symbols"]):
                raise ValueError(f"there is no symbol {value} before {at}")
            return (schema["symbols"][value] if kind == "enum" else value), at
        if kind in ("string", "bytes"):
            size, at = read_number(data, at)
            value, at = take(data, at, size)
            return (value.decode() if kind == "string" else value), at
        size = {"null": 0, "boolean": 1, "float": 4, "double": 8}.get(kind) if kind != "fixed" else schema["size"]
        value, at = take(data, at, size)
        read = {"null": lambda: None, "boolean": lambda: {b"\0": False, b"\1": True}[value],
                "float": lambda: struct.unpack("<f", value)[0], "double": lambda: struct.unpack("<d", value)[0]}
        return read.get(kind, lambda: value)(), at

    def pair(self, data, at, values):
        size, at = read_number(data, at)
        key, at = take(data, at, size)
        value, at = self.decode(data, at, values)
        return (key.decode(), value), at


def header(meta, sync):
    return MAGIC + (number(len(meta)) if meta else b"") + b"".join(blob(k.encode()) + blob(v) for k, v in meta.items()) + number(0) + sync


def block(count, body, sync, codec="null"):
    if codec == "deflate":  # one stored block (RFC 1951, 3.2.4), so that the bytes are the same with each zlib
        body = b"\x01" + struct.pack("<HH", len(body), len(body) ^ 65535) + body
    return number(count) + blob(body) + sync


def read_container(data):
    """The keys of a container file, and its objects, each with the offset at which it begins in the file, where the codec is null."""
    if data[:4] != MAGIC:
        raise ValueError("no container")
    strings = Codec({"type": "map", "values": "bytes"})
    meta, at = strings.decode(data, 4)
    sync, at = take(data, at, 16)
    codec, rows = Codec(json.loads(meta["avro.schema"])), []
    name = meta.get("avro.codec", b"null").decode()
    if name not in ("null", "deflate"):
        raise ValueError(f"the codec {name}")
    while at < len(data):
        count, at = read_number(data, at)
        size, begins = read_number(data, at)
        if count < 0:
            raise ValueError(f"a block of {count} objects before {begins}")
        body, end = take(data, begins, size)
        body, within = (zlib.decompress(body, -15) if name == "deflate" else body), 0
        for _ in range(count):
            offset = begins + within
            value, within = codec.decode(body, within)
            rows.append((offset, value))
        if within != len(body):
            raise ValueError(f"the block at {begins} holds more than its objects")
        marker, at = take(data, end, 16)
        if marker != sync:
            raise ValueError(f"another marker at {end}")
    return meta, rows
