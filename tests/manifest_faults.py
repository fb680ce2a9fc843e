"""Manifests and manifest lists that no reader takes, each with its cause and the place that is told.

A fault of the file's schema is at 4, one of an entry's or a row's value at that entry or row; one of the encoding at the first
byte that is wrong, and where bytes lack, at their end: that of the block, or of the file where the block's own bytes lack.
"""
import copy
import json

from avro_bytes import Codec, block, header, number, read_container

DEPTH, FIELDS = 32, 4096  # a schema's limits: types within one another, and record fields in all
NEGATIVE = {"manifest": [(103, "record_count"), (104, "file_size_in_bytes")], "list": [(501, "manifest_length")]}
NUMBERS = {"manifest": [(0, "status", 3), (0, "status", -1), (134, "content", 3), (134, "content", -1)],
           "list": [(517, "content", 2), (517, "content", -1)]}


def bare(text, body=b"", count=0):
    """A container file with this text as its schema."""
    meta = {"avro.schema": text if isinstance(text, bytes) else text.encode()}
    return header(meta, bytes(16)) + (block(count, body, bytes(16)) if count else b"")


def records(schema):
    """Each record of a schema, the outer ones first."""
    for branch in schema if isinstance(schema, list) else [schema]:
        if isinstance(branch, dict):
            if "fields" in branch:
                yield branch
            for of in branch.get("fields", []):
                yield from records(of["type"])
            yield from records(branch.get("items", "null"))


def every_field(schema):
    """Each field of a schema that the specification names, with the record that has it, but for partition values."""
    for n, record in enumerate(records(schema)):
        if record["name"] != "r102":
            yield from ((n, place, of) for place, of in enumerate(record["fields"]))


def changed(schema, n, place, change):
    """The schema with one field of its record n put otherwise, or taken away where `change` gives none."""
    made = copy.deepcopy(schema)
    record = list(records(made))[n]
    record["fields"][place:place + 1] = change(record["fields"][place])
    return json.dumps(made)


def other_type(of):
    """The field with a type that isn't its own: bytes for a boolean or a number, and else an int."""
    def other(kind):
        return "bytes" if kind in ("int", "long", "boolean") else "int"
    kind = of["type"]
    return {**of, "type": ["null", other(kind[1])] if isinstance(kind, list) else other(kind)}


def of_schema(kind, schema):
    yield "schema_no_json", bare("{"), "BadSchema", 4
    yield "schema_unknown_type", bare('"text"'), "BadSchema", 4
    yield "schema_no_record", bare('"long"'), "BadSchema", 4
    yield "schema_array", bare(json.dumps({"type": "array", "items": schema})), "BadSchema", 4
    yield from of_limits(schema)
    yield from of_fields(kind, schema)
    yield from of_order(kind, schema)


def of_limits(schema):
    """A schema at its limits, and beyond them."""
    deep, most = "long", FIELDS - sum(len(record["fields"]) for record in records(schema))
    for n in range(DEPTH):
        if n == DEPTH - 2:  # with the record around it and the long within it
            yield "schema_as_deep_as_may_be", bare(json.dumps({**schema, "fields": schema["fields"] + [{"name": "deep", "type": deep}]})), "none", None
        deep = {"type": "array", "items": deep}
    widest = schema["fields"] + [{"name": f"w{n}", "type": "int"} for n in range(most)]
    yield "schema_as_wide_as_may_be", bare(json.dumps({**schema, "fields": widest})), "none", None
    yield "schema_too_wide_by_1", bare(json.dumps({**schema, "fields": widest + [{"name": "w", "type": "int"}]})), "SchemaSize", 4
    for name, extra in (("deep", [{"name": "deep", "type": deep}]), ("wide", [{"name": f"w{n}", "type": "int"} for n in range(FIELDS)])):
        large = {**schema, "fields": schema["fields"] + extra}
        yield f"schema_{name}", bare(json.dumps(large)), "SchemaSize", 4
        yield f"schema_{name}_lacks_too", bare(json.dumps({**large, "fields": extra})), "SchemaSize", 4


def of_fields(kind, schema):
    """Each field lacking, or of another type."""
    for n, place, of in every_field(schema):
        may_lack, id = isinstance(of["type"], list), of["field-id"]
        if not may_lack:
            yield f"lacks_{id}", bare(changed(schema, n, place, lambda of: [])), f"LacksField({id})", 4
            # an id that isn't known is no id of the field, whatever its name
            yield f"renumbered_{id}", bare(changed(schema, n, place, lambda of: [{**of, "field-id": 9999}])), f"LacksField({id})", 4
        if not may_lack and id != 2:  # a data file that is no record lacks its own fields too
            yield f"may_be_null_{id}", bare(changed(schema, n, place, lambda of: [{**of, "type": ["null", of["type"]]}])), f"BadField({id})", 4
        if may_lack:
            yield f"without_null_{id}", bare(changed(schema, n, place, lambda of: [{**of, "type": of["type"][1]}])), f"BadField({id})", 4
        if id != 2:
            yield f"other_type_{id}", bare(changed(schema, n, place, lambda of: [other_type(of)])), f"BadField({id})", 4
    for id in (508,) if kind == "list" else (133, 136):
        text = json.dumps(schema)
        yield f"renumbered_{id}", bare(text.replace(f'"element-id": {id}', '"element-id": 9999')), f"LacksField({id})", 4
        items = {133: ("long", "string"), 136: ("int", "long")}.get(id)
        if items:
            yield f"other_type_{id}", bare(text.replace(*(f'"items": "{name}"' for name in items))), f"BadField({id})", 4


def of_order(kind, schema):
    """Of two that lack the smaller id is told, and one that lacks before a smaller one of another type."""
    first, second = (500, 501) if kind == "list" else (100, 101)
    text = json.dumps(schema).replace(f'"field-id": {second}}}', '"field-id": 9998}')
    yield "two_lack", bare(text.replace(f'"field-id": {first}}}', '"field-id": 9999}')), f"LacksField({first})", 4
    name = "manifest_path" if kind == "list" else "file_path"
    yield "lacks_before_type", bare(text.replace(f'"{name}", "type": "string"', f'"{name}", "type": "int"')), f"LacksField({second})", 4


def of_container(made, kind):
    data = made.bytes()
    text = json.dumps(made.schema).encode()
    front = header({"avro.codec": b"deflate", "avro.schema": text}, bytes(16))
    yield "empty", b"", "Container(Short)", 0
    yield "cut_in_magic", data[:3], "Container(Short)", 3
    yield "magic", b"Obj\x02" + data[4:], "Container(BadMagic)", 0
    yield "codec", front, "Container(Codec)", front.index(b"\x0edeflate")
    yield "no_schema", header({"avro.codec": b"null"}, bytes(16)), "Container(NoSchema)", 4
    spoilt = bare(b'"\xff"')
    yield "schema_no_utf8", spoilt, "Container(BadUtf8)", spoilt.index(b'\x06"\xff"')
    yield "marker", data[:-1] + bytes([data[-1] ^ 1]), "Container(BadSync)", len(data) - 16
    yield "cut_in_marker", data[:-1], "Container(Short)", len(data) - 1
    alone = bare(text)
    yield "block_count_minus_1", alone + number(-1) + number(0) + bytes(16), "Container(NegativeCount)", len(alone)
    yield "block_size_minus_1", alone + number(1) + number(-1) + bytes(16), "Container(NegativeCount)", len(alone) + 1
    yield "block_count_of_11_bytes", alone + b"\x80" * 10 + b"\1", "Container(TooLong)", len(alone)
    yield "block_too_large", alone + number(1) + number(2**26 + 1) + bytes(16), "Container(BlockTooLarge)", len(alone) + 1
    yield "too_many_objects", alone + number(2**24 + 1) + number(0) + bytes(16), "Container(TooMany)", len(alone)


def of_values(made, kind):
    """An object that is cut at each of its fields, and values that are none of a row's or an entry's."""
    coder = Codec(made.schema)
    text, first = json.dumps(made.schema), made.rows[0]
    at = read_container(bare(text, coder.encode(first), 1))[1][0][0]
    body, ends = coder.encode(first), []
    for schema, value, begins in ((made.schema, first, 0), *within(coder, made.schema, first)):
        end = begins
        for of in schema["fields"]:
            ends.append((of["field-id"], end))
            end += len(coder.encode(value[of["name"]], of["type"]))
    for id, end in ends:
        cut = bare(text, body[:end], 1)
        yield f"block_cut_at_{id}", cut, "Value(Short)", len(cut) - 16  # the end of the block, before its marker
        whole = bare(text, body, 1)
        yield f"file_cut_at_{id}", whole[:at + end], "Container(Short)", at + end
    places = dict(ends)
    yield from spelled_otherwise(text, body, at, places, kind)
    longer = bare(text, body + b"\0", 1)
    yield "block_too_long", longer, "Container(BadSize)", longer.rindex(body)
    for id, name, value in [(id, name, -1) for id, name in NEGATIVE[kind]] + NUMBERS[kind]:
        spoilt = copy.deepcopy(first)
        (spoilt if name in spoilt else spoilt["data_file"])[name] = value
        second = bare(text, body + coder.encode(spoilt), 2)
        yield f"{name}_{id}_{'minus_1' if value < 0 else value}", second, f"BadField({id})", read_container(second)[1][1][0]


def spelled_otherwise(text, body, at, places, kind):
    """An object whose bytes spell no value at one field: a number, a text, a branch or a list."""
    a_text, an_int, may_lack = (500, 502, 519) if kind == "list" else (100, 0, 1)

    def spoilt(id, took, gave, skipped=0):
        begins = places[id] + skipped
        assert body[begins:].startswith(took)
        return bare(text, body[:begins] + gave + body[begins + len(took):], 1)

    yield "text_of_length_minus_1", spoilt(a_text, body[places[a_text]:][:1], b"\1"), "Value(NegativeLength)", at + places[a_text]
    yield "text_no_utf8", spoilt(a_text, body[places[a_text]:][1:2], b"\xff", 1), "Value(BadUtf8)", at + places[a_text]
    for name, gave in (("of_33_bits", number(2**31)), ("of_11_bytes", b"\x80" * 10 + b"\1")):
        bad = spoilt(an_int, body[places[an_int]:][:1], gave)
        yield f"int_{name}", bad, "Value(NumberTooLong)", bad.rindex(gave)
    for branch in (2, -1):
        yield f"branch_{branch}", spoilt(may_lack, b"\0", number(branch)), "Value(BadBranch)", at + places[may_lack]
    if kind == "manifest":
        items = number(4) + number(2**32)
        bad = spoilt(132, number(1) + number(2) + items, number(1) + number(-2) + number(len(items) + 1) + items)
        yield "list_of_another_size", bad, "Value(BadSize)", bad.rindex(items)


def within(coder, schema, value):
    """The data file of an entry, with where it begins in the entry."""
    begins = 0
    for of in schema["fields"]:
        if of["name"] == "data_file":
            yield of["type"], value["data_file"], begins
        begins += len(coder.encode(value[of["name"]], of["type"]))


def broken(manifest, listed):
    """Each bad file: its name, `manifest` or `list`, its bytes, the cause and the place."""
    found = []
    for kind, made in (("manifest", manifest), ("list", listed)):
        for bad in (*of_container(made, kind), *of_schema(kind, made.schema), *of_values(made, kind)):
            found.append((bad[0], kind, *bad[1:]))
    return found
