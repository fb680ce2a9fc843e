/* Prints each object of an Avro container file, as the Avro C library reads it, as a line of JSON: FILE. Records are objects,
 * a union is its value, text and bytes are their bytes in base 16 (the library's own JSON ends bytes at a zero). */
#include <avro.h>
#include <inttypes.h>
#include <stdio.h>
#include <stdlib.h>

static void fail(const char *what)
{
    fprintf(stderr, "manifest_peer: %s: %s\n", what, avro_strerror());
    exit(1);
}

static void put_bytes(const void *bytes, size_t size)
{
    putchar('"');
    for (size_t i = 0; i < size; i++) printf("%02x", ((const unsigned char *)bytes)[i]);
    putchar('"');
}

static void put(avro_value_t *value);

/* The parts of a record or a map, by their names, or of an array. */
static void put_parts(avro_value_t *value, int is_named)
{
    size_t count;
    avro_value_get_size(value, &count);
    putchar(is_named ? '{' : '[');
    for (size_t i = 0; i < count; i++) {
        avro_value_t part;
        const char *name;
        if (avro_value_get_by_index(value, i, &part, &name)) fail("a part");
        if (i) putchar(',');
        if (is_named) printf("\"%s\":", name);
        put(&part);
    }
    putchar(is_named ? '}' : ']');
}

static void put(avro_value_t *value)
{
    const void *bytes;
    const char *text;
    avro_value_t branch;
    size_t size;
    int32_t n;
    int64_t wide;
    float half;
    double whole;
    switch (avro_value_get_type(value)) {
    case AVRO_NULL: fputs("null", stdout); return;
    case AVRO_BOOLEAN: avro_value_get_boolean(value, &n); fputs(n ? "true" : "false", stdout); return;
    case AVRO_INT32: avro_value_get_int(value, &n); printf("%" PRId32, n); return;
    case AVRO_INT64: avro_value_get_long(value, &wide); printf("%" PRId64, wide); return;
    case AVRO_FLOAT: avro_value_get_float(value, &half); printf("%.17g", half); return;
    case AVRO_DOUBLE: avro_value_get_double(value, &whole); printf("%.17g", whole); return;
    case AVRO_ENUM: avro_value_get_enum(value, &n); printf("%" PRId32, n); return;
    case AVRO_STRING: avro_value_get_string(value, &text, &size); put_bytes(text, size - 1); return;
    case AVRO_BYTES: avro_value_get_bytes(value, &bytes, &size); put_bytes(bytes, size); return;
    case AVRO_FIXED: avro_value_get_fixed(value, &bytes, &size); put_bytes(bytes, size); return;
    case AVRO_UNION: avro_value_get_current_branch(value, &branch); put(&branch); return;
    case AVRO_ARRAY: put_parts(value, 0); return;
    default: put_parts(value, 1);
    }
}

int main(int argc, char **argv)
{
    avro_file_reader_t reader;
    if (argc != 2 || avro_file_reader(argv[1], &reader)) fail(argc == 2 ? argv[1] : "FILE");
    avro_schema_t schema = avro_file_reader_get_writer_schema(reader);
    avro_value_iface_t *iface = avro_generic_class_from_schema(schema);
    avro_value_t row;
    avro_generic_value_new(iface, &row);
    int done;
    while ((done = avro_file_reader_read_value(reader, &row)) == 0) {
        put(&row);
        putchar('\n');
    }
    if (done != EOF) fail(argv[1]);
    avro_value_decref(&row);
    avro_value_iface_decref(iface);
    avro_schema_decref(schema);
    avro_file_reader_close(reader);
    return 0;
}
