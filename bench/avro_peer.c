/* Reads every row of an Avro object container file with the Avro C library: MODE FILE ROUNDS [OUT], as the program avro_bench does. */
#include <avro.h>
#include <stdint.h>
#include <stdio.h>
#include <stdlib.h>
#include <string.h>

static void fail(const char *what)
{
    fprintf(stderr, "avro_peer: %s: %s\n", what, avro_strerror());
    exit(1);
}

/* Decodes each row, and with a writer encodes it again. */
static long values(const char *path, const char *out)
{
    avro_file_reader_t reader;
    if (avro_file_reader(path, &reader)) fail(path);
    avro_schema_t schema = avro_file_reader_get_writer_schema(reader);
    avro_value_iface_t *iface = avro_generic_class_from_schema(schema);
    avro_value_t row;
    avro_generic_value_new(iface, &row);
    avro_file_writer_t writer;
    if (out) {
        remove(out);
        if (avro_file_writer_create_with_codec(out, schema, &writer, "null", 64000)) fail(out);
    }
    long count = 0;
    int done;
    while ((done = avro_file_reader_read_value(reader, &row)) == 0) {
        if (out && avro_file_writer_append_value(writer, &row)) fail(out);
        count++;
    }
    if (done != EOF) fail(path);
    if (out) avro_file_writer_close(writer);
    avro_value_decref(&row);
    avro_value_iface_decref(iface);
    avro_schema_decref(schema);
    avro_file_reader_close(reader);
    return count;
}

static const unsigned char *number(const unsigned char *at, int64_t *n)
{
    uint64_t bits = 0;
    int shift = 0;
    do bits |= (uint64_t)(*at & 127) << shift, shift += 7;
    while (*at++ & 128);
    *n = (int64_t)(bits >> 1) ^ -(int64_t)(bits & 1);
    return at;
}

/* Passes over each row. The library passes over values and not over blocks, so the blocks are walked here. */
static long skips(const char *path)
{
    avro_file_reader_t file;
    if (avro_file_reader(path, &file)) fail(path);
    avro_schema_t schema = avro_file_reader_get_writer_schema(file);
    avro_file_reader_close(file);
    FILE *f = fopen(path, "rb");
    if (!f) fail(path);
    fseek(f, 0, SEEK_END);
    size_t size = ftell(f);
    rewind(f);
    unsigned char *bytes = malloc(size);
    if (!bytes || fread(bytes, 1, size, f) != size) fail(path);
    fclose(f);
    const unsigned char *at = bytes + 4, *end = bytes + size;
    int64_t n, len;
    for (at = number(at, &n); n; at = number(at, &n)) {
        if (n < 0) at = number(at, &len), n = -n;
        for (; n; n--) {
            at = number(at, &len) + len;
            at = number(at, &len) + len;
        }
    }
    at += 16;
    long count = 0;
    while (at < end) {
        at = number(number(at, &n), &len);
        avro_reader_t reader = avro_reader_memory((const char *)at, len);
        for (int64_t i = 0; i < n; i++)
            if (avro_skip_data(reader, schema)) fail(path);
        avro_reader_free(reader);
        count += n;
        at += len + 16;
    }
    free(bytes);
    avro_schema_decref(schema);
    return count;
}

int main(int argc, char **argv)
{
    if (argc < 4) {
        fprintf(stderr, "avro_peer: MODE FILE ROUNDS [OUT]\n");
        return 1;
    }
    const char *mode = argv[1];
    for (int round = atoi(argv[3]); round > 0; round--) {
        long count;
        if (!strcmp(mode, "skip")) count = skips(argv[2]);
        else count = values(argv[2], !strcmp(mode, "recode") ? argv[4] : NULL);
        printf("%ld rows\n", count);
    }
    return 0;
}
