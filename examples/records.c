/*
 * Reads records of canonical aligned PER from standard input, and writes the document of each as soon as its last octet was read.
 *
 *     cc records.c $(pkg-config --cflags --libs ruvkhiska) -o records
 *     receive-from-link | ./records urn:po order order.xsd
 *
 * It compiles as C99, C11 and C++17.
 */
#include "ruvkhiska.h"
#include <stdio.h>
#include <stdlib.h>
#include <string.h>
#include <unistd.h>

static uint8_t schema[1048576];

/* Reads what is there, and waits only if nothing is. */
static bool read_octets(void *context, uint8_t *to, size_t room, size_t *count) {
    ssize_t got = read(*(int *)context, to, room);
    *count = got < 0 ? 0 : (size_t)got;
    return got >= 0;
}

static bool write_document(void *context, const uint8_t *document, size_t count) {
    (void)context;
    return fwrite(document, 1, count, stdout) == count && fflush(stdout) == 0;
}

static const uint8_t *bytes_of(const char *text) {
    return (const uint8_t *)text;
}

int main(int argc, char **argv) {
    FILE *file = argc == 4 ? fopen(argv[3], "rb") : NULL;
    if (!file) {
        fprintf(stderr, "records SPACE LOCAL SCHEMA\n");
        return 2;
    }
    size_t count = fread(schema, 1, sizeof schema, file);
    fclose(file);

    ruvkhiska_files files;
    ruvkhiska_converter converter;
    ruvkhiska_complaint why;
    memset(&files, 0, sizeof files);
    memset(&converter, 0, sizeof converter);
    memset(&why, 0, sizeof why);
    int32_t status = ruvkhiska_add(&files, bytes_of(argv[3]), strlen(argv[3]), schema, count);
    if (status == RUVKHISKA_DONE)
        status = ruvkhiska_open(&files, bytes_of(argv[1]), strlen(argv[1]), bytes_of(argv[2]), strlen(argv[2]), &converter, &why);
    ruvkhiska_drop_files(&files);

    int input = STDIN_FILENO;
    ruvkhiska_streams streams = {&input, read_octets, write_document};
    if (status == RUVKHISKA_DONE) status = ruvkhiska_each(&converter, &streams, &why);
    ruvkhiska_close(&converter);
    if (status != RUVKHISKA_DONE) fprintf(stderr, "status %d: %.*s", (int)status, (int)why.count, (const char *)why.text);
    return (int)status;
}
