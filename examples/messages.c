/*
 * Encodes and decodes a file of messages, each a document on a line of its own, over schemas that are read once.
 *
 *     messages SPACE LOCAL SYNTAX MESSAGES SCHEMA...      SYNTAX is 0 (aligned PER), 1 (unaligned) or 2 (DER)
 *
 * Of each message it writes the octets in hexadecimal and the document that they stand for, or why it is refused.
 * docs/guide/LIBRARY.md has the line that compiles and links it.
 */
#include "ruvkhiska.h"
#include <stdio.h>
#include <stdlib.h>
#include <string.h>

/* All of a file, with a byte of its own even where it is empty; it is never NULL. */
static uint8_t *contents(const char *name, size_t *count) {
    FILE *file = fopen(name, "rb");
    if (!file) {
        perror(name);
        exit(1);
    }
    size_t room = 4096;
    uint8_t *bytes = malloc(room);
    *count = 0;
    while (bytes) {
        *count += fread(bytes + *count, 1, room - *count, file);
        if (*count < room) break;
        bytes = realloc(bytes, room *= 2);
    }
    if (!bytes || ferror(file)) exit(1);
    fclose(file);
    return bytes;
}

static void tell(const char *of, int32_t status, const ruvkhiska_complaint *why) {
    printf("%s: status %d: %.*s", of, status, (int)why->count, (const char *)why->text);
    if (why->count == 0) printf("\n");
}

int main(int argc, char **argv) {
    if (argc < 6) {
        fprintf(stderr, "messages SPACE LOCAL SYNTAX MESSAGES SCHEMA...\n");
        return 2;
    }
    const char *space = argv[1], *local = argv[2];
    uint32_t syntax = (uint32_t)atoi(argv[3]);

    ruvkhiska_files files = {0};
    for (int i = 5; i < argc; i++) {
        size_t count;
        uint8_t *schema = contents(argv[i], &count);
        int32_t status = ruvkhiska_add(&files, (const uint8_t *)argv[i], strlen(argv[i]), schema, count);
        free(schema);
        if (status != RUVKHISKA_DONE) return status;
    }

    ruvkhiska_converter converter = {0};
    ruvkhiska_complaint why;
    int32_t status = ruvkhiska_open(&files, (const uint8_t *)space, strlen(space), (const uint8_t *)local, strlen(local), &converter, &why);
    ruvkhiska_drop_files(&files);
    if (status != RUVKHISKA_DONE) {
        tell("schemas", status, &why);
        return status;
    }

    size_t count;
    uint8_t *messages = contents(argv[4], &count);
    ruvkhiska_bytes octets = {0}, document = {0};
    for (size_t from = 0; from < count;) {
        const uint8_t *end = memchr(messages + from, '\n', count - from);
        size_t length = end ? (size_t)(end - (messages + from)) : count - from;
        status = ruvkhiska_encode(&converter, syntax, messages + from, length, &octets, &why);
        from += length + 1;
        if (status != RUVKHISKA_DONE) {
            tell("message", status, &why);
            continue;
        }
        for (size_t i = 0; i < octets.count; i++) printf("%02x", octets.data[i]);
        printf("\n");
        status = ruvkhiska_decode(&converter, syntax, octets.data, octets.count, &document, &why);
        if (status != RUVKHISKA_DONE) {
            tell("octets", status, &why);
            continue;
        }
        printf("%.*s\n", (int)document.count, (const char *)document.data);
    }
    free(messages);
    ruvkhiska_free(&octets);
    ruvkhiska_free(&document);
    ruvkhiska_close(&converter);
    return 0;
}
