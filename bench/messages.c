/*
 * Messages over schemas that are read once, beside expat over the same bytes: bench/messages.sh compiles and runs it.
 *
 *     messages SCHEMA COUNT TURNS        the least seconds of so many turns over so many orders of some 300 bytes
 *     messages write FOLDER COUNT        writes so many of the orders as files, for the program
 */
#include "../include/ruvkhiska.h"
#include <expat.h>
#include <stdio.h>
#include <stdlib.h>
#include <string.h>
#include <time.h>

struct text {
    uint8_t *bytes;
    size_t count;
};

/* An order of some 300 bytes, another for each number. */
static size_t order(char *out, size_t room, unsigned i) {
    return (size_t)snprintf(out, room,
        "<order xmlns=\"urn:po\" id=\"%u\"><line><sku>part-%u</sku><qty>%u</qty></line><line><sku>part-%u</sku><qty>%u</qty></line>"
        "<line><sku>part-%u</sku><qty>%u</qty></line><line><sku>part-%u</sku><qty>%u</qty></line><note>to be sent by ship in week %u</note></order>",
        i % 65536, i * 7 % 100000, 1 + i % 100, i * 11 % 100000, 1 + i / 3 % 100, i * 13 % 100000, 1 + i / 7 % 100, i * 17 % 100000, 1 + i / 11 % 100, i % 52);
}

static double now(void) {
    struct timespec time;
    clock_gettime(CLOCK_PROCESS_CPUTIME_ID, &time);
    return (double)time.tv_sec + (double)time.tv_nsec * 1e-9;
}

static void XMLCALL start(void *count, const XML_Char *name, const XML_Char **attributes) {
    (void)name;
    (void)attributes;
    ++*(unsigned long *)count;
}

static int failed(const char *what, int32_t status, const ruvkhiska_complaint *why) {
    fprintf(stderr, "%s: status %d: %.*s", what, status, (int)why->count, (const char *)why->text);
    return 1;
}

static void tell(const char *what, double least, unsigned long count, size_t bytes) {
    printf("%-28s %8.3f s %10.0f messages/s %7.2f us each %7.1f MB/s\n", what, least, (double)count / least, least / (double)count * 1e6, (double)bytes / least / 1e6);
}

int main(int argc, char **argv) {
    char line[1024];
    if (argc < 4) return 2;
    if (strcmp(argv[1], "write") == 0) {
        for (unsigned i = 0; i < (unsigned)atoi(argv[3]); i++) {
            char name[1024];
            snprintf(name, sizeof name, "%s/%u.xml", argv[2], i);
            FILE *file = fopen(name, "wb");
            if (!file || fwrite(line, 1, order(line, sizeof line, i), file) == 0 || fclose(file)) return 1;
        }
        return 0;
    }
    unsigned long count = strtoul(argv[2], 0, 10);
    int turns = atoi(argv[3]);
    struct text *documents = calloc(count, sizeof *documents), *octets = calloc(count, sizeof *octets);
    size_t document_bytes = 0, octet_bytes = 0;
    for (unsigned long i = 0; i < count; i++) {
        documents[i].count = order(line, sizeof line, (unsigned)i);
        documents[i].bytes = memcpy(malloc(documents[i].count), line, documents[i].count);
        document_bytes += documents[i].count;
    }

    static uint8_t schema[65536];
    FILE *file = fopen(argv[1], "rb");
    if (!file) return 1;
    size_t schema_count = fread(schema, 1, sizeof schema, file);
    fclose(file);
    ruvkhiska_files files = {0};
    ruvkhiska_converter converter = {0};
    ruvkhiska_bytes answer = {0};
    ruvkhiska_complaint why;
    double from = now();
    ruvkhiska_add(&files, (const uint8_t *)"order.xsd", 9, schema, schema_count);
    int32_t status = ruvkhiska_open(&files, (const uint8_t *)"urn:po", 6, (const uint8_t *)"order", 5, &converter, &why);
    ruvkhiska_drop_files(&files);
    if (status) return failed("open", status, &why);
    printf("the schema is read, linked and mapped once, in %.0f us\n", (now() - from) * 1e6);

    double check = 1e9, encode = 1e9, decode = 1e9, parse = 1e9;
    unsigned long elements = 0;
    for (int turn = 0; turn < turns; turn++) {
        double took;
        XML_Parser parser = XML_ParserCreateNS(NULL, '|');
        from = now();
        for (unsigned long i = 0; i < count; i++) {
            XML_ParserReset(parser, NULL);
            XML_SetUserData(parser, &elements);
            XML_SetElementHandler(parser, start, NULL);
            if (XML_Parse(parser, (const char *)documents[i].bytes, (int)documents[i].count, 1) != XML_STATUS_OK) return 1;
        }
        if ((took = now() - from) < parse) parse = took;
        XML_ParserFree(parser);

        from = now();
        for (unsigned long i = 0; i < count; i++) {
            status = ruvkhiska_check(&converter, documents[i].bytes, documents[i].count, &why);
            if (status) return failed("check", status, &why);
        }
        if ((took = now() - from) < check) check = took;

        from = now();
        for (unsigned long i = 0; i < count; i++) {
            status = ruvkhiska_encode(&converter, RUVKHISKA_ALIGNED, documents[i].bytes, documents[i].count, &answer, &why);
            if (status) return failed("encode", status, &why);
        }
        if ((took = now() - from) < encode) encode = took;

        if (turn == 0) {
            for (unsigned long i = 0; i < count; i++) {
                status = ruvkhiska_encode(&converter, RUVKHISKA_ALIGNED, documents[i].bytes, documents[i].count, &answer, &why);
                if (status) return failed("encode", status, &why);
                octets[i].count = answer.count;
                octets[i].bytes = memcpy(malloc(answer.count), answer.data, answer.count);
                octet_bytes += answer.count;
            }
        }
        from = now();
        for (unsigned long i = 0; i < count; i++) {
            status = ruvkhiska_decode(&converter, RUVKHISKA_ALIGNED, octets[i].bytes, octets[i].count, &answer, &why);
            if (status) return failed("decode", status, &why);
        }
        if ((took = now() - from) < decode) decode = took;
    }
    printf("%lu messages of %zu bytes, %zu octets encoded; the least of %d turns\n", count, document_bytes / count, octet_bytes / count, turns);
    tell("expat alone", parse, count, document_bytes);
    tell("check", check, count, document_bytes);
    tell("encode", encode, count, document_bytes);
    tell("decode", decode, count, document_bytes);
    printf("of expat's time: check %.2f, encode %.2f, decode %.2f\n", check / parse, encode / parse, decode / parse);
    ruvkhiska_free(&answer);
    ruvkhiska_close(&converter);
    return 0;
}
