/*
 * The library with an allocator of its own, which counts blocks and bytes and refuses what it is told to: tests/library.sh
 * compiles and runs it.
 *
 *     library refuse SCHEMA      each allocation refused in turn, in a sequence of all calls
 *     library many SCHEMA N      N messages both ways; the memory that is held doesn't grow
 */
#include <stdio.h>
#include <stdlib.h>
#include <string.h>
/* What the header allocates in its own code is counted and refused, too. */
static void *header_malloc(size_t size);
static void *header_realloc(void *old, size_t size);
static void header_free(void *at);
#define malloc header_malloc
#define realloc header_realloc
#define free header_free
#include "../include/ruvkhiska.h"
#undef malloc
#undef realloc
#undef free

/* ---- the allocator that the library calls; each block has its size before it */

struct found {
    bool ok;
    void *at;
};

static unsigned long asked, refused, blocks;
static size_t held, most;
static _Alignas(16) char nothing[16];

static bool is_refused(void) { return ++asked == refused; }

static void holds(size_t more, size_t less) {
    held = held + more - less;
    if (held > most) most = held;
}

struct found rattle_alloc(size_t size, size_t align) {
    (void)align;
    size_t *at = is_refused() ? 0 : malloc(size + 16);
    if (!at) return (struct found){false, nothing};
    *at = size;
    blocks++;
    holds(size, 0);
    return (struct found){true, (char *)at + 16};
}

struct found rattle_realloc(void *old, size_t old_size, size_t size, size_t align) {
    (void)old_size;
    (void)align;
    size_t *before = (size_t *)((char *)old - 16), had = *before;
    size_t *at = is_refused() ? 0 : realloc(before, size + 16);
    if (!at) return (struct found){false, nothing};
    *at = size;
    holds(size, had);
    return (struct found){true, (char *)at + 16};
}

void rattle_dealloc(void *at) {
    size_t *before = (size_t *)((char *)at - 16);
    blocks--;
    holds(0, *before);
    free(before);
}

static void *header_malloc(size_t size) {
    struct found it = rattle_alloc(size, 16);
    return it.ok ? it.at : NULL;
}

static bool never_grows;

static void *header_realloc(void *old, size_t size) {
    if (never_grows) return NULL;
    struct found it = rattle_realloc(old, 0, size, 16);
    return it.ok ? it.at : NULL;
}

static void header_free(void *at) {
    if (at) rattle_dealloc(at);
}

/* ---- what is tried */

#define BYTES(text) (const uint8_t *)(text), sizeof(text) - 1

static const char first[] = "<order xmlns=\"urn:po\" id=\"7\"><line><sku>A1</sku><qty>3</qty></line></order>";
static const char second[] = "<order xmlns=\"urn:po\" id=\"8\"><line><sku>a part with a name that is longer than others</sku><qty>100</qty></line><note>by ship</note></order>";
static const uint8_t first_octets[] = {0x00, 0x00, 0x07, 0x01, 0x02, 0x41, 0x31, 0x04};
static const uint8_t first_in_der[] = {0x30, 0x0E, 0x80, 0x01, 0x07, 0xA1, 0x09, 0x30, 0x07, 0x80, 0x02, 0x41, 0x31, 0x81, 0x01, 0x03};

/* As docs/guide/PROGRAM.md has it. */
static const uint8_t order_stamp[] = {0x65, 0x0e, 0x89, 0xca, 0xb5, 0xf2, 0x6d, 0xe2};

static uint8_t schema[65536];
static size_t schema_count;
static int wrong;

#define MUST(condition)                                                                     \
    do {                                                                                    \
        if (!(condition)) {                                                                 \
            printf("  wrong: line %d, allocation %lu refused: %s\n", __LINE__, refused, #condition); \
            wrong++;                                                                        \
        }                                                                                   \
    } while (0)

static ruvkhiska_complaint why;

static bool is_line(const char *line) { return why.count == strlen(line) && memcmp(why.text, line, why.count) == 0; }

static bool is_bytes(const ruvkhiska_bytes *answer, const void *bytes, size_t count) {
    return answer->is_given && answer->count == count && memcmp(answer->data, bytes, count) == 0;
}

static bool is_place(uint32_t file, uint64_t at) { return why.has_place && why.file == file && why.at == at; }

/* The call, and where memory was missing the same once more, which must not fail. `kept` is what must hold between the two. */
#define AGAIN(call, kept)                                    \
    do {                                                     \
        int32_t status = (call);                             \
        if (status == RUVKHISKA_OUT_OF_MEMORY) {             \
            felt++;                                          \
            MUST(kept);                                      \
            status = (call);                                 \
        }                                                    \
        MUST(status == RUVKHISKA_DONE);                      \
    } while (0)

/* A call that ends otherwise, where memory isn't missing. */
#define REJECTS(call, required, holds)                       \
    do {                                                     \
        int32_t status = (call);                             \
        if (status == RUVKHISKA_OUT_OF_MEMORY) felt++;       \
        else MUST(status == (required) && (holds));          \
    } while (0)

/* Records that are read in pieces, and documents that are encoded again. */
struct link {
    const uint8_t *octets;
    size_t count, piece, at, got;
    size_t fails_after, stops_after;
};

static bool read_link(void *context, uint8_t *to, size_t room, size_t *count) {
    struct link *link = context;
    size_t left = link->count - link->at;
    if (link->at >= link->fails_after) return false;
    *count = link->piece < left ? link->piece : left;
    if (*count > room) *count = room;
    memcpy(to, link->octets + link->at, *count);
    link->at += *count;
    return true;
}

static bool accept_document(void *context, const uint8_t *document, size_t count) {
    struct link *link = context;
    static const char end[] = "</n1:order>\n";
    MUST(count > sizeof end && memcmp(document, "<?xml ", 6) == 0 && memcmp(document + count - (sizeof end - 1), end, sizeof end - 1) == 0);
    link->got++;
    return link->got < link->stops_after;
}

/* Reads the records; how many documents were given is in the link. */
static int32_t read_records(ruvkhiska_converter *converter, struct link *link) {
    ruvkhiska_streams streams = {link, read_link, accept_document};
    link->at = link->got = 0;
    return ruvkhiska_each(converter, &streams, &why);
}

static int records(ruvkhiska_converter *converter) {
    int felt = 0;
    uint8_t two[2 * sizeof first_octets];
    ruvkhiska_bytes document = {0};
    size_t used = 77;
    memcpy(two, first_octets, sizeof first_octets);
    memcpy(two + sizeof first_octets, first_octets, sizeof first_octets);
    AGAIN(ruvkhiska_next(converter, two, sizeof two, &document, &used, &why), used == 77 && !document.is_given && is_line("out of memory\n"));
    MUST(used == sizeof first_octets && why.count == 0);
    AGAIN(ruvkhiska_next(converter, two + used, sizeof two - used, &document, &used, &why), used == sizeof first_octets && document.is_given);
    used = 77;
    for (size_t count = 0; count < sizeof first_octets; count++)
        REJECTS(ruvkhiska_next(converter, two, count, &document, &used, &why), RUVKHISKA_MORE, used == 77 && document.is_given && why.count > 0);
    REJECTS(ruvkhiska_next(converter, BYTES("\xff\xff\xff"), &document, &used, &why), RUVKHISKA_PER_FAULT, used == 77 && why.has_place && document.is_given);
    ruvkhiska_free(&document);

    /* Pieces of several sizes. */
    struct link link = {two, sizeof two, 0, 0, 0, SIZE_MAX, SIZE_MAX};
    for (link.piece = 1; link.piece < 17; link.piece += 5) {
        AGAIN(read_records(converter, &link), is_line("out of memory\n"));
        MUST(link.got == 2 && why.count == 0);
    }
    link.stops_after = 1;
    REJECTS(read_records(converter, &link), RUVKHISKA_WRITE_FAULT, link.got == 1 && is_line("output: write failed\n"));
    link.stops_after = SIZE_MAX;
    link.piece = 1;
    link.fails_after = 9;
    REJECTS(read_records(converter, &link), RUVKHISKA_READ_FAULT, link.got == 1 && is_line("input: read failed\n"));
    link.fails_after = SIZE_MAX;
    link.count--;
    REJECTS(read_records(converter, &link), RUVKHISKA_PER_FAULT, link.got == 1 && why.has_place);
    link.count = 0;
    REJECTS(read_records(converter, &link), RUVKHISKA_DONE, link.got == 0 && why.count == 0);
    return felt;
}

/* A record that is longer than the buffer at first. */
static void long_record(ruvkhiska_converter *converter) {
    static uint8_t text[65536];
    size_t count = 0;
    ruvkhiska_bytes octets = {0};
    count += (size_t)sprintf((char *)text, "<order xmlns=\"urn:po\" id=\"7\">");
    for (int i = 0; i < 1100; i++) count += (size_t)sprintf((char *)text + count, "<line><sku>A1</sku><qty>3</qty></line>");
    count += (size_t)sprintf((char *)text + count, "</order>");
    MUST(ruvkhiska_encode(converter, RUVKHISKA_ALIGNED, text, count, &octets, &why) == RUVKHISKA_DONE && octets.count > 4096);
    struct link link = {octets.data, octets.count, 1000, 0, 0, SIZE_MAX, SIZE_MAX};
    MUST(read_records(converter, &link) == RUVKHISKA_DONE && link.got == 1);
    never_grows = true;
    MUST(read_records(converter, &link) == RUVKHISKA_OUT_OF_MEMORY && link.got == 0 && is_line("out of memory\n") && !why.has_place);
    never_grows = false;
    ruvkhiska_free(&octets);
}

/* Owners of one set, which are closed in either order. */
static int owners(ruvkhiska_converter *converter) {
    int felt = 0;
    ruvkhiska_converter second = {0}, third = {0}, closed = {0};
    AGAIN(ruvkhiska_share(converter, &second), converter->is_open && !second.is_open);
    AGAIN(ruvkhiska_check(&second, BYTES(first), &why), true);
    AGAIN(ruvkhiska_share(&second, &third), second.is_open && !third.is_open);
    ruvkhiska_close(&second);
    MUST(ruvkhiska_share(&closed, &third) == RUVKHISKA_CLOSED && third.is_open && !closed.is_open);
    AGAIN(ruvkhiska_check(&third, BYTES(first), &why), true);
    /* What it had before is closed. */
    AGAIN(ruvkhiska_share(converter, &third), third.is_open && ruvkhiska_check(&third, BYTES(first), &why) == RUVKHISKA_DONE);
    AGAIN(ruvkhiska_check(&third, BYTES(first), &why), true);
    ruvkhiska_close(&third);
    MUST(!third.is_open && converter->is_open);
    return felt;
}

/* Stamps, places and paths. */
static int places(ruvkhiska_converter *converter) {
    int felt = 0;
    uint8_t stamp[8] = {0};
    uint64_t line = 77, column = 77;
    ruvkhiska_bytes path = {0};
    static const char text[] = "<order xmlns=\"urn:po\" id=\"7\">\n<line><sku>\xc3\xa9</sku><qty>300</qty></line></order>";
    AGAIN(ruvkhiska_stamp(converter, stamp, 8), stamp[0] == 0);
    MUST(memcmp(stamp, order_stamp, 8) == 0);
    stamp[0] = 0;
    MUST(ruvkhiska_stamp(converter, stamp, 7) == RUVKHISKA_USAGE && stamp[0] == 0);
    REJECTS(ruvkhiska_check(converter, BYTES(text), &why), RUVKHISKA_INVALID, why.has_place && why.file == 0);
    uint64_t at = (uint64_t)(strstr(text, "<qty>") - text);
    MUST(refused || why.at == at);
    MUST(ruvkhiska_spot(BYTES(text), at, &line, &column) == RUVKHISKA_DONE && line == 2 && column == 19);
    MUST(ruvkhiska_spot(BYTES(text), sizeof text - 1, &line, &column) == RUVKHISKA_DONE && line == 2);
    line = 77;
    MUST(ruvkhiska_spot(BYTES(text), sizeof text, &line, &column) == RUVKHISKA_USAGE && line == 77);
    AGAIN(ruvkhiska_path(BYTES(text), at, &path), !path.is_given);
    MUST(is_bytes(&path, "/order/line/qty", 15));
    AGAIN(ruvkhiska_path(BYTES("<a"), 1, &path), is_bytes(&path, "/order/line/qty", 15));
    MUST(path.count == 0);
    ruvkhiska_free(&path);
    return felt;
}

/* All calls; how often memory was missing. */
static int sequence(void) {
    int felt = 0;
    ruvkhiska_files files = {0};
    ruvkhiska_converter converter = {0};
    ruvkhiska_bytes octets = {0}, document = {0}, other = {0};
    AGAIN(ruvkhiska_add(&files, BYTES("other.xsd"), BYTES("<xs:schema xmlns:xs=\"http://www.w3.org/2001/XMLSchema\"/>")), true);
    AGAIN(ruvkhiska_add(&files, BYTES("a name of a file that is longer than 22 bytes.xsd"), schema, schema_count), true);
    AGAIN(ruvkhiska_open(&files, BYTES("urn:po"), BYTES("order"), &converter, &why), !converter.is_open && is_line("out of memory\n"));
    MUST(why.count == 0);
    AGAIN(ruvkhiska_check(&converter, BYTES(first), &why), is_line("out of memory\n"));
    AGAIN(ruvkhiska_encode(&converter, RUVKHISKA_ALIGNED, BYTES(first), &octets, &why), !octets.is_given && is_line("out of memory\n"));
    MUST(is_bytes(&octets, first_octets, sizeof first_octets));
    AGAIN(ruvkhiska_decode(&converter, RUVKHISKA_ALIGNED, octets.data, octets.count, &document, &why), !document.is_given);
    AGAIN(ruvkhiska_encode(&converter, RUVKHISKA_ALIGNED, document.data, document.count, &other, &why), !other.is_given);
    MUST(is_bytes(&other, first_octets, sizeof first_octets));
    /* An answer that is there stays where the next is refused. */
    AGAIN(ruvkhiska_encode(&converter, RUVKHISKA_UNALIGNED, BYTES(second), &octets, &why), is_bytes(&octets, first_octets, sizeof first_octets));
    AGAIN(ruvkhiska_decode(&converter, RUVKHISKA_UNALIGNED, octets.data, octets.count, &document, &why), document.is_given);
    AGAIN(ruvkhiska_encode(&converter, RUVKHISKA_DER, BYTES(first), &octets, &why), octets.is_given);
    MUST(is_bytes(&octets, first_in_der, sizeof first_in_der));
    AGAIN(ruvkhiska_decode(&converter, RUVKHISKA_DER, octets.data, octets.count, &document, &why), document.is_given);
    AGAIN(ruvkhiska_encode(&converter, RUVKHISKA_DER, document.data, document.count, &other, &why), other.is_given);
    MUST(is_bytes(&other, first_in_der, sizeof first_in_der));
    felt += owners(&converter) + records(&converter) + places(&converter);
    /* Without names the root is the only global element. */
    AGAIN(ruvkhiska_open(&files, BYTES(""), BYTES(""), &converter, &why), converter.is_open);
    AGAIN(ruvkhiska_check(&converter, BYTES(first), &why), true);
    /* A converter that is open stays open where another set isn't prepared. */
    AGAIN(ruvkhiska_open(&files, BYTES("urn:po"), BYTES("order"), &converter, &why), converter.is_open && ruvkhiska_check(&converter, BYTES(first), &why) == RUVKHISKA_DONE);
    ruvkhiska_drop_files(&files);
    AGAIN(ruvkhiska_encode(&converter, RUVKHISKA_ALIGNED, BYTES(first), &octets, &why), octets.is_given);
    MUST(is_bytes(&octets, first_octets, sizeof first_octets));
    /* Refusals. */
    int32_t status = ruvkhiska_check(&converter, BYTES("<order></orde>"), &why);
    if (status == RUVKHISKA_OUT_OF_MEMORY) felt++;
    else MUST(status == RUVKHISKA_DOCUMENT_SYNTAX && is_line("input, byte 7: syntax: WrongEnd\n") && is_place(0, 7));
    status = ruvkhiska_decode(&converter, RUVKHISKA_ALIGNED, BYTES("\x00\x00\x07"), &document, &why);
    if (status == RUVKHISKA_OUT_OF_MEMORY) felt++;
    else MUST(status == RUVKHISKA_PER_FAULT && document.is_given);
    status = ruvkhiska_decode(&converter, RUVKHISKA_DER, BYTES("\x31\x00"), &document, &why);
    if (status == RUVKHISKA_OUT_OF_MEMORY) felt++;
    else MUST(status == RUVKHISKA_DER_FAULT && is_line("input, byte 0: der: Tag\n") && is_place(0, 0) && document.is_given);
    ruvkhiska_free(&octets);
    ruvkhiska_free(&octets);
    ruvkhiska_free(&document);
    ruvkhiska_free(&other);
    ruvkhiska_close(&converter);
    ruvkhiska_close(&converter);
    MUST(!converter.is_open && !octets.is_given);
    MUST(ruvkhiska_check(&converter, BYTES(first), &why) == RUVKHISKA_CLOSED && why.count == 0);
    MUST(ruvkhiska_encode(&converter, RUVKHISKA_ALIGNED, BYTES(first), &octets, &why) == RUVKHISKA_CLOSED && !octets.is_given);
    uint8_t stamp[8] = {0};
    size_t used = 77;
    MUST(ruvkhiska_stamp(&converter, stamp, 8) == RUVKHISKA_CLOSED && stamp[7] == 0);
    MUST(ruvkhiska_next(&converter, first_octets, sizeof first_octets, &octets, &used, &why) == RUVKHISKA_CLOSED && used == 77 && !octets.is_given);
    MUST(ruvkhiska_version() == RUVKHISKA_VERSION_NUMBER);
    MUST(blocks == 0);
    MUST(held == 0);
    return felt;
}

static int refuse(void) {
    refused = 0;
    asked = 0;
    MUST(sequence() == 0);
    unsigned long all = asked, answers = 0;
    for (unsigned long number = 1; number <= all; number++) {
        refused = number;
        asked = 0;
        int felt = sequence();
        MUST(felt <= 1);
        answers += (unsigned long)felt;
        if (wrong > 10) break;
    }
    printf("%lu allocations, each refused in turn: %lu answers of want of memory, %d wrong, %lu blocks left\n", all, answers, wrong, blocks);
    return wrong || answers == 0;
}

/* Statuses that no want of memory has. */
static void usage(void) {
    ruvkhiska_files files = {0};
    ruvkhiska_converter converter = {0};
    ruvkhiska_bytes octets = {0};
    MUST(ruvkhiska_add(&files, BYTES("\xff"), BYTES("")) == RUVKHISKA_USAGE);
    MUST(ruvkhiska_open(&files, BYTES(""), BYTES("order"), &converter, &why) == RUVKHISKA_UNKNOWN_ROOT && is_line("unknown root\n") && !why.has_place);
    MUST(ruvkhiska_open(&files, BYTES(""), BYTES(""), &converter, &why) == RUVKHISKA_UNKNOWN_ROOT && is_line("unknown root\n"));
    for (int i = 0; i < 64; i++) {
        char name[3] = {'a', (char)('0' + i / 10), (char)('0' + i % 10)};
        MUST(ruvkhiska_add(&files, (const uint8_t *)name, 3, BYTES("<xs:schema xmlns:xs=\"http://www.w3.org/2001/XMLSchema\"/>")) == RUVKHISKA_DONE);
    }
    MUST(ruvkhiska_add(&files, BYTES("b"), schema, schema_count) == RUVKHISKA_USAGE);
    ruvkhiska_drop_files(&files);
    ruvkhiska_drop_files(&files);
    MUST(ruvkhiska_add(&files, BYTES("b"), BYTES("<a>")) == RUVKHISKA_DONE);
    MUST(ruvkhiska_open(&files, BYTES("urn:po"), BYTES("order"), &converter, &why) == RUVKHISKA_SCHEMA_SYNTAX && is_line("file 1, byte 3: syntax: Unfinished\n") && is_place(1, 3));
    MUST(ruvkhiska_open(&files, BYTES(""), BYTES(""), &converter, &why) == RUVKHISKA_SCHEMA_SYNTAX);
    ruvkhiska_drop_files(&files);
    MUST(ruvkhiska_add(&files, BYTES("b"), schema, schema_count) == RUVKHISKA_DONE);
    MUST(ruvkhiska_open(&files, BYTES("urn:po\xc3"), BYTES("order"), &converter, &why) == RUVKHISKA_USAGE && why.count == 0);
    MUST(ruvkhiska_open(&files, BYTES("urn:po"), BYTES("order"), &converter, &why) == RUVKHISKA_DONE);
    MUST(ruvkhiska_encode(&converter, 77, BYTES(first), &octets, &why) == RUVKHISKA_USAGE && why.count == 0 && !octets.is_given);
    MUST(ruvkhiska_decode(&converter, RUVKHISKA_ALIGNED, BYTES("\x00\x00\x07\x01\x02\x41\x31\x04\x00"), &octets, &why) == RUVKHISKA_TRAILING && is_line("input, byte 8: trailing\n") && is_place(0, 8));
    long_record(&converter);
    ruvkhiska_drop_files(&files);
    ruvkhiska_close(&converter);
    MUST(blocks == 0);
}

static int many(unsigned long messages) {
    ruvkhiska_files files = {0};
    ruvkhiska_converter converter = {0};
    ruvkhiska_bytes octets = {0}, document = {0};
    MUST(ruvkhiska_add(&files, BYTES("order.xsd"), schema, schema_count) == RUVKHISKA_DONE);
    MUST(ruvkhiska_open(&files, BYTES("urn:po"), BYTES("order"), &converter, &why) == RUVKHISKA_DONE);
    ruvkhiska_drop_files(&files);
    size_t opened = held, early = 0;
    most = held;
    for (unsigned long i = 0; i < messages; i++) {
        MUST(ruvkhiska_encode(&converter, (uint32_t)(i % 3), BYTES(first), &octets, &why) == RUVKHISKA_DONE);
        MUST(ruvkhiska_decode(&converter, (uint32_t)(i % 3), octets.data, octets.count, &document, &why) == RUVKHISKA_DONE);
        if (i == 999) early = most;
        if (wrong > 10) break;
    }
    MUST(most == early || messages <= 1000);
    ruvkhiska_free(&octets);
    ruvkhiska_free(&document);
    MUST(held == opened);
    ruvkhiska_close(&converter);
    MUST(blocks == 0 && held == 0);
    printf("%lu messages both ways: %zu bytes are held by what was prepared, %zu at most with a message; %lu blocks left\n", messages, opened, most, blocks);
    return wrong != 0;
}

int main(int argc, char **argv) {
    FILE *file = argc > 2 ? fopen(argv[2], "rb") : 0;
    if (!file) return 2;
    schema_count = fread(schema, 1, sizeof schema, file);
    fclose(file);
    if (strcmp(argv[1], "refuse") == 0) {
        usage();
        return refuse();
    }
    return many(argc > 3 ? strtoul(argv[3], 0, 10) : 1000000);
}
