/*
 * Ruvkhiska for C: XML documents of a schema as the few octets of canonical PER, or DER, and back. Schemas are read once, and then any
 * number of messages is checked, encoded and decoded. docs/guide/LIBRARY.md has how it is linked, and an example.
 *
 *     ruvkhiska_files files = {0};
 *     ruvkhiska_converter converter = {0};
 *     ruvkhiska_bytes octets = {0};
 *     ruvkhiska_complaint why;
 *     ruvkhiska_add(&files, name, name_count, contents, contents_count);
 *     ruvkhiska_open(&files, space, space_count, local, local_count, &converter, &why);
 *     ruvkhiska_drop_files(&files);
 *     ruvkhiska_encode(&converter, RUVKHISKA_ALIGNED, document, document_count, &octets, &why);
 *     .. octets.data, octets.count ..
 *     ruvkhiska_free(&octets);
 *     ruvkhiska_close(&converter);
 *
 * The status of each call says how it ended, and a call that rejects gives the reason. The code of these calls is proved to do what
 * this page says, as long as C keeps what "What C keeps" says, which nothing can check. That memory is freed isn't proved.
 * ruvkhiska_each is C in this header, and isn't proved: it loops over a call that is.
 *
 * WHAT C KEEPS
 *
 * Slots. A slot (files, converter, bytes) is zeros at first, as `= {0}` or static storage has it. Only the calls below write its
 * fields, and C reads those of `ruvkhiska_bytes` alone. It is never copied while it is open (a copy would own the same memory),
 * nor moved by memcpy to another place and used at both. Once done with, it is closed; closing it twice does no harm, and a
 * call on a closed converter answers RUVKHISKA_CLOSED.
 *
 * Pointers. Each pointer with its count names that many bytes of one object, which nothing else writes during the call. It is
 * never NULL, not for 0 bytes either, and the count is below 2^63. Slots, the complaint and the bytes that are read do not
 * overlap one another.
 *
 * Threads. Any number of threads convert at the same time with one set of schemas, each with a slot of its own: ruvkhiska_share makes
 * a second slot for what the first one has, and copies nothing. One call at a time has a slot. A slot may pass to another thread when
 * the calls before it have returned there, as by a lock, or when the thread starts or is joined. Closing a slot while another thread
 * has it in a call is a fault of the caller. No call is made in a signal handler, nor in the forked child of a process with threads.
 *
 * Memory. malloc, realloc and free are those of one allocator, and align blocks up to 16 bytes. The stack has room: 8 MB for
 * the deepest documents (docs/reference/LIMITS.md).
 */
#ifndef RUVKHISKA_H
#define RUVKHISKA_H

#include <stdbool.h>
#include <stddef.h>
#include <stdint.h>
#include <stdlib.h>
#include <string.h>

/* The version of this header, and the same as a number: 10,000 for each major version, 100 for each minor one, and 1 for each patch.
 * A program compares the number with ruvkhiska_version() to detect a library that is older than its header. */
#define RUVKHISKA_VERSION "1.0.0"
#define RUVKHISKA_VERSION_NUMBER 10000

#ifdef __cplusplus
extern "C" {
#endif

/* How a call ended. Where the program has an exit status for it, it is the same number. */
enum {
    RUVKHISKA_DONE = 0,
    /* A name or a root that isn't UTF-8, a 65th file, a number that is no transfer syntax, room for a stamp that hasn't 8 octets, or a
     * place after the end of a text. A complaint with it has no bytes. */
    RUVKHISKA_USAGE = 2,
    /* The first fault of a schema file: of its text, or as a schema document. */
    RUVKHISKA_SCHEMA_SYNTAX = 3,
    RUVKHISKA_SCHEMA_FAULT = 4,
    /* The first fault of the files as one set. */
    RUVKHISKA_LINK_FAULT = 5,
    /* No global element has the name of the root, or none is named and the set hasn't exactly one. */
    RUVKHISKA_UNKNOWN_ROOT = 6,
    /* The first fault of a document: of its text, or against its schema. */
    RUVKHISKA_DOCUMENT_SYNTAX = 7,
    RUVKHISKA_INVALID = 8,
    /* The octets are no encoding in PER, or something stands behind one. */
    RUVKHISKA_PER_FAULT = 9,
    RUVKHISKA_TRAILING = 10,
    /* A file or a message has over 16,777,216 bytes. */
    RUVKHISKA_TOO_LONG = 11,
    /* The document is valid, and its value has over 1,048,576 nodes. */
    RUVKHISKA_TOO_MANY_NODES = 12,
    /* The octets are no encoding in DER. */
    RUVKHISKA_DER_FAULT = 13,
    /* ruvkhiska_each alone: the input can't be read, or a document isn't accepted. */
    RUVKHISKA_READ_FAULT = 21,
    RUVKHISKA_WRITE_FAULT = 22,
    RUVKHISKA_OUT_OF_MEMORY = 30,
    /* The converter isn't open. A complaint with it has no bytes. */
    RUVKHISKA_CLOSED = 40,
    /* ruvkhiska_next alone: the octets end before the record does. */
    RUVKHISKA_MORE = 41
};

/* How values become octets. */
enum {
    /* Canonical aligned PER (X.691). */
    RUVKHISKA_ALIGNED = 0,
    /* Canonical unaligned PER (X.691). */
    RUVKHISKA_UNALIGNED = 1,
    /* DER (X.690). */
    RUVKHISKA_DER = 2
};

/* The complete line of a rejection, as the program for scripts writes it: `count` bytes, with the end of line, and no zero byte after
 * them. Each call that has a complaint writes all its fields. If the call is done, `count` is 0. It owns no memory.
 *
 * The place of the fault, if has_place holds: `file` is the number of a schema file, from 1, or 0 for the document or the octets of the
 * call. `at` is an offset in it from 0, in bits if the status is RUVKHISKA_PER_FAULT or RUVKHISKA_MORE, otherwise in bytes. If
 * has_place doesn't hold, both are 0. ruvkhiska_spot turns an offset in bytes into a line and a column. */
typedef struct {
    size_t count;
    uint64_t at;
    uint32_t file;
    bool has_place;
    uint8_t text[128];
} ruvkhiska_complaint;

/* Schema files that were added. */
typedef struct {
    bool is_open;
    void *at;
} ruvkhiska_files;

/* What was prepared of schema files and a root. */
typedef struct {
    bool is_open;
    void *at;
} ruvkhiska_converter;

/* An answer: `count` bytes at `data`, where is_given, until the slot is given to another call or to ruvkhiska_free. */
typedef struct {
    bool is_given;
    const uint8_t *data;
    size_t count;
    void *at;
} ruvkhiska_bytes;

/* Adds a schema file, the first of which opens the slot. The name, in UTF-8, and the contents are copied. Files are numbered from
 * 1 in the order in which they are added; of two with one name the first counts for both. At most 64 may be added.
 *
 * RUVKHISKA_DONE; else RUVKHISKA_USAGE or RUVKHISKA_OUT_OF_MEMORY, and the files are as they were. */
int32_t ruvkhiska_add(ruvkhiska_files *files, const uint8_t *name, size_t name_count, const uint8_t *contents, size_t contents_count);

/* Drops the files. What was prepared of them stays. */
void ruvkhiska_drop_files(ruvkhiska_files *files);

/* Returns the version of the library, as RUVKHISKA_VERSION_NUMBER has it: 10,000 for 1.0.0. */
uint32_t ruvkhiska_version(void);

/* Reads the files, links them into one set, and looks for the root in it: the global element with this local name in this
 * namespace, which is empty where it has none. Both are UTF-8. If both are empty, the root is the only global element of the set. The
 * files stay as they are.
 *
 * RUVKHISKA_DONE: the converter is open on what was prepared, and what it had before is closed. Else the converter is as it
 * was, and the status is that of the first fault, in the order in which the program tells faults (docs/reference/ORDER.md):
 * RUVKHISKA_USAGE, RUVKHISKA_SCHEMA_SYNTAX, RUVKHISKA_SCHEMA_FAULT, RUVKHISKA_LINK_FAULT, RUVKHISKA_UNKNOWN_ROOT,
 * RUVKHISKA_TOO_LONG; or it is RUVKHISKA_OUT_OF_MEMORY. */
int32_t ruvkhiska_open(ruvkhiska_files *files, const uint8_t *space, size_t space_count, const uint8_t *local, size_t local_count,
                       ruvkhiska_converter *converter, ruvkhiska_complaint *complaint);

/* Opens `mine` on what the converter has, which it copies nothing of: both slots own it, and the last one that is closed frees it. What
 * `mine` had before is closed. The converter stays as it is. Each thread takes a slot of its own this way.
 *
 * RUVKHISKA_DONE; else RUVKHISKA_CLOSED or RUVKHISKA_OUT_OF_MEMORY, and `mine` is as it was. */
int32_t ruvkhiska_share(ruvkhiska_converter *converter, ruvkhiska_converter *mine);

/* Closes the converter. Frees what it has if no other slot has it. */
void ruvkhiska_close(ruvkhiska_converter *converter);

/* Whether the document is valid for the root. The converter stays as it is.
 *
 * RUVKHISKA_DONE; RUVKHISKA_DOCUMENT_SYNTAX, RUVKHISKA_INVALID, RUVKHISKA_TOO_LONG, RUVKHISKA_OUT_OF_MEMORY, RUVKHISKA_CLOSED. */
int32_t ruvkhiska_check(ruvkhiska_converter *converter, const uint8_t *document, size_t count, ruvkhiska_complaint *complaint);

/* The encoding, in a transfer syntax, of the one value whose items are those of the document. The converter stays as it is.
 *
 * RUVKHISKA_DONE: the answer has it, and what the answer had before is freed. Else the answer is as it was:
 * RUVKHISKA_USAGE, RUVKHISKA_DOCUMENT_SYNTAX, RUVKHISKA_INVALID, RUVKHISKA_TOO_LONG, RUVKHISKA_TOO_MANY_NODES,
 * RUVKHISKA_OUT_OF_MEMORY, RUVKHISKA_CLOSED. */
int32_t ruvkhiska_encode(ruvkhiska_converter *converter, uint32_t syntax, const uint8_t *document, size_t count,
                         ruvkhiska_bytes *answer, ruvkhiska_complaint *complaint);

/* The document of the one value of which the octets are the whole encoding in a transfer syntax. The converter stays as it is.
 *
 * RUVKHISKA_DONE: the answer has it, and what the answer had before is freed. Else the answer is as it was: RUVKHISKA_USAGE,
 * RUVKHISKA_PER_FAULT, RUVKHISKA_DER_FAULT, RUVKHISKA_TRAILING, RUVKHISKA_TOO_LONG, RUVKHISKA_OUT_OF_MEMORY, RUVKHISKA_CLOSED. */
int32_t ruvkhiska_decode(ruvkhiska_converter *converter, uint32_t syntax, const uint8_t *octets, size_t count,
                         ruvkhiska_bytes *answer, ruvkhiska_complaint *complaint);

/* Reads the first record of the octets: the document of the one value with whose encoding, in canonical aligned PER, they begin. Records
 * follow one another without anything between them, as `ruvkhiska each-to-xml` reads them. The converter stays as it is.
 *
 * RUVKHISKA_DONE: the answer has the document, and what the answer had before is freed. `used` is the number of octets of the record, at
 * least 1. Else both are as they were. RUVKHISKA_MORE: the octets, if there are any, are a proper prefix of a record as far as they show.
 * The caller passes them again with those that follow. If none follow and `count` isn't 0, the complaint states the fault of the record.
 * RUVKHISKA_PER_FAULT: no octets that begin with these are a record. RUVKHISKA_TOO_LONG: the record has over 16,777,216 octets.
 * Otherwise RUVKHISKA_OUT_OF_MEMORY or RUVKHISKA_CLOSED. */
int32_t ruvkhiska_next(ruvkhiska_converter *converter, const uint8_t *octets, size_t count, ruvkhiska_bytes *answer, size_t *used,
                       ruvkhiska_complaint *complaint);

/* Writes the stamp of the set to `stamp`, which has room for 8 octets: `count` is 8. The stamp is the first 8 octets of the SHA-256 of the
 * module that `ruvkhiska show` prints. Sets with one stamp encode their documents alike. The converter stays as it is.
 *
 * RUVKHISKA_DONE; else RUVKHISKA_USAGE, RUVKHISKA_OUT_OF_MEMORY or RUVKHISKA_CLOSED, and the octets at `stamp` are as they were. */
int32_t ruvkhiska_stamp(ruvkhiska_converter *converter, uint8_t *stamp, size_t count);

/* Finds the line and the column of an offset in a text, both from 1. A line ends with a line feed. Columns count code points, or bytes if
 * what precedes the offset in its line isn't UTF-8.
 *
 * RUVKHISKA_DONE; or RUVKHISKA_USAGE if `at` is over `count`, and both are as they were. */
int32_t ruvkhiska_spot(const uint8_t *text, size_t count, uint64_t at, uint64_t *line, uint64_t *column);

/* Finds the path to the element of a document at an offset, as /order/line[2]/qty. It is empty if the text is no document or has over
 * 16,777,216 bytes.
 *
 * RUVKHISKA_DONE: `path` has it, and what it had before is freed. Else RUVKHISKA_OUT_OF_MEMORY, and it is as it was. */
int32_t ruvkhiska_path(const uint8_t *document, size_t count, uint64_t at, ruvkhiska_bytes *path);

/* Frees the answer, and leaves its slot as zeros but for padding. */
void ruvkhiska_free(ruvkhiska_bytes *answer);

/* Where ruvkhiska_each reads octets and gives documents. `context` is passed to both functions. */
typedef struct {
    void *context;
    /* Reads octets to `to`, at most `room`, and sets `count` to their number: 0 only at the end of the input. Returns whether it could.
     * To get documents as soon as they are complete, it returns with what is there, as read(2) does, and doesn't wait for more. */
    bool (*read)(void *context, uint8_t *to, size_t room, size_t *count);
    /* Uses a document, which is lent during the call. Returns whether to go on. */
    bool (*accept)(void *context, const uint8_t *document, size_t count);
} ruvkhiska_streams;

/* Writes a line without a place. ruvkhiska_each calls it. */
static inline void ruvkhiska_complain(ruvkhiska_complaint *complaint, const char *line) {
    complaint->count = strlen(line);
    complaint->at = 0;
    complaint->file = 0;
    complaint->has_place = false;
    memcpy(complaint->text, line, complaint->count);
}

/* Reads records to the end of the input, and gives the document of each to `accept` before it calls `read` again. Whatever the end, the
 * documents that were given are those of the records that precede it. It keeps at most 32 MiB of octets. After each `read` a record that
 * isn't complete yet is decoded again from its start: long records take less time if `read` fills its room.
 *
 * RUVKHISKA_DONE at the end of the input. RUVKHISKA_PER_FAULT or RUVKHISKA_TOO_LONG for the first record that is none: `at` counts from
 * its start. RUVKHISKA_READ_FAULT if `read` fails, RUVKHISKA_WRITE_FAULT if `accept` doesn't go on, RUVKHISKA_OUT_OF_MEMORY,
 * RUVKHISKA_CLOSED. */
static inline int32_t ruvkhiska_each(ruvkhiska_converter *converter, const ruvkhiska_streams *streams, ruvkhiska_complaint *complaint) {
    size_t room = 4096, start = 0, end = 0, count = 0;
    uint8_t *buffer = (uint8_t *)malloc(room);
    uint8_t *larger = NULL;
    int32_t status = RUVKHISKA_OUT_OF_MEMORY;
    ruvkhiska_bytes document;
    memset(&document, 0, sizeof document);
    if (!buffer) ruvkhiska_complain(complaint, "out of memory\n");
    while (buffer) {
        status = ruvkhiska_next(converter, buffer + start, end - start, &document, &count, complaint);
        if (status == RUVKHISKA_DONE) {
            start += count;
            if (streams->accept(streams->context, document.data, document.count)) continue;
            ruvkhiska_complain(complaint, "output: write failed\n");
            status = RUVKHISKA_WRITE_FAULT;
        }
        if (status != RUVKHISKA_MORE) break;
        end -= start;
        memmove(buffer, buffer + start, end);
        start = 0;
        if (end == room) {
            larger = (uint8_t *)realloc(buffer, 2 * room);
            if (!larger) {
                ruvkhiska_complain(complaint, "out of memory\n");
                status = RUVKHISKA_OUT_OF_MEMORY;
                break;
            }
            buffer = larger;
            room *= 2;
        }
        if (!streams->read(streams->context, buffer + end, room - end, &count)) {
            ruvkhiska_complain(complaint, "input: read failed\n");
            status = RUVKHISKA_READ_FAULT;
            break;
        }
        if (count == 0) {
            status = end == 0 ? RUVKHISKA_DONE : RUVKHISKA_PER_FAULT;
            if (end == 0) ruvkhiska_complain(complaint, "");
            break;
        }
        end += count;
    }
    ruvkhiska_free(&document);
    free(buffer);
    return status;
}

#ifdef __cplusplus
}
#endif

#endif
