/*
 * Encodes a file of messages, each a document on a line of its own, in as many threads as there are processors.
 *
 *     cc threads.c -pthread $(pkg-config --cflags --libs ruvkhiska) -o threads
 *     ./threads urn:po order orders.txt order.xsd
 *
 * The schema is read once. Each thread has a converter of its own, made by ruvkhiska_share: one more owner of the same prepared
 * set, which no call changes, so no thread waits for another. The last converter that is closed frees the set.
 */
#include "ruvkhiska.h"
#include <pthread.h>
#include <stdio.h>
#include <stdlib.h>
#include <string.h>
#include <unistd.h>

struct text {
    uint8_t *bytes;
    size_t count;
};

/* What a thread has for itself: its converter, its messages, and what it counts. */
struct worker {
    pthread_t thread;
    ruvkhiska_converter converter;
    const struct text *messages;
    size_t from, step, end;
    size_t encoded, octets, rejected;
};

static void *work(void *given) {
    struct worker *self = given;
    ruvkhiska_bytes octets = {0};
    ruvkhiska_complaint why;
    for (size_t i = self->from; i < self->end; i += self->step) {
        const struct text *it = &self->messages[i];
        if (ruvkhiska_encode(&self->converter, RUVKHISKA_ALIGNED, it->bytes, it->count, &octets, &why) == RUVKHISKA_DONE) {
            self->encoded++;
            self->octets += octets.count;
        } else {
            self->rejected++;
        }
    }
    ruvkhiska_free(&octets);
    ruvkhiska_close(&self->converter);
    return NULL;
}

/* Reads a file of at most 16 MiB. */
static struct text contents(const char *name) {
    struct text it = {malloc(16777216), 0};
    FILE *file = fopen(name, "rb");
    if (!file || !it.bytes) {
        perror(name);
        exit(1);
    }
    it.count = fread(it.bytes, 1, 16777216, file);
    fclose(file);
    return it;
}

/* Opens a converter on one schema file. */
static void prepare(char **words, ruvkhiska_converter *converter) {
    const uint8_t *space = (const uint8_t *)words[1], *local = (const uint8_t *)words[2], *name = (const uint8_t *)words[4];
    struct text schema = contents(words[4]);
    ruvkhiska_files files = {0};
    ruvkhiska_complaint why = {0};
    int32_t status = ruvkhiska_add(&files, name, strlen(words[4]), schema.bytes, schema.count);
    if (status == RUVKHISKA_DONE)
        status = ruvkhiska_open(&files, space, strlen(words[1]), local, strlen(words[2]), converter, &why);
    ruvkhiska_drop_files(&files);
    free(schema.bytes);
    if (status != RUVKHISKA_DONE) {
        fprintf(stderr, "status %d: %.*s", status, (int)why.count, (const char *)why.text);
        exit(status);
    }
}

int main(int argc, char **argv) {
    if (argc != 5) {
        fprintf(stderr, "threads SPACE LOCAL MESSAGES SCHEMA\n");
        return 2;
    }
    ruvkhiska_converter first = {0};
    prepare(argv, &first);

    struct text file = contents(argv[3]);
    struct text *messages = calloc(file.count + 1, sizeof *messages);
    size_t count = 0;
    for (size_t from = 0; messages && from < file.count; count++) {
        uint8_t *end = memchr(file.bytes + from, '\n', file.count - from);
        size_t length = end ? (size_t)(end - (file.bytes + from)) : file.count - from;
        messages[count] = (struct text){file.bytes + from, length};
        from += length + 1;
    }

    long processors = sysconf(_SC_NPROCESSORS_ONLN);
    size_t threads = processors > 0 ? (size_t)processors : 1, encoded = 0, octets = 0, rejected = 0;
    struct worker *workers = calloc(threads, sizeof *workers);
    if (!messages || !workers) return 1;
    for (size_t i = 0; i < threads; i++) {
        struct worker *it = &workers[i];
        *it = (struct worker){.messages = messages, .from = i, .step = threads, .end = count};
        /* One call at a time uses a converter, so the first is shared before the thread starts. */
        if (ruvkhiska_share(&first, &it->converter) != RUVKHISKA_DONE) return 1;
        if (pthread_create(&it->thread, NULL, work, it) != 0) return 1;
    }
    ruvkhiska_close(&first);
    for (size_t i = 0; i < threads; i++) {
        pthread_join(workers[i].thread, NULL);
        encoded += workers[i].encoded;
        octets += workers[i].octets;
        rejected += workers[i].rejected;
    }
    printf("%zu threads: %zu messages as %zu octets, %zu rejected\n", threads, encoded, octets, rejected);
    free(workers);
    free(messages);
    free(file.bytes);
    return 0;
}
