/*
 * Throughput by number of threads that convert with one prepared set. bench/threads.sh compiles and runs it.
 *
 *     threads SPACE LOCAL SCHEMA DOCUMENT MOST COUNT TURNS
 *
 * Each of 1 to MOST threads encodes and decodes COUNT messages. The greatest throughput of TURNS turns counts.
 */
#include "../include/ruvkhiska.h"
#include <pthread.h>
#include <stdio.h>
#include <stdlib.h>
#include <string.h>
#include <time.h>

enum { MOST = 256, ROOM = 65536 };

struct text {
    uint8_t bytes[ROOM];
    size_t count;
};

struct worker {
    pthread_t thread;
    ruvkhiska_converter converter;
    unsigned long count;
    int failed;
};

static struct text schema, document;
static pthread_barrier_t start;

static double now(clockid_t clock) {
    struct timespec time;
    clock_gettime(clock, &time);
    return (double)time.tv_sec + (double)time.tv_nsec * 1e-9;
}

static void *work(void *given) {
    struct worker *self = given;
    ruvkhiska_bytes octets = {0}, back = {0};
    ruvkhiska_complaint why;
    pthread_barrier_wait(&start);
    for (unsigned long i = 0; i < self->count && !self->failed; i++) {
        self->failed = ruvkhiska_encode(&self->converter, RUVKHISKA_ALIGNED, document.bytes, document.count, &octets, &why);
        if (!self->failed) self->failed = ruvkhiska_decode(&self->converter, RUVKHISKA_ALIGNED, octets.data, octets.count, &back, &why);
    }
    ruvkhiska_free(&octets);
    ruvkhiska_free(&back);
    ruvkhiska_close(&self->converter);
    return NULL;
}

static int read_file(const char *name, struct text *to) {
    FILE *file = fopen(name, "rb");
    if (!file) return 1;
    to->count = fread(to->bytes, 1, ROOM, file);
    fclose(file);
    return 0;
}

/* The messages a second of that many threads, and the processor time of a message. */
static double throughput(ruvkhiska_converter *first, unsigned threads, unsigned long count, double *each) {
    static struct worker workers[MOST];
    pthread_barrier_init(&start, NULL, threads + 1);
    for (unsigned i = 0; i < threads; i++) {
        workers[i] = (struct worker){.count = count};
        if (ruvkhiska_share(first, &workers[i].converter) || pthread_create(&workers[i].thread, NULL, work, &workers[i])) exit(1);
    }
    pthread_barrier_wait(&start);
    double from = now(CLOCK_MONOTONIC), used = now(CLOCK_PROCESS_CPUTIME_ID);
    for (unsigned i = 0; i < threads; i++) {
        pthread_join(workers[i].thread, NULL);
        if (workers[i].failed) exit(1);
    }
    double took = now(CLOCK_MONOTONIC) - from, messages = (double)threads * (double)count;
    *each = (now(CLOCK_PROCESS_CPUTIME_ID) - used) / messages;
    pthread_barrier_destroy(&start);
    return messages / took;
}

int main(int argc, char **argv) {
    if (argc != 8 || read_file(argv[3], &schema) || read_file(argv[4], &document)) return 2;
    unsigned most = (unsigned)atoi(argv[5]);
    unsigned long count = strtoul(argv[6], NULL, 10);
    int turns = atoi(argv[7]);
    if (most < 1 || most > MOST) return 2;
    ruvkhiska_files files = {0};
    ruvkhiska_converter first = {0};
    ruvkhiska_complaint why;
    ruvkhiska_add(&files, (const uint8_t *)"schema.xsd", 10, schema.bytes, schema.count);
    int32_t status = ruvkhiska_open(&files, (const uint8_t *)argv[1], strlen(argv[1]), (const uint8_t *)argv[2], strlen(argv[2]), &first, &why);
    ruvkhiska_drop_files(&files);
    if (status) {
        fprintf(stderr, "status %d: %.*s", status, (int)why.count, (const char *)why.text);
        return 1;
    }
    double greatest[MOST + 1] = {0}, least[MOST + 1] = {0};
    /* Turns alternate between the numbers of threads, so that a busy minute doesn't fall on one of them alone. */
    for (int turn = 0; turn < turns; turn++)
        for (unsigned threads = 1; threads <= most; threads++) {
            double each, rate = throughput(&first, threads, count, &each);
            if (rate > greatest[threads]) greatest[threads] = rate;
            if (turn == 0 || each < least[threads]) least[threads] = each;
        }
    ruvkhiska_close(&first);
    printf("threads  messages/s  of linear  processor time of a message, and of one thread's\n");
    for (unsigned threads = 1; threads <= most; threads++)
        printf("%7u %11.0f %10.2f %8.2f us %27.2f\n", threads, greatest[threads], greatest[threads] / threads / greatest[1],
            least[threads] * 1e6, least[threads] / least[1]);
    return 0;
}
