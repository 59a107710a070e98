/*
 * Threads that convert with one prepared set. tests/threads.sh compiles and runs it.
 *
 *     threads right THREADS MESSAGES      each thread has a converter of its own, an owner of the same set
 *     threads misuse THREADS MESSAGES     all threads use one converter, which a checker must report
 *
 * A message is a document that is checked, encoded and decoded. Each result is compared with that of one thread. With -DCOUNTED
 * the program has an allocator of its own, which counts blocks: none may be left.
 */
#include "../include/ruvkhiska.h"
#include <pthread.h>
#include <stdio.h>
#include <stdlib.h>
#include <string.h>

#ifdef COUNTED
/* ---- the allocator that the library calls. Each thread counts for itself: a shared count would order the threads' calls */

struct found {
    bool ok;
    void *at;
};

static _Alignas(16) char nothing[16];
static _Thread_local long blocks, asked;

struct found rattle_alloc(size_t size, size_t align) {
    (void)align;
    void *at = malloc(size ? size : 1);
    if (!at) return (struct found){false, nothing};
    blocks++;
    asked++;
    return (struct found){true, at};
}

struct found rattle_realloc(void *old, size_t old_size, size_t size, size_t align) {
    (void)old_size;
    (void)align;
    void *at = realloc(old, size ? size : 1);
    return at ? (struct found){true, at} : (struct found){false, nothing};
}

void rattle_dealloc(void *at) {
    blocks--;
    free(at);
}
#else
static const long blocks, asked;
#endif

/* ---- a set with names over 22 bytes, enumerations, lists, unions, defaults and mixed content */

#define SPACE "urn:ruvkhiska:messages:for:many:threads"

static const char schema[] =
    "<xs:schema xmlns:xs='http://www.w3.org/2001/XMLSchema' xmlns='" SPACE "' targetNamespace='" SPACE "' elementFormDefault='qualified'>"
    "<xs:simpleType name='direction-of-the-moving-vehicle'><xs:restriction base='xs:token'>"
    "<xs:enumeration value='towards-the-northern-hemisphere'/><xs:enumeration value='towards-the-southern-hemisphere'/>"
    "<xs:enumeration value='east'/><xs:enumeration value='west'/></xs:restriction></xs:simpleType>"
    "<xs:simpleType name='directions-of-the-moving-vehicle'><xs:list itemType='direction-of-the-moving-vehicle'/></xs:simpleType>"
    "<xs:simpleType name='numbers-of-several-measurements'><xs:list><xs:simpleType><xs:restriction base='xs:int'>"
    "<xs:enumeration value='-5'/><xs:enumeration value='1000000'/><xs:enumeration value='7'/></xs:restriction></xs:simpleType></xs:list></xs:simpleType>"
    "<xs:simpleType name='number-or-direction-of-the-vehicle'><xs:union memberTypes='xs:int direction-of-the-moving-vehicle'/></xs:simpleType>"
    "<xs:element name='report-of-the-moving-vehicle'><xs:complexType><xs:sequence>"
    "<xs:element name='identifier-of-the-moving-vehicle' type='xs:token'/>"
    "<xs:choice minOccurs='0' maxOccurs='unbounded'>"
    "<xs:element name='direction-that-was-measured-first' type='direction-of-the-moving-vehicle'/>"
    "<xs:element name='directions-that-were-measured-later' type='directions-of-the-moving-vehicle'/>"
    "<xs:element name='measurements-that-are-numbers-only' type='numbers-of-several-measurements'/>"
    "<xs:element name='measurement-of-one-or-another-kind' type='number-or-direction-of-the-vehicle'/></xs:choice>"
    "<xs:element name='remarks-about-the-moving-vehicle' minOccurs='0'><xs:complexType mixed='true'><xs:sequence>"
    "<xs:element name='emphasis' type='xs:string' minOccurs='0' maxOccurs='unbounded'/></xs:sequence></xs:complexType></xs:element>"
    "<xs:element name='no' type='xs:unsignedByte' nillable='true' minOccurs='0'/>"
    "</xs:sequence><xs:attribute name='kind-of-the-moving-vehicle' type='direction-of-the-moving-vehicle' default='towards-the-southern-hemisphere'/>"
    "<xs:attribute name='id' type='xs:unsignedShort' use='required'/></xs:complexType></xs:element></xs:schema>";

#define REPORT(attributes, content) \
    "<report-of-the-moving-vehicle xmlns='" SPACE "'" attributes ">" \
    "<identifier-of-the-moving-vehicle>a vehicle with a long name, " content "</report-of-the-moving-vehicle>"
#define NAMED "</identifier-of-the-moving-vehicle>"
#define FIRST(word) "<direction-that-was-measured-first>" word "</direction-that-was-measured-first>"
#define LATER(words) "<directions-that-were-measured-later>" words "</directions-that-were-measured-later>"
#define NUMBERS(words) "<measurements-that-are-numbers-only>" words "</measurements-that-are-numbers-only>"
#define EITHER(word) "<measurement-of-one-or-another-kind>" word "</measurement-of-one-or-another-kind>"

/* The last three are rejected. */
static const char *const documents[] = {
    REPORT(" id='1'", NAMED),
    REPORT(" id='2' kind-of-the-moving-vehicle='towards-the-northern-hemisphere'", "2" NAMED FIRST("east") FIRST("towards-the-northern-hemisphere")),
    REPORT(" id='3'", "3" NAMED LATER("west towards-the-northern-hemisphere west") NUMBERS("7 -5 1000000 7") LATER("")),
    REPORT(" id='4'", "4" NAMED EITHER("-123456") EITHER("towards-the-southern-hemisphere") EITHER("east") NUMBERS("")),
    REPORT(" id='5' kind-of-the-moving-vehicle='west'", "5" NAMED FIRST("towards-the-southern-hemisphere")
        "<remarks-about-the-moving-vehicle>some <emphasis>text</emphasis> that is mixed</remarks-about-the-moving-vehicle>"
        "<no xmlns:i='http://www.w3.org/2001/XMLSchema-instance' i:nil='true'/>"),
    REPORT(" id='65536'", NAMED),
    REPORT(" id='7'", NAMED LATER("west south")),
    "<report-of-the-moving-vehicle xmlns='" SPACE "' id='8'>",
};

enum { DOCUMENTS = sizeof documents / sizeof *documents, SYNTAXES = 3, MOST_THREADS = 64 };

/* ---- what one thread's calls give */

struct result {
    int32_t status;
    uint8_t *bytes;
    size_t count;
    ruvkhiska_complaint why;
};

static struct result checked[DOCUMENTS], encoded[DOCUMENTS][SYNTAXES], decoded[DOCUMENTS][SYNTAXES], cut[DOCUMENTS][SYNTAXES];

#define BYTES(text) (const uint8_t *)(text), strlen(text)

static struct result kept(int32_t status, ruvkhiska_bytes *answer, const ruvkhiska_complaint *why) {
    struct result it = {status, NULL, 0, *why};
    if (status == RUVKHISKA_DONE && answer) {
        it.bytes = malloc(answer->count + 1);
        if (!it.bytes) exit(3);
        memcpy(it.bytes, answer->data, answer->count);
        it.count = answer->count;
    }
    return it;
}

static bool same(const struct result *it, int32_t status, const ruvkhiska_bytes *answer, const ruvkhiska_complaint *why) {
    if (status != it->status || why->count != it->why.count || memcmp(why->text, it->why.text, why->count) != 0) return false;
    return !it->bytes || (answer->is_given && answer->count == it->count && memcmp(answer->data, it->bytes, it->count) == 0);
}

static void by_one_thread(ruvkhiska_converter *first) {
    ruvkhiska_bytes octets = {0}, document = {0};
    ruvkhiska_complaint why;
    for (int i = 0; i < DOCUMENTS; i++) {
        int32_t status = ruvkhiska_check(first, BYTES(documents[i]), &why);
        checked[i] = kept(status, NULL, &why);
        for (uint32_t syntax = 0; syntax < SYNTAXES; syntax++) {
            status = ruvkhiska_encode(first, syntax, BYTES(documents[i]), &octets, &why);
            encoded[i][syntax] = kept(status, &octets, &why);
            if (status != RUVKHISKA_DONE) continue;
            status = ruvkhiska_decode(first, syntax, octets.data, octets.count, &document, &why);
            decoded[i][syntax] = kept(status, &document, &why);
            status = ruvkhiska_decode(first, syntax, octets.data, octets.count - 1, &document, &why);
            cut[i][syntax] = kept(status, &document, &why);
        }
    }
    ruvkhiska_free(&octets);
    ruvkhiska_free(&document);
}

/* ---- the threads */

struct work {
    /* A thread makes a further owner of the set now and then, and closes the one that it had. */
    ruvkhiska_converter mine[2];
    ruvkhiska_converter *converter;
    bool is_alone;
    unsigned long from, step, messages, wrong, rejected;
    long blocks, asked;
};

static void convert(struct work *work, unsigned long number, ruvkhiska_bytes *octets, ruvkhiska_bytes *document) {
    unsigned long i = number % DOCUMENTS;
    uint32_t syntax = (uint32_t)(number / DOCUMENTS % SYNTAXES);
    ruvkhiska_complaint why;
    int32_t status = ruvkhiska_check(work->converter, BYTES(documents[i]), &why);
    work->wrong += !same(&checked[i], status, NULL, &why);
    status = ruvkhiska_encode(work->converter, syntax, BYTES(documents[i]), octets, &why);
    work->wrong += !same(&encoded[i][syntax], status, octets, &why);
    if (status != RUVKHISKA_DONE) {
        work->rejected++;
        return;
    }
    status = ruvkhiska_decode(work->converter, syntax, octets->data, octets->count, document, &why);
    work->wrong += !same(&decoded[i][syntax], status, document, &why);
    status = ruvkhiska_decode(work->converter, syntax, octets->data, octets->count - 1, document, &why);
    work->wrong += !same(&cut[i][syntax], status, document, &why);
}

static void *run(void *given) {
    struct work *work = given;
    ruvkhiska_bytes octets = {0}, document = {0};
    long before = blocks, asked_before = asked;
    for (unsigned long i = work->from; i < work->messages; i += work->step) {
        convert(work, i, &octets, &document);
        if (work->is_alone && i / work->step % 64 == 63) {
            ruvkhiska_converter *other = &work->mine[work->converter == work->mine];
            work->wrong += ruvkhiska_share(work->converter, other) != RUVKHISKA_DONE;
            ruvkhiska_close(work->converter);
            work->converter = other;
            ruvkhiska_free(&octets);
        }
    }
    ruvkhiska_free(&octets);
    ruvkhiska_free(&document);
    if (work->is_alone) ruvkhiska_close(work->converter);
    work->blocks = blocks - before;
    work->asked = asked - asked_before;
    return NULL;
}

static int open_first(ruvkhiska_converter *first) {
    ruvkhiska_files files = {0};
    ruvkhiska_complaint why;
    if (ruvkhiska_add(&files, BYTES("schema.xsd"), BYTES(schema)) != RUVKHISKA_DONE) return 1;
    int32_t status = ruvkhiska_open(&files, BYTES(SPACE), BYTES("report-of-the-moving-vehicle"), first, &why);
    ruvkhiska_drop_files(&files);
    if (status) printf("schema: status %d: %.*s", status, (int)why.count, (const char *)why.text);
    return status;
}

int main(int argc, char **argv) {
    static struct work works[MOST_THREADS];
    pthread_t threads[MOST_THREADS];
    ruvkhiska_converter first = {0};
    if (argc != 4) return 2;
    bool is_right = strcmp(argv[1], "right") == 0;
    unsigned long count = strtoul(argv[2], NULL, 10), messages = strtoul(argv[3], NULL, 10), wrong = 0, rejected = 0;
    long left = 0, all = 0;
    if (count < 1 || count > MOST_THREADS) return 2;
    if (open_first(&first)) return 2;
    by_one_thread(&first);
    for (unsigned long i = 0; i < count; i++) {
        works[i] = (struct work){.from = i, .step = count, .messages = messages, .is_alone = is_right};
        works[i].converter = is_right ? works[i].mine : &first;
        if (is_right && ruvkhiska_share(&first, works[i].mine) != RUVKHISKA_DONE) return 2;
    }
    /* The last of the threads frees the set. */
    if (is_right) ruvkhiska_close(&first);
    for (unsigned long i = 0; i < count; i++)
        if (pthread_create(&threads[i], NULL, run, &works[i]) != 0) return 2;
    for (unsigned long i = 0; i < count; i++) {
        pthread_join(threads[i], NULL);
        wrong += works[i].wrong;
        rejected += works[i].rejected;
        left += works[i].blocks;
        all += works[i].asked;
    }
    ruvkhiska_close(&first);
    left += blocks;
    all += asked;
    for (int i = 0; i < DOCUMENTS; i++)
        for (int syntax = 0; syntax < SYNTAXES; syntax++) {
            free(encoded[i][syntax].bytes);
            free(decoded[i][syntax].bytes);
        }
    printf("%lu threads, %lu messages, %lu of them rejected: %lu wrong results", count, messages, rejected, wrong);
#ifdef COUNTED
    printf("; %ld blocks left of %ld", left, all);
    wrong += left != 0;
#endif
    printf("\n");
    return wrong != 0;
}
