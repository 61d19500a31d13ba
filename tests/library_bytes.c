/* How many bytes the library for C requests, compared with bounds by the size of its input: no call allocates for what isn't there. Silent
 * where all is as it should be.
 *
 * usage: library_bytes [--tell]     --tell: writes what each call requested, and its bound */
#include "cutterash.h"
#include "refusing.h"

#include <string.h>

enum { LONG = 1 << 20 };

static uint8_t room[LONG * 2];
static char text[LONG * 2];
static bool tells = false;

/* Whether what was requested since `before` is at most `bound` bytes. */
static void is_within(const char *what, size_t before, size_t bound) {
    if (tells)
        printf("%s: %zu of %zu\n", what, requested - before, bound);
    if (requested - before > bound) {
        fprintf(stderr, "%s: %zu bytes were requested, more than %zu\n", what, requested - before, bound);
        failed = 1;
    }
}

static struct cutterash_reply compile_text(void) {
    return cutterash_compile((const uint8_t *)text, strlen(text), room, sizeof room);
}

static struct cutterash_reply run_text(struct cutterash_filter *filter, size_t length) {
    return cutterash_run(filter, (const uint8_t *)text, length, room, sizeof room);
}

/* A specification of `count` clauses, whose file is loaded. */
static void try_compile(struct cutterash_filter *filter, long count) {
    char *at = text + sprintf(text, "[");
    for (long i = 0; i < count; i++)
        at += sprintf(at, "%s{{%ld,'$1'},[{'>','$1',%ld}],[{{'$1',%ld}}]}", i == 0 ? "" : ",", i, i, i);
    sprintf(at, "].");
    size_t before = requested;
    struct cutterash_reply reply = compile_text();
    HOLDS(reply.status == CUTTERASH_DONE);
    is_within("compile", before, 4096 + 256 * strlen(text));
    before = requested;
    reply = cutterash_load(filter, room, reply.length);
    HOLDS(reply.status == CUTTERASH_DONE);
    is_within("load", before, 4096 + 64 * strlen(text));
}

/* Runs whose answers are built. None takes more than its object and its answer do, and a few hundred bytes. */
static void try_run(struct cutterash_filter *filter) {
    for (long i = 0; i < 8; i++) {
        size_t length = sprintf(text, "{%ld,%ld}.", i, i + 1);
        size_t before = requested;
        HOLDS(run_text(filter, length).status == CUTTERASH_DONE);
        is_within("run", before, 512);
    }
}

/* Objects that are rejected for their size: a bare word, a quoted atom and a binary past their limits, and a term past 255 levels. Of a word the
 * bytes are copied at most once. */
static void try_refused(struct cutterash_filter *filter) {
    memset(text, 'a', LONG);
    text[LONG] = '.';
    size_t before = requested;
    struct cutterash_reply reply = run_text(filter, LONG + 1);
    HOLDS(reply.status == CUTTERASH_REFUSED && reply.number == 3);
    is_within("a word past the limit", before, 1024 + LONG);
    text[0] = '\'';
    before = requested;
    reply = run_text(filter, LONG + 1);
    HOLDS(reply.status == CUTTERASH_REFUSED && reply.number == 3);
    is_within("a quoted atom past the limit", before, 8192);
    memset(text, '[', LONG);
    before = requested;
    reply = run_text(filter, LONG);
    HOLDS(reply.status == CUTTERASH_REFUSED && reply.number == 2);
    is_within("a term past 255 levels", before, 65536);
}

static uint8_t *put(uint8_t *at, const uint8_t *bytes, size_t count) {
    memcpy(at, bytes, count);
    return at + count;
}

#define PUT(at, ...) put(at, (const uint8_t[]){__VA_ARGS__}, sizeof(const uint8_t[]){__VA_ARGS__})

/* Code whose main body invokes routine 1 `invoked` times, of `routines` routines that return their argument, over `constants` constants []. */
static size_t code_of_routines(uint8_t *file, unsigned constants, unsigned routines, unsigned invoked) {
    unsigned fails = invoked + 2;
    uint8_t *at = PUT(file, 'E', 'M', 'S', 'C', 0, 2, (uint8_t)(constants >> 8), (uint8_t)constants);
    memset(at, 5, constants);
    at = PUT(at + constants, 0, (uint8_t)(routines + 1), 0, 0, (uint8_t)((invoked + 3) >> 8), (uint8_t)(invoked + 3), 1);
    for (unsigned i = 0; i < invoked; i++)
        at = PUT(at, 26, 0, 1, (uint8_t)(fails >> 8), (uint8_t)fails);
    at = PUT(at, 24, 25, 0, 1, (uint8_t)(fails >> 8), (uint8_t)fails, 0, 0, 0, 0, 0, 0);
    for (unsigned i = 0; i < routines; i++)
        at = PUT(at, 0, 1, 0, 0, 0, 0, 0, 1, 27, 0, 0);
    return (size_t)(at - file);
}

/* Routines: what they take when they are read goes with the file, and so with the constants once; what a run takes doesn't go with how often one
 * is invoked. */
static void try_routines(void) {
    struct cutterash_filter filter = {0};
    size_t length = code_of_routines(room, 0, 254, 1), before = requested;
    HOLDS(cutterash_load(&filter, room, length).status == CUTTERASH_DONE);
    is_within("load 254 routines", before, 4096 + 254 * 1024);
    length = code_of_routines(room, 60000, 254, 1);
    before = requested;
    HOLDS(cutterash_load(&filter, room, length).status == CUTTERASH_DONE);
    is_within("load 254 routines over 60,000 constants", before, 4096 + 254 * 1024 + 128 * 60000);
    for (unsigned invoked = 1; invoked <= 10000; invoked *= 100) {
        length = code_of_routines(room, 0, 1, invoked);
        HOLDS(cutterash_load(&filter, room, length).status == CUTTERASH_DONE);
        length = sprintf(text, "a.");
        before = requested;
        HOLDS(run_text(&filter, length).status == CUTTERASH_DONE);
        is_within("run with routines", before, 4096);
    }
    cutterash_close(&filter);
}

/* Files whose counts are false. */
static void try_files(void) {
    struct cutterash_filter filter = {0};
    static const uint8_t constants[] = {'E', 'M', 'S', 'C', 0, 1, 0, 0, 255, 255};
    static const uint8_t list[] = {'E', 'M', 'S', 'C', 0, 1, 0, 0, 0, 1, 6, 0, 16, 0, 0};
    size_t before = requested;
    HOLDS(cutterash_load(&filter, constants, sizeof constants).status == CUTTERASH_REFUSED);
    is_within("65,535 constants that aren't there", before, 1024);
    before = requested;
    HOLDS(cutterash_load(&filter, list, sizeof list).status == CUTTERASH_REFUSED);
    is_within("a list that isn't there", before, 1024);
    cutterash_close(&filter);
}

/* Insertions and selections, each of which takes what its text, its row and its reply do; slots that are doubled are in the sum. */
static void try_table(void) {
    struct cutterash_table table = {0};
    HOLDS(cutterash_table_open(&table).status == CUTTERASH_DONE);
    sprintf(text, "{open,set,1,1,1}.");
    HOLDS(cutterash_table_run(&table, (const uint8_t *)text, strlen(text), room, sizeof room).status == CUTTERASH_DONE);
    size_t before = requested;
    for (long i = 0; i < 4096; i++) {
        sprintf(text, "{insert,0,{%ld,user,[admin]}}.", i);
        HOLDS(cutterash_table_run(&table, (const uint8_t *)text, strlen(text), room, sizeof room).status == CUTTERASH_DONE);
    }
    is_within("4,096 insertions", before, 4096 * 640);
    for (long i = 0; i < 4096; i += 512) {
        sprintf(text, "{lookup,0,%ld}. {member,0,%ld}. {select,0,[{{%ld,'$1','_'},[],['$1']}]}.", i, i, i);
        before = requested;
        HOLDS(cutterash_table_run(&table, (const uint8_t *)text, strlen(text), room, sizeof room).status == CUTTERASH_DONE);
        is_within("a look-up and a selection by key", before, 12288);
    }
    sprintf(text, "{select,0,[{{'$1',user,'_'},[],['$1']}]}.");
    before = requested;
    struct cutterash_reply reply = cutterash_table_run(&table, (const uint8_t *)text, strlen(text), room, sizeof room);
    HOLDS(reply.status == CUTTERASH_DONE);
    is_within("a selection of all", before, 65536 + 4096 * 128);
    cutterash_table_close(&table);
}

int main(int count, char **words) {
    tells = count == 2 && strcmp(words[1], "--tell") == 0;
    struct cutterash_filter filter = {0};
    long all = in_use;
    try_compile(&filter, 4);
    try_compile(&filter, 400);
    try_run(&filter);
    try_refused(&filter);
    cutterash_close(&filter);
    try_files();
    try_routines();
    try_table();
    HOLDS(in_use == all);
    return failed;
}
