/* Makes allocations fail, and counts their bytes: linked with --wrap for malloc, realloc and free. Each program includes this once. */
#include <stdbool.h>
#include <stdio.h>
#include <stdlib.h>

static int failed = 0;

#define HOLDS(what)                                                    \
    do {                                                               \
        if (!(what)) {                                                 \
            fprintf(stderr, "line %d: not so: %s\n", __LINE__, #what); \
            failed = 1;                                                \
        }                                                              \
    } while (0)

/* How many more allocations succeed before one fails; negative if none fails. */
static long given = -1;

/* Whether one allocation fails alone, or all later ones, too. */
static bool is_alone = false;

/* Allocations that failed. */
static long refused = 0;

/* Blocks that are in use. */
static long in_use = 0;

/* Bytes that were requested, including those of blocks that were freed since. */
static size_t requested = 0;

void *__real_malloc(size_t size);
void *__real_realloc(void *block, size_t size);
void __real_free(void *block);

static bool is_refused(void) {
    if (given == 0) {
        refused++;
        given = is_alone ? -1 : 0;
        return true;
    }
    if (given > 0)
        given--;
    return false;
}

void *__wrap_malloc(size_t size) {
    requested += size;
    void *block = is_refused() ? NULL : __real_malloc(size);
    in_use += block != NULL;
    return block;
}

void *__wrap_realloc(void *old, size_t size) {
    requested += size;
    void *block = is_refused() ? NULL : __real_realloc(old, size);
    in_use += block != NULL && old == NULL;
    return block;
}

void __wrap_free(void *block) {
    in_use -= block != NULL;
    __real_free(block);
}
