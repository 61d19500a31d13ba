/* A filter in C: a specification is compiled to a code file, which may be sent anywhere. The receiver loads it, and runs it on objects.
 * `tests/library_links` builds and runs this. */
#include "cutterash.h"

#include <stdio.h>
#include <string.h>

/* The names of those whose year is above 1904. */
static const char specification[] = "[{{'_','$1','$2'},[{'>','$2',1904}],['$1']}].";

static const char *const objects[] = {"{1,ada,1815}.", "{2,alan,1912}.", "{3,alonzo,1903}.", "{4,grace,1906}."};

/* Reports that something was rejected, as ets_tool does. */
static int refused(const char *what, struct cutterash_reply reply) {
    fprintf(stderr, "%s: error E%u", what, reply.number);
    if (reply.count > 0)
        fprintf(stderr, " %llu", (unsigned long long)reply.first);
    if (reply.count > 1)
        fprintf(stderr, " %llu", (unsigned long long)reply.second);
    fprintf(stderr, "\n");
    return 1;
}

int main(void) {
    uint8_t file[1024];
    struct cutterash_reply reply =
        cutterash_compile((const uint8_t *)specification, strlen(specification), file, sizeof file);
    if (reply.status != CUTTERASH_DONE)
        return refused("compile", reply);

    /* From here on only the bytes of the file are known. */
    struct cutterash_filter filter = {0};
    reply = cutterash_load(&filter, file, reply.length);
    if (reply.status != CUTTERASH_DONE)
        return refused("load", reply);
    printf("at most %llu instructions an object, %llu places\n", (unsigned long long)reply.first,
           (unsigned long long)reply.second);

    for (size_t i = 0; i < sizeof objects / sizeof objects[0]; i++) {
        uint8_t answer[256];
        reply = cutterash_run(&filter, (const uint8_t *)objects[i], strlen(objects[i]), answer, sizeof answer);
        if (reply.status == CUTTERASH_DONE)
            printf("%s %.*s\n", objects[i], (int)reply.length, (const char *)answer);
        else if (reply.status == CUTTERASH_NO_ANSWER)
            printf("%s -\n", objects[i]);
        else
            refused(objects[i], reply);
    }
    cutterash_close(&filter);
    return 0;
}
