/* A table in C: it is opened, queried and walked by texts of commands, and replies with a line for each.
 * `tests/library_links` builds and runs this. */
#include "cutterash.h"

#include <stdio.h>
#include <stdlib.h>
#include <string.h>

/* The texts, one after the other; the table keeps its state from text to text. */
static const char *const texts[] = {
    "{open,ordered_set,1,1,1}.",
    "{insert,0,{1,ada,1815}}. {insert,0,{2,alan,1912}}. {insert,0,{3,alonzo,1903}}. {insert,0,{4,grace,1906}}.",
    "{lookup,0,2}. {member,0,5}.",
    "{select,0,[{{'_','$1','$2'},[{'>','$2',1904}],['$1']}]}.",
    "{insert,0,{5,kurt,1906}}. {insert,0,{6",
    "{member,0,5}. {close}.",
};

/* Writes the lines of the replies. If the room is too small for them, the table keeps them. */
static int told(struct cutterash_table *table, struct cutterash_reply reply, uint8_t *room) {
    uint8_t *more = NULL;
    if (reply.status == CUTTERASH_NO_ROOM) {
        more = malloc(reply.length);
        if (more == NULL)
            return 1;
        reply = cutterash_table_replies(table, more, reply.length);
    }
    if (reply.status == CUTTERASH_DONE)
        printf("%.*s", (int)reply.length, (const char *)(more != NULL ? more : room));
    else if (reply.status == CUTTERASH_REFUSED)
        printf("refused: E%u at byte %llu\n", reply.number, (unsigned long long)reply.first);
    free(more);
    return reply.status != CUTTERASH_DONE && reply.status != CUTTERASH_REFUSED;
}

int main(void) {
    struct cutterash_table table = {0};
    if (cutterash_table_open(&table).status != CUTTERASH_DONE)
        return 1;
    int failed = 0;
    for (size_t i = 0; i < sizeof texts / sizeof texts[0] && !failed; i++) {
        uint8_t room[32];
        const uint8_t *text = (const uint8_t *)texts[i];
        failed = told(&table, cutterash_table_run(&table, text, strlen(texts[i]), room, sizeof room), room);
    }
    cutterash_table_close(&table);
    return failed;
}
