/* Tries what no contract says of the library for C: that C reaches it, that calls succeed, that no block is lost over many of them, and that
 * each allocation may fail. Silent if all is as it should be. Linked with --wrap for malloc, realloc and free. */
#include "cutterash.h"
#include "refusing.h"

#include <string.h>

static struct cutterash_reply compile(const char *text, uint8_t *room, size_t length) {
    return cutterash_compile((const uint8_t *)text, strlen(text), room, length);
}

static struct cutterash_reply run(struct cutterash_filter *filter, const char *object, uint8_t *room, size_t length) {
    return cutterash_run(filter, (const uint8_t *)object, strlen(object), room, length);
}

static bool is(struct cutterash_reply reply, unsigned status, unsigned number, unsigned count, uint64_t first,
               uint64_t second, size_t length) {
    return reply.status == status && reply.number == number && reply.count == count && reply.first == first &&
           reply.second == second && reply.length == length;
}

/* An error with this number and these arguments. */
static bool refuses(struct cutterash_reply reply, unsigned number, unsigned count, uint64_t first, uint64_t second) {
    return is(reply, CUTTERASH_REFUSED, number, count, first, second, 0);
}

static const char years[] = "[{{'_','$1','$2'},[{'>','$2',1904}],[{{'$1',\"year\"}}]}].";

/* Invalid texts, and a room that is too small. */
static void try_compile(void) {
    uint8_t room[512], before[512];
    memset(room, 0x5a, sizeof room);
    memcpy(before, room, sizeof room);
    HOLDS(refuses(compile("", room, sizeof room), 5, 1, 0, 0));
    HOLDS(refuses(compile("[{'_',[],[ok]}]", room, sizeof room), 5, 1, 15, 0));
    HOLDS(refuses(compile("\377.", room, sizeof room), 6, 1, 0, 0));
    HOLDS(refuses(compile("[{'_',[],[ok]}]. [].", room, sizeof room), 65, 0, 0, 0));
    HOLDS(refuses(compile("{a}.", room, sizeof room), 10, 0, 0, 0));
    HOLDS(refuses(compile("[{'_',[],[ok]},{'_',[]}].", room, sizeof room), 11, 1, 1, 0));
    HOLDS(refuses(compile("[{{'$1'},[],['$3']}].", room, sizeof room), 16, 2, 0, 3));
    struct cutterash_reply reply = compile(years, room, 0);
    HOLDS(reply.status == CUTTERASH_NO_ROOM && reply.length > 0 && reply.length < sizeof room);
    size_t length = reply.length;
    HOLDS(is(compile(years, room, length - 1), CUTTERASH_NO_ROOM, 0, 0, 0, 0, length));
    HOLDS(memcmp(room, before, sizeof room) == 0);
    HOLDS(is(compile(years, room, length), CUTTERASH_DONE, 0, 0, 0, 0, length));
    HOLDS(memcmp(room, "EMSC", 4) == 0 && memcmp(room + length, before, sizeof room - length) == 0);
}

/* Files that are rejected: the beginnings of a good one; each that differs from it in a byte is loaded or rejected. */
static void try_load(const uint8_t *file, size_t length) {
    struct cutterash_filter filter = {0};
    uint8_t room[64], changed[512];
    HOLDS(refuses(cutterash_load(&filter, (const uint8_t *)"\1\2\3\4", 4), 30, 0, 0, 0));
    HOLDS(refuses(cutterash_load(&filter, (const uint8_t *)"EMSC\0\11", 6), 31, 0, 0, 0));
    HOLDS(refuses(cutterash_load(&filter, (const uint8_t *)"EMSC\0\1\0\0\0", 9), 32, 1, 9, 0));
    HOLDS(refuses(cutterash_load(&filter, (const uint8_t *)"EMSC\0\1\0\0\0\0\0\1\17\0\0\0\0", 17), 44, 1, 0, 0));
    HOLDS(refuses(cutterash_load(&filter,
                                 (const uint8_t *)"EMSC\0\2\0\0\0\2\0\0\0\2\1\33\0\0\0\0\0\0\0\0\1\34\0\0", 28),
                  49, 1, 1, 0));
    HOLDS(!filter.is_open);
    for (size_t i = 0; i < length; i++) {
        struct cutterash_reply reply = cutterash_load(&filter, file, i);
        HOLDS(reply.status == CUTTERASH_REFUSED && (reply.number == 30 || reply.number == 32));
    }
    for (size_t i = 0; i < length; i++)
        for (unsigned byte = 0; byte < 256; byte++) {
            memcpy(changed, file, length);
            changed[i] = (uint8_t)byte;
            struct cutterash_reply reply = cutterash_load(&filter, changed, length);
            HOLDS(reply.status == CUTTERASH_DONE || (reply.status == CUTTERASH_REFUSED && reply.number >= 30));
            HOLDS(filter.is_open == (reply.status == CUTTERASH_DONE));
            HOLDS(run(&filter, "{2,alan,1912}.", room, sizeof room).status != CUTTERASH_REFUSED);
        }
    cutterash_close(&filter);
}

/* A filter that is closed, invalid objects, answers that don't fit the room. */
static void try_run(const uint8_t *file, size_t length) {
    struct cutterash_filter filter = {0};
    uint8_t room[32], before[32];
    memset(room, 0x5a, sizeof room);
    memcpy(before, room, sizeof room);
    HOLDS(is(run(&filter, "{2,alan,1912}.", room, sizeof room), CUTTERASH_CLOSED, 0, 0, 0, 0, 0));
    cutterash_close(&filter);
    struct cutterash_reply reply = cutterash_load(&filter, file, length);
    HOLDS(reply.status == CUTTERASH_DONE && reply.count == 2 && reply.first > 0 && reply.second > 0 && filter.is_open);
    HOLDS(is(run(&filter, "{1,ada,1815}.", room, sizeof room), CUTTERASH_NO_ANSWER, 0, 0, 0, 0, 0));
    HOLDS(refuses(run(&filter, "", room, sizeof room), 5, 1, 0, 0));
    HOLDS(refuses(run(&filter, "{1,2}", room, sizeof room), 5, 1, 5, 0));
    HOLDS(refuses(run(&filter, "{1}. {2}.", room, sizeof room), 65, 0, 0, 0));
    HOLDS(is(run(&filter, "{2,alan,1912}.", room, 3), CUTTERASH_NO_ROOM, 0, 0, 0, 0, 23));
    HOLDS(memcmp(room, before, sizeof room) == 0);
    HOLDS(is(run(&filter, "{2,alan,1912}.", room, 23), CUTTERASH_DONE, 0, 0, 0, 0, 23));
    HOLDS(memcmp(room, "{alan,[121,101,97,114]}", 23) == 0);
    cutterash_close(&filter);
    cutterash_close(&filter);
    HOLDS(is(run(&filter, "{2,alan,1912}.", room, sizeof room), CUTTERASH_CLOSED, 0, 0, 0, 0, 0));
}

/* Each allocation fails in turn; the filter is unchanged if a run fails. */
static void try_memory(const uint8_t *file, size_t length) {
    uint8_t room[512];
    struct cutterash_filter filter = {0};
    struct cutterash_reply reply;
    long n;
    for (n = 0, reply.status = CUTTERASH_NO_MEMORY; reply.status == CUTTERASH_NO_MEMORY; n++) {
        long held = in_use;
        given = n;
        reply = compile(years, room, sizeof room);
        given = -1;
        HOLDS(reply.status == CUTTERASH_DONE || is(reply, CUTTERASH_NO_MEMORY, 1, 0, 0, 0, 0));
        HOLDS(in_use == held);
    }
    HOLDS(n > 10);
    for (n = 0, reply.status = CUTTERASH_NO_MEMORY; reply.status == CUTTERASH_NO_MEMORY; n++) {
        long held = in_use;
        given = n;
        reply = cutterash_load(&filter, file, length);
        given = -1;
        HOLDS(filter.is_open ? reply.status == CUTTERASH_DONE
                             : is(reply, CUTTERASH_NO_MEMORY, 1, 0, 0, 0, 0) && in_use == held);
    }
    HOLDS(n > 3);
    for (n = 0, reply.status = CUTTERASH_NO_MEMORY; reply.status == CUTTERASH_NO_MEMORY; n++) {
        long held = in_use;
        given = n;
        reply = run(&filter, "{2,alan,1912}.", room, sizeof room);
        given = -1;
        HOLDS(reply.status == CUTTERASH_DONE || is(reply, CUTTERASH_NO_MEMORY, 1, 0, 0, 0, 0));
        HOLDS(filter.is_open && in_use == held);
    }
    HOLDS(n > 3);
    cutterash_close(&filter);
}

/* This many calls, over which no block is lost. */
static void try_many(const uint8_t *file, size_t length, long calls) {
    uint8_t room[64];
    struct cutterash_filter filter = {0};
    long held = in_use;
    for (long i = 0; i < calls; i++) {
        if (i % 16 == 0)
            HOLDS(cutterash_load(&filter, file, length).status == CUTTERASH_DONE);
        const char *object = i % 3 == 0 ? "{1,ada,1815}." : i % 3 == 1 ? "{2,alan,1912}." : "{2,alan,191";
        static const unsigned statuses[] = {CUTTERASH_NO_ANSWER, CUTTERASH_DONE, CUTTERASH_REFUSED};
        HOLDS(run(&filter, object, room, sizeof room).status == statuses[i % 3]);
    }
    cutterash_close(&filter);
    HOLDS(in_use == held);
}

static struct cutterash_reply obey(struct cutterash_table *table, const char *text, uint8_t *room, size_t length) {
    return cutterash_table_run(table, (const uint8_t *)text, strlen(text), room, length);
}

/* A reply of this many bytes, which are at the front of the room. */
static bool answers(struct cutterash_reply reply, const char *lines, const uint8_t *room) {
    return is(reply, CUTTERASH_DONE, 0, 0, 0, 0, strlen(lines)) && memcmp(room, lines, strlen(lines)) == 0;
}

/* Tables that are closed, no text and no room, invalid texts, replies that don't fit the room. */
static void try_table(void) {
    struct cutterash_table table = {0};
    long held = in_use;
    uint8_t room[256], before[256];
    memset(room, 0x5a, sizeof room);
    memcpy(before, room, sizeof room);
    HOLDS(is(obey(&table, "{close}.", room, sizeof room), CUTTERASH_CLOSED, 0, 0, 0, 0, 0));
    HOLDS(is(cutterash_table_replies(&table, room, sizeof room), CUTTERASH_CLOSED, 0, 0, 0, 0, 0));
    cutterash_table_close(&table);
    HOLDS(!table.is_open && memcmp(room, before, sizeof room) == 0);

    HOLDS(is(cutterash_table_open(&table), CUTTERASH_DONE, 0, 0, 0, 0, 0) && table.is_open);
    HOLDS(answers(cutterash_table_replies(&table, room, 0), "", room));
    HOLDS(answers(obey(&table, "", room, 0), "", room));
    HOLDS(answers(obey(&table, " % nothing\n", room, 0), "", room));
    HOLDS(memcmp(room, before, sizeof room) == 0);
    HOLDS(answers(obey(&table, "{member,0,1}. 5. {open,set,1,4,2}.", room, sizeof room),
                  "{error,65}.\n{error,65}.\ntrue.\n", room));
    HOLDS(memcmp(room + 30, before + 30, sizeof room - 30) == 0);
    HOLDS(answers(obey(&table, "{insert,0,{1,a}}. {insert,1,{1,b}}. {insert,0,{7}}. {fix,0}.", room, sizeof room),
                  "true.\ntrue.\ntrue.\ntrue.\n", room));

    /* An invalid text changes nothing: none of its commands is executed, and the lines are kept. */
    HOLDS(refuses(obey(&table, "{delete,0,1}. {delete,0", room, sizeof room), 5, 1, 23, 0));
    HOLDS(refuses(obey(&table, "{delete,0,1}. \377.", room, sizeof room), 6, 1, 14, 0));
    HOLDS(answers(cutterash_table_replies(&table, room, sizeof room), "true.\ntrue.\ntrue.\ntrue.\n", room));

    /* Lines that don't fit are kept, and the commands are executed. */
    memset(room, 0x5a, sizeof room);
    HOLDS(is(obey(&table, "{take,0,1}. {select,0,[{'_',[],['$_']}],1}.", room, 8), CUTTERASH_NO_ROOM, 0, 0, 0, 0, 20));
    HOLDS(is(cutterash_table_replies(&table, room, 19), CUTTERASH_NO_ROOM, 0, 0, 0, 0, 20));
    HOLDS(memcmp(room, before, sizeof room) == 0);
    HOLDS(answers(cutterash_table_replies(&table, room, 20), "[{1,b}].\n{[{7}],0}.\n", room));
    HOLDS(answers(cutterash_table_replies(&table, room, sizeof room), "[{1,b}].\n{[{7}],0}.\n", room));
    HOLDS(answers(obey(&table, "{more,0,0}. {more,0,0}. {member,0,1}. {close}. {close}.", room, sizeof room),
                  "'$end_of_table'.\n{error,62}.\nfalse.\n[{7}].\n{error,65}.\n", room));

    /* What an open table has is freed when it is opened again. */
    HOLDS(answers(obey(&table, "{open,bag,1,1,1}. {insert,0,{1}}.", room, sizeof room), "true.\ntrue.\n", room));
    HOLDS(is(cutterash_table_open(&table), CUTTERASH_DONE, 0, 0, 0, 0, 0));
    HOLDS(answers(cutterash_table_replies(&table, room, sizeof room), "", room));
    HOLDS(answers(obey(&table, "{member,0,1}.", room, sizeof room), "{error,65}.\n", room));
    cutterash_table_close(&table);
    cutterash_table_close(&table);
    HOLDS(is(obey(&table, "", room, sizeof room), CUTTERASH_CLOSED, 0, 0, 0, 0, 0));
    HOLDS(in_use == held);
}

/* The commands that run while each allocation fails in turn, and their replies. */
static const char asked[] =
    "{insert,0,{1,{a,[2,3]}}}. {insert,0,{3,b}}. {lookup,0,1}. {take,0,3}. {first,0}. {next,0,1}. {insert_new,0,{4,c}}. "
    "{select,0,[{{'$1',{a,'_'}},[],['$1']}],1}. {more,0,0}. {select_count,0,[{'_',[],[true]}]}. "
    "{select_delete,0,[{{4,'_'},[],[true]}]}. {fix,0}. {unfix,0}. {delete,0,4}. {close}.";
static const char replied[] =
    "true.\ntrue.\n[{1,{a,[2,3]}}].\n[{3,b}].\n1.\n'$end_of_table'.\ntrue.\n"
    "{[1],0}.\n'$end_of_table'.\n2.\n1.\ntrue.\ntrue.\ntrue.\n[{1,{a,[2,3]}}].\n";

/* Each allocation fails in turn. A run that can't read its text leaves the table as it was; one in which memory
 * runs out later leaves it at its beginning, with the first of the lines. */
static void try_table_memory(const char *open_text) {
    uint8_t room[512];
    struct cutterash_table table = {0};
    struct cutterash_reply reply;
    long n, all = in_use;
    for (n = 0, reply.status = CUTTERASH_NO_MEMORY; reply.status == CUTTERASH_NO_MEMORY; n++) {
        given = n;
        reply = cutterash_table_open(&table);
        given = -1;
        HOLDS(table.is_open ? reply.status == CUTTERASH_DONE : is(reply, CUTTERASH_NO_MEMORY, 1, 0, 0, 0, 0) && in_use == all);
    }
    long unread = 0, lost = 0;
    for (n = 0, reply.status = CUTTERASH_LOST; reply.status != CUTTERASH_DONE && n < 100000; n++) {
        HOLDS(cutterash_table_open(&table).status == CUTTERASH_DONE);
        HOLDS(answers(obey(&table, open_text, room, sizeof room), "true.\n", room));
        given = n;
        reply = obey(&table, asked, room, sizeof room);
        given = -1;
        HOLDS(table.is_open);
        if (reply.status == CUTTERASH_NO_MEMORY) {
            unread++;
            HOLDS(is(reply, CUTTERASH_NO_MEMORY, 1, 0, 0, 0, 0));
            HOLDS(answers(cutterash_table_replies(&table, room, sizeof room), "true.\n", room));
            HOLDS(answers(obey(&table, "{member,0,1}.", room, sizeof room), "false.\n", room));
        } else if (reply.status == CUTTERASH_LOST) {
            lost++;
            HOLDS(is(reply, CUTTERASH_LOST, 1, 0, 0, 0, reply.length) && reply.length < strlen(replied));
            HOLDS(cutterash_table_replies(&table, room, sizeof room).length == reply.length);
            HOLDS(memcmp(room, replied, reply.length) == 0 && (reply.length == 0 || room[reply.length - 1] == '\n'));
            HOLDS(answers(obey(&table, "{member,0,1}.", room, sizeof room), "{error,65}.\n", room));
        } else
            HOLDS(answers(reply, replied, room));
    }
    HOLDS(unread > 10 && lost > 10);
    cutterash_table_close(&table);
    HOLDS(in_use == all);
}

/* This many calls of a table, over which no block is lost; one that is opened again has as many as at first. */
static void try_table_many(const char *open_text, long calls) {
    static const char *const texts[] = {"{insert,0,{1,[a,{b,\"cd\"}]}}.", "{lookup,0,1}.", "{insert,0,{2,b}}. {delete,0,2}.", "{lookup,0",
                                        "{select,0,[{{'$1','_'},[],['$1']}]}."};
    uint8_t room[64];
    struct cutterash_table table = {0};
    long held = in_use, opened = 0;
    for (long i = 0; i < calls; i++) {
        if (i % 4096 == 0) {
            HOLDS(cutterash_table_open(&table).status == CUTTERASH_DONE);
            HOLDS(obey(&table, open_text, room, sizeof room).status == CUTTERASH_DONE);
            if (i == 0)
                opened = in_use;
            HOLDS(in_use == opened);
        }
        struct cutterash_reply reply = obey(&table, texts[i % 5], room, i % 7 == 0 ? 0 : sizeof room);
        HOLDS(reply.status == (i % 5 == 3 ? CUTTERASH_REFUSED : i % 7 == 0 ? CUTTERASH_NO_ROOM : CUTTERASH_DONE));
    }
    cutterash_table_close(&table);
    HOLDS(in_use == held);
}

int main(int count, char **words) {
    uint8_t file[512];
    long calls = count > 1 ? atol(words[1]) : 1000000;
    struct cutterash_reply reply = compile(years, file, sizeof file);
    HOLDS(reply.status == CUTTERASH_DONE);
    try_compile();
    try_load(file, reply.length);
    try_run(file, reply.length);
    try_memory(file, reply.length);
    try_many(file, reply.length, calls);
    static const char *const kinds[] = {"{open,set,1,4,1}.", "{open,ordered_set,1,1,1}.", "{open,bag,1,1,1}."};
    try_table();
    for (size_t i = 0; i < 3; i++) {
        try_table_memory(kinds[i]);
        try_table_many(kinds[i], i == 2 ? 10000 : calls / 2);
    }
    return failed;
}
