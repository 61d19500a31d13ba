/* Terms of every form in memory, through the library for C: each is read, run, written, inserted, looked up, matched, deleted, compiled as a
 * constant and loaded, with each allocation failing in turn, alone and with all after it. In each case the answer is the term, nothing is lost,
 * and no block stays. Silent if all is as it should be.
 *
 * usage: library_terms FILE     FILE: a term a line, as it is written (`tests/terms_agree --texts`) */
#include "cutterash.h"
#include "refusing.h"

#include <string.h>

enum { ROOM = 1 << 16, LINE = 1 << 12 };

static uint8_t room[ROOM];

/* The line of FILE that is tried. A text of a term may have zero bytes. */
static char term[LINE];
static size_t term_length;

/* Bytes in which each `%` of a pattern is the term. */
struct spelled {
    char bytes[ROOM];
    size_t length;
};

static struct spelled text, wanted;

static void spell(struct spelled *spelled, const char *pattern) {
    spelled->length = 0;
    for (; *pattern != 0; pattern++) {
        bool is_term = *pattern == '%';
        memcpy(spelled->bytes + spelled->length, is_term ? term : pattern, is_term ? term_length : 1);
        spelled->length += is_term ? term_length : 1;
    }
}

#define HOLDS_HERE(what)                                      \
    do {                                                      \
        if (!(what)) {                                        \
            fprintf(stderr, "of the term %.80s:\n", term);    \
            HOLDS(what);                                      \
        }                                                     \
    } while (0)

static struct cutterash_reply compile_text(void *unused) {
    (void)unused;
    return cutterash_compile((const uint8_t *)text.bytes, text.length, room, sizeof room);
}

/* A code file, and the filter that it is loaded into. */
struct loading {
    struct cutterash_filter filter;
    uint8_t file[LINE * 2];
    size_t length;
};

static struct cutterash_reply load_file(void *with) {
    struct loading *loading = with;
    return cutterash_load(&loading->filter, loading->file, loading->length);
}

static struct cutterash_reply run_text(void *with) {
    struct loading *loading = with;
    return cutterash_run(&loading->filter, (const uint8_t *)text.bytes, text.length, room, sizeof room);
}

static struct cutterash_reply obey_text(void *with) {
    return cutterash_table_run(with, (const uint8_t *)text.bytes, text.length, room, sizeof room);
}

/* Whether the pattern, spelled, is at the front of the room. */
static bool is_at_front(struct cutterash_reply reply, const char *pattern) {
    spell(&wanted, pattern);
    return reply.length == wanted.length && memcmp(room, wanted.bytes, reply.length) == 0;
}

static bool is_term(struct cutterash_reply reply, const struct loading *unused) {
    (void)unused;
    return is_at_front(reply, "%");
}

static bool is_file(struct cutterash_reply reply, const struct loading *loading) {
    return reply.length == loading->length && memcmp(room, loading->file, reply.length) == 0;
}

static bool is_open(struct cutterash_reply reply, const struct loading *loading) {
    return reply.count == 2 && loading->filter.is_open;
}

/* Makes a call with one more allocation succeeding each time, until none fails: the next one fails alone, and then it and all later ones.
 * The call is out of memory, or done and right. */
static void refuse_each(struct cutterash_reply (*call)(void *), struct loading *with,
                        bool (*is_right)(struct cutterash_reply, const struct loading *)) {
    for (int alone = 0; alone < 2; alone++) {
        is_alone = alone == 1;
        refused = 1;
        for (long granted = 0; refused > 0 && granted < 100000; granted++) {
            long held = in_use;
            refused = 0;
            given = granted;
            struct cutterash_reply reply = call(with);
            given = -1;
            if (reply.status == CUTTERASH_NO_MEMORY)
                HOLDS_HERE(refused > 0 && reply.number == 1 && reply.length == 0 && in_use <= held);
            else
                HOLDS_HERE(reply.status == CUTTERASH_DONE && is_right(reply, with));
        }
    }
}

/* The specification `[{'_',[],['$_']}]` answers the term. */
static void try_run(struct loading *whole) {
    long held = in_use;
    spell(&text, "%.");
    refuse_each(run_text, whole, is_term);
    HOLDS_HERE(in_use == held);
}

/* As a constant of a code file, that is loaded and answers the term. */
static void try_constant(void) {
    struct loading loading = {0};
    long held = in_use;
    spell(&text, "[{'_',[],[{const,%}]}].");
    struct cutterash_reply reply = compile_text(NULL);
    HOLDS_HERE(reply.status == CUTTERASH_DONE && reply.length <= sizeof loading.file);
    loading.length = reply.length;
    memcpy(loading.file, room, reply.length);
    refuse_each(compile_text, &loading, is_file);
    refuse_each(load_file, &loading, is_open);
    spell(&text, "a.");
    refuse_each(run_text, &loading, is_term);
    cutterash_close(&loading.filter);
    HOLDS_HERE(in_use == held);
}

/* As a key and within the objects of a table, which a run leaves as it was, or at its beginning with the earlier replies, or executes whole. */
static void try_table(const char *open_text) {
    struct cutterash_table table = {0};
    long all = in_use;
    static const char replied[] = "true.\n[{%,[%|1]}].\n{[[%|1]],0}.\n'$end_of_table'.\n[{%,[%|1]}].\nfalse.\n";
    refused = 1;
    for (long granted = 0; refused > 0 && granted < 100000; granted++) {
        HOLDS_HERE(cutterash_table_open(&table).status == CUTTERASH_DONE);
        spell(&text, open_text);
        HOLDS_HERE(obey_text(&table).status == CUTTERASH_DONE);
        spell(&text, "{insert,0,{%,[%|1]}}. {lookup,0,%}. {select,0,[{{%,'$1'},[],['$1']}],1}. {more,0,0}. {take,0,%}. {member,0,%}.");
        refused = 0;
        given = granted;
        struct cutterash_reply reply = obey_text(&table);
        given = -1;
        if (reply.status == CUTTERASH_NO_MEMORY) {
            HOLDS_HERE(refused > 0);
            spell(&text, "{first,0}.");
            HOLDS_HERE(is_at_front(obey_text(&table), "'$end_of_table'.\n"));
        } else if (reply.status == CUTTERASH_LOST) {
            HOLDS_HERE(refused > 0);
            reply = cutterash_table_replies(&table, room, sizeof room);
            spell(&wanted, replied);
            HOLDS_HERE(reply.length < wanted.length && memcmp(room, wanted.bytes, reply.length) == 0);
            HOLDS_HERE(reply.length == 0 || room[reply.length - 1] == '\n');
        } else
            HOLDS_HERE(reply.status == CUTTERASH_DONE && is_at_front(reply, replied));
    }
    cutterash_table_close(&table);
    HOLDS_HERE(in_use == all);
}

int main(int count, char **words) {
    FILE *terms = count == 2 ? fopen(words[1], "r") : NULL;
    if (terms == NULL) {
        fputs("usage: library_terms FILE\n", stderr);
        return 2;
    }
    struct loading whole = {0};
    spell(&text, "[{'_',[],['$_']}].");
    struct cutterash_reply reply = compile_text(NULL);
    HOLDS(reply.status == CUTTERASH_DONE);
    whole.length = reply.length;
    memcpy(whole.file, room, reply.length);
    HOLDS(load_file(&whole).status == CUTTERASH_DONE);
    long tried = 0;
    for (int next = getc(terms); next != EOF; next = getc(terms), tried++) {
        for (term_length = 0; next != '\n' && term_length + 1 < sizeof term; next = getc(terms))
            term[term_length++] = (char)next;
        term[term_length] = 0;
        try_run(&whole);
        try_constant();
        for (int alone = 0; alone < 2; alone++) {
            is_alone = alone == 1;
            try_table("{open,set,1,2,1}.");
            try_table("{open,ordered_set,1,1,1}.");
            try_table("{open,bag,1,1,1}.");
        }
    }
    HOLDS(tried > 200);
    fclose(terms);
    cutterash_close(&whole.filter);
    return failed;
}
