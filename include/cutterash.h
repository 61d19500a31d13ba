/* Filters: match specifications of ets that run on one object at a time, by code whose longest run is known before it
 * starts. Tables of ets on one thread: they execute commands given as text, and reply with a line for each. Link with
 * libcutterash.a and liblibc_c.a (docs/LIBRARY.md).
 *
 * Specifications, objects, answers, commands and replies are texts of terms in UTF-8 (docs/LANGUAGE.md, docs/TABLES.md).
 * Each of them ends with a dot, except an answer; a reply also ends with a line feed. Code files are bytes.
 *
 * The caller's obligations, which nothing checks:
 * - A pointer is never null, and as many bytes are valid there as the length next to it says, also if the length is 0
 *   (any pointer will do then). A room, a filter and a table overlap nothing else that is passed to the call.
 * - A filter is zeroed before its first use ("struct cutterash_filter f = {0};"), and after that changed by these
 *   functions alone. It is not copied. One thread at a time calls its functions, one call at a time. The same holds for a
 *   table.
 * - No function is called from a signal handler, or in the child of a fork of a process with threads.
 * - The program's malloc, realloc and free belong together, and align blocks as the C library's do.
 * Everything else is reported by a status, whatever the bytes are: invalid texts, files from an untrusted sender, failed
 * allocations, a room that is too small, a filter or a table that is closed. */
#ifndef CUTTERASH_H
#define CUTTERASH_H

#include <stdbool.h>
#include <stddef.h>
#include <stdint.h>

#ifdef __cplusplus
extern "C" {
#endif

/* The result of a call. */
enum cutterash_status {
    CUTTERASH_DONE = 0,      /* success */
    CUTTERASH_NO_ANSWER = 1, /* the filter has no answer for the object */
    CUTTERASH_REFUSED = 2,   /* an input is invalid: the number and the arguments of docs/REFUSALS.md */
    CUTTERASH_NO_MEMORY = 3, /* an allocation failed (number 1) */
    CUTTERASH_NO_ROOM = 4,   /* the room is too small and unchanged; length is the size that is needed */
    CUTTERASH_CLOSED = 5,    /* the filter or the table is closed */
    CUTTERASH_LOST = 6       /* an allocation failed during a run, and the table was reset (number 1) */
};

struct cutterash_reply {
    uint32_t status; /* one of cutterash_status */
    uint32_t number; /* the number of the refusal, 0 if there is none */
    uint32_t count;  /* how many of first and second are set: 0, 1 or 2 */
    uint64_t first;  /* the first argument of a refusal; after cutterash_load the filter's budget, in instructions */
    uint64_t second; /* the second argument of a refusal; after cutterash_load the filter's depth, in places */
    size_t length;   /* bytes written to the room, needed (CUTTERASH_NO_ROOM), or kept by the table (CUTTERASH_LOST) */
};

/* A filter, open or closed. Zeroed, it is closed. An open one owns memory until it is closed. */
struct cutterash_filter {
    void *code;
    bool is_open;
};

/* Compiles a specification, for example "[{{'$1','$2'},[{'>','$2',9}],['$1']}].", and writes the code file to the
 * room. */
struct cutterash_reply cutterash_compile(const uint8_t *text, size_t text_length, uint8_t *room, size_t room_length);

/* Opens a filter from a code file. The file is accepted only if its code passes the verifier: no run of it gets stuck or
 * executes more instructions than its budget. The filter's earlier code is freed first, so that a filter for which the
 * call fails is closed. */
struct cutterash_reply cutterash_load(struct cutterash_filter *filter, const uint8_t *file, size_t file_length);

/* Runs a filter on an object, for example "{1,2}.", and writes the text of the answer to the room. The filter is
 * unchanged. */
struct cutterash_reply cutterash_run(struct cutterash_filter *filter, const uint8_t *object, size_t object_length,
                                     uint8_t *room, size_t room_length);

/* Closes a filter and frees its memory. Does nothing if it is closed. */
void cutterash_close(struct cutterash_filter *filter);

/* A table handle, open or closed. Zeroed, it is closed. An open one owns memory until it is closed. It executes
 * commands, among them one that creates its table of ets and one that deletes it ("{open,set,1,1,1}.", "{close}.",
 * docs/TABLES.md). An integer key is its own hash: if integer keys step by a power of two, take a number of parts that is
 * none ("{open,set,1,61,1}."), so that they are not all in one part. */
struct cutterash_table {
    void *engine;
    bool is_open;
};

/* Opens a table handle in its initial state, without a table of ets. What it had before is freed. */
struct cutterash_reply cutterash_table_open(struct cutterash_table *table);

/* Executes the commands of a text, for example "{insert,0,{1,2}}. {lookup,0,1}.", and writes the lines of their replies to
 * the room: "true." and "[{1,2}]." here. The table keeps these lines until its next run, so that none is lost if the room
 * is too small: the commands are executed all the same, and cutterash_table_replies writes the lines. A text that is
 * invalid, or for whose reading an allocation fails (CUTTERASH_NO_MEMORY), changes nothing: none of its commands is
 * executed, and the lines of the last run are kept. If an allocation fails later, while a command runs (CUTTERASH_LOST),
 * the table is reset to what cutterash_table_open makes, without its objects, and keeps the lines of the replies to the
 * commands before. */
struct cutterash_reply cutterash_table_run(struct cutterash_table *table, const uint8_t *text, size_t text_length,
                                           uint8_t *room, size_t room_length);

/* Writes the lines that the table keeps to the room. Can be called any number of times. */
struct cutterash_reply cutterash_table_replies(struct cutterash_table *table, uint8_t *room, size_t room_length);

/* Closes a table and frees its memory. Does nothing if it is closed. */
void cutterash_table_close(struct cutterash_table *table);

#ifdef __cplusplus
}
#endif

#endif
