/* A live preference table of whole numbers inside a program: rows that change, and questions for the best of them.

   A table has 1 to 16 columns and up to 65,536 rows of 64-bit whole numbers. Each row has an id, from 1 on, which no later row gets. The names of columns, the
   questions, the commands and what is refused are those of the program prefq: docs/GUIDE.md has them all. docs/LIBRARY.md, "A table in C", has an example.

   Results.   A call returns PREFQ_OK, which is 0, or why not. What is refused (PREFQ_REFUSED) leaves the table, its rows and its open queries as they were,
              and the caller's variables and arrays too. prefq_last_refusal says what was wrong.
   Arrays.    Rows are arrays of int64_t, one row after the other, without gaps: `rows` of them with `width` values each, which has to be the table's number of
              columns. Answers are `count` rows of 2 + width numbers: the level, from 1 on, the id, and the values, in order of level and then of id. Texts
              have a length and need no zero at their end.
   Clients.   A table has 1 to 8 clients, numbered from 1, each of which may have one open query; so several queries may be open at a time. Calls that take a
              client are for one thread at a time for each client: an answer stands in the client's own memory, until the next prefq_ask, prefq_rows or
              prefq_finish of this client, or prefq_close.
   Threads.   Any thread may call a table, and calls of several threads wait for one another. A thread with less than PREFQ_STACK bytes of stack left is refused
              (PREFQ_ARGUMENTS). Calls ask for memory, so a signal handler makes none: one in the middle of a call on the same table changes no row and returns
              PREFQ_BUSY, and so does the ninth of calls that interrupt one another.
   Processes. A table belongs to the process that opened it. In the child of a fork each call returns PREFQ_ENDED, and prefq_close gives back the arrays of answers
              alone, and where the fork came in the middle of a call nothing: the memory of the rows stays as it was, until the child ends.
   The end.   A table that is refused memory in the middle of a call may have to end: then this call returns PREFQ_OUT_OF_MEMORY, and each later one PREFQ_ENDED.
              Nothing is done at the end of the process; a table that is still open does no harm there. */
#ifndef PREFQ_H
#define PREFQ_H

#include <stddef.h>
#include <stdint.h>

#ifdef __cplusplus
extern "C" {
#endif

/* The version of this header; prefq_version gives that of the library. */
#define PREFQ_VERSION "0.6.7"

/* What a call may need of the caller's stack: at least twice what the deepest questions take (library/out/calls --stack measures it, and fails otherwise). */
#define PREFQ_STACK 786432

/* A table with its clients. */
typedef struct prefq prefq;

typedef enum prefq_result {
    PREFQ_OK = 0,
    PREFQ_REFUSED = -1,       /* the call is refused, and nothing was changed */
    PREFQ_OUT_OF_MEMORY = -2, /* memory was refused; see above, "The end" */
    PREFQ_ENDED = -3,         /* the table has ended, or it is another process's */
    PREFQ_BUSY = -4           /* this thread is in the middle of a call on this table */
} prefq_result;

/* What a refusal is about; the numbers of each kind are those of docs/GUIDE.md. */
typedef enum prefq_kind {
    PREFQ_NOTHING = 0,   /* no call of this thread was refused yet */
    PREFQ_CLIENT = 1,    /* "K refused NUMBER": what a client wants cannot be done now */
    PREFQ_TABLE = 2,     /* "table refused NUMBER": names or values */
    PREFQ_TERM = 3,      /* "refused term NUMBER": a question */
    PREFQ_COMMIT = 4,    /* "refused commit NUMBER": the changes of a commit */
    PREFQ_OPENING = 5,   /* "opening refused NUMBER": more rows than the capacity */
    PREFQ_ARGUMENTS = 6, /* an argument that this header does not allow; there is no number */
    PREFQ_TABLE_END = 7  /* PREFQ_OUT_OF_MEMORY or PREFQ_ENDED; there is no number */
} prefq_kind;

/* Why a call did nothing. */
typedef struct prefq_refusal {
    prefq_kind kind;
    int32_t number;   /* of the refusal in docs/GUIDE.md, from 1 on; 0 where it has none */
    int64_t place;    /* the byte of the question, from 0 on; the column of a value or a name, or the change of a commit, from 1 on; -1 where there is none */
    int64_t row;      /* of a value of a table, from 1 on; 0 of a single row; -1 where there is none */
    uint64_t amount;  /* the id of a row that is not there, the versions that would be needed, or the blocks that are left; else 0 */
    const char *text; /* what the program says behind the number, as "no such row 7"; it ends with a zero, and is empty where there was no memory for it */
} prefq_refusal;

/* Sizes of a table. A zero stands for what is given here in brackets. */
typedef struct prefq_setup {
    uint32_t clients;  /* 1 to 8 (8) */
    uint32_t capacity; /* how many versions of rows there is room for, 1 to 65,536 (1,024, or twice the rows or the lines of the opening where that is more) */
    uint32_t block;    /* how many slots one scan reads, 1 to 65,536 (1,024) */
    uint32_t window;   /* rows of a window of block-nested-loops, 1 to 65,536 (64); no question uses one */
} prefq_setup;

typedef enum prefq_verb { PREFQ_INSERT = 1, PREFQ_UPDATE = 2, PREFQ_DELETE = 3 } prefq_verb;

/* One change of a commit. */
typedef struct prefq_change {
    prefq_verb verb;
    uint64_t id;           /* of the row that is updated or deleted; of an insert nothing */
    const int64_t *values; /* the new values; of a delete nothing */
} prefq_change;

/* The version of the library, as "0.6.7". */
const char *prefq_version(void);

/* Why the last call of this thread that did not return PREFQ_OK did nothing. It stands until the thread's next such call. PREFQ_BUSY says all by itself, and leaves
   it: it may be that of the call which was interrupted. */
const prefq_refusal *prefq_last_refusal(void);

/* Opens a table: its columns are the names in `columns` with commas between them, as "price,dist", and its first rows have the ids 1, 2, 3 and so on. A setup of
   NULL is all zeros. Refused PREFQ_TABLE for names (1 to 4) and for more than 65,536 rows (8), PREFQ_OPENING for more rows than the capacity, and
   PREFQ_ARGUMENTS. Where it does not return PREFQ_OK, `table` gets NULL. */
prefq_result prefq_open(const char *columns, size_t length, const int64_t *values, size_t rows, size_t width, const prefq_setup *setup, prefq **table);

/* The same from a table text: a line of names, and a line for each row, without the lines `table` and `end`. Refused PREFQ_TABLE for what is
   wrong in it (1 to 8), and as prefq_open is. */
prefq_result prefq_open_text(const char *text, size_t length, const prefq_setup *setup, prefq **table);

/* The number of columns. It never changes. */
size_t prefq_width(const prefq *table);

/* Ends the table: calls that other threads make or are waiting in return PREFQ_ENDED. Waits for the call that is under way, at most for a block of a scan. The
   same again does nothing. Answers of clients still stand. */
void prefq_end(prefq *table);

/* Ends the table and gives back its memory. No other call may be under way or come later. NULL does nothing. */
void prefq_close(prefq *table);

/* Adds a row, and gives its id. Refused PREFQ_CLIENT 8, where there is no room. */
prefq_result prefq_insert(prefq *table, const int64_t *values, size_t width, uint64_t *id);

/* Adds rows at one moment, and gives the id of the first; the others have the next ones. All are added, or none: refused PREFQ_CLIENT 8, where there is no room for
   all of them. Of no rows the id is 0. */
prefq_result prefq_insert_many(prefq *table, const int64_t *values, size_t rows, size_t width, uint64_t *first);

/* Gives a row new values. Refused PREFQ_CLIENT 7 (no such row) and 8 (no room for one more version). */
prefq_result prefq_update(prefq *table, uint64_t id, const int64_t *values, size_t width);

/* Deletes a row. Refused PREFQ_CLIENT 7. */
prefq_result prefq_delete(prefq *table, uint64_t id);

/* Makes 1 to 8 changes at one moment, and gives the id of the first row that was inserted, 0 where none was. All are made, or none: refused PREFQ_COMMIT 12 (two
   changes of one row) and 13 (another number of changes), PREFQ_CLIENT 7 and 8. */
prefq_result prefq_commit(prefq *table, const prefq_change *changes, size_t count, size_t width, uint64_t *first);

/* Gives rows new values as prefq_update does, one after the other, and gives how many have them: `values` has the address of each row's. Up to eight rows get theirs
   at one moment, all of them or none, and other calls wait until all is done. Stops before what is refused: where that comes first, the call is refused as
   prefq_update is; else fewer than `count` were made, and a call for those that are left says why. After PREFQ_OUT_OF_MEMORY some were made. */
prefq_result prefq_update_many(prefq *table, const uint64_t *ids, const int64_t *const *values, size_t count, size_t width, size_t *made);

/* Copies a row's values. Refused PREFQ_CLIENT 7. */
prefq_result prefq_get(prefq *table, uint64_t id, int64_t *values, size_t width);

/* Gives how many more versions of rows there is room for. */
prefq_result prefq_room(prefq *table, uint32_t *room);

/* All rows as they are now, as an answer: each has level 1. Takes a client without an open query. */
prefq_result prefq_rows(prefq *table, uint32_t client, const int64_t **answer, size_t *count);

/* The answer to a question: a query of this client is begun, scanned and finished within this call. Refused PREFQ_TERM, where no such question can be asked, and
   PREFQ_CLIENT 1 (no such client) and 3 (it has an open query). Other threads wait for as long as it takes: where that may be long, use the next calls. */
prefq_result prefq_ask(prefq *table, uint32_t client, const char *question, size_t length, const int64_t **answer, size_t *count);

/* Begins a client's query of the table as it is now, and gives the number of blocks to scan. Refused as prefq_ask is. */
prefq_result prefq_begin(prefq *table, uint32_t client, const char *question, size_t length, uint32_t *blocks);

/* Scans up to this many blocks for the client's query, and gives how many are left. Refused PREFQ_CLIENT 1, 4 (no query) and 5 (all were scanned). */
prefq_result prefq_scan(prefq *table, uint32_t client, uint32_t blocks, uint32_t *left);

/* Ends the client's query with its answer, which is that of the table as it was at the begin. Refused PREFQ_CLIENT 1, 4 and 6 (blocks are left). */
prefq_result prefq_finish(prefq *table, uint32_t client, const int64_t **answer, size_t *count);

/* Ends the client's query without an answer. Refused PREFQ_CLIENT 1 and 4. */
prefq_result prefq_abandon(prefq *table, uint32_t client);

/* Gives the table any lines of the language of `prefq live`, as "as 1 get 7\n", and gives the lines of the replies. They stand until the table's next prefq_lines.
   What a line is refused with is a reply. A last line without a line feed counts. After PREFQ_OUT_OF_MEMORY some of the
   lines were done. */
prefq_result prefq_lines(prefq *table, const char *lines, size_t length, const char **replies, size_t *replies_length);

#ifdef __cplusplus
}
#endif

#endif
