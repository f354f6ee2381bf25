/* The calls of prefq.h: each takes its table, makes a proved call, and says how that ended. */
#define _GNU_SOURCE
#include "proved.h"
#include <pthread.h>
#include <stdatomic.h>
#include <stdlib.h>
#include <string.h>

struct prefq {
    pthread_mutex_t lock;
    atomic_bool is_ending;
    unsigned forks; /* how many forks led to the process that opened it */
    uint64_t width;
    void *proved;
    void *given[1 + MOST_CLIENTS]; /* the replies to the last lines, and each client's last answer */
};

/* ---- why a call did nothing ---- */

static _Thread_local struct refusal last;
static const struct ended done;
static const char has_ended[] = "the table has ended";

const prefq_refusal *prefq_last_refusal(void)
{
    last.why.text = last.text;
    return &last.why;
}

/* Ends a call that the library itself refuses: for an argument, or since the table could not do it. */
static struct ended refused(prefq_result result, const char *text)
{
    strcpy(last.text, text);
    last.why = (prefq_refusal){.kind = result == PREFQ_REFUSED ? PREFQ_ARGUMENTS : PREFQ_TABLE_END, .place = -1, .row = -1};
    return (struct ended){.outcome = result};
}

/* ---- one call at a time ---- */

static unsigned forks; /* how many led to this process; only a child counts, while it has no other thread */
static int forks_are_counted;

static void count_fork(void)
{
    forks++;
}

__attribute__((constructor)) static void begin_to_count_forks(void)
{
    forks_are_counted = pthread_atfork(NULL, NULL, count_fork) == 0;
}

/* Refuses a call that is not right, with this text, and one for which the thread's stack may be too small. A stack that the system does not tell, or that is not
   the thread's own, is believed. */
static struct ended test_call(int is_right, const char *text)
{
    static _Thread_local uintptr_t lowest, highest;
    pthread_attr_t thread;
    void *address = NULL;
    size_t size = 0;
    uintptr_t here = (uintptr_t)&address;
    if (highest == 0 && pthread_getattr_np(pthread_self(), &thread) == 0) {
        if (pthread_attr_getstack(&thread, &address, &size) == 0)
            highest = (lowest = (uintptr_t)address) + size;
        pthread_attr_destroy(&thread);
    }
    if (here >= lowest && here < highest && here - lowest < PREFQ_STACK)
        return refused(PREFQ_REFUSED, "the thread has less than 786432 bytes of stack left");
    _Static_assert(PREFQ_STACK == 786432, "the text has this number");
    return is_right ? done : refused(PREFQ_REFUSED, text);
}

/* The tables of the calls of this thread that are under way: of one, and of those that signal handlers make in its middle. A table stands here before its lock is
   waited for and until that is open again, since the lock itself does not tell at each moment whose it is. */
enum { MOST_CALLS = 8 };
static _Thread_local prefq *volatile called[MOST_CALLS];

/* Takes the table once the calls of other threads are over, unless a call of this thread on it is under way. */
static int take(prefq *table)
{
    int place = 0;
    while (place < MOST_CALLS && called[place] != NULL && called[place] != table)
        place++;
    if (place == MOST_CALLS || called[place] == table)
        return 0;
    called[place] = table;
    atomic_signal_fence(memory_order_seq_cst);
    pthread_mutex_lock(&table->lock);
    return 1;
}

/* Lets the table go; gives back its rows, where it is to end. */
static void leave(prefq *table)
{
    if (table->proved != NULL && atomic_load(&table->is_ending))
        prefq_table_close(&table->proved);
    pthread_mutex_unlock(&table->lock);
    atomic_signal_fence(memory_order_seq_cst);
    int place = 0;
    while (called[place] != table)
        place++;
    called[place] = NULL;
}

/* Whether the table has ended, or is to. */
static int is_over(const prefq *table)
{
    return table->proved == NULL || atomic_load(&table->is_ending);
}

/* Takes the table for a call, which is refused with this text unless it is right. */
static struct ended enter(prefq *table, int is_right, const char *text)
{
    if (table == NULL)
        return refused(PREFQ_REFUSED, "the table is NULL");
    if (table->forks != forks)
        return refused(PREFQ_ENDED, "the table belongs to another process");
    if (!take(table))
        return (struct ended){.outcome = PREFQ_BUSY}; /* The last refusal stays: it may be that of the call that was interrupted. */
    struct ended now = is_over(table) ? refused(PREFQ_ENDED, has_ended) : test_call(is_right, text);
    if (now.outcome != PREFQ_OK)
        leave(table);
    return now;
}

/* A call of prefq.h: takes the table, does this unless it is called wrongly, gives what came of it, and lets the table go. */
#define CALL(name, arguments, is_right, text, does, gives)                                                                                                     \
    prefq_result prefq_##name arguments                                                                                                                        \
    {                                                                                                                                                          \
        struct ended now = enter(table, is_right, text);                                                                                                       \
        if (now.outcome != PREFQ_OK)                                                                                                                           \
            return now.outcome;                                                                                                                                \
        now = does;                                                                                                                                            \
        if (now.outcome == PREFQ_OK)                                                                                                                           \
            gives;                                                                                                                                             \
        leave(table);                                                                                                                                          \
        return now.outcome;                                                                                                                                    \
    }

/* A proved call, which is passed where it may say why it is refused. */
#define MAKE(call, ...) prefq_table_##call(&table->proved, __VA_ARGS__, &last)

/* Rows as they are passed on: of too many rows or columns no number is looked at. */
#define ROWS(values, rows, width) rows, width, (values) != NULL ? (values) : none, (rows) <= MOST_ROWS && (width) <= MOST_COLUMNS ? (rows) * (width) : 0
static const int64_t none[1];

/* ---- opening and closing ---- */

const char *prefq_version(void)
{
    return PREFQ_VERSION;
}

size_t prefq_width(const prefq *table)
{
    return table->width;
}

/* Gives what was opened, as a table with so many columns as the result says, or no table. */
static prefq_result opened(prefq **given, void *proved, struct ended now)
{
    prefq *table = now.outcome == PREFQ_OK && forks_are_counted ? malloc(sizeof *table) : NULL;
    if (table != NULL) {
        *table = (prefq){.lock = PTHREAD_MUTEX_INITIALIZER, .forks = forks, .width = now.amount, .proved = proved};
    } else if (now.outcome == PREFQ_OK) {
        prefq_table_close(&proved);
        now = refused(PREFQ_OUT_OF_MEMORY, "out of memory");
    }
    *given = table;
    return now.outcome;
}

prefq_result prefq_open_text(const char *text, size_t length, const prefq_setup *setup, prefq **table)
{
    void *proved = NULL;
    struct ended now = test_call(text != NULL, "the text is NULL");
    if (now.outcome == PREFQ_OK)
        now = prefq_table_open(&proved, setup != NULL ? setup : &(prefq_setup){0}, text, length, &last);
    return opened(table, proved, now);
}

prefq_result prefq_open(const char *columns, size_t length, const int64_t *values, size_t rows, size_t width, const prefq_setup *setup, prefq **table)
{
    void *proved = NULL;
    struct ended now = test_call(columns != NULL && (values != NULL || rows == 0), "the columns or the rows are NULL");
    if (now.outcome == PREFQ_OK)
        now = prefq_table_open_rows(&proved, setup != NULL ? setup : &(prefq_setup){0}, columns, length, ROWS(values, rows, width), &last);
    return opened(table, proved, now);
}

void prefq_end(prefq *table)
{
    if (table != NULL)
        atomic_store(&table->is_ending, 1);
    if (table != NULL && table->forks == forks && take(table))
        leave(table);
}

void prefq_close(prefq *table)
{
    if (table == NULL || pthread_mutex_trylock(&table->lock) != 0)
        return; /* A fork came in the middle of a call: which of its memory is given back already is not known. */
    if (table->forks == forks && table->proved != NULL)
        prefq_table_close(&table->proved);
    pthread_mutex_unlock(&table->lock);
    pthread_mutex_destroy(&table->lock);
    for (size_t place = 0; place <= MOST_CLIENTS; place++)
        free(table->given[place]);
    free(table);
}

/* ---- rows ---- */

CALL(insert, (prefq *table, const int64_t *values, size_t width, uint64_t *id), values != NULL, "the values are NULL", MAKE(insert, values, width),
     *id = now.amount)
CALL(insert_many, (prefq *table, const int64_t *values, size_t rows, size_t width, uint64_t *first), values != NULL || rows == 0, "the values are NULL",
     MAKE(insert_many, ROWS(values, rows, width)), *first = now.amount)
CALL(update, (prefq *table, uint64_t id, const int64_t *values, size_t width), values != NULL, "the values are NULL", MAKE(update, id, values, width), (void)0)
CALL(delete, (prefq *table, uint64_t id), 1, "", MAKE(delete, id), (void)0)
CALL(get, (prefq *table, uint64_t id, int64_t *values, size_t width), values != NULL, "the values are NULL", MAKE(get, id, values, width), (void)0)
CALL(room, (prefq *table, uint32_t *room), 1, "", prefq_table_room(&table->proved, &last), *room = (uint32_t)now.amount)

/* A change with its values, where these count. */
static struct piece piece_of(prefq_change change, size_t width)
{
    struct piece piece = {.change = change};
    if (change.verb != PREFQ_DELETE && change.values != NULL && width <= MOST_COLUMNS)
        memcpy(piece.values, change.values, width * sizeof *change.values);
    return piece;
}

/* Makes changes at one moment. */
static struct ended commit(prefq *table, const prefq_change *changes, size_t count, size_t width)
{
    struct piece pieces[MOST_CHANGES];
    for (size_t place = 0; place < count; place++)
        pieces[place] = piece_of(changes[place], width);
    return MAKE(commit, width, pieces, count);
}

/* Makes updates, as many at one moment as the table takes, unless it is to end. */
static struct ended update_many(prefq *table, const uint64_t *ids, const int64_t *const *values, size_t count, size_t width)
{
    struct piece pieces[MOST_CHANGES];
    struct ended now = done;
    size_t made = 0;
    while (made < count && now.outcome == PREFQ_OK) {
        size_t more = 0;
        for (; more < MOST_CHANGES && made + more < count; more++)
            pieces[more] = piece_of((prefq_change){PREFQ_UPDATE, ids[made + more], values[made + more]}, width);
        now = is_over(table) ? refused(PREFQ_ENDED, has_ended) : MAKE(update_first, width, pieces, more);
        made += now.amount;
    }
    int is_done = now.outcome == PREFQ_OK || (now.outcome == PREFQ_REFUSED && made > 0);
    return is_done ? (struct ended){.amount = made} : now;
}

CALL(commit, (prefq *table, const prefq_change *changes, size_t count, size_t width, uint64_t *first), changes != NULL || count == 0 || count > MOST_CHANGES,
     "the changes are NULL", commit(table, changes, count <= MOST_CHANGES ? count : 0, width), *first = now.amount)
CALL(update_many, (prefq *table, const uint64_t *ids, const int64_t *const *values, size_t count, size_t width, size_t *made),
     count == 0 || (ids != NULL && values != NULL), "the ids or the values are NULL", update_many(table, ids, values, count, width), *made = now.amount)

/* ---- queries and lines ---- */

/* Whether there is room for so many bytes and a zero behind them, in place of what was given here before. */
static int has_room(prefq *table, size_t place, size_t size)
{
    free(table->given[place]);
    table->given[place] = malloc(size + 1);
    return table->given[place] != NULL;
}

/* Scans up to as many blocks as the amount says, if all went well before, unless the table is to end. */
static struct ended scan(prefq *table, uint32_t client, struct ended now)
{
    for (uint64_t blocks = now.amount; blocks > 0 && now.amount > 0 && now.outcome == PREFQ_OK; blocks--)
        now = is_over(table) ? refused(PREFQ_ENDED, has_ended) : MAKE(scan, client);
    return now;
}

/* Ends a query with its answer, if all went well before. */
static struct ended finish(prefq *table, uint32_t client, struct ended now)
{
    if (now.outcome == PREFQ_OK)
        now = MAKE(finish, client);
    if (now.outcome != PREFQ_OK)
        return now;
    size_t numbers = now.amount * (2 + table->width);
    if (!has_room(table, client, numbers * sizeof(int64_t)))
        return refused(PREFQ_OUT_OF_MEMORY, "out of memory");
    prefq_table_answer(&table->proved, table->given[client], numbers);
    return now;
}

/* Gives lines, and then what they were answered with. */
static struct ended give(prefq *table, const char *lines, size_t length)
{
    struct ended now = MAKE(lines, lines, length);
    if (now.outcome != PREFQ_OK)
        return now;
    int is_told = has_room(table, 0, now.amount);
    prefq_table_replies(&table->proved, is_told ? table->given[0] : last.text, is_told ? now.amount + 1 : 1);
    return is_told ? now : refused(PREFQ_OUT_OF_MEMORY, "out of memory");
}

#define GIVE_ANSWER *answer = table->given[client], *count = now.amount

CALL(rows, (prefq *table, uint32_t client, const int64_t **answer, size_t *count), 1, "",
     finish(table, client, scan(table, client, MAKE(begin_all, client))), GIVE_ANSWER)
CALL(ask, (prefq *table, uint32_t client, const char *question, size_t length, const int64_t **answer, size_t *count), question != NULL,
     "the question is NULL", finish(table, client, scan(table, client, MAKE(begin, client, question, length))), GIVE_ANSWER)
CALL(begin, (prefq *table, uint32_t client, const char *question, size_t length, uint32_t *blocks), question != NULL, "the question is NULL",
     MAKE(begin, client, question, length), *blocks = (uint32_t)now.amount)
CALL(scan, (prefq *table, uint32_t client, uint32_t blocks, uint32_t *left), blocks > 0, "the number of blocks is 0",
     scan(table, client, (struct ended){.amount = blocks}), *left = (uint32_t)now.amount)
CALL(finish, (prefq *table, uint32_t client, const int64_t **answer, size_t *count), 1, "", finish(table, client, done), GIVE_ANSWER)
CALL(abandon, (prefq *table, uint32_t client), 1, "", MAKE(abandon, client), (void)0)
CALL(lines, (prefq *table, const char *lines, size_t length, const char **replies, size_t *replies_length), lines != NULL, "the lines are NULL",
     give(table, lines, length), (*replies = table->given[0], *replies_length = now.amount))
