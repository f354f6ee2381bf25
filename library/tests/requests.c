/* Requests for memory: each refused in turn, and calls, forks and signals around each. */
#define _GNU_SOURCE
#include "tests.h"
#include <signal.h>
#include <stdatomic.h>
#include <sys/wait.h>
#include <unistd.h>

static atomic_long requests, refused_request;
static prefq *asking;                     /* a table in the middle of whose calls, around each request, */
static void (*within_calls)(prefq *table); /* this is done */

/* Forks a child that closes this table, and waits for it. */
static void fork_and_close(prefq *table)
{
    int status;
    pid_t child = fork();
    if (child == 0) {
        prefq_close(table);
        _exit(0);
    }
    EXPECT(waitpid(child, &status, 0) == child && status == 0);
}

static int is_request_refused(void)
{
    if (asking != NULL)
        within_calls(asking);
    return atomic_fetch_add(&requests, 1) + 1 == atomic_load(&refused_request);
}

void *paged_malloc(size_t size); /* of library/c/memory.c */
void *paged_realloc(void *block, size_t size);
void *__real_calloc(size_t count, size_t size);
void *__wrap_malloc(size_t size);
void *__wrap_calloc(size_t count, size_t size);
void *__wrap_realloc(void *block, size_t size);

void *__wrap_malloc(size_t size)
{
    return is_request_refused() ? NULL : paged_malloc(size);
}

void *__wrap_calloc(size_t count, size_t size)
{
    return is_request_refused() ? NULL : __real_calloc(count, size);
}

void *__wrap_realloc(void *block, size_t size)
{
    if (is_request_refused())
        return NULL;
    void *found = paged_realloc(block, size);
    if (asking != NULL)
        within_calls(asking);
    return found;
}

/* A block that becomes large begins at a large page, and keeps what stands in it when it becomes larger or smaller. */
void test_large_blocks(void)
{
    enum { LARGE = 1 << 21 };
    static const size_t sizes[] = {LARGE, 100, LARGE / 2, LARGE, 3 * LARGE + 5, LARGE + 7, 50, 4 * LARGE};
    unsigned char *block = NULL;
    size_t had = 0;
    for (size_t number = 0; number < sizeof sizes / sizeof *sizes; number++) {
        size_t size = sizes[number];
        block = paged_realloc(block, size);
        EXPECT(block != NULL);
        for (size_t at = 0; at < had && at < size; at++)
            EXPECT(block[at] == number - 1);
        memset(block, (int)number, size);
        had = size;
    }
#ifndef WATCHED /* A sanitizer ends the program that asks for so much. */
    EXPECT(paged_malloc(SIZE_MAX / 4) == NULL && paged_realloc(block, SIZE_MAX / 4) == NULL && block[had - 1] == sizeof sizes / sizeof *sizes - 1);
#endif
    free(block);
}

/* Makes each call once. What is refused for want of memory leaves the table as it was, or ended; what is done is done. */
static void make_each_call(void)
{
    prefq *table;
    const int64_t *answer, more[] = {40, 9, 60, 3}, price[] = {7};
    const prefq_change changes[] = {{PREFQ_UPDATE, 1, hotels}, {PREFQ_DELETE, 2, NULL}, {PREFQ_INSERT, 0, more}};
    const uint64_t ids[] = {1, 3};
    const int64_t *const updates[] = {hotels, more};
    const char *replies;
    size_t count, length, made;
    uint64_t id;
    uint32_t left;
    int64_t row[2];
    prefq_result done = prefq_open_text("price\n5\n", 8, NULL, &table);
    EXPECT(done == PREFQ_OK || (done == PREFQ_OUT_OF_MEMORY && table == NULL));
    if (table != NULL)
        EXPECT(prefq_width(table) == 1 && prefq_update(table, 1, price, 1) != PREFQ_REFUSED);
    prefq_close(table);
    done = prefq_open("price,dist", 10, hotels, 3, 2, &(prefq_setup){.capacity = 65536}, &table);
    if (done != PREFQ_OK) {
        EXPECT(done == PREFQ_OUT_OF_MEMORY && table == NULL);
        return;
    }
    prefq_result results[] = {
        prefq_insert(table, more, 2, &id),       prefq_insert_many(table, more, 2, 2, &id),
        prefq_update(table, 1, more, 2),         prefq_commit(table, changes, 3, 2, &id),
        prefq_update_many(table, ids, updates, 2, 2, &made),
        prefq_get(table, 1, row, 2),             prefq_room(table, &left),
        prefq_rows(table, 2, &answer, &count),   prefq_ask(table, 1, low, sizeof low - 1, &answer, &count),
        prefq_lines(table, "as 1 get 1\nas 9 room\n\nno command", 33, &replies, &length),
    };
    int is_ended = 0, refusals = 0;
    for (size_t call = 0; call < sizeof results / sizeof *results; call++) {
        EXPECT(is_ended ? results[call] == PREFQ_ENDED : results[call] == PREFQ_OK || results[call] == PREFQ_OUT_OF_MEMORY || results[call] == PREFQ_ENDED || refusals);
        refusals += results[call] != PREFQ_OK;
        is_ended = results[call] == PREFQ_ENDED;
    }
    prefq_close(table);
}

void refuse_each_request(void)
{
    long number = 0;
    do {
        atomic_store(&requests, 0);
        atomic_store(&refused_request, ++number);
        make_each_call();
    } while (atomic_load(&requests) >= number);
    atomic_store(&refused_request, 0);
    EXPECT(number > 5);
    printf("%ld requests for memory refused in turn\n", number - 1);
}

/* Each refused call, by its number: one without memory for what it says is refused all the same, and the table goes on. */
static prefq_result refused_call(prefq *table, int call)
{
    const prefq_change twice[] = {{PREFQ_UPDATE, 1, hotels}, {PREFQ_DELETE, 1, NULL}};
    const int64_t *answer;
    size_t count;
    uint64_t id;
    uint32_t left;
    int64_t row[2];
    switch (call) {
    case 0: return prefq_insert(table, hotels, 1, &id);
    case 1: return prefq_update(table, 99, hotels, 2);
    case 2: return prefq_delete(table, 99);
    case 3: return prefq_get(table, 99, row, 2);
    case 4: return prefq_commit(table, twice, 2, 2, &id);
    case 5: return prefq_scan(table, 1, 1, &left);
    case 6: return prefq_finish(table, 1, &answer, &count);
    default: return prefq_abandon(table, 9);
    }
}

void refuse_requests_of_refusals(void)
{
    uint32_t left;
    prefq *table = open_hotels();
    for (int call = 0; call < 8; call++) {
        EXPECT(refused_call(table, call) == PREFQ_REFUSED);
        const prefq_refusal why = *prefq_last_refusal();
        for (long number = 1; number < 4; number++) {
            atomic_store(&requests, 0);
            atomic_store(&refused_request, number);
            prefq_result result = refused_call(table, call);
            atomic_store(&refused_request, 0);
            const prefq_refusal *now = prefq_last_refusal();
            EXPECT(result == PREFQ_REFUSED && now->kind == why.kind && now->number == why.number && now->place == why.place && now->amount == why.amount);
            EXPECT((now->text[0] == '\0') == (atomic_load(&requests) >= number));
        }
    }
    EXPECT(prefq_room(table, &left) == PREFQ_OK);
    prefq_close(table);
}

static void call_within(prefq *table)
{
    uint32_t left;
    EXPECT(prefq_room(table, &left) == PREFQ_BUSY);
}

static atomic_int handled;

static void call_from_handler(int number)
{
    (void)number;
    call_within(asking);
    handled++;
}

/* A signal that comes here, where the call has the table for sure. */
static void raise_signal(prefq *table)
{
    (void)table;
    EXPECT(raise(SIGALRM) == 0);
}

/* A child that is forked where a call gives back memory and asks for more gives back none of it a second time. A call within a call is busy, as that of a signal
   handler, and leaves what an earlier one was refused with. */
void test_calls_around_requests(void)
{
    static void (*const each[])(prefq *table) = {fork_and_close, call_within, raise_signal};
    const int64_t *answer;
    const char *replies;
    uint64_t id;
    size_t count;
    signal(SIGALRM, call_from_handler);
    for (size_t at = 0; at < sizeof each / sizeof *each; at++) {
        prefq *table = open_hotels();
        EXPECT(prefq_ask(table, 1, low, sizeof low - 1, &answer, &count) == PREFQ_OK && count == 2);
        for (int number = 0; number < 20; number++)
            EXPECT(prefq_insert(table, hotels, 2, &id) == PREFQ_OK);
        EXPECT(prefq_delete(table, 99) == PREFQ_REFUSED);
        within_calls = each[at];
        asking = table;
        EXPECT(prefq_rows(table, 1, &answer, &count) == PREFQ_OK && count == 23);
        EXPECT(prefq_lines(table, "as 1 get 1", 10, &replies, &count) == PREFQ_OK);
        asking = NULL;
        EXPECT(is_refused(PREFQ_REFUSED, PREFQ_CLIENT, 7, -1, "no such row 99"));
        fork_and_close(table);
        prefq_close(table);
    }
    EXPECT(handled >= 2);
}

/* Calls one another: each in the middle of the one before, on a table of its own, and in the middle of the eighth a close. */
static prefq *nested[9];

static void nest_calls(prefq *table)
{
    const int64_t *answer;
    size_t count, place = 0;
    uint32_t left;
    while (nested[place] != table)
        place++;
    asking = place < 7 ? nested[place + 1] : NULL;
    if (place < 7)
        EXPECT(prefq_rows(nested[place + 1], 1, &answer, &count) == PREFQ_OK && count == 3);
    if (place == 7) {
        EXPECT(prefq_room(nested[8], &left) == PREFQ_BUSY);
        prefq_close(nested[8]); /* A sanitizer tells whether it has given back the rows. */
    }
    asking = NULL;
}

void test_close_within_calls(void)
{
    const int64_t *answer;
    size_t count;
    for (size_t place = 0; place < 9; place++)
        nested[place] = open_hotels();
    within_calls = nest_calls;
    asking = nested[0];
    EXPECT(prefq_rows(nested[0], 1, &answer, &count) == PREFQ_OK && count == 3 && asking == NULL);
    for (size_t place = 0; place < 8; place++)
        prefq_close(nested[place]);
}
