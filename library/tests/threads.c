/* Calls of several threads, the end of a table beside them, forks, and signals at any place of a call. */
#define _GNU_SOURCE
#include "tests.h"
#include <pthread.h>
#include <signal.h>
#include <stdatomic.h>
#include <sys/time.h>
#include <sys/wait.h>
#include <unistd.h>

enum { TABLES = 50, THREADS = 8, ROUNDS = 300 };

static prefq *tables[TABLES];

/* Uses all tables as one client. Rows that other threads insert at the same time are theirs alone. */
static void *use_tables(void *given)
{
    uint32_t client = *(uint32_t *)given;
    for (int round = 0; round < ROUNDS; round++) {
        prefq *table = tables[(round * 7 + (int)client) % TABLES];
        int64_t row[] = {client, round}, values[2];
        const int64_t *answer;
        size_t count;
        uint64_t id;
        uint32_t left;
        EXPECT(prefq_insert(table, row, 2, &id) == PREFQ_OK && prefq_get(table, id, values, 2) == PREFQ_OK && memcmp(row, values, sizeof row) == 0);
        EXPECT(prefq_begin(table, client, low, sizeof low - 1, &left) == PREFQ_OK);
        row[0] = -1 - (int64_t)client;
        EXPECT(prefq_update(table, id, row, 2) == PREFQ_OK);
        EXPECT(prefq_scan(table, client, left, &left) == PREFQ_OK && prefq_finish(table, client, &answer, &count) == PREFQ_OK);
        for (size_t at = 0; at < count; at++)
            EXPECT((uint64_t)answer[4 * at + 1] != id || answer[4 * at + 2] == (int64_t)client);
        EXPECT(is_refused(prefq_get(table, 0, values, 2), PREFQ_CLIENT, 7, -1, "no such row 0") && prefq_delete(table, id) == PREFQ_OK);
    }
    return NULL;
}

void test_threads(void)
{
    pthread_t threads[THREADS];
    uint32_t clients[THREADS];
    for (int table = 0; table < TABLES; table++)
        tables[table] = open_hotels();
    for (uint32_t thread = 0; thread < THREADS; thread++) {
        clients[thread] = thread + 1;
        EXPECT(pthread_create(&threads[thread], NULL, use_tables, &clients[thread]) == 0);
    }
    for (int thread = 0; thread < THREADS; thread++)
        EXPECT(pthread_join(threads[thread], NULL) == 0);
    for (int table = 0; table < TABLES; table++) {
        const int64_t *answer;
        size_t count;
        EXPECT(prefq_rows(tables[table], 1, &answer, &count) == PREFQ_OK && count == 3);
        prefq_close(tables[table]);
    }
}

static void *ask_until_the_end(void *given)
{
    const int64_t *answer;
    size_t count;
    prefq_result result;
    do
        result = prefq_ask(given, 1, low, sizeof low - 1, &answer, &count);
    while (result == PREFQ_OK);
    EXPECT(result == PREFQ_ENDED);
    return NULL;
}

/* Many updates, which the end of the table does not wait for. */
static void *update_until_the_end(void *given)
{
    enum { COUNT = 100000 };
    static uint64_t ids[COUNT];
    static const int64_t *values[COUNT];
    size_t made = 0;
    prefq_result result;
    for (size_t at = 0; at < COUNT; at++) {
        ids[at] = 1 + at % 3;
        values[at] = hotels;
    }
    do
        result = prefq_update_many(given, ids, values, COUNT, 2, &made);
    while (result == PREFQ_OK && made == COUNT);
    EXPECT(result == PREFQ_ENDED);
    return NULL;
}

void test_end_beside_calls(void)
{
    static void *(*const each[])(void *table) = {ask_until_the_end, update_until_the_end};
    for (size_t at = 0; at < sizeof each / sizeof *each; at++) {
        prefq *table = open_hotels();
        pthread_t thread;
        EXPECT(pthread_create(&thread, NULL, each[at], table) == 0);
        usleep(20000);
        prefq_end(table);
        EXPECT(pthread_join(thread, NULL) == 0);
        prefq_close(table);
    }
}

static void *use_one_table(void *given)
{
    uint64_t id;
    while (prefq_insert(given, hotels, 2, &id) == PREFQ_OK)
        prefq_delete(given, id);
    return NULL;
}

/* A child that is forked in the middle of another thread's call refuses its calls, closes its table, and opens one of its own. */
void test_forks(void)
{
    prefq *table = open_hotels();
    pthread_t thread;
    EXPECT(pthread_create(&thread, NULL, use_one_table, table) == 0);
    for (int number = 0; number < 50; number++) {
        pid_t child = fork();
        if (child == 0) {
            int64_t values[2];
            EXPECT(prefq_get(table, 1, values, 2) == PREFQ_ENDED && strcmp(prefq_last_refusal()->text, "the table belongs to another process") == 0);
            prefq_end(table);
            prefq_close(table);
            _exit(0);
        }
        int status;
        EXPECT(waitpid(child, &status, 0) == child && status == 0);
    }
    prefq_end(table);
    EXPECT(pthread_join(thread, NULL) == 0);
    prefq_close(table);
}

static prefq *interrupted;
static atomic_int done, refused_as_busy;

static void call_at_any_place(int number)
{
    (void)number;
    uint32_t left;
    prefq_result result = prefq_room(interrupted, &left);
    EXPECT(result == PREFQ_OK || result == PREFQ_BUSY);
    (result == PREFQ_OK ? &done : &refused_as_busy)[0]++;
}

/* Signals come at any place of a call, also where it is about to take the table or has just let it go: the handler's call waits for nothing. */
static void interrupt_calls(void)
{
    const struct itimerval soon = {{0, 100}, {0, 100}}, never = {{0, 0}, {0, 0}};
    interrupted = open_hotels();
    signal(SIGALRM, call_at_any_place);
    EXPECT(setitimer(ITIMER_REAL, &soon, NULL) == 0);
    while (done < 100 || refused_as_busy < 3000)
        EXPECT(prefq_update(interrupted, 1, hotels, 2) == PREFQ_OK);
    EXPECT(setitimer(ITIMER_REAL, &never, NULL) == 0);
    prefq_close(interrupted);
}

void test_signals(void)
{
    pid_t child = fork();
    if (child == 0) {
        interrupt_calls();
        _exit(0);
    }
    int status = 1, tenths = 0;
    for (; waitpid(child, &status, WNOHANG) == 0 && tenths < 600; tenths++)
        usleep(100000);
    if (tenths == 600)
        kill(child, SIGKILL);
    EXPECT(tenths < 600 && status == 0);
}
