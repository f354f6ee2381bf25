/* Tests of prefq.h from C: each call and each refusal here; memory refused at each request in turn in requests.c, threads, forks and signals in threads.c, small
   stacks in stacks.c.

   calls            runs all of them
   calls --threads  runs those of threads alone, for ThreadSanitizer, which knows no fork beside threads
   calls --stack    prints how many bytes of stack the deepest questions take
   calls --speed    prints the processor time of some calls

   It is linked with --wrap for malloc, calloc and realloc. */
#include "tests.h"
#include <time.h>

static void test_calls(void)
{
    prefq *table = open_hotels();
    const int64_t *answer, row[] = {40, 9}, many[] = {60, 3, 70, 70, 1, -1};
    int64_t values[2];
    uint64_t id;
    uint32_t left;
    size_t count, length;
    const char *replies;
    EXPECT(prefq_width(table) == 2 && strcmp(prefq_version(), PREFQ_VERSION) == 0);
    EXPECT(prefq_ask(table, 1, low, sizeof low - 1, &answer, &count) == PREFQ_OK && count == 2);
    EXPECT(memcmp(answer, (const int64_t[]){1, 1, 50, 8, 1, 2, 80, 2}, 64) == 0);
    EXPECT(prefq_insert(table, row, 2, &id) == PREFQ_OK && id == 4);
    EXPECT(prefq_insert_many(table, many, 3, 2, &id) == PREFQ_OK && id == 5);
    EXPECT(prefq_insert_many(table, NULL, 0, 2, &id) == PREFQ_OK && id == 0);
    EXPECT(prefq_update(table, 7, (const int64_t[]){INT64_MIN, INT64_MAX}, 2) == PREFQ_OK);
    EXPECT(prefq_get(table, 7, values, 2) == PREFQ_OK && values[0] == INT64_MIN && values[1] == INT64_MAX);
    EXPECT(prefq_delete(table, 7) == PREFQ_OK && is_refused(prefq_get(table, 7, values, 2), PREFQ_CLIENT, 7, -1, "no such row 7"));
    EXPECT(prefq_last_refusal()->amount == 7 && values[0] == INT64_MIN);
    const prefq_change changes[] = {{PREFQ_INSERT, 0, many}, {PREFQ_DELETE, 6, NULL}, {PREFQ_UPDATE, 5, row}};
    EXPECT(prefq_commit(table, changes, 3, 2, &id) == PREFQ_OK && id == 8);
    EXPECT(prefq_room(table, &left) == PREFQ_OK && left == 1024 - 6);
    EXPECT(prefq_rows(table, 8, &answer, &count) == PREFQ_OK && count == 6 && answer[4 * 4 + 1] == 5 && answer[4 * 4 + 2] == 40);
    EXPECT(prefq_begin(table, 2, low, sizeof low - 1, &left) == PREFQ_OK && left == 1);
    EXPECT(prefq_begin(table, 3, low, sizeof low - 1, &left) == PREFQ_OK && prefq_abandon(table, 3) == PREFQ_OK);
    EXPECT(prefq_delete(table, 1) == PREFQ_OK && prefq_scan(table, 2, 9, &left) == PREFQ_OK && left == 0);
    EXPECT(prefq_finish(table, 2, &answer, &count) == PREFQ_OK && count == 5 && answer[2] == 50);
    EXPECT(prefq_lines(table, "as 1 get 2\r\n\nas 2 get 1", 23, &replies, &length) == PREFQ_OK);
    EXPECT(length == strlen(replies) && strcmp(replies, "1 row 2: 80,2\n2 refused 7: no such row 1\n") == 0);
    EXPECT(prefq_lines(table, "as 1 get 2\r", 11, &replies, &length) == PREFQ_OK && strcmp(replies, "1 row 2: 80,2\n") == 0);
    EXPECT(prefq_lines(table, "", 0, &replies, &length) == PREFQ_OK && length == 0 && replies[0] == '\0');
    prefq_end(table);
    prefq_end(table);
    EXPECT(answer[2] == 50 && prefq_get(table, 2, values, 2) == PREFQ_ENDED && strcmp(prefq_last_refusal()->text, "the table has ended") == 0);
    prefq_close(table);
    prefq_close(NULL);
}

static int has_row(prefq *table, uint64_t id, int64_t price, int64_t dist)
{
    int64_t row[2];
    return prefq_get(table, id, row, 2) == PREFQ_OK && row[0] == price && row[1] == dist;
}

/* Updates one after the other, of which up to eight are made at one moment. */
static void test_many_updates(void)
{
    enum { COUNT = 20 };
    static const int64_t numbers[] = {0, 9, 10, 99, 100, 999, 1000, 9999, 10000, 99999, 100000, 12345678, -1, -10, -12345, INT64_MAX, INT64_MIN, 1000000000000, 7, 42};
    uint64_t ids[COUNT], id;
    int64_t rows[COUNT][2];
    const int64_t *values[COUNT];
    size_t made = 77;
    prefq *table = open_hotels();
    for (size_t row = 0; row < COUNT; row++) {
        EXPECT(prefq_insert(table, hotels, 2, &id) == PREFQ_OK);
        ids[row] = id;
        rows[row][0] = numbers[row];
        rows[row][1] = -numbers[row] / 10;
        values[row] = rows[row];
    }
    EXPECT(prefq_update_many(table, ids, values, COUNT, 2, &made) == PREFQ_OK && made == COUNT);
    for (size_t row = 0; row < COUNT; row++)
        EXPECT(has_row(table, ids[row], rows[row][0], rows[row][1]));
    /* Of two updates of one row the later one counts, also where they are next to one another. */
    ids[4] = ids[3] = ids[1];
    EXPECT(prefq_update_many(table, ids + 1, values + 4, 4, 2, &made) == PREFQ_OK && made == 4);
    EXPECT(has_row(table, ids[1], rows[7][0], rows[7][1]) && has_row(table, ids[2], rows[5][0], rows[5][1]));
    EXPECT(prefq_update_many(table, NULL, NULL, 0, 2, &made) == PREFQ_OK && made == 0);
    prefq_close(table);
}

/* What is refused first refuses the call; what is refused behind other updates ends it. */
static void test_refused_updates(void)
{
    uint64_t ids[] = {1, 2, 3, 1, 2, 99, 3};
    const int64_t row[] = {4, 5}, other[] = {6, 7}, *values[] = {row, row, row, other, other, other, other};
    size_t made = 77;
    uint32_t left;
    const prefq_setup small = {1, 4, 1, 1};
    prefq *table;
    EXPECT(prefq_open("price,dist", 10, hotels, 3, 2, &small, &table) == PREFQ_OK);
    EXPECT(is_refused(prefq_update_many(table, ids, values, 7, 1, &made), PREFQ_TABLE, 5, -1, "width row 0"));
    EXPECT(is_refused(prefq_update_many(table, ids, NULL, 7, 2, &made), PREFQ_ARGUMENTS, 0, -1, "the ids or the values are NULL"));
    EXPECT(is_refused(prefq_update_many(table, NULL, values, 7, 2, &made), PREFQ_ARGUMENTS, 0, -1, "the ids or the values are NULL"));
    EXPECT(is_refused(prefq_update_many(NULL, ids, values, 7, 2, &made), PREFQ_ARGUMENTS, 0, -1, "the table is NULL") && made == 77);
    /* Three at one moment, since the fourth is again of the first row; then four, of which one is of no row. */
    EXPECT(prefq_update_many(table, ids, values, 7, 2, &made) == PREFQ_OK && made == 3 && has_row(table, 1, 4, 5) && has_row(table, 3, 4, 5));
    made = 77;
    EXPECT(is_refused(prefq_update_many(table, ids + 3, values + 3, 4, 2, &made), PREFQ_CLIENT, 7, -1, "no such row 99"));
    EXPECT(prefq_last_refusal()->amount == 99 && made == 77 && has_row(table, 1, 4, 5) && has_row(table, 3, 4, 5));
    values[5] = NULL;
    EXPECT(is_refused(prefq_update_many(table, ids + 3, values + 3, 4, 2, &made), PREFQ_ARGUMENTS, 0, -1, "the values are NULL") && has_row(table, 1, 4, 5));
    /* A query that needs what ends leaves room for one more version: that of row 1, which is made anew where it stands. */
    EXPECT(prefq_begin(table, 1, low, sizeof low - 1, &left) == PREFQ_OK);
    EXPECT(prefq_update_many(table, (const uint64_t[]){1, 1, 1, 2}, values, 4, 2, &made) == PREFQ_OK && made == 2);
    EXPECT(is_refused(prefq_update_many(table, ids + 1, values, 1, 2, &made), PREFQ_CLIENT, 8, -1, "full needed 5") && made == 2);
    prefq_end(table);
    EXPECT(prefq_update_many(table, ids, values, 1, 2, &made) == PREFQ_ENDED);
    prefq_close(table);
}

static void test_openings(void)
{
    prefq *table;
    const prefq_setup small = {1, 2, 1, 1}, wide = {9, 0, 0, 0};
    static int64_t many[70000];
    EXPECT(is_refused(prefq_open("a,b c", 5, NULL, 0, 2, NULL, &table), PREFQ_TABLE, 3, 2, "bad name col 2") && table == NULL);
    EXPECT(is_refused(prefq_open("a,a", 3, NULL, 0, 2, NULL, &table), PREFQ_TABLE, 4, 2, "same name col 2"));
    EXPECT(is_refused(prefq_open("a,b\n5", 5, NULL, 0, 2, NULL, &table), PREFQ_TABLE, 3, 2, "bad name col 2"));
    EXPECT(is_refused(prefq_open("", 0, NULL, 0, 0, NULL, &table), PREFQ_TABLE, 1, -1, "no columns"));
    EXPECT(is_refused(prefq_open("a,b,c,d,e,f,g,h,i,j,k,l,m,n,o,p,q", 33, many, 1, 17, NULL, &table), PREFQ_TABLE, 2, -1, "too many columns"));
    EXPECT(is_refused(prefq_open("a,b", 3, many, 1, 1, NULL, &table), PREFQ_TABLE, 5, -1, "width row 1") && prefq_last_refusal()->row == 1);
    EXPECT(is_refused(prefq_open("a", 1, many, 65537, 1, NULL, &table), PREFQ_TABLE, 8, -1, "too many rows"));
    EXPECT(is_refused(prefq_open("a", 1, many, 3, 1, &small, &table), PREFQ_OPENING, 8, -1, "full needed 3") && prefq_last_refusal()->amount == 3);
    EXPECT(is_refused(prefq_open("a", 1, many, 3, 1, &wide, &table), PREFQ_ARGUMENTS, 0, -1, "a number of the setup is outside its range"));
    EXPECT(is_refused(prefq_open_text("a\n5\n6.5\n", 8, NULL, &table), PREFQ_TABLE, 6, 1, "not whole row 2 col 1") && prefq_last_refusal()->row == 2);
    EXPECT(is_refused(prefq_open_text("a\nend\n", 6, NULL, &table), PREFQ_TABLE, 6, 1, "not whole row 1 col 1"));
    EXPECT(is_refused(prefq_open(NULL, 0, NULL, 0, 0, NULL, &table), PREFQ_ARGUMENTS, 0, -1, "the columns or the rows are NULL"));
    EXPECT(prefq_open("end", 3, many, 65536, 1, NULL, &table) == PREFQ_OK && prefq_width(table) == 1);
    const int64_t *answer;
    size_t count;
    EXPECT(prefq_rows(table, 1, &answer, &count) == PREFQ_OK && count == 65536 && answer[3 * 65535 + 1] == 65536);
    prefq_close(table);
    EXPECT(prefq_open("a.1_B,b", 7, NULL, 0, 2, &small, &table) == PREFQ_OK && prefq_rows(table, 1, &answer, &count) == PREFQ_OK && count == 0);
    prefq_close(table);
}

static void test_refusals(void)
{
    prefq *table = open_hotels();
    const int64_t *answer, row[] = {1, 2};
    uint64_t id = 77;
    uint32_t left = 77;
    size_t count = 77;
    const prefq_change twice[] = {{PREFQ_DELETE, 1, NULL}, {PREFQ_UPDATE, 1, row}}, odd[] = {{PREFQ_DELETE, 1, NULL}, {(prefq_verb)9, 1, row}};
    const prefq_change empty[] = {{PREFQ_DELETE, 1, NULL}, {PREFQ_INSERT, 0, NULL}};
    EXPECT(is_refused(prefq_insert(table, row, 1, &id), PREFQ_TABLE, 5, -1, "width row 0") && prefq_last_refusal()->row == 0);
    EXPECT(is_refused(prefq_insert(table, NULL, 2, &id), PREFQ_ARGUMENTS, 0, -1, "the values are NULL"));
    EXPECT(is_refused(prefq_update(table, UINT64_MAX, row, 2), PREFQ_CLIENT, 7, -1, "no such row 18446744073709551615"));
    EXPECT(is_refused(prefq_insert_many(table, row, 1023, 2, &id), PREFQ_CLIENT, 8, -1, "full needed 1026") && prefq_last_refusal()->amount == 1026);
    EXPECT(is_refused(prefq_commit(table, twice, 2, 2, &id), PREFQ_COMMIT, 12, 2, "twice place 2"));
    EXPECT(is_refused(prefq_commit(table, twice, 0, 2, &id), PREFQ_COMMIT, 13, -1, "change count"));
    EXPECT(is_refused(prefq_commit(table, odd, 2, 2, &id), PREFQ_ARGUMENTS, 0, 2, "there is no such change place 2"));
    EXPECT(is_refused(prefq_commit(table, empty, 2, 2, &id), PREFQ_ARGUMENTS, 0, 2, "there is no such change place 2"));
    EXPECT(is_refused(prefq_ask(table, 1, " \tbest low(prise)", 17, &answer, &count), PREFQ_TERM, 2, 11, "unknown column at 11"));
    EXPECT(is_refused(prefq_ask(table, 1, "best low(price)\nas 1 delete 1", 29, &answer, &count), PREFQ_TERM, 1, 15, "unexpected at 15"));
    EXPECT(is_refused(prefq_ask(table, 1, "best low(price)\0 * low(dist)", 28, &answer, &count), PREFQ_TERM, 1, 15, "unexpected at 15"));
    EXPECT(is_refused(prefq_ask(table, 1, "", 0, &answer, &count), PREFQ_TERM, 1, 0, "unexpected at 0"));
    char blanks[5000];
    memset(blanks, ' ', sizeof blanks);
    memcpy(blanks, "best", 4);
    EXPECT(is_refused(prefq_ask(table, 1, blanks, sizeof blanks, &answer, &count), PREFQ_TERM, 5, -1, "too long"));
    EXPECT(is_refused(prefq_ask(table, 9, low, sizeof low - 1, &answer, &count), PREFQ_CLIENT, 1, -1, "no such client"));
    EXPECT(is_refused(prefq_ask(table, 256, low, sizeof low - 1, &answer, &count), PREFQ_CLIENT, 1, -1, "no such client"));
    EXPECT(is_refused(prefq_scan(table, 1, 1, &left), PREFQ_CLIENT, 4, -1, "no query"));
    EXPECT(prefq_begin(table, 1, low, sizeof low - 1, &left) == PREFQ_OK);
    EXPECT(is_refused(prefq_ask(table, 1, low, sizeof low - 1, &answer, &count), PREFQ_CLIENT, 3, -1, "query open"));
    EXPECT(is_refused(prefq_finish(table, 1, &answer, &count), PREFQ_CLIENT, 6, -1, "not done left 1") && prefq_last_refusal()->amount == 1);
    EXPECT(is_refused(prefq_scan(table, 1, 0, &left), PREFQ_ARGUMENTS, 0, -1, "the number of blocks is 0"));
    EXPECT(prefq_scan(table, 1, 1, &left) == PREFQ_OK && is_refused(prefq_scan(table, 1, 1, &left), PREFQ_CLIENT, 5, -1, "all scanned"));
    EXPECT(id == 77 && count == 77 && is_refused(prefq_get(NULL, 1, NULL, 0), PREFQ_ARGUMENTS, 0, -1, "the table is NULL"));
    prefq_close(table);
}

/* Prints nanoseconds of processor time of one call. */
static void print_time(const char *name, clock_t begun, long calls)
{
    printf("%-24s %8.0f ns\n", name, (double)(clock() - begun) / CLOCKS_PER_SEC * 1e9 / (double)calls);
}

static void measure_speed(void)
{
    enum { ROWS = 1000, CALLS = 200000 };
    static int64_t rows[2 * ROWS];
    const int64_t *answer;
    int64_t row[2];
    prefq *table;
    size_t count;
    for (int64_t at = 0; at < ROWS; at++) {
        rows[2 * at] = at < 10 ? at : 1000 + at * 7919 % 1000;
        rows[2 * at + 1] = at < 10 ? 10 - at : 1000 + at * 104729 % 1000;
    }
    EXPECT(prefq_open("price,dist", 10, rows, ROWS, 2, &(prefq_setup){.capacity = 1024}, &table) == PREFQ_OK);
    clock_t begun = clock();
    for (long call = 0; call < CALLS; call++)
        EXPECT(prefq_get(table, 1 + (uint64_t)call % ROWS, row, 2) == PREFQ_OK);
    print_time("get", begun, CALLS);
    begun = clock();
    for (long call = 0; call < CALLS; call++)
        EXPECT(prefq_update(table, 11 + (uint64_t)call % 900, (const int64_t[]){5000, call}, 2) == PREFQ_OK);
    print_time("update", begun, CALLS);
    begun = clock();
    for (long call = 0; call < 2000; call++)
        EXPECT(prefq_ask(table, 1, low, sizeof low - 1, &answer, &count) == PREFQ_OK && count == 10);
    print_time("best of 10 rows of 1,000", begun, 2000);
    prefq_close(table);
}

int main(int count, char **words)
{
    if (count > 1 && strcmp(words[1], "--speed") == 0) {
        measure_speed();
        return 0;
    }
    if (count > 1 && strcmp(words[1], "--stack") == 0) {
        measure_stack();
        return 0;
    }
    if (count > 1 && strcmp(words[1], "--threads") == 0) {
        test_threads();
        test_end_beside_calls();
        printf("calls of several threads wait for one another\n");
        return 0;
    }
    test_calls();
    test_many_updates();
    test_refused_updates();
    test_openings();
    test_refusals();
    test_large_blocks();
    refuse_each_request();
    refuse_requests_of_refusals();
    test_threads();
    test_end_beside_calls();
    test_forks();
    test_calls_around_requests();
    test_close_within_calls();
    test_signals();
    test_stacks();
    printf("all calls are as prefq.h says\n");
    return 0;
}
