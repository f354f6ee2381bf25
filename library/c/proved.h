/* The proved calls of crates/prefq_c, whose contracts say what each does. A slice is a pointer, which is not NULL, and a length. */
#include "../include/prefq.h"

enum { MOST_CLIENTS = 8, MOST_COLUMNS = 16, MOST_ROWS = 65536, MOST_CHANGES = 8 };

/* How a call ended, and its result, which is 0 of one that was not done. A proved call returns PREFQ_OK, PREFQ_REFUSED or PREFQ_OUT_OF_MEMORY. */
struct ended {
    prefq_result outcome;
    uint64_t amount;
};

/* Why a call was refused. A proved call writes all of it but the address of the text. */
struct refusal {
    char text[160];
    prefq_refusal why;
};

/* A change of a commit with a copy of its values. */
struct piece {
    prefq_change change;
    int64_t values[MOST_COLUMNS];
};

/* A table is a pointer that is kept here and only handed back, NULL where there is none. */
#define PROVED(call, ...) struct ended prefq_table_##call(void **table, __VA_ARGS__, struct refusal *refusal)

PROVED(open, const prefq_setup *setup, const char *lines, size_t length);
PROVED(open_rows, const prefq_setup *setup, const char *names, size_t length, size_t rows, size_t width, const int64_t *numbers, size_t count);
PROVED(insert, const int64_t *numbers, size_t count);
PROVED(insert_many, size_t rows, size_t width, const int64_t *numbers, size_t count);
PROVED(update, uint64_t id, const int64_t *numbers, size_t count);
PROVED(update_first, size_t width, const struct piece *pieces, size_t count);
PROVED(delete, uint64_t id);
PROVED(commit, size_t width, const struct piece *pieces, size_t count);
PROVED(get, uint64_t id, int64_t *numbers, size_t count);
PROVED(begin, uint32_t client, const char *question, size_t length);
PROVED(begin_all, uint32_t client);
PROVED(scan, uint32_t client);
PROVED(finish, uint32_t client);
PROVED(abandon, uint32_t client);
PROVED(lines, const char *lines, size_t length);
struct ended prefq_table_room(void **table, struct refusal *refusal);
void prefq_table_answer(void **table, int64_t *numbers, size_t count);
void prefq_table_replies(void **table, char *replies, size_t room);
void prefq_table_close(void **table);
