/* A live table of hotels, by prefq.h. */
#include <inttypes.h>
#include <prefq.h>
#include <stdio.h>
#include <string.h>

static int print_best(prefq *table, const char *question)
{
    const int64_t *row;
    size_t count;
    if (prefq_ask(table, 1, question, strlen(question), &row, &count) != PREFQ_OK) {
        printf("%s: %s\n", question, prefq_last_refusal()->text);
        return 1;
    }
    printf("%s:\n", question);
    for (size_t number = 0; number < count; number++, row += 4)
        printf("  hotel %" PRId64 " at %" PRId64 ", %" PRId64 " minutes away\n", row[1], row[2], row[3]);
    return 0;
}

int main(void)
{
    const int64_t hotels[] = {50, 8, 80, 2, 90, 9}, hotel[] = {55, 1};
    prefq *table;
    uint64_t id;
    uint32_t left;
    const int64_t *row;
    size_t count;
    if (prefq_open("price,dist", 10, hotels, 3, 2, NULL, &table) != PREFQ_OK)
        return 1;
    print_best(table, "best low(price) * low(dist)");
    /* A query of client 2 sees the table as it is now, whatever comes between its calls. */
    prefq_begin(table, 2, "best low(dist)", 14, &left);
    prefq_insert(table, hotel, 2, &id);
    prefq_scan(table, 2, left, &left);
    if (prefq_finish(table, 2, &row, &count) == PREFQ_OK)
        printf("before hotel %" PRIu64 " the nearest was hotel %" PRId64 "\n", id, row[1]);
    print_best(table, "best low(price) * low(dist)");
    print_best(table, "best low(prise)");
    prefq_close(table);
    return 0;
}
