/* What the tests in C share, and the tests that calls.c runs. */
#ifndef TESTS_H
#define TESTS_H

#include "../include/prefq.h"
#include <stdio.h>
#include <stdlib.h>
#include <string.h>

#define EXPECT(holds)                                                                                                                                          \
    do {                                                                                                                                                       \
        if (!(holds)) {                                                                                                                                        \
            fprintf(stderr, "%s:%d: not so: %s (last refusal: %s)\n", __FILE__, __LINE__, #holds, prefq_last_refusal()->text);                                  \
            exit(1);                                                                                                                                           \
        }                                                                                                                                                      \
    } while (0)

static const char low[] = "best low(price) * low(dist)";
static const int64_t hotels[] = {50, 8, 80, 2, 90, 9};

static inline int is_refused(prefq_result result, prefq_kind kind, int number, long place, const char *text)
{
    const prefq_refusal *why = prefq_last_refusal();
    return result == PREFQ_REFUSED && why->kind == kind && why->number == number && why->place == place && strcmp(why->text, text) == 0;
}

static inline prefq *open_hotels(void)
{
    prefq *table;
    EXPECT(prefq_open("price,dist", 10, hotels, 3, 2, NULL, &table) == PREFQ_OK);
    return table;
}

/* requests.c */
void test_large_blocks(void);
void refuse_each_request(void);
void refuse_requests_of_refusals(void);
void test_calls_around_requests(void);
void test_close_within_calls(void);

/* threads.c */
void test_threads(void);
void test_end_beside_calls(void);
void test_forks(void);
void test_signals(void);

/* stacks.c */
void test_stacks(void);
void measure_stack(void);

#endif
