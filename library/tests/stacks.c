/* The deepest questions on small stacks. */
#define _GNU_SOURCE
#include "tests.h"
#include <pthread.h>
#include <sys/mman.h>

/* The kinds of the deepest questions: the deepest nesting that is allowed, 64 of `-`, of `(` and of both in turn inside one another; and as many terms as a question
   has room for, between them `*`, `&` and both in turn. */
enum { KINDS = 6, LONGEST = 4096 };

static char *nest(char *to, int kind)
{
    for (int level = 0; level < 64; level++)
        *to++ = kind == 0 || (kind == 2 && level % 2 == 0) ? '-' : '(';
    to += sprintf(to, "low(a)");
    for (int level = 0; level < 64; level++)
        if (kind == 1 || (kind == 2 && level % 2 == 1))
            to += sprintf(to, kind == 1 && level % 2 == 0 ? " * high(b))" : " & around(b, 5))");
    return to;
}

static char *chain(char *to, int kind, const char *end)
{
    to += sprintf(to, "low(a)");
    for (int term = 1; end - to >= 7; term++)
        to += sprintf(to, "%clow(%c)", kind == 3 || (kind == 5 && term % 2 == 0) ? '*' : '&', "ab"[term % 2]);
    return to;
}

static size_t deepest(char *question, int kind)
{
    char *to = question + sprintf(question, "best ");
    return (size_t)((kind < 3 ? nest(to, kind) : chain(to, kind, question + LONGEST)) - question);
}

static prefq *open_short_names(void)
{
    prefq *table;
    EXPECT(prefq_open("a,b", 3, hotels, 3, 2, NULL, &table) == PREFQ_OK);
    return table;
}

static void *ask_deepest(void *given)
{
    for (int kind = 0; kind < KINDS; kind++) {
        char question[LONGEST + 1];
        const int64_t *answer;
        size_t count, length = deepest(question, kind);
        prefq_result result = prefq_ask(given, 1, question, length, &answer, &count);
        if (result != PREFQ_OK)
            return (void *)(intptr_t)(is_refused(result, PREFQ_ARGUMENTS, 0, -1, prefq_last_refusal()->text) ? 2 : 3);
    }
    return (void *)1;
}

/* On a thread with a stack of so many bytes: 1 if the deepest questions are answered, 2 if they are refused. */
static intptr_t on_a_stack_of(size_t size)
{
    prefq *table = open_short_names();
    pthread_attr_t attributes;
    pthread_t thread;
    void *result;
    EXPECT(pthread_attr_init(&attributes) == 0 && pthread_attr_setstacksize(&attributes, size) == 0);
    EXPECT(pthread_create(&thread, &attributes, ask_deepest, table) == 0 && pthread_join(thread, &result) == 0);
    pthread_attr_destroy(&attributes);
    prefq_close(table);
    return (intptr_t)result;
}

/* From small to large, since a thread may get the stack of one that has ended, where that is larger. */
void test_stacks(void)
{
    for (size_t size = 32768; size <= 2 * PREFQ_STACK; size += 32768) {
        intptr_t result = on_a_stack_of(size);
        EXPECT(result == 2 || (result == 1 && size >= PREFQ_STACK));
    }
    EXPECT(on_a_stack_of(2 * PREFQ_STACK) == 1);
    EXPECT(on_a_stack_of(1 << 20) == 1);
}

/* Prints how far down a stack the deepest questions write, on a stack that is all one byte before. */
void measure_stack(void)
{
    enum { SIZE = 1 << 20 };
    unsigned char *stack = mmap(NULL, SIZE, PROT_READ | PROT_WRITE, MAP_PRIVATE | MAP_ANONYMOUS, -1, 0);
    prefq *table = open_short_names();
    pthread_attr_t attributes;
    pthread_t thread;
    void *result;
    size_t untouched = 0;
    EXPECT(stack != MAP_FAILED);
    memset(stack, 0xA5, SIZE);
    EXPECT(pthread_attr_init(&attributes) == 0 && pthread_attr_setstack(&attributes, stack, SIZE) == 0);
    EXPECT(pthread_create(&thread, &attributes, ask_deepest, table) == 0 && pthread_join(thread, &result) == 0 && (intptr_t)result == 1);
    while (untouched < SIZE && stack[untouched] == 0xA5)
        untouched++;
    printf("%zu bytes of a stack are used by the deepest questions, with what a thread takes itself\n", SIZE - untouched);
    EXPECT(2 * (SIZE - untouched) <= PREFQ_STACK);
    prefq_close(table);
}
