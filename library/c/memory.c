/* What the library asks of malloc and realloc comes here: library/build.sh tells the linker to (`--wrap`). The system is asked to make large blocks of large pages:
   rows far apart miss the processor's table of pages less often, and an answer of many rows takes few faults of pages. */
#define _GNU_SOURCE
#include <stddef.h>
#include <stdint.h>
#include <sys/mman.h>

/* Those of the C library, by their own names for the linker. */
void *__real_malloc(size_t size);
void *__real_realloc(void *block, size_t size);

/* A block as it was given, where that has not failed. Its first and last page are asked for whole: blocks that begin at a page leave gaps, which the heap keeps. */
static void *on_large_pages(void *block, size_t size)
{
    enum { LARGE = 1 << 21 }; /* of a large page, and of the smallest block that stands on some */
    uintptr_t begin = (uintptr_t)block / LARGE * LARGE, end = ((uintptr_t)block + size + LARGE - 1) / LARGE * LARGE;
    if (block != NULL && size >= LARGE)
        madvise((void *)begin, end - begin, MADV_HUGEPAGE); /* A system that has none to give gives small ones. */
    return block;
}

void *paged_malloc(size_t size)
{
    return on_large_pages(__real_malloc(size), size);
}

void *paged_realloc(void *block, size_t size)
{
    return on_large_pages(__real_realloc(block, size), size);
}

/* What the linker calls in place of them. The tests have their own, which refuse requests. */
void *__wrap_malloc(size_t size) __attribute__((weak, alias("paged_malloc")));
void *__wrap_realloc(void *block, size_t size) __attribute__((weak, alias("paged_realloc")));
