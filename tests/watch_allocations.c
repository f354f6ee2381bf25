/* Watches the requests for memory of the program into which it is loaded (LD_PRELOAD), as the environment has it:
   REFUSE=N  refuses the request of this number, counted from 1, and says so in one line on standard error;
   COUNT=1   tells at the head of what the program writes to standard output how many requests came since it last wrote there. */
#define _GNU_SOURCE
#include <dlfcn.h>
#include <errno.h>
#include <stddef.h>
#include <stdio.h>
#include <stdlib.h>
#include <unistd.h>

static long requests;

/* The library's own function of this name, found once and kept. */
static void *library(const char *name, void **kept)
{
    if (*kept == NULL)
        *kept = dlsym(RTLD_NEXT, name);
    return *kept;
}

static int is_refused(void)
{
    static const char said[] = "a request for memory was refused\n";
    const char *number = getenv("REFUSE");
    requests++;
    if (number == NULL || requests != atol(number))
        return 0;
    if (write(STDERR_FILENO, said, sizeof said - 1) < 0)
        abort();
    errno = ENOMEM;
    return 1;
}

void *malloc(size_t size)
{
    static void *kept;
    void *(*library_malloc)(size_t) = library("malloc", &kept);
    return is_refused() ? NULL : library_malloc(size);
}

void *realloc(void *block, size_t size)
{
    static void *kept;
    void *(*library_realloc)(void *, size_t) = library("realloc", &kept);
    return is_refused() ? NULL : library_realloc(block, size);
}

ssize_t write(int file, const void *bytes, size_t size)
{
    static void *kept;
    static long counted;
    ssize_t (*library_write)(int, const void *, size_t) = library("write", &kept);
    if (file == STDOUT_FILENO && getenv("COUNT") != NULL) {
        char count[32];
        int length = snprintf(count, sizeof count, "%ld ", requests - counted);
        if (library_write(file, count, (size_t)length) != length)
            abort();
        counted = requests;
    }
    return library_write(file, bytes, size);
}
