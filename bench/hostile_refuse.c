/* A library to preload: of the calls for memory of a program it refuses those from the number REFUSE_FROM to the number
   REFUSE_TO, counted from 1, and writes how many there were into the file REFUSE_COUNT when the program ends. */
#include <errno.h>
#include <fcntl.h>
#include <stddef.h>
#include <stdio.h>
#include <stdlib.h>
#include <unistd.h>

void *__libc_malloc(size_t);
void *__libc_calloc(size_t, size_t);
void *__libc_realloc(void *, size_t);

static unsigned long asked, from, to;
static int begun;

static unsigned long number(const char *name)
{
    const char *text = getenv(name);
    return text ? strtoul(text, 0, 10) : 0;
}

static int refused(void)
{
    if (!begun) {
        begun = 1;
        from = number("REFUSE_FROM");
        to = number("REFUSE_TO");
    }
    asked++;
    if (from == 0 || asked < from || asked > to)
        return 0;
    errno = ENOMEM;
    return 1;
}

void *malloc(size_t size)
{
    return refused() ? NULL : __libc_malloc(size);
}

void *calloc(size_t count, size_t size)
{
    return refused() ? NULL : __libc_calloc(count, size);
}

void *realloc(void *at, size_t size)
{
    return refused() ? NULL : __libc_realloc(at, size);
}

__attribute__((destructor)) static void tell(void)
{
    const char *name = getenv("REFUSE_COUNT");
    int file = name ? open(name, O_WRONLY | O_CREAT | O_TRUNC, 0600) : -1;
    char text[32];
    int size = snprintf(text, sizeof text, "%lu\n", asked);
    if (file >= 0 && write(file, text, (size_t) size) == size)
        close(file);
}
