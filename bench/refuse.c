/* Refuses one allocation of the program that it is loaded in front of: that with the number REFUSE, counted from 1. The file
   REFUSED is made then, which tells that there were so many. */
#include <fcntl.h>
#include <stddef.h>
#include <stdlib.h>
#include <unistd.h>

void *__libc_malloc(size_t);
void *__libc_calloc(size_t, size_t);
void *__libc_realloc(void *, size_t);

/* how many come yet before the one that is refused; 0 where none is */
static long left = -1;

static int is_refused(void)
{
    if (left < 0) {
        const char *number = getenv("REFUSE");
        left = number ? strtol(number, NULL, 10) : 0;
    }
    if (left == 0 || --left > 0)
        return 0;
    const char *path = getenv("REFUSED");
    int mark = path ? open(path, O_WRONLY | O_CREAT, 0600) : -1;
    if (mark >= 0)
        close(mark);
    return 1;
}

void *malloc(size_t size) { return is_refused() ? NULL : __libc_malloc(size); }
void *calloc(size_t count, size_t size) { return is_refused() ? NULL : __libc_calloc(count, size); }
void *realloc(void *block, size_t size) { return is_refused() ? NULL : __libc_realloc(block, size); }
