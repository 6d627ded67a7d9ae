/* Stands in place of glibc's malloc: refuses one of the next requests for memory, or several in a
 * row. */
#include <stddef.h>

extern void *__libc_malloc(size_t), *__libc_calloc(size_t, size_t), *__libc_realloc(void *, size_t);

/* The request with that number, counted from 1, is refused: none where it is 0. What Python sets and
 * reads lies in memory, since a call of a function would ask for memory itself. */
long test_refuse;

/* How many behind it are refused too, and how many were. Python ends where none at all is granted. */
int test_more, test_refused;

static int grant(void) {
    if (test_refuse > 0 && --test_refuse == 0) {
        test_refuse = test_refused++ < test_more;
        return 0;
    }
    return 1;
}

void *malloc(size_t size) {
    return grant() ? __libc_malloc(size) : NULL;
}

void *calloc(size_t count, size_t size) {
    return grant() ? __libc_calloc(count, size) : NULL;
}

void *realloc(void *place, size_t size) {
    return grant() ? __libc_realloc(place, size) : NULL;
}
