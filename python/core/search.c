/* Searches in bytes. */
#define _GNU_SOURCE
#include "core.h"

static Py_ssize_t find_first(const char *bytes, Py_ssize_t size, const char *part,
                             Py_ssize_t count) {
    const char *found = memmem(bytes, (size_t)size, part, (size_t)count);
    return found ? found - bytes : -1;
}

/* Copies bytes from the last to the first. */
static void turn(char *to, const char *bytes, Py_ssize_t size) {
    while (size > 0) {
        *to++ = bytes[--size];
    }
}

/* The first search in all that is turned, which takes time by the size: -2 without memory. */
static Py_ssize_t find_turned(const char *bytes, Py_ssize_t size, const char *part,
                              Py_ssize_t count) {
    char *turned = PyMem_Malloc((size_t)(size + count));
    if (!turned) {
        PyErr_NoMemory();
        return -2;
    }
    turn(turned, bytes, size);
    turn(turned + size, part, count);
    Py_ssize_t found = find_first(turned, size, turned + size, count);
    PyMem_Free(turned);
    return found < 0 ? -1 : size - count - found;
}

static Py_ssize_t find_last(const char *bytes, Py_ssize_t size, const char *part,
                            Py_ssize_t count) {
    if (count == 0 || count > size) {
        return count == 0 ? size : -1;
    }
    int tries = 0;
    for (Py_ssize_t left = size - count + 1; left > 0;) {
        const char *found = memrchr(bytes, part[0], (size_t)left);
        if (!found || memcmp(found, part, (size_t)count) == 0) {
            return found ? found - bytes : -1;
        }
        left = found - bytes;
        if (++tries == 1000) {
            return find_turned(bytes, left + count - 1, part, count);
        }
    }
    return -1;
}

Py_ssize_t search_bytes(const char *bytes, Py_ssize_t size, const char *part, Py_ssize_t count,
                        search what) {
    Py_ssize_t times = 0, found;
    switch (what) {
    case FIRST:
        return find_first(bytes, size, part, count);
    case LAST:
        return find_last(bytes, size, part, count);
    case START:
    case END:
        if (count > size) {
            return -1;
        }
        return memcmp(bytes + (what == END ? size - count : 0), part, (size_t)count) ? -1 : 0;
    default:
        while (count && (found = find_first(bytes, size, part, count)) >= 0) {
            times++;
            bytes += found + count;
            size -= found + count;
        }
        return count ? times : size + 1;
    }
}
