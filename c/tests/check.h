/* What the tests share: a check that counts, and numbers by a seed. */
#ifndef ECOW_CHECK_H
#define ECOW_CHECK_H

#include "ecow.h"

#include <stdio.h>
#include <stdlib.h>
#include <string.h>

static long checks;

#define CHECK(holds)                                                    \
    do {                                                                \
        checks++;                                                       \
        if (!(holds)) {                                                 \
            fprintf(stderr, "%s:%d: %s\n", __FILE__, __LINE__, #holds); \
            exit(1);                                                    \
        }                                                               \
    } while (0)

/* Has standard output ask for no memory, so that what a test leaves at its end is the library's. */
static inline void take_no_buffer(void) {
    setvbuf(stdout, NULL, _IONBF, 0);
}

#ifdef ECOW_FUZZ
/* What a fuzzer gives instead of a sequence: a byte where few numbers will do, and 0 at its end. */
static const uint8_t *input;
static size_t input_left;

static uint64_t next_of_input(size_t size) {
    uint64_t number = 0;
    size = size < input_left ? size : input_left;
    memcpy(&number, input, size);
    input += size;
    input_left -= size;
    return number;
}

static uint64_t next_number(uint64_t *seed) {
    (void)seed;
    return next_of_input(8);
}

static inline size_t below(uint64_t *seed, size_t end) {
    (void)seed;
    return next_of_input(end <= 256 ? 1 : 8) % end;
}
#else
/* The next number of a sequence (xorshift). */
static uint64_t next_number(uint64_t *seed) {
    *seed ^= *seed << 13;
    *seed ^= *seed >> 7;
    *seed ^= *seed << 17;
    return *seed;
}

static inline size_t below(uint64_t *seed, size_t end) {
    return next_number(seed) % end;
}
#endif

static inline bool list_holds(const ecow_list *list, const int64_t *numbers, size_t count) {
    size_t len;
    const int64_t *held = ecow_list_slice(list, &len);
    return len == count && ecow_list_len(list) == count
           && (!count || memcmp(held, numbers, count * sizeof *numbers) == 0);
}

/* So many items of an array, of the size: `letters` says which ones. They are in one of two places,
 * by turns. */
static inline const void *some_items(size_t size, const char *letters) {
    static uint64_t places[2][8 * 4096 / sizeof(uint64_t)];
    static int turn;
    uint8_t *bytes = (uint8_t *)places[turn = !turn];
    for (size_t at = 0; at < strlen(letters) * size; at++) {
        bytes[at] = (uint8_t)((size_t)letters[at / size] + 7 * (at % size));
    }
    return bytes;
}

static inline bool array_holds(const ecow_array *array, size_t size, const char *letters) {
    const size_t count = strlen(letters);
    size_t len;
    const void *held = ecow_array_slice(array, size, &len);
    bool same = len == count && ecow_array_len(array, size) == count
                && memcmp(held, some_items(size, letters), count * size) == 0
                && (uintptr_t)held % 16 == 0 && !ecow_array_at(array, size, count);
    for (size_t index = 0; same && index < count; index++) {
        same = ecow_array_at(array, size, index) == (const char *)held + index * size;
    }
    return same;
}

static inline bool bytes_hold(const ecow_bytes *bytes, const void *items, size_t count) {
    size_t len;
    const uint8_t *held = ecow_bytes_slice(bytes, &len);
    return len == count && ecow_bytes_len(bytes) == count
           && (!count || memcmp(held, items, count) == 0);
}

static inline bool text_holds(const ecow_text *text, const char *bytes, size_t count) {
    size_t len;
    const char *held = ecow_text_slice(text, &len);
    return len == count && ecow_text_len(text) == count
           && (!count || memcmp(held, bytes, count) == 0);
}

static inline bool text_is(const ecow_text *text, const char *bytes) {
    return text_holds(text, bytes, strlen(bytes));
}

/* Whether the texts are these, which end with a 0. */
static inline bool texts_hold(const ecow_texts *texts, const char *const *items, size_t count) {
    bool same = ecow_texts_len(texts) == count && !ecow_texts_at(texts, count, NULL);
    for (size_t index = 0; same && index < count; index++) {
        size_t len;
        const char *held = ecow_texts_at(texts, index, &len);
        same = held && len == strlen(items[index]) && memcmp(held, items[index], len) == 0;
    }
    return same;
}

#endif
