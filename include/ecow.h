/* Lists of numbers, arrays of items of any type, bytes, texts, lists of texts and nested values, whose
 * clones share memory until one of them is changed.
 *
 * Values. A value is a struct of this header, in memory of yours: on the stack, in another struct,
 * in an array. Zeroed memory is an empty value (`ecow_list list = {0};`). A value that isn't empty
 * owns memory, so give each up with its `_drop`, which leaves it empty. Values may be moved by
 * assignment or `memcpy`, if only one of the two is used afterwards: copy with `_clone`, never `=`.
 *
 * Clones. A clone takes the same time however long the value is, and asks for no memory. A change
 * copies what it must first, so no other value sees it.
 *
 * Answers. A call that changes a value answers an `ecow_status`. Unless that is `ECOW_OK`, the
 * value is as it was, and nothing is written to the other pointers. Where several refusals apply,
 * the first of these is answered: a null value, a null array, `ECOW_UTF8`, `ECOW_KIND`,
 * `ECOW_INDEX`, `ECOW_BOUNDARY`, `ECOW_DEPTH`, `ECOW_CAPACITY`. `ECOW_MEMORY` may stand in place of any but
 * `ECOW_NULL`.
 *
 * Pointers. A null pointer is answered, never followed: `ECOW_NULL` by each call that answers a
 * status, and else what an empty value would give. An array may be null where its count is 0, and
 * a pointer for a result where the result isn't wanted. Any other pointer has to be one at which a
 * value, an array or a result lies.
 *
 * Arrays. An array may lie in the value that a call changes, or overlap its struct. One of 2^60
 * items or more isn't read, since no memory holds it: `ECOW_CAPACITY` where the length would pass
 * 2^63 - 1, and else `ECOW_MEMORY`. Of an `ecow_array` these numbers count bytes. `ecow_text_replace` and calls by a field's name answer it with
 * `ECOW_MEMORY` alone.
 *
 * Lifetimes. What a `_slice` returns stays valid until the next call that changes or drops that
 * value, or until the value is moved. It is never null. Numbers are aligned as `int64_t` is, items of
 * an `ecow_array` to 16 bytes, and bytes aren't.
 *
 * Threads. A value is in one call at a time, whichever thread makes it, and calls that read count
 * too: between two calls from different threads stands a lock, a queue, or a thread's start or
 * join. Its clones are values of their own, which other threads may use meanwhile. Over a library
 * of `make lib COUNT=plain` a value and its clones stay on one thread.
 *
 * Hashes are those of Rust's `DefaultHasher` for the same contents (SipHash-1-3, with keys of 0):
 * they don't change from run to run, and don't guard a table against chosen keys.
 *
 * Case past ASCII is that of Unicode 18.0.
 *
 * Memory is asked of `malloc`, `realloc` and `free`. The platform is Linux on x86-64. */
#ifndef ECOW_H
#define ECOW_H

#if !defined __linux__ || !defined __x86_64__ || defined __ILP32__
#error "the library ecow is built for Linux on x86-64, with pointers of 64 bits"
#endif

#include <stdbool.h>
#include <stddef.h>
#include <stdint.h>

#ifdef __cplusplus
extern "C" {
#endif

/* Older C calls otherwise what may be expanded where it is called. */
#ifdef __GNUC_GNU_INLINE__
#define ECOW_INLINE extern __inline__
#else
#define ECOW_INLINE inline
#endif

/* Stands before a call whose status is to be looked at. */
#if defined __cplusplus || (defined __STDC_VERSION__ && __STDC_VERSION__ >= 202311L)
#define ECOW_CHECKED [[nodiscard]]
#elif defined __GNUC__
#define ECOW_CHECKED __attribute__((__warn_unused_result__))
#else
#define ECOW_CHECKED
#endif

/* This header's version. Versions with the same first two numbers have the same calls, and values
 * of the same sizes, which lie in memory in the same way. */
#define ECOW_VERSION_MAJOR 0
#define ECOW_VERSION_MINOR 13
#define ECOW_VERSION_PATCH 0
#define ECOW_VERSION "0.13.0"

/* The version of the library that is linked, as ECOW_VERSION. Never null. */
const char *ecow_version(void);

/* A library has one of these names, by how it counts owners. What is compiled with ECOW_COUNT_ATOMIC
 * or ECOW_COUNT_PLAIN, as by the flags of ecow.pc, needs that one: linking or loading another
 * library stops with the name. */
extern const char ecow_library_counts_owners_atomically, ecow_library_counts_owners_for_one_thread;

#ifdef ECOW_COUNT_ATOMIC
static const char *const ecow_count_needed __attribute__((used)) =
    &ecow_library_counts_owners_atomically;
#elif defined ECOW_COUNT_PLAIN
static const char *const ecow_count_needed __attribute__((used)) =
    &ecow_library_counts_owners_for_one_thread;
#endif

/* What a call answers. */
typedef enum ecow_status {
    ECOW_OK = 0,        /* It is done. */
    ECOW_MEMORY = 1,    /* There was no memory. */
    ECOW_CAPACITY = 2,  /* The length would pass 2^63 - 1. */
    ECOW_INDEX = 3,     /* An index or a range passes the end, or there is nothing to take. */
    ECOW_BOUNDARY = 4,  /* An index is inside a character. */
    ECOW_UTF8 = 5,      /* The bytes are no UTF-8, or the number is no character. */
    ECOW_NULL = 6,      /* A pointer that is needed is null. */
    ECOW_KIND = 7,      /* The nested value is of another kind, or the items of another size. */
    ECOW_INNER_NUL = 8, /* The text has a 0 inside, so no string of C holds it. */
    ECOW_DEPTH = 9      /* The nested value would nest deeper than ECOW_MAX_DEPTH. */
} ecow_status;

/* A few words for people: "out of memory". Never null. */
const char *ecow_status_text(ecow_status status);

/* A compiler warns where nobody looks at the status of a call that can be refused. Where that is
 * meant, write `ecow_ignore(ecow_list_push(&list, 1));`. A `_clear` is refused for a null pointer
 * alone, and isn't warned of. */
static __inline__ void ecow_ignore(ecow_status status) {
    (void)status;
}

/* The values. Their words are the library's: neither read nor write them. */
typedef struct ecow_list {
    uint64_t word[1];
} ecow_list;

typedef struct ecow_array {
    uint64_t word[1];
} ecow_array;

typedef struct ecow_bytes {
    uint64_t word[2];
} ecow_bytes;

typedef struct ecow_text {
    uint64_t word[2];
} ecow_text;

typedef struct ecow_texts {
    uint64_t word[1];
} ecow_texts;

typedef struct ecow_value {
    uint64_t word[3];
} ecow_value;

/* ---- Lists of numbers ---- */

/* An empty value. */
ecow_list ecow_list_new(void);

/* Gives the value's memory up, and leaves it empty. */
ECOW_INLINE void ecow_list_drop(ecow_list *list);

/* Makes `to` a clone of `from`. What it held is given up. */
ECOW_CHECKED ECOW_INLINE ecow_status ecow_list_clone(ecow_list *to, const ecow_list *from);

/* Makes it a copy of `count` numbers. */
ECOW_CHECKED ecow_status ecow_list_assign(ecow_list *list, const int64_t *numbers, size_t count);

/* How many numbers there are. */
ECOW_INLINE size_t ecow_list_len(const ecow_list *list);

/* The numbers, to read, and how many there are. */
ECOW_INLINE const int64_t *ecow_list_slice(const ecow_list *list, size_t *len);

/* The numbers, to write in place, and how many there are. A list that shares its memory copies it
 * first, so no other value sees what is written. The pointer stays valid until the next call on this
 * list, also as the source of a clone, or until the list is moved. */
ECOW_CHECKED ecow_status ecow_list_edit(ecow_list *list, int64_t **numbers, size_t *len);

/* Reads the number at `index`: ECOW_INDEX from the length on. */
ECOW_CHECKED ecow_status ecow_list_get(const ecow_list *list, size_t index, int64_t *number);

/* Writes the number at `index`: ECOW_INDEX from the length on. */
ECOW_CHECKED ecow_status ecow_list_set(ecow_list *list, size_t index, int64_t number);

/* Appends a number. */
ECOW_CHECKED ecow_status ecow_list_push(ecow_list *list, int64_t number);

/* Takes the last number: ECOW_INDEX where there is none. */
ECOW_CHECKED ecow_status ecow_list_pop(ecow_list *list, int64_t *number);

/* Puts a number in at `index`, before the one that stands there: ECOW_INDEX past the length. */
ECOW_CHECKED ecow_status ecow_list_insert(ecow_list *list, size_t index, int64_t number);

/* Takes the number at `index`: ECOW_INDEX from the length on. */
ECOW_CHECKED ecow_status ecow_list_remove(ecow_list *list, size_t index, int64_t *number);

/* Keeps the first `len` numbers, or all where there are fewer. */
ECOW_CHECKED ecow_status ecow_list_truncate(ecow_list *list, size_t len);

/* Keeps none. Memory that no clone shares is kept for what comes. */
ecow_status ecow_list_clear(ecow_list *list);

/* Makes room for `additional` more. */
ECOW_CHECKED ecow_status ecow_list_reserve(ecow_list *list, size_t additional);

/* How many numbers there is room for, never fewer than there are. */
size_t ecow_list_capacity(const ecow_list *list);

/* Gives up room that isn't used, unless another value shares the memory. */
ECOW_CHECKED ecow_status ecow_list_shrink_to_fit(ecow_list *list);

/* Appends `count` numbers: all or none. */
ECOW_CHECKED ecow_status ecow_list_extend(ecow_list *list, const int64_t *numbers, size_t count);

/* Puts `count` numbers in place of those from `start` up to `end`, which isn't included: ECOW_INDEX
 * where `start` passes `end`, or `end` the length. */
ECOW_CHECKED ecow_status ecow_list_splice(ecow_list *list, size_t start, size_t end,
                                          const int64_t *numbers, size_t count);

/* Whether both stand in the same memory, and so are equal: not so where they hold nothing, or where
 * they take no memory, or a pointer is null. */
bool ecow_list_shares(const ecow_list *left, const ecow_list *right);

/* Whether both have the same numbers. A null pointer equals a null pointer alone. */
bool ecow_list_equal(const ecow_list *left, const ecow_list *right);

/* The order of their numbers, one by one: below 0 where `left` comes first, 0 where they are equal.
 * A null pointer comes before every value. */
int ecow_list_compare(const ecow_list *left, const ecow_list *right);

/* A hash. Equal values have the same. */
uint64_t ecow_list_hash(const ecow_list *list);

/* ---- Arrays: lists of items of any type ---- */

/* An item is `size` bytes, such as a struct or a `double`: `size` is its `sizeof`, and its alignment
 * at most 16. Items are copied as bytes. So they own nothing that has to be given up, and two arrays
 * are equal where all their bytes are, those of padding too.
 *
 * An array is empty, or of one size. ECOW_KIND where `size` is 0, and where it doesn't divide the
 * array's bytes. An item may lie in the array that a call changes. ECOW_ARRAY below makes calls for
 * one type. */

/* An empty value. */
ecow_array ecow_array_new(void);

/* Gives the value's memory up, and leaves it empty. */
ECOW_INLINE void ecow_array_drop(ecow_array *array);

/* Makes `to` a clone of `from`. What it held is given up. */
ECOW_CHECKED ECOW_INLINE ecow_status ecow_array_clone(ecow_array *to, const ecow_array *from);

/* Makes it a copy of `count` items. */
ECOW_CHECKED ecow_status ecow_array_assign(ecow_array *array, size_t size, const void *items,
                                           size_t count);

/* How many items there are; 0 of a size of 0. */
ECOW_INLINE size_t ecow_array_len(const ecow_array *array, size_t size);

/* The items, to read, and how many there are. */
ECOW_INLINE const void *ecow_array_slice(const ecow_array *array, size_t size, size_t *len);

/* Where the item at `index` lies, to read, as in what `ecow_array_slice` returns; NULL from the
 * length on. */
ECOW_INLINE const void *ecow_array_at(const ecow_array *array, size_t size, size_t index);

/* The items, to write in place, and how many there are, as `ecow_list_edit` lends numbers. */
ECOW_CHECKED ecow_status ecow_array_edit(ecow_array *array, size_t size, void **items, size_t *len);

/* Writes the item at `index`: ECOW_INDEX from the length on. */
ECOW_CHECKED ecow_status ecow_array_set(ecow_array *array, size_t size, size_t index,
                                        const void *item);

/* Appends an item. */
ECOW_CHECKED ecow_status ecow_array_push(ecow_array *array, size_t size, const void *item);

/* Takes the last item: ECOW_INDEX where there is none. */
ECOW_CHECKED ecow_status ecow_array_pop(ecow_array *array, size_t size, void *item);

/* Puts an item in at `index`, before the one that stands there: ECOW_INDEX past the length. */
ECOW_CHECKED ecow_status ecow_array_insert(ecow_array *array, size_t size, size_t index,
                                           const void *item);

/* Takes the item at `index`: ECOW_INDEX from the length on. */
ECOW_CHECKED ecow_status ecow_array_remove(ecow_array *array, size_t size, size_t index,
                                           void *item);

/* Keeps the first `len` items, or all where there are fewer. */
ECOW_CHECKED ecow_status ecow_array_truncate(ecow_array *array, size_t size, size_t len);

/* Keeps none. Memory that no clone shares is kept for what comes. */
ecow_status ecow_array_clear(ecow_array *array);

/* Makes room for `additional` more. */
ECOW_CHECKED ecow_status ecow_array_reserve(ecow_array *array, size_t size, size_t additional);

/* How many items there is room for, never fewer than there are; 0 of a size of 0. */
size_t ecow_array_capacity(const ecow_array *array, size_t size);

/* Gives up room that isn't used, unless another value shares the memory. */
ECOW_CHECKED ecow_status ecow_array_shrink_to_fit(ecow_array *array);

/* Appends `count` items: all or none. */
ECOW_CHECKED ecow_status ecow_array_extend(ecow_array *array, size_t size, const void *items,
                                           size_t count);

/* Puts `count` items in place of those from `start` up to `end`, which isn't included: ECOW_INDEX
 * where `start` passes `end`, or `end` the length. */
ECOW_CHECKED ecow_status ecow_array_splice(ecow_array *array, size_t size, size_t start, size_t end,
                                           const void *items, size_t count);

/* Whether both stand in the same memory, and so are equal: not so where they hold nothing, or where
 * they take no memory, or a pointer is null. */
bool ecow_array_shares(const ecow_array *left, const ecow_array *right);

/* Whether both have the same bytes. A null pointer equals a null pointer alone. */
bool ecow_array_equal(const ecow_array *left, const ecow_array *right);

/* A hash of the bytes. Equal values have the same. */
uint64_t ecow_array_hash(const ecow_array *array);

/* ---- Bytes: at most 15 take no memory beside the value ---- */

/* An empty value. */
ecow_bytes ecow_bytes_new(void);

/* Gives the value's memory up, and leaves it empty. */
ECOW_INLINE void ecow_bytes_drop(ecow_bytes *bytes);

/* Makes `to` a clone of `from`. What it held is given up. */
ECOW_CHECKED ECOW_INLINE ecow_status ecow_bytes_clone(ecow_bytes *to, const ecow_bytes *from);

/* Makes it a copy of `count` bytes. */
ECOW_CHECKED ecow_status ecow_bytes_assign(ecow_bytes *bytes, const uint8_t *added, size_t count);

/* How many bytes there are. */
ECOW_INLINE size_t ecow_bytes_len(const ecow_bytes *bytes);

/* The bytes, to read, and how many there are. */
ECOW_INLINE const uint8_t *ecow_bytes_slice(const ecow_bytes *bytes, size_t *len);

/* The bytes, to write in place, and how many there are, as `ecow_list_edit` lends numbers. */
ECOW_CHECKED ecow_status ecow_bytes_edit(ecow_bytes *bytes, uint8_t **items, size_t *len);

/* Reads the byte at `index`: ECOW_INDEX from the length on. */
ECOW_CHECKED ecow_status ecow_bytes_get(const ecow_bytes *bytes, size_t index, uint8_t *byte);

/* Writes the byte at `index`: ECOW_INDEX from the length on. */
ECOW_CHECKED ecow_status ecow_bytes_set(ecow_bytes *bytes, size_t index, uint8_t byte);

/* Appends a byte. */
ECOW_CHECKED ecow_status ecow_bytes_push(ecow_bytes *bytes, uint8_t byte);

/* Takes the last byte: ECOW_INDEX where there is none. */
ECOW_CHECKED ecow_status ecow_bytes_pop(ecow_bytes *bytes, uint8_t *byte);

/* Puts a byte in at `index`, before the one that stands there: ECOW_INDEX past the length. */
ECOW_CHECKED ecow_status ecow_bytes_insert(ecow_bytes *bytes, size_t index, uint8_t byte);

/* Takes the byte at `index`: ECOW_INDEX from the length on. */
ECOW_CHECKED ecow_status ecow_bytes_remove(ecow_bytes *bytes, size_t index, uint8_t *byte);

/* Keeps the first `len` bytes, or all where there are fewer. */
ECOW_CHECKED ecow_status ecow_bytes_truncate(ecow_bytes *bytes, size_t len);

/* Keeps none. Memory that no clone shares is kept for what comes. */
ecow_status ecow_bytes_clear(ecow_bytes *bytes);

/* Makes room for `additional` more. */
ECOW_CHECKED ecow_status ecow_bytes_reserve(ecow_bytes *bytes, size_t additional);

/* How many bytes there is room for, never fewer than there are: 15 where they are in the struct. */
size_t ecow_bytes_capacity(const ecow_bytes *bytes);

/* Brings at most 15 bytes back into the struct, and gives their memory up. More stay where they
 * are, with their room. */
ECOW_CHECKED ecow_status ecow_bytes_shrink_to_fit(ecow_bytes *bytes);

/* Appends `count` bytes: all or none. */
ECOW_CHECKED ecow_status ecow_bytes_extend(ecow_bytes *bytes, const uint8_t *added, size_t count);

/* Puts `count` bytes in place of those from `start` up to `end`, which isn't included: ECOW_INDEX
 * where `start` passes `end`, or `end` the length. */
ECOW_CHECKED ecow_status ecow_bytes_splice(ecow_bytes *bytes, size_t start, size_t end,
                                           const uint8_t *added, size_t count);

/* Whether both stand in the same memory, and so are equal: not so where they hold nothing, or where
 * they take no memory, or a pointer is null. */
bool ecow_bytes_shares(const ecow_bytes *left, const ecow_bytes *right);

/* Whether both have the same bytes. A null pointer equals a null pointer alone. */
bool ecow_bytes_equal(const ecow_bytes *left, const ecow_bytes *right);

/* The order of their bytes, one by one: below 0 where `left` comes first, 0 where they are equal. A
 * null pointer comes before every value. */
int ecow_bytes_compare(const ecow_bytes *left, const ecow_bytes *right);

/* A hash. Equal values have the same. */
uint64_t ecow_bytes_hash(const ecow_bytes *bytes);

/* ---- Texts: UTF-8, always; at most 15 bytes take no memory beside the value ---- */

/* Indices and lengths count bytes. An index is a boundary where a character begins or the text
 * ends. A character is given by its number (a Unicode scalar value). Texts are given by their
 * bytes, which need no 0 at their end: ECOW_UTF8 where they aren't UTF-8. */

/* Whether the bytes are UTF-8; not so of 2^60 or more, or of a null pointer unless `count` is 0. */
bool ecow_is_utf8(const char *bytes, size_t count);

/* An empty text. */
ecow_text ecow_text_new(void);

/* Gives the text's memory up, and leaves it empty. */
ECOW_INLINE void ecow_text_drop(ecow_text *text);

/* Makes `to` a clone of `from`. What it held is given up. */
ECOW_CHECKED ECOW_INLINE ecow_status ecow_text_clone(ecow_text *to, const ecow_text *from);

/* Makes it a copy of `added`. */
ECOW_CHECKED ecow_status ecow_text_assign(ecow_text *text, const char *added, size_t count);

/* How many bytes there are. */
ECOW_INLINE size_t ecow_text_len(const ecow_text *text);

/* The bytes, to read, and how many there are. No 0 need stand behind them. */
ECOW_INLINE const char *ecow_text_slice(const ecow_text *text, size_t *len);

/* Puts a 0 behind the bytes, and writes where they begin to `start`: ECOW_INNER_NUL where one
 * stands among them. They stay valid as those of a `_slice` do. A shared text is copied. */
ECOW_CHECKED ecow_status ecow_text_c_str(ecow_text *text, const char **start);

/* Whether `index` is a boundary. */
bool ecow_text_is_boundary(const ecow_text *text, size_t index);

/* Reads the character that begins at `index`: ECOW_INDEX from the length on, ECOW_BOUNDARY inside a
 * character. */
ECOW_CHECKED ecow_status ecow_text_get(const ecow_text *text, size_t index, uint32_t *character);

/* Appends a character: ECOW_UTF8 where there is none of that number. */
ECOW_CHECKED ecow_status ecow_text_push(ecow_text *text, uint32_t character);

/* Takes the last character: ECOW_INDEX where there is none. */
ECOW_CHECKED ecow_status ecow_text_pop(ecow_text *text, uint32_t *character);

/* Puts `added` in at `index`: ECOW_INDEX past the length, ECOW_BOUNDARY inside a character. */
ECOW_CHECKED ecow_status ecow_text_insert(ecow_text *text, size_t index, const char *added,
                                          size_t count);

/* Takes the character that begins at `index`: ECOW_INDEX from the length on, ECOW_BOUNDARY inside a
 * character. */
ECOW_CHECKED ecow_status ecow_text_remove(ecow_text *text, size_t index, uint32_t *character);

/* Keeps the first `len` bytes, or all where there are fewer: ECOW_BOUNDARY inside a character. */
ECOW_CHECKED ecow_status ecow_text_truncate(ecow_text *text, size_t len);

/* Keeps nothing. Memory that no clone shares is kept for what comes. */
ecow_status ecow_text_clear(ecow_text *text);

/* Makes room for `additional` more bytes. */
ECOW_CHECKED ecow_status ecow_text_reserve(ecow_text *text, size_t additional);

/* How many bytes there is room for, never fewer than there are: 15 where they are in the struct. */
size_t ecow_text_capacity(const ecow_text *text);

/* Brings at most 15 bytes back into the struct, and gives their memory up. More stay where they
 * are, with their room. */
ECOW_CHECKED ecow_status ecow_text_shrink_to_fit(ecow_text *text);

/* Appends `added`: all or nothing. */
ECOW_CHECKED ecow_status ecow_text_extend(ecow_text *text, const char *added, size_t count);

/* Puts `added` in place of the bytes from `start` up to `end`, which isn't included: ECOW_INDEX
 * where `start` passes `end`, or `end` the length, ECOW_BOUNDARY inside a character. */
ECOW_CHECKED ecow_status ecow_text_splice(ecow_text *text, size_t start, size_t end,
                                          const char *added, size_t count);

/* Puts `replacement` in place of each `pattern`, from the left and without overlap. An empty
 * pattern is found at each boundary. */
ECOW_CHECKED ecow_status ecow_text_replace(ecow_text *text, const char *pattern,
                                           size_t pattern_count, const char *replacement,
                                           size_t replacement_count);

/* Puts it in lower case, by Unicode. */
ECOW_CHECKED ecow_status ecow_text_to_lowercase(ecow_text *text);

/* Puts it in upper case, by Unicode. */
ECOW_CHECKED ecow_status ecow_text_to_uppercase(ecow_text *text);

/* Makes it `count` times as long: itself, that often. */
ECOW_CHECKED ecow_status ecow_text_repeat(ecow_text *text, size_t count);

/* Whether both stand in the same memory, and so are equal: not so where they hold nothing, or where
 * they take no memory, or a pointer is null. */
bool ecow_text_shares(const ecow_text *left, const ecow_text *right);

/* Whether both are the same text. A null pointer equals a null pointer alone. */
bool ecow_text_equal(const ecow_text *left, const ecow_text *right);

/* The order of their bytes, which is that of their characters: below 0 where `left` comes first, 0
 * where they are equal. A null pointer comes before every text. */
int ecow_text_compare(const ecow_text *left, const ecow_text *right);

/* A hash. Equal texts have the same. */
uint64_t ecow_text_hash(const ecow_text *text);

/* ---- Lists of texts ---- */

/* A text goes in and out as a clone, which shares its memory. A text that a result is written to
 * holds a value before, which is given up. */

/* An empty list. */
ecow_texts ecow_texts_new(void);

/* Gives the list's memory up, and that of its texts, and leaves it empty. */
ECOW_INLINE void ecow_texts_drop(ecow_texts *texts);

/* Makes `to` a clone of `from`. What it held is given up. */
ECOW_CHECKED ECOW_INLINE ecow_status ecow_texts_clone(ecow_texts *to, const ecow_texts *from);

/* How many texts there are. */
ECOW_INLINE size_t ecow_texts_len(const ecow_texts *texts);

/* Makes `text` a clone of the text at `index`: ECOW_INDEX from the length on. */
ECOW_CHECKED ecow_status ecow_texts_get(const ecow_texts *texts, size_t index, ecow_text *text);

/* The texts, to read, and how many there are. They stay valid as those of any `_slice` do. */
ECOW_INLINE const ecow_text *ecow_texts_slice(const ecow_texts *texts, size_t *len);

/* The bytes of the text at `index`, to read, and how many there are: null and 0 from the length on.
 * They stay valid as those of a `_slice` do. No 0 stands behind them. */
ECOW_INLINE const char *ecow_texts_at(const ecow_texts *texts, size_t index, size_t *len);

/* Puts a text in place of the one at `index`: ECOW_INDEX from the length on. */
ECOW_CHECKED ecow_status ecow_texts_set(ecow_texts *texts, size_t index, const ecow_text *text);

/* The same of a text that is given by its bytes. */
ECOW_CHECKED ecow_status ecow_texts_set_text(ecow_texts *texts, size_t index, const char *bytes,
                                             size_t count);

/* Appends a text. */
ECOW_CHECKED ecow_status ecow_texts_push(ecow_texts *texts, const ecow_text *text);

/* The same of a text that is given by its bytes. */
ECOW_CHECKED ecow_status ecow_texts_push_text(ecow_texts *texts, const char *bytes, size_t count);

/* Takes the last text: ECOW_INDEX where there is none. */
ECOW_CHECKED ecow_status ecow_texts_pop(ecow_texts *texts, ecow_text *text);

/* Puts a text in at `index`, before the one that stands there: ECOW_INDEX past the length. */
ECOW_CHECKED ecow_status ecow_texts_insert(ecow_texts *texts, size_t index, const ecow_text *text);

/* Takes the text at `index`: ECOW_INDEX from the length on. */
ECOW_CHECKED ecow_status ecow_texts_remove(ecow_texts *texts, size_t index, ecow_text *text);

/* Keeps the first `len` texts, or all where there are fewer. */
ECOW_CHECKED ecow_status ecow_texts_truncate(ecow_texts *texts, size_t len);

/* Keeps none. Memory that no clone shares is kept for what comes. */
ecow_status ecow_texts_clear(ecow_texts *texts);

/* Makes room for `additional` more. */
ECOW_CHECKED ecow_status ecow_texts_reserve(ecow_texts *texts, size_t additional);

/* How many texts there is room for, never fewer than there are. */
size_t ecow_texts_capacity(const ecow_texts *texts);

/* Gives up room that isn't used, unless another value shares the memory. */
ECOW_CHECKED ecow_status ecow_texts_shrink_to_fit(ecow_texts *texts);

/* Appends the texts of `added`, which may be the list itself: all or none. */
ECOW_CHECKED ecow_status ecow_texts_extend(ecow_texts *texts, const ecow_texts *added);

/* Puts the texts of `added`, which may be the list itself, in place of those from `start` up to
 * `end`, which isn't included: ECOW_INDEX where `start` passes `end`, or `end` the length. */
ECOW_CHECKED ecow_status ecow_texts_splice(ecow_texts *texts, size_t start, size_t end,
                                           const ecow_texts *added);

/* Whether both stand in the same memory, and so are equal: not so where they hold nothing, or where
 * they take no memory, or a pointer is null. */
bool ecow_texts_shares(const ecow_texts *left, const ecow_texts *right);

/* Whether both have the same texts. A null pointer equals a null pointer alone. */
bool ecow_texts_equal(const ecow_texts *left, const ecow_texts *right);

/* The order of their texts, one by one: below 0 where `left` comes first, 0 where they are equal. A
 * null pointer comes before every list. */
int ecow_texts_compare(const ecow_texts *left, const ecow_texts *right);

/* A hash. Equal lists have the same. */
uint64_t ecow_texts_hash(const ecow_texts *texts);

/* ---- Nested values ---- */

/* A value is nothing, a truth value, a number, a text, a list of values, or fields by name in
 * order. It goes in and out as a clone, which shares its memory: to change what lies deep in a
 * value, go by a path, or swap a part out, change it, and swap it in again. What lies beside the way
 * stays shared. A call for another kind of value answers ECOW_KIND.
 *
 * A result may be the value itself, which is then replaced. */

/* How deep a value may nest. A thread with a stack of 128 KiB drops, compares and copies such a
 * value, and goes by a path to its end. */
#define ECOW_MAX_DEPTH 512

/* What a value is. */
typedef enum ecow_kind {
    ECOW_KIND_NOTHING = 0,
    ECOW_KIND_TRUTH = 1,
    ECOW_KIND_NUMBER = 2,
    ECOW_KIND_REAL = 3,
    ECOW_KIND_TEXT = 4,
    ECOW_KIND_LIST = 5,
    ECOW_KIND_FIELDS = 6
} ecow_kind;

/* Nothing. */
ecow_value ecow_value_new(void);

/* Gives the value's memory up, and leaves nothing. */
ECOW_INLINE void ecow_value_drop(ecow_value *value);

/* Makes `to` a clone of `from`. What it held is given up. */
ECOW_CHECKED ECOW_INLINE ecow_status ecow_value_clone(ecow_value *to, const ecow_value *from);

/* What the value is; a null pointer is nothing. */
ecow_kind ecow_value_kind(const ecow_value *value);

/* Makes it nothing. */
ECOW_CHECKED ecow_status ecow_value_set_nothing(ecow_value *value);

/* Makes it a truth value. */
ECOW_CHECKED ecow_status ecow_value_set_truth(ecow_value *value, bool truth);

/* Makes it a number. */
ECOW_CHECKED ecow_status ecow_value_set_number(ecow_value *value, int64_t number);

/* Makes it a floating-point number. */
ECOW_CHECKED ecow_status ecow_value_set_real(ecow_value *value, double real);

/* Makes it a text. */
ECOW_CHECKED ecow_status ecow_value_set_text(ecow_value *value, const ecow_text *text);

/* Makes it a list of no items. */
ECOW_CHECKED ecow_status ecow_value_set_list(ecow_value *value);

/* Makes it a value with no fields. */
ECOW_CHECKED ecow_status ecow_value_set_fields(ecow_value *value);

/* Reads the truth value. */
ECOW_CHECKED ecow_status ecow_value_truth(const ecow_value *value, bool *truth);

/* Reads the number. */
ECOW_CHECKED ecow_status ecow_value_number(const ecow_value *value, int64_t *number);

/* Reads the floating-point number. */
ECOW_CHECKED ecow_status ecow_value_real(const ecow_value *value, double *real);

/* Makes `text` a clone of the text. */
ECOW_CHECKED ecow_status ecow_value_text(const ecow_value *value, ecow_text *text);

/* How many items a list has, or how many fields there are; 0 of another kind. */
size_t ecow_value_len(const ecow_value *value);

/* How deep it nests: 0 of what has no parts, else one more than its deepest part. A list or fields
 * take no part that has ECOW_MAX_DEPTH: ECOW_DEPTH. Where the deepest part goes, the others are
 * looked at. */
size_t ecow_value_depth(const ecow_value *value);

/* Makes `item` a clone of the item of a list, or of a field's value, at `index`: ECOW_INDEX from
 * the length on. */
ECOW_CHECKED ecow_status ecow_value_get(const ecow_value *value, size_t index, ecow_value *item);

/* Puts an item in place of the one at `index` of a list: ECOW_INDEX from the length on. */
ECOW_CHECKED ecow_status ecow_value_set(ecow_value *value, size_t index, const ecow_value *item);

/* Exchanges the item at `index` of a list and `*other`: ECOW_INDEX from the length on. So an item
 * that holds a list is taken out, changed and put in again, and only a shared list is copied. A
 * value that is exchanged with its own item becomes that item. */
ECOW_CHECKED ecow_status ecow_value_swap(ecow_value *value, size_t index, ecow_value *other);

/* Appends an item to a list. */
ECOW_CHECKED ecow_status ecow_value_push(ecow_value *value, const ecow_value *item);

/* Takes the last item of a list: ECOW_INDEX where there is none. */
ECOW_CHECKED ecow_status ecow_value_pop(ecow_value *value, ecow_value *item);

/* Puts an item in at `index` of a list, before the one that stands there: ECOW_INDEX past the
 * length. */
ECOW_CHECKED ecow_status ecow_value_insert(ecow_value *value, size_t index, const ecow_value *item);

/* Takes the item at `index` of a list: ECOW_INDEX from the length on. */
ECOW_CHECKED ecow_status ecow_value_remove(ecow_value *value, size_t index, ecow_value *item);

/* Keeps the first `len` items of a list, or all where there are fewer. */
ECOW_CHECKED ecow_status ecow_value_truncate(ecow_value *value, size_t len);

/* Makes `item` a clone of the value of the field of that name, given by its bytes: ECOW_INDEX where
 * there is none. */
ECOW_CHECKED ecow_status ecow_value_get_field(const ecow_value *value, const char *name,
                                              size_t count, ecow_value *item);

/* Puts a value in place of that of the field of that name, or appends a field where there is
 * none. */
ECOW_CHECKED ecow_status ecow_value_set_field(ecow_value *value, const char *name, size_t count,
                                              const ecow_value *item);

/* Appends a field, and looks for none of that name. Of a name that stands twice, calls by it mean the
 * first. */
ECOW_CHECKED ecow_status ecow_value_push_field(ecow_value *value, const char *name, size_t count,
                                               const ecow_value *item);

/* Exchanges the value of the field of that name and `*other`, as ecow_value_swap does: ECOW_INDEX
 * where there is none. */
ECOW_CHECKED ecow_status ecow_value_swap_field(ecow_value *value, const char *name, size_t count,
                                               ecow_value *other);

/* Takes the field of that name, and makes `item` its value: ECOW_INDEX where there is none. */
ECOW_CHECKED ecow_status ecow_value_remove_field(ecow_value *value, const char *name, size_t count,
                                                 ecow_value *item);

/* A path to a part is itself a value: a list of texts, each the name of a field, and of numbers,
 * each the index of an item. ECOW_KIND where it isn't, ECOW_INDEX where there is no such part. */

/* Makes `part` a clone of the part at the end of the path. */
ECOW_CHECKED ecow_status ecow_value_get_at(const ecow_value *value, const ecow_value *path,
                                           ecow_value *part);

/* Puts an item in place of that part: of the lists and fields on the way only shared ones are
 * copied. */
ECOW_CHECKED ecow_status ecow_value_set_at(ecow_value *value, const ecow_value *path,
                                           const ecow_value *item);

/* Exchanges that part and `*other`, as ecow_value_swap does. */
ECOW_CHECKED ecow_status ecow_value_swap_at(ecow_value *value, const ecow_value *path,
                                            ecow_value *other);

/* Makes `name` a clone of the name of the field at `index`: ECOW_INDEX from the length on. */
ECOW_CHECKED ecow_status ecow_value_field_name(const ecow_value *value, size_t index,
                                               ecow_text *name);

/* Calls that lend a part where it stands, without a clone. The part stays valid as what a `_slice`
 * returns does, so it isn't handed to a call that changes the value. They return NULL where there is
 * no such part, or the value is of another kind. */

/* The item of a list, or a field's value, at `index`. */
const ecow_value *ecow_value_peek(const ecow_value *value, size_t index);

/* The value of the field of that name. */
const ecow_value *ecow_value_peek_field(const ecow_value *value, const char *name, size_t count);

/* The name of the field at `index`. */
const ecow_text *ecow_value_peek_name(const ecow_value *value, size_t index);

/* The text. */
const ecow_text *ecow_value_peek_text(const ecow_value *value);

/* Whether both stand in the same memory, and so are equal: not so where they hold nothing, or where
 * they take no memory, or a pointer is null. */
bool ecow_value_shares(const ecow_value *left, const ecow_value *right);

/* Whether both are of one kind and hold the same, items and fields in order. A NaN equals each
 * NaN, so that a value equals its clones. A null pointer equals a null pointer alone. */
bool ecow_value_equal(const ecow_value *left, const ecow_value *right);

/* The order: below 0 where `left` comes first, 0 where they are equal. Kinds have the order of
 * ecow_kind, truth values, numbers and texts their own, a NaN comes before other reals, and items and
 * fields count in turn, names before values. A null pointer comes before every value. */
int ecow_value_compare(const ecow_value *left, const ecow_value *right);

/* A hash. Equal values have the same. */
uint64_t ecow_value_hash(const ecow_value *value);

/* ---- The library's own ---- */

/* How values lie in memory, for the calls that read them where they stand. The word of a list
 * or an array is the address of a head, or 0 where there is none. The first byte of bytes and texts says what the others
 * are: 0, up to 14 items, and in the last byte how many; 1, 15 items; 2, in the second word such an
 * address or 0. */
typedef struct ecow_head {
    uint64_t owners;
    const void *items;
    size_t len;
    size_t capacity;
} ecow_head;

#ifdef __cplusplus
#define ECOW_AT(type, address) reinterpret_cast<const type *>(address)
#define ECOW_IN(type, place) static_cast<const type *>(static_cast<const void *>(place))
#define ECOW_NUMBER(pointer) reinterpret_cast<uintptr_t>(pointer)
#else
#define ECOW_AT(type, address) ((const type *)(address))
#define ECOW_IN(type, place) ((const type *)(const void *)(place))
#define ECOW_NUMBER(pointer) ((uintptr_t)(pointer))
#endif

/* What has no head has its items in the struct, or none. */
#define ECOW_READ(kind, item, head_word, items_word, inline_len)                        \
    ECOW_INLINE const item *ecow_##kind##_slice(const ecow_##kind *kind, size_t *len) { \
        static const ecow_##kind nothing = {{0}};                                       \
        const uint64_t *word = kind ? kind->word : nothing.word;                        \
        const uint8_t *byte = ECOW_IN(uint8_t, word);                                   \
        const ecow_head *head = ECOW_AT(ecow_head, head_word);                          \
        if (len) {                                                                      \
            *len = head ? head->len : inline_len;                                       \
        }                                                                               \
        return head ? ECOW_IN(item, head->items) : ECOW_IN(item, items_word);           \
    }                                                                                   \
                                                                                        \
    ECOW_INLINE size_t ecow_##kind##_len(const ecow_##kind *kind) {                     \
        size_t len;                                                                     \
        (void)ecow_##kind##_slice(kind, &len);                                          \
        return len;                                                                     \
    }

#define ECOW_READ_SMALL(kind, item)                             \
    ECOW_READ(kind, item, byte[0] == 2 ? word[1] : 0, byte + 1, \
              byte[0] == 0   ? byte[15]                         \
              : byte[0] == 1 ? 15                               \
                             : 0)

ECOW_READ(list, int64_t, word[0], byte, 0)
ECOW_READ_SMALL(bytes, uint8_t)
ECOW_READ_SMALL(text, char)
ECOW_READ(texts, ecow_text, word[0], byte, 0)
#undef ECOW_READ_SMALL
#undef ECOW_READ

/* The head of an array counts bytes. What has no head has no items, and an address at its struct that
 * is aligned to 16. */
ECOW_INLINE const void *ecow_array_slice(const ecow_array *array, size_t size, size_t *len) {
    static const ecow_array nothing = {{0}};
    const ecow_array *place = array ? array : &nothing;
    const ecow_head *head = ECOW_AT(ecow_head, place->word[0]);
    if (len) {
        *len = head && size ? head->len / size : 0;
    }
    return head ? head->items : ECOW_AT(void, (ECOW_NUMBER(place) + 15) / 16 * 16);
}

ECOW_INLINE size_t ecow_array_len(const ecow_array *array, size_t size) {
    size_t len;
    (void)ecow_array_slice(array, size, &len);
    return len;
}

ECOW_INLINE const void *ecow_array_at(const ecow_array *array, size_t size, size_t index) {
    size_t len;
    const char *start = ECOW_IN(char, ecow_array_slice(array, size, &len));
    return index < len ? start + index * size : NULL;
}
#undef ECOW_AT
#undef ECOW_IN
#undef ECOW_NUMBER

ECOW_INLINE const char *ecow_texts_at(const ecow_texts *texts, size_t index, size_t *len) {
    size_t count;
    const ecow_text *all = ecow_texts_slice(texts, &count);
    const char *start = ecow_text_slice(index < count ? all + index : NULL, len);
    return index < count ? start : NULL;
}

/* Two calls that are short enough to be expanded where they stand. */
#define ECOW_EXPANDED(kind)                                                                 \
    ecow_status ecow_proved_##kind##_clone(const ecow_##kind **from, ecow_##kind **to);     \
    ecow_status ecow_proved_##kind##_drop(ecow_##kind **value);                             \
                                                                                            \
    ECOW_INLINE void ecow_##kind##_drop(ecow_##kind *kind) {                                \
        (void)ecow_proved_##kind##_drop(&kind);                                             \
    }                                                                                       \
                                                                                            \
    ECOW_INLINE ecow_status ecow_##kind##_clone(ecow_##kind *to, const ecow_##kind *from) { \
        if (to == from) {                                                                   \
            return to ? ECOW_OK : ECOW_NULL;                                                \
        }                                                                                   \
        return ecow_proved_##kind##_clone(&from, &to);                                      \
    }

ECOW_EXPANDED(list)
ECOW_EXPANDED(array)
ECOW_EXPANDED(bytes)
ECOW_EXPANDED(text)
ECOW_EXPANDED(texts)
ECOW_EXPANDED(value)
#undef ECOW_EXPANDED
#undef ECOW_INLINE

/* Makes the calls on arrays for one type: after `ECOW_ARRAY(points, struct point)`,
 * `points_push(&array, one)` is `ecow_array_push(&array, sizeof(struct point), &one)`. An item goes in
 * by value. A type that is aligned to more than 16 isn't compiled. */
#define ECOW_ARRAY(name, type)                                                                    \
    typedef char name##_is_aligned_to_16_at_most[__alignof__(type) <= 16 ? 1 : -1];               \
                                                                                                  \
    ECOW_TYPED size_t name##_len(const ecow_array *array) {                                       \
        return ecow_array_len(array, sizeof(type));                                               \
    }                                                                                             \
                                                                                                  \
    ECOW_TYPED const type *name##_slice(const ecow_array *array, size_t *len) {                   \
        return (const type *)ecow_array_slice(array, sizeof(type), len);                          \
    }                                                                                             \
                                                                                                  \
    ECOW_TYPED const type *name##_at(const ecow_array *array, size_t index) {                     \
        return (const type *)ecow_array_at(array, sizeof(type), index);                           \
    }                                                                                             \
                                                                                                  \
    ECOW_TYPED size_t name##_capacity(const ecow_array *array) {                                  \
        return ecow_array_capacity(array, sizeof(type));                                          \
    }                                                                                             \
                                                                                                  \
    ECOW_CHECKED ECOW_TYPED ecow_status name##_edit(ecow_array *array, type **items,              \
                                                    size_t *len) {                                \
        void *all = NULL;                                                                         \
        ecow_status status = ecow_array_edit(array, sizeof(type), &all, len);                     \
        if (status == ECOW_OK && items) {                                                         \
            *items = (type *)all;                                                                 \
        }                                                                                         \
        return status;                                                                            \
    }                                                                                             \
                                                                                                  \
    ECOW_CHECKED ECOW_TYPED ecow_status name##_set(ecow_array *array, size_t index, type item) {  \
        return ecow_array_set(array, sizeof(type), index, &item);                                 \
    }                                                                                             \
                                                                                                  \
    ECOW_CHECKED ECOW_TYPED ecow_status name##_push(ecow_array *array, type item) {               \
        return ecow_array_push(array, sizeof(type), &item);                                       \
    }                                                                                             \
                                                                                                  \
    ECOW_CHECKED ECOW_TYPED ecow_status name##_pop(ecow_array *array, type *item) {               \
        return ecow_array_pop(array, sizeof(type), item);                                         \
    }                                                                                             \
                                                                                                  \
    ECOW_CHECKED ECOW_TYPED ecow_status name##_insert(ecow_array *array, size_t index,            \
                                                      type item) {                                \
        return ecow_array_insert(array, sizeof(type), index, &item);                              \
    }                                                                                             \
                                                                                                  \
    ECOW_CHECKED ECOW_TYPED ecow_status name##_remove(ecow_array *array, size_t index,            \
                                                      type *item) {                               \
        return ecow_array_remove(array, sizeof(type), index, item);                               \
    }                                                                                             \
                                                                                                  \
    ECOW_CHECKED ECOW_TYPED ecow_status name##_truncate(ecow_array *array, size_t len) {          \
        return ecow_array_truncate(array, sizeof(type), len);                                     \
    }                                                                                             \
                                                                                                  \
    ECOW_CHECKED ECOW_TYPED ecow_status name##_reserve(ecow_array *array, size_t additional) {    \
        return ecow_array_reserve(array, sizeof(type), additional);                               \
    }                                                                                             \
                                                                                                  \
    ECOW_CHECKED ECOW_TYPED ecow_status name##_assign(ecow_array *array, const type *items,       \
                                                      size_t count) {                             \
        return ecow_array_assign(array, sizeof(type), items, count);                              \
    }                                                                                             \
                                                                                                  \
    ECOW_CHECKED ECOW_TYPED ecow_status name##_extend(ecow_array *array, const type *items,       \
                                                      size_t count) {                             \
        return ecow_array_extend(array, sizeof(type), items, count);                              \
    }                                                                                             \
                                                                                                  \
    ECOW_CHECKED ECOW_TYPED ecow_status name##_splice(ecow_array *array, size_t start,            \
                                                      size_t end, const type *items,              \
                                                      size_t count) {                             \
        return ecow_array_splice(array, sizeof(type), start, end, items, count);                  \
    }
#define ECOW_TYPED static __inline__ __attribute__((__unused__))

#ifdef __cplusplus
}
#endif

#endif
