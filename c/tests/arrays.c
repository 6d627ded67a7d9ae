/* Arrays that a call is given: in the value that it changes, across the value's struct, and larger
 * than any memory. Requests for memory aren't refused here. */
#include "check.h"

/* Arrays in the value's block, or in its inline bytes. */
static void in_the_value(void) {
    ecow_list list = {{0}};
    size_t len;
    for (int64_t number = 0; number < 4; number++) {
        CHECK(ecow_list_push(&list, number) == ECOW_OK);
    }
    const int64_t *numbers = ecow_list_slice(&list, &len);
    CHECK(ecow_list_extend(&list, numbers, len) == ECOW_OK);
    CHECK(list_holds(&list, (int64_t[]){0, 1, 2, 3, 0, 1, 2, 3}, 8));
    numbers = ecow_list_slice(&list, &len);
    CHECK(ecow_list_splice(&list, 0, 8, numbers + 1, 3) == ECOW_OK);
    CHECK(list_holds(&list, (int64_t[]){1, 2, 3}, 3));
    numbers = ecow_list_slice(&list, &len);
    CHECK(ecow_list_assign(&list, numbers + 2, 1) == ECOW_OK
          && list_holds(&list, (int64_t[]){3}, 1));
    ecow_list_drop(&list);
    for (size_t size = 1; size <= 16; size++) {
        ecow_text text = {{0}};
        char twice[32];
        memset(twice, 'a', sizeof twice);
        twice[size - 1] = twice[2 * size - 1] = 'z';
        CHECK(ecow_text_assign(&text, twice, size) == ECOW_OK);
        const char *held = ecow_text_slice(&text, &len);
        CHECK(ecow_text_extend(&text, held, len) == ECOW_OK && text_holds(&text, twice, 2 * size));
        held = ecow_text_slice(&text, &len);
        CHECK(ecow_text_insert(&text, 0, held + size - 1, 1) == ECOW_OK);
        CHECK(ecow_text_len(&text) == 2 * size + 1 && *ecow_text_slice(&text, NULL) == 'z');
        held = ecow_text_slice(&text, &len);
        CHECK(ecow_text_replace(&text, held, 1, held, len) == ECOW_OK);
        CHECK(ecow_text_len(&text) == 2 * size - 2 + 3 * (2 * size + 1));
        held = ecow_text_slice(&text, &len);
        CHECK(ecow_text_splice(&text, 1, len, held, 1) == ECOW_OK && text_is(&text, "zz"));
        held = ecow_text_slice(&text, &len);
        CHECK(ecow_text_assign(&text, held + 1, 1) == ECOW_OK && text_is(&text, "z"));
        ecow_text_drop(&text);
    }
}

/* A value with letters on both sides of it. */
typedef union any {
    ecow_list list;
    ecow_array array;
    ecow_bytes bytes;
    ecow_text text;
} any;

typedef struct surrounded {
    char before[24];
    any value;
    char behind[24];
} surrounded;

/* The calls of a kind that take an array, by their number: the first one assigns. */
typedef struct kind {
    size_t item;
    int calls;
    ecow_status (*call)(int number, any *value, const void *items, size_t count);
    const void *(*slice)(const any *value);
    bool (*equal)(const any *left, const any *right);
    void (*drop)(any *value);
} kind;

static ecow_status call_list(int number, any *value, const void *items, size_t count) {
    switch (number) {
    case 0:
        return ecow_list_assign(&value->list, items, count);
    case 1:
        return ecow_list_extend(&value->list, items, count);
    default:
        return ecow_list_splice(&value->list, 1, 2, items, count);
    }
}

/* Items of 4 bytes. */
static ecow_status call_array(int number, any *value, const void *items, size_t count) {
    switch (number) {
    case 0:
        return ecow_array_assign(&value->array, 4, items, count);
    case 1:
        return ecow_array_extend(&value->array, 4, items, count);
    case 2:
        return ecow_array_splice(&value->array, 4, 1, 2, items, count);
    case 3:
        return count ? ecow_array_push(&value->array, 4, items) : ECOW_OK;
    case 4:
        return count ? ecow_array_set(&value->array, 4, 1, items) : ECOW_OK;
    default:
        return count ? ecow_array_insert(&value->array, 4, 1, items) : ECOW_OK;
    }
}

static const void *slice_array(const any *value) {
    return ecow_array_slice(&value->array, 4, NULL);
}

static ecow_status call_bytes(int number, any *value, const void *items, size_t count) {
    switch (number) {
    case 0:
        return ecow_bytes_assign(&value->bytes, items, count);
    case 1:
        return ecow_bytes_extend(&value->bytes, items, count);
    default:
        return ecow_bytes_splice(&value->bytes, 1, 2, items, count);
    }
}

static ecow_status call_text(int number, any *value, const void *items, size_t count) {
    switch (number) {
    case 0:
        return ecow_text_assign(&value->text, items, count);
    case 1:
        return ecow_text_extend(&value->text, items, count);
    case 2:
        return ecow_text_splice(&value->text, 1, 2, items, count);
    case 3:
        return ecow_text_insert(&value->text, 1, items, count);
    case 4:
        return ecow_text_replace(&value->text, items, count, "-", 1);
    default:
        return ecow_text_replace(&value->text, "b", 1, items, count);
    }
}

/* The other calls of a kind, as functions of a value of any kind, by:
 * ecow_list_slice, ecow_bytes_slice, ecow_text_slice, ecow_list_equal, ecow_array_equal,
 * ecow_bytes_equal, ecow_text_equal, ecow_list_drop, ecow_array_drop, ecow_bytes_drop,
 * ecow_text_drop */
#define SLICE(kind)                                     \
    static const void *slice_##kind(const any *value) { \
        return ecow_##kind##_slice(&value->kind, NULL); \
    }

#define OTHER_CALLS(kind)                                         \
    static bool equal_##kind(const any *left, const any *right) { \
        return ecow_##kind##_equal(&left->kind, &right->kind);    \
    }                                                             \
                                                                  \
    static void drop_##kind(any *value) {                         \
        ecow_##kind##_drop(&value->kind);                         \
    }

SLICE(list)
SLICE(bytes)
SLICE(text)
OTHER_CALLS(list)
OTHER_CALLS(array)
OTHER_CALLS(bytes)
OTHER_CALLS(text)

/* Gives a call an array that lies at an item of the value (`inside`) or of the struct around it: it
 * has the effect that it has where it overlaps nothing. */
static void overlaps(const kind *of, int number, size_t len, bool inside, size_t start,
                     size_t count) {
    uint64_t letters[20], elsewhere[sizeof(surrounded) / sizeof(uint64_t)];
    surrounded all;
    any apart = {{{0}}};
    memset(&all, 0, sizeof all);
    for (size_t at = 0; at < sizeof letters; at++) {
        ((char *)letters)[at] = (char)('a' + at % 26);
    }
    memcpy(all.before, letters, sizeof all.before);
    memcpy(all.behind, letters, sizeof all.behind);
    CHECK(of->call(0, &all.value, letters, len) == ECOW_OK);
    CHECK(of->call(0, &apart, letters, len) == ECOW_OK);
    const char *array = inside ? of->slice(&all.value) : (const char *)&all;
    array += start * of->item;
    memcpy(elsewhere, array, count * of->item);
    ecow_status status = of->call(number, &apart, elsewhere, count);
    CHECK(of->call(number, &all.value, array, count) == status && of->equal(&all.value, &apart));
    CHECK(memcmp(all.before, letters, sizeof all.before) == 0);
    CHECK(memcmp(all.behind, letters, sizeof all.behind) == 0);
    of->drop(&all.value);
    of->drop(&apart);
}

/* Every array in the value and across its struct, where the value is short, and where it is long. */
static void overlaps_of(const kind *of) {
    const size_t lens[] = {2, 15, 20}, places = sizeof(surrounded) / of->item;
    for (size_t which = 0; which < 3 * (size_t)of->calls; which++) {
        int number = (int)which / 3;
        size_t len = lens[which % 3];
        for (size_t start = 0; start < places; start++) {
            for (size_t end = start; end <= places; end++) {
                overlaps(of, number, len, false, start, end - start);
                if (end <= len) {
                    overlaps(of, number, len, true, start, end - start);
                }
            }
        }
    }
}

/* The statuses of arrays that no memory holds, and of room for as many, at a value of three items:
 * they aren't read. It makes these calls:
 * ecow_list_assign, ecow_bytes_assign, ecow_text_assign, ecow_list_extend, ecow_bytes_extend,
 * ecow_text_extend, ecow_list_splice, ecow_bytes_splice, ecow_text_splice, ecow_list_reserve,
 * ecow_bytes_reserve, ecow_text_reserve */
#define PAST_MEMORY(kind, value, items)                                             \
    do {                                                                            \
        const size_t large = (size_t)1 << 60, larger = (size_t)1 << 62;             \
        const size_t most = PTRDIFF_MAX;                                            \
        CHECK(ecow_##kind##_assign(value, items, large) == ECOW_MEMORY);            \
        CHECK(ecow_##kind##_assign(value, items, larger) == ECOW_MEMORY);           \
        CHECK(ecow_##kind##_assign(value, items, most) == ECOW_MEMORY);             \
        CHECK(ecow_##kind##_assign(value, items, most + 1) == ECOW_CAPACITY);       \
        CHECK(ecow_##kind##_assign(value, items, SIZE_MAX) == ECOW_CAPACITY);       \
        CHECK(ecow_##kind##_extend(value, items, large) == ECOW_MEMORY);            \
        CHECK(ecow_##kind##_extend(value, items, larger) == ECOW_MEMORY);           \
        CHECK(ecow_##kind##_extend(value, items, most - 3) == ECOW_MEMORY);         \
        CHECK(ecow_##kind##_extend(value, items, most - 2) == ECOW_CAPACITY);       \
        CHECK(ecow_##kind##_extend(value, items, SIZE_MAX) == ECOW_CAPACITY);       \
        CHECK(ecow_##kind##_splice(value, 0, 2, items, large) == ECOW_MEMORY);      \
        CHECK(ecow_##kind##_splice(value, 0, 2, items, most - 1) == ECOW_MEMORY);   \
        CHECK(ecow_##kind##_splice(value, 0, 2, items, most) == ECOW_CAPACITY);     \
        CHECK(ecow_##kind##_splice(value, 1, 1, items, most - 3) == ECOW_MEMORY);   \
        CHECK(ecow_##kind##_splice(value, 1, 1, items, SIZE_MAX) == ECOW_CAPACITY); \
        CHECK(ecow_##kind##_splice(value, 2, 1, items, larger) == ECOW_INDEX);      \
        CHECK(ecow_##kind##_splice(value, 0, 4, items, SIZE_MAX) == ECOW_INDEX);    \
        CHECK(ecow_##kind##_reserve(value, large) == ECOW_MEMORY);                  \
        CHECK(ecow_##kind##_reserve(value, larger) == ECOW_MEMORY);                 \
        CHECK(ecow_##kind##_reserve(value, most - 3) == ECOW_MEMORY);               \
        CHECK(ecow_##kind##_reserve(value, most - 2) == ECOW_CAPACITY);             \
        CHECK(ecow_##kind##_reserve(value, SIZE_MAX) == ECOW_CAPACITY);             \
    } while (0)

static void past_memory(void) {
    const int64_t numbers[] = {1, 2, 3};
    ecow_list list = {{0}};
    ecow_bytes bytes = {{0}};
    ecow_text text = {{0}};
    const size_t large = (size_t)1 << 60, most = PTRDIFF_MAX;
    CHECK(ecow_list_assign(&list, numbers, 3) == ECOW_OK);
    PAST_MEMORY(list, &list, numbers);
    CHECK(list_holds(&list, numbers, 3));
    CHECK(ecow_bytes_assign(&bytes, (const uint8_t *)"abc", 3) == ECOW_OK);
    PAST_MEMORY(bytes, &bytes, (const uint8_t *)"abc");
    CHECK(bytes_hold(&bytes, "abc", 3));
    CHECK(ecow_text_assign(&text, "abc", 3) == ECOW_OK);
    PAST_MEMORY(text, &text, "abc");
    CHECK(ecow_text_insert(&text, 3, "a", large) == ECOW_MEMORY);
    CHECK(ecow_text_insert(&text, 3, "a", most - 3) == ECOW_MEMORY);
    CHECK(ecow_text_insert(&text, 3, "a", most - 2) == ECOW_CAPACITY);
    CHECK(ecow_text_insert(&text, 4, "a", SIZE_MAX) == ECOW_INDEX);
    CHECK(ecow_text_replace(&text, "a", large, "", 0) == ECOW_MEMORY);
    CHECK(ecow_text_replace(&text, "a", SIZE_MAX, "", 0) == ECOW_MEMORY);
    CHECK(ecow_text_replace(&text, "", 0, "a", large) == ECOW_MEMORY);
    CHECK(ecow_text_replace(&text, "", 0, "a", SIZE_MAX) == ECOW_MEMORY);
    CHECK(!ecow_is_utf8("a", large) && !ecow_is_utf8("a", SIZE_MAX));
    CHECK(text_is(&text, "abc"));
    CHECK(ecow_text_assign(&text, "\xc3\xa9", 2) == ECOW_OK);
    CHECK(ecow_text_insert(&text, 1, "a", large) == ECOW_BOUNDARY);
    CHECK(ecow_text_splice(&text, 1, 2, "a", SIZE_MAX) == ECOW_BOUNDARY);
    CHECK(ecow_text_splice(&text, 0, 1, "a", large) == ECOW_BOUNDARY);
    CHECK(ecow_text_repeat(&text, most / 2) == ECOW_MEMORY);
    CHECK(ecow_text_repeat(&text, most / 2 + 1) == ECOW_CAPACITY && text_is(&text, "\xc3\xa9"));
    ecow_list_drop(&list);
    ecow_bytes_drop(&bytes);
    ecow_text_drop(&text);
}

/* The same of an array of three items, of each size: what counts is how many bytes they are. */
static void items_past_memory(void) {
    const size_t sizes[] = {1, 3, 8, 24, 4096};
    for (size_t at = 0; at < sizeof sizes / sizeof *sizes; at++) {
        const size_t size = sizes[at], most = PTRDIFF_MAX / size;
        const size_t large = ((size_t)1 << 60) / size + (size > 1);
        const void *items = some_items(size, "abc");
        ecow_array array = {{0}};
        CHECK(ecow_array_assign(&array, size, items, 3) == ECOW_OK);
        CHECK(ecow_array_assign(&array, size, items, large) == ECOW_MEMORY);
        CHECK(ecow_array_assign(&array, size, items, most) == ECOW_MEMORY);
        CHECK(ecow_array_assign(&array, size, items, most + 1) == ECOW_CAPACITY);
        CHECK(ecow_array_assign(&array, size, items, SIZE_MAX) == ECOW_CAPACITY);
        CHECK(ecow_array_extend(&array, size, items, large) == ECOW_MEMORY);
        CHECK(ecow_array_extend(&array, size, items, most - 3) == ECOW_MEMORY);
        CHECK(ecow_array_extend(&array, size, items, most - 2) == ECOW_CAPACITY);
        CHECK(ecow_array_extend(&array, size, items, SIZE_MAX) == ECOW_CAPACITY);
        CHECK(ecow_array_splice(&array, size, 0, 2, items, large) == ECOW_MEMORY);
        CHECK(ecow_array_splice(&array, size, 0, 2, items, most - 1) == ECOW_MEMORY);
        CHECK(ecow_array_splice(&array, size, 0, 2, items, most) == ECOW_CAPACITY);
        CHECK(ecow_array_splice(&array, size, 1, 1, items, most - 3) == ECOW_MEMORY);
        CHECK(ecow_array_splice(&array, size, 1, 1, items, SIZE_MAX) == ECOW_CAPACITY);
        CHECK(ecow_array_splice(&array, size, 2, 1, items, large) == ECOW_INDEX);
        CHECK(ecow_array_splice(&array, size, 0, 4, items, SIZE_MAX) == ECOW_INDEX);
        CHECK(ecow_array_reserve(&array, size, large) == ECOW_MEMORY);
        CHECK(ecow_array_reserve(&array, size, most - 3) == ECOW_MEMORY);
        CHECK(ecow_array_reserve(&array, size, most - 2) == ECOW_CAPACITY);
        CHECK(ecow_array_reserve(&array, size, SIZE_MAX) == ECOW_CAPACITY);
        CHECK(array_holds(&array, size, "abc"));
        ecow_array_drop(&array);
    }
}

int main(void) {
    const kind lists = {sizeof(int64_t), 3, call_list, slice_list, equal_list, drop_list};
    const kind arrays = {4, 6, call_array, slice_array, equal_array, drop_array};
    const kind bytes = {1, 3, call_bytes, slice_bytes, equal_bytes, drop_bytes};
    const kind texts = {1, 6, call_text, slice_text, equal_text, drop_text};
    take_no_buffer();
    in_the_value();
    overlaps_of(&lists);
    overlaps_of(&arrays);
    overlaps_of(&bytes);
    overlaps_of(&texts);
    past_memory();
    items_past_memory();
    printf("arrays: %ld checks\n", checks);
    return 0;
}
