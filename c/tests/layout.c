/* What the header reads where a value stands, beside what the proved calls get of it item by item: in
 * every state, on both sides of the number from which on items stand apart from their head; and the
 * parts that a nested value lends, beside the clones that the proved calls make. And the order, the
 * equality and the hash of nested values that share parts, beside the proved equality. */
#include "check.h"
#include "typed.h"
#include "../proved.h"

#include <math.h>

static const size_t lengths[] = {0, 1, 2, 13, 14, 15, 16, 17, 1023, 1024, 1025, 5000};

#define LENGTHS (sizeof(lengths) / sizeof(lengths[0]))

static size_t compared;

/* Compares what both say of a value, or of a null pointer. It makes compare_list, compare_bytes and
 * compare_text, by these calls:
 * ecow_list_slice, ecow_bytes_slice, ecow_text_slice, ecow_list_len, ecow_bytes_len,
 * ecow_text_len, ecow_proved_list_get, ecow_proved_bytes_get, ecow_proved_text_get */
#define COMPARES(kind, item, got)                                                          \
    static void compare_##kind(const ecow_##kind *value) {                                 \
        ecow_##kind *place = (ecow_##kind *)value;                                         \
        size_t len = 99;                                                                   \
        got found = 0;                                                                     \
        const item *start = ecow_##kind##_slice(value, &len);                              \
        CHECK(start && start == ecow_##kind##_slice(value, NULL));                         \
        CHECK(len == ecow_##kind##_len(value));                                            \
        for (size_t at = 0; at < len; at++) {                                              \
            CHECK(ecow_proved_##kind##_get(&place, at, &found) == ECOW_OK);                \
            CHECK(found == (got)start[at]);                                                \
        }                                                                                  \
        ecow_status behind = ecow_proved_##kind##_get(&place, len, &found);                \
        CHECK(value ? behind != ECOW_OK && behind != ECOW_NULL : behind == ECOW_NULL);     \
        compared++;                                                                        \
    }

COMPARES(list, int64_t, int64_t)
COMPARES(bytes, uint8_t, uint8_t)
COMPARES(text, char, uint32_t)

/* Items of 12 bytes. */
typedef struct triple {
    int32_t first, second, third;
} triple;

TYPED(ecow_triples, triple)

/* The proved call takes the items of a clone, from the last one on. */
static void compare_triples(const ecow_array *value) {
    ecow_array clone = {{0}}, *place = &clone;
    size_t len = 99;
    triple found = {0, 0, 0};
    const triple *start = ecow_triples_slice(value, &len);
    CHECK(start && start == ecow_array_slice(value, 12, NULL) && len == ecow_array_len(value, 12));
    CHECK((uintptr_t)start % 16 == 0 && ecow_array_len(value, 4) == 3 * len);
    CHECK(value ? ecow_array_clone(&clone, value) == ECOW_OK : len == 0);
    for (size_t at = len; at-- > 0;) {
        CHECK(ecow_proved_array_remove(&place, at, &found, 12) == ECOW_OK);
        CHECK(memcmp(&found, start + at, 12) == 0 && ecow_triples_at(value, at) == start + at);
    }
    CHECK(ecow_proved_array_remove(&place, 0, &found, 12) == ECOW_INDEX);
    CHECK(!ecow_triples_at(value, len) && ecow_triples_len(value) == len);
    ecow_array_drop(&clone);
    compared++;
}

static void compare_texts(const ecow_texts *value) {
    ecow_texts *place = (ecow_texts *)value;
    ecow_text found = {{0}}, *out = &found;
    size_t len = 99, count;
    const ecow_text *start = ecow_texts_slice(value, &len);
    CHECK(start && len == ecow_texts_len(value));
    for (size_t index = 0; index < len; index++) {
        CHECK(ecow_proved_texts_get(&place, index, &out) == ECOW_OK);
        const char *text = ecow_texts_at(value, index, &count);
        CHECK(text && ecow_text_len(start + index) == count);
        CHECK(ecow_text_slice(start + index, NULL) == text);
        CHECK(ecow_text_len(out) == count && memcmp(ecow_text_slice(out, NULL), text, count) == 0);
    }
    ecow_status behind = ecow_proved_texts_get(&place, len, &out);
    CHECK(behind == (value ? ECOW_INDEX : ECOW_NULL));
    CHECK(ecow_texts_at(value, len, &count) == NULL && count == 0);
    CHECK(ecow_texts_at(value, SIZE_MAX, NULL) == NULL);
    ecow_text_drop(out);
    compared++;
}

/* Compares a value of each length, which `fill` gives it, and a clone that is changed again and
 * again. What is cleared while it is shared has no head, whatever its first byte says. It makes
 * these calls:
 * ecow_list_len, ecow_bytes_len, ecow_text_len, ecow_texts_len, ecow_list_clone, ecow_bytes_clone,
 * ecow_text_clone, ecow_texts_clone, ecow_list_clear, ecow_bytes_clear, ecow_text_clear,
 * ecow_texts_clear, ecow_list_reserve, ecow_bytes_reserve, ecow_text_reserve, ecow_texts_reserve,
 * ecow_list_truncate, ecow_bytes_truncate, ecow_text_truncate, ecow_texts_truncate,
 * ecow_list_shrink_to_fit, ecow_bytes_shrink_to_fit, ecow_text_shrink_to_fit,
 * ecow_texts_shrink_to_fit, ecow_list_drop, ecow_bytes_drop, ecow_text_drop, ecow_texts_drop */
#define STATES(kind, fill)                                                       \
    static void states_of_##kind(void) {                                         \
        compare_##kind(NULL);                                                    \
        for (size_t at = 0; at < LENGTHS; at++) {                                \
            ecow_##kind value = {{0}}, clone = {{0}};                            \
            compare_##kind(&value);                                              \
            fill(&value, lengths[at]);                                           \
            compare_##kind(&value);                                              \
            CHECK(ecow_##kind##_len(&value) == lengths[at]);                     \
            CHECK(ecow_##kind##_clone(&clone, &value) == ECOW_OK);               \
            compare_##kind(&value);                                              \
            compare_##kind(&clone);                                              \
            CHECK(ecow_##kind##_clear(&clone) == ECOW_OK);                       \
            compare_##kind(&clone);                                              \
            CHECK(ecow_##kind##_clone(&clone, &value) == ECOW_OK);               \
            CHECK(ecow_##kind##_reserve(&clone, 1) == ECOW_OK);                  \
            compare_##kind(&clone);                                              \
            CHECK(ecow_##kind##_reserve(&clone, 2000) == ECOW_OK);               \
            compare_##kind(&clone);                                              \
            CHECK(ecow_##kind##_truncate(&clone, lengths[at] / 2) == ECOW_OK);   \
            compare_##kind(&clone);                                              \
            CHECK(ecow_##kind##_shrink_to_fit(&clone) == ECOW_OK);               \
            compare_##kind(&clone);                                              \
            CHECK(ecow_##kind##_clear(&clone) == ECOW_OK);                       \
            compare_##kind(&clone);                                              \
            ecow_##kind##_drop(&clone);                                          \
            compare_##kind(&clone);                                              \
            compare_##kind(&value);                                              \
            ecow_##kind##_drop(&value);                                          \
        }                                                                        \
    }

static void fill_list(ecow_list *list, size_t len) {
    for (size_t at = 0; at < len; at++) {
        CHECK(ecow_list_push(list, (int64_t)at - 7) == ECOW_OK);
    }
}

static void fill_triples(ecow_array *array, size_t len) {
    for (int32_t at = 0; at < (int32_t)len; at++) {
        CHECK(ecow_triples_push(array, (triple){at, -at, 7}) == ECOW_OK);
    }
}

static void fill_bytes(ecow_bytes *bytes, size_t len) {
    for (size_t at = 0; at < len; at++) {
        CHECK(ecow_bytes_push(bytes, (uint8_t)(at * 5)) == ECOW_OK);
    }
}

static void fill_text(ecow_text *text, size_t len) {
    for (size_t at = 0; at < len; at++) {
        CHECK(ecow_text_push(text, 'a' + (uint32_t)(at % 26)) == ECOW_OK);
    }
}

/* Texts of every length up to 20 bytes. */
static void fill_texts(ecow_texts *texts, size_t len) {
    for (size_t at = 0; at < len; at++) {
        CHECK(ecow_texts_push_text(texts, "abcdefghijklmnopqrst", at % 21) == ECOW_OK);
    }
}

STATES(list, fill_list)
STATES(triples, fill_triples)
STATES(bytes, fill_bytes)
STATES(text, fill_text)
STATES(texts, fill_texts)

/* Compares the parts that a value lends with the clones that the proved calls make. */
static void compare_value(const ecow_value *value) {
    ecow_value *place = (ecow_value *)value, found = {{0}}, *out = &found;
    ecow_text text = {{0}}, *name = &text;
    const size_t len = ecow_value_len(value);
    const bool are_fields = ecow_value_kind(value) == ECOW_KIND_FIELDS;
    for (size_t index = 0; index < len; index++) {
        const ecow_value *part = ecow_value_peek(value, index);
        CHECK(ecow_proved_value_get(&place, index, &out) == ECOW_OK);
        CHECK(part && ecow_value_equal(part, out) && part == ecow_value_peek(value, index));
        const ecow_text *held = ecow_value_peek_text(part);
        CHECK((held != NULL) == (ecow_proved_value_text(&out, &name) == ECOW_OK));
        CHECK(!held || ecow_text_equal(held, name));
        const ecow_text *peeked = ecow_value_peek_name(value, index);
        CHECK((peeked != NULL) == are_fields);
        if (peeked) {
            CHECK(ecow_proved_value_field_name(&place, index, &name) == ECOW_OK);
            CHECK(ecow_text_equal(peeked, name));
            size_t count;
            const char *bytes = ecow_text_slice(peeked, &count);
            CHECK(ecow_value_peek_field(value, bytes, count) == part);
        }
    }
    for (size_t behind = len; behind; behind = behind == len ? SIZE_MAX : 0) {
        CHECK(!ecow_value_peek(value, behind) && !ecow_value_peek_name(value, behind));
    }
    CHECK(!ecow_value_peek_field(value, "none", 4) && !ecow_value_peek_field(value, NULL, 1));
    CHECK(!ecow_value_peek_field(value, "\xff", 1) && !ecow_value_peek_field(value, "", SIZE_MAX));
    ecow_text_drop(&text);
    ecow_value_drop(&found);
    compared++;
}

/* Compares a list or fields of each length, with texts of each length up to 20 bytes as items and in
 * names, and a clone that loses its first and gets another part. */
static void states_of_value(bool has_names) {
    compare_value(NULL);
    for (size_t at = 0; at < LENGTHS; at++) {
        ecow_value value = {{0}}, clone = {{0}}, item = {{0}};
        CHECK((has_names ? ecow_value_set_fields : ecow_value_set_list)(&value) == ECOW_OK);
        for (size_t index = 0; index < lengths[at]; index++) {
            char name[32];
            const int count = snprintf(name, sizeof name, "%zu%.*s", index, (int)(index % 17),
                                       "abcdefghijklmnop");
            ecow_text text = {{0}};
            CHECK(ecow_text_assign(&text, "abcdefghijklmnopqrst", index % 21) == ECOW_OK);
            CHECK((index % 3 ? ecow_value_set_text(&item, &text)
                             : ecow_value_set_number(&item, (int64_t)index)) == ECOW_OK);
            ecow_text_drop(&text);
            CHECK((has_names ? ecow_value_push_field(&value, name, (size_t)count, &item)
                             : ecow_value_push(&value, &item)) == ECOW_OK);
        }
        compare_value(&value);
        CHECK(ecow_value_clone(&clone, &value) == ECOW_OK);
        compare_value(&clone);
        if (lengths[at]) {
            CHECK((has_names ? ecow_value_remove_field(&clone, "0", 1, NULL)
                             : ecow_value_remove(&clone, 0, NULL)) == ECOW_OK);
        }
        compare_value(&clone);
        CHECK((has_names ? ecow_value_set_field(&clone, "another", 7, &value)
                         : ecow_value_push(&clone, &value)) == ECOW_OK);
        compare_value(&clone);
        compare_value(&value);
        compare_value(&item);
        ecow_value_drop(&clone);
        ecow_value_drop(&value);
        ecow_value_drop(&item);
    }
}

/* A scalar, or a list or fields of some of the values before it. */
static ecow_value any_value(uint64_t *seed, const ecow_value *before, size_t count) {
    static const double reals[] = {0.0, -0.0, 1.5, -1.5, NAN, -NAN, INFINITY, 1.0};
    ecow_value made = {{0}};
    ecow_text text = {{0}};
    const uint64_t draw = next_number(seed) % 12;
    switch (count < 8 ? draw % 5 : draw) {
    case 0:
        CHECK(ecow_value_set_truth(&made, next_number(seed) % 2) == ECOW_OK);
        break;
    case 1:
        CHECK(ecow_value_set_number(&made, (int64_t)(next_number(seed) % 3) - 1) == ECOW_OK);
        break;
    case 2:
        CHECK(ecow_value_set_real(&made, reals[next_number(seed) % 8]) == ECOW_OK);
        break;
    case 3:
        CHECK(ecow_text_assign(&text, "bbbbbbbbbbbbbbbbbb", next_number(seed) % 2 ? 1 : 18) == ECOW_OK);
        CHECK(ecow_value_set_text(&made, &text) == ECOW_OK);
        ecow_text_drop(&text);
        break;
    case 4:
        break;
    default:
        CHECK((draw % 2 ? ecow_value_set_list : ecow_value_set_fields)(&made) == ECOW_OK);
        for (uint64_t left = next_number(seed) % 4; left; left--) {
            const ecow_value *part = before + next_number(seed) % count;
            CHECK((draw % 2 ? ecow_value_push(&made, part)
                            : ecow_value_set_field(&made, left % 2 ? "a" : "b", 1, part)) == ECOW_OK);
        }
    }
    return made;
}

/* Compares values that share parts in every way with the proved equality, which visits each part. */
static void orders(void) {
    enum { COUNT = 120 };
    ecow_value values[COUNT] = {{{0}}};
    uint64_t seed = 7;
    long equal = 0;
    for (size_t at = 0; at < COUNT; at++) {
        values[at] = any_value(&seed, values, at);
    }
    for (size_t left = 0; left < COUNT; left++) {
        for (size_t right = 0; right < COUNT; right++) {
            ecow_value *one = &values[left], *other = &values[right];
            const bool are_equal = ecow_proved_value_equal(&one, &other);
            const int order = ecow_value_compare(one, other);
            CHECK(ecow_value_equal(one, other) == are_equal && (order == 0) == are_equal);
            CHECK((ecow_value_compare(other, one) > 0) == (order < 0));
            CHECK(!are_equal || ecow_value_hash(one) == ecow_value_hash(other));
            CHECK(ecow_value_kind(one) >= ecow_value_kind(other) || order < 0);
            for (size_t third = 0; third < COUNT && order <= 0; third += 7) {
                CHECK(ecow_value_compare(other, values + third) > 0
                      || ecow_value_compare(one, values + third) <= 0);
            }
            equal += are_equal;
        }
    }
    CHECK(equal > 2 * COUNT && equal < COUNT * COUNT / 4);
    CHECK(ecow_value_compare(NULL, values) < 0 && ecow_value_compare(values, NULL) > 0);
    CHECK(ecow_value_compare(NULL, NULL) == 0 && ecow_value_hash(NULL) == ecow_value_hash(NULL));
    for (size_t at = 0; at < COUNT; at++) {
        ecow_value_drop(&values[at]);
    }
}

/* Values that were made apart, in which each level holds the one below twice: 2^400 parts. */
static void doubled(void) {
    ecow_value values[3] = {{{0}}};
    for (size_t at = 0; at < 3; at++) {
        CHECK(ecow_value_set_number(&values[at], at == 2 ? 8 : 7) == ECOW_OK);
        for (int level = 0; level < 400; level++) {
            ecow_value around = {{0}};
            CHECK(ecow_value_set_list(&around) == ECOW_OK);
            CHECK(ecow_value_push(&around, &values[at]) == ECOW_OK);
            CHECK(ecow_value_push(&around, &values[at]) == ECOW_OK);
            ecow_value_drop(&values[at]);
            values[at] = around;
        }
    }
    CHECK(ecow_value_equal(&values[0], &values[1]) && !ecow_value_equal(&values[0], &values[2]));
    CHECK(ecow_value_compare(&values[0], &values[1]) == 0);
    CHECK(ecow_value_compare(&values[1], &values[2]) < 0);
    CHECK(ecow_value_hash(&values[0]) == ecow_value_hash(&values[1]));
    CHECK(ecow_value_hash(&values[0]) != ecow_value_hash(&values[2]));
    for (size_t at = 0; at < 3; at++) {
        ecow_value_drop(&values[at]);
    }
}

int main(void) {
    take_no_buffer();
    states_of_list();
    states_of_triples();
    states_of_bytes();
    states_of_text();
    states_of_texts();
    states_of_value(false);
    states_of_value(true);
    orders();
    doubled();
    CHECK(compared == 5 * (1 + 12 * LENGTHS) + 2 * (1 + 6 * LENGTHS));
    printf("layout: %ld checks\n", checks);
    return 0;
}
