/* What the static library of the crate `ecow_c` exports. Its contracts stand in the crate's source.
 * A value is given by the address of a pointer to it, and an array by its start and its count, which
 * is of bytes for an `ecow_array`.
 * `ecow.h` declares `_clone` and `_drop`, and reads what `_len`, `_slice` and `_at` answer. */
#ifndef ECOW_PROVED_H
#define ECOW_PROVED_H

#include "ecow.h"

/* What lists, bytes, a text and texts have alike. */
#define PROVED_CALLS(kind)                                                                         \
    ecow_status ecow_proved_##kind##_truncate(ecow_##kind **value, size_t len);                    \
    ecow_status ecow_proved_##kind##_clear(ecow_##kind **value);                                   \
    ecow_status ecow_proved_##kind##_reserve(ecow_##kind **value, size_t additional);              \
    size_t ecow_proved_##kind##_capacity(ecow_##kind **value);                                     \
    ecow_status ecow_proved_##kind##_shrink_to_fit(ecow_##kind **value);                           \
    bool ecow_proved_##kind##_equal(ecow_##kind **left, ecow_##kind **right);                      \
    int32_t ecow_proved_##kind##_compare(ecow_##kind **left, ecow_##kind **right);                 \
    uint64_t ecow_proved_##kind##_hash(ecow_##kind **value);

/* The calls that take an array. */
#define PROVED_ARRAYS(kind, item)                                                                  \
    ecow_status ecow_proved_##kind##_assign(ecow_##kind **value, const item *items, size_t count); \
    ecow_status ecow_proved_##kind##_extend(ecow_##kind **value, const item *items, size_t count); \
    ecow_status ecow_proved_##kind##_splice(ecow_##kind **value, size_t start, size_t end,         \
                                            const item *items, size_t count);

/* The calls on one item. */
#define PROVED_ITEMS(kind, item)                                                                   \
    ecow_status ecow_proved_##kind##_get(ecow_##kind **value, size_t index, item *out);            \
    ecow_status ecow_proved_##kind##_set(ecow_##kind **value, size_t index, item one);             \
    ecow_status ecow_proved_##kind##_push(ecow_##kind **value, item one);                          \
    ecow_status ecow_proved_##kind##_pop(ecow_##kind **value, item *out);                          \
    ecow_status ecow_proved_##kind##_insert(ecow_##kind **value, size_t index, item one);          \
    ecow_status ecow_proved_##kind##_remove(ecow_##kind **value, size_t index, item *out);

PROVED_CALLS(list)
PROVED_ARRAYS(list, int64_t)
PROVED_ITEMS(list, int64_t)

ecow_status ecow_proved_array_assign(ecow_array **value, size_t size, const void *items,
                                     size_t count);
ecow_status ecow_proved_array_set(ecow_array **value, size_t index, const void *item, size_t size);
ecow_status ecow_proved_array_push(ecow_array **value, const void *item, size_t size);
ecow_status ecow_proved_array_remove(ecow_array **value, size_t index, void *out, size_t size);
ecow_status ecow_proved_array_truncate(ecow_array **value, size_t size, size_t len);
ecow_status ecow_proved_array_clear(ecow_array **value);
ecow_status ecow_proved_array_reserve(ecow_array **value, size_t size, size_t additional);
size_t ecow_proved_array_capacity(ecow_array **value, size_t size);
ecow_status ecow_proved_array_shrink_to_fit(ecow_array **value);
ecow_status ecow_proved_array_extend(ecow_array **value, size_t size, const void *items,
                                     size_t count);
ecow_status ecow_proved_array_splice(ecow_array **value, size_t size, size_t start, size_t end,
                                     const void *items, size_t count);
bool ecow_proved_array_equal(ecow_array **left, ecow_array **right);
uint64_t ecow_proved_array_hash(ecow_array **value);

PROVED_CALLS(bytes)
PROVED_ARRAYS(bytes, uint8_t)
PROVED_ITEMS(bytes, uint8_t)

PROVED_CALLS(text)
PROVED_ARRAYS(text, char)
PROVED_CALLS(texts)

ecow_status ecow_proved_text_get(ecow_text **value, size_t index, uint32_t *out);
ecow_status ecow_proved_text_push(ecow_text **value, uint32_t character);
ecow_status ecow_proved_text_pop(ecow_text **value, uint32_t *out);
ecow_status ecow_proved_text_insert(ecow_text **value, size_t index, const char *items,
                                    size_t count);
ecow_status ecow_proved_text_remove(ecow_text **value, size_t index, uint32_t *out);
ecow_status ecow_proved_text_replace(ecow_text **value, const char *pattern, size_t pattern_count,
                                     const char *replacement, size_t replacement_count);
ecow_status ecow_proved_text_to_lowercase(ecow_text **value);
ecow_status ecow_proved_text_to_uppercase(ecow_text **value);
ecow_status ecow_proved_text_repeat(ecow_text **value, size_t count);
bool ecow_proved_text_is_boundary(ecow_text **value, size_t index);
bool ecow_proved_is_utf8(const char *bytes, size_t count);

ecow_status ecow_proved_texts_get(ecow_texts **value, size_t index, ecow_text **out);
ecow_status ecow_proved_texts_set(ecow_texts **value, size_t index, ecow_text **item);
ecow_status ecow_proved_texts_push(ecow_texts **value, ecow_text **item);
ecow_status ecow_proved_texts_pop(ecow_texts **value, ecow_text **out);
ecow_status ecow_proved_texts_insert(ecow_texts **value, size_t index, ecow_text **item);
ecow_status ecow_proved_texts_remove(ecow_texts **value, size_t index, ecow_text **out);
ecow_status ecow_proved_texts_extend(ecow_texts **value, ecow_texts **added);
ecow_status ecow_proved_texts_splice(ecow_texts **value, size_t start, size_t end,
                                     ecow_texts **added);

uint32_t ecow_proved_value_kind(ecow_value **value);
ecow_status ecow_proved_value_set_truth(ecow_value **value, bool truth);
ecow_status ecow_proved_value_set_number(ecow_value **value, int64_t number);
ecow_status ecow_proved_value_set_real(ecow_value **value, double real);
ecow_status ecow_proved_value_set_text(ecow_value **value, ecow_text **text);
ecow_status ecow_proved_value_set_list(ecow_value **value);
ecow_status ecow_proved_value_set_fields(ecow_value **value);
ecow_status ecow_proved_value_truth(ecow_value **value, bool *out);
ecow_status ecow_proved_value_number(ecow_value **value, int64_t *out);
ecow_status ecow_proved_value_real(ecow_value **value, double *out);
ecow_status ecow_proved_value_text(ecow_value **value, ecow_text **out);
size_t ecow_proved_value_len(ecow_value **value);
uint32_t ecow_proved_value_depth(ecow_value **value);
ecow_status ecow_proved_value_get(ecow_value **value, size_t index, ecow_value **out);
ecow_status ecow_proved_value_set(ecow_value **value, size_t index, ecow_value **item);
ecow_status ecow_proved_value_swap(ecow_value **value, size_t index, ecow_value **other);
ecow_status ecow_proved_value_push(ecow_value **value, ecow_value **item);
ecow_status ecow_proved_value_pop(ecow_value **value, ecow_value **out);
ecow_status ecow_proved_value_insert(ecow_value **value, size_t index, ecow_value **item);
ecow_status ecow_proved_value_remove(ecow_value **value, size_t index, ecow_value **out);
ecow_status ecow_proved_value_truncate(ecow_value **value, size_t len);
ecow_status ecow_proved_value_get_field(ecow_value **value, const char *name, size_t count,
                                        ecow_value **out);
ecow_status ecow_proved_value_position(ecow_value **value, const char *name, size_t count,
                                       size_t *index);
ecow_status ecow_proved_value_set_field(ecow_value **value, const char *name, size_t count,
                                        ecow_value **item);
ecow_status ecow_proved_value_push_field(ecow_value **value, const char *name, size_t count,
                                         ecow_value **item);
ecow_status ecow_proved_value_swap_field(ecow_value **value, const char *name, size_t count,
                                         ecow_value **other);
ecow_status ecow_proved_value_remove_field(ecow_value **value, const char *name, size_t count,
                                           ecow_value **out);
ecow_status ecow_proved_value_get_at(ecow_value **value, ecow_value **path, ecow_value **out);
ecow_status ecow_proved_value_set_at(ecow_value **value, ecow_value **path, ecow_value **item);
ecow_status ecow_proved_value_swap_at(ecow_value **value, ecow_value **path, ecow_value **other);
ecow_status ecow_proved_value_field_name(ecow_value **value, size_t index, ecow_text **out);
bool ecow_proved_value_equal(ecow_value **left, ecow_value **right);

#endif
