/* The calls on arrays, which are given the size of an item. Those that other kinds have too are in
 * `values.h`. */

/* What a call answers of items that no memory holds, put in place of a range. */
static ecow_status refuse_items(const ecow_array *array, size_t size, size_t start, size_t end,
                                size_t count) {
    const size_t len = ecow_array_len(array, size);
    if (ecow_array_len(array, 1) % size) {
        return ECOW_KIND;
    }
    if (start > end || end > len) {
        return ECOW_INDEX;
    }
    return count > PTRDIFF_MAX / size - (len - (end - start)) ? ECOW_CAPACITY : ECOW_MEMORY;
}

/* Makes a call on an array that is given `count` items, and returns `refused` where no memory holds
 * them. Items that lie in the array, or across its struct, are copied first. */
#define GIVE(array, size, items, count, bytes, refused, call)                                \
    size_t bytes, held;                                                                      \
    const void *all = ecow_array_slice(array, 1, &held);                                     \
    if (!array || (!items && count)) {                                                       \
        return ECOW_NULL;                                                                    \
    }                                                                                        \
    if (__builtin_mul_overflow(size, count, &bytes) || bytes >= PAST_MEMORY) {               \
        return refused;                                                                      \
    }                                                                                        \
    if (!overlap(items, bytes, all, held) && !overlap(items, bytes, array, sizeof *array)) { \
        items = items ? items : nothing;                                                     \
        return call;                                                                         \
    }                                                                                        \
    ecow_array copy = {{0}}, *place = &copy;                                                 \
    ecow_status status = ecow_proved_array_assign(&place, 1, items, bytes);                  \
    items = ecow_array_slice(&copy, 1, NULL);                                                \
    status = status ? status : call;                                                         \
    ecow_array_drop(&copy);                                                                  \
    return status

extern inline size_t ecow_array_len(const ecow_array *array, size_t size);

extern inline const void *ecow_array_slice(const ecow_array *array, size_t size, size_t *len);

extern inline const void *ecow_array_at(const ecow_array *array, size_t size, size_t index);

ecow_status ecow_array_assign(ecow_array *array, size_t size, const void *items, size_t count) {
    GIVE(array, size, items, count, bytes, refuse_items(NULL, size, 0, 0, count),
         ecow_proved_array_assign(&array, size, items, bytes));
}

/* A request for no more capacity copies what is shared, and leaves all else as it is. */
ecow_status ecow_array_edit(ecow_array *array, size_t size, void **items, size_t *len) {
    ecow_status status = ecow_proved_array_reserve(&array, size, 0);
    if (status == ECOW_OK) {
        void *all = (void *)ecow_array_slice(array, size, len);
        if (items) {
            *items = all;
        }
    }
    return status;
}

ecow_status ecow_array_set(ecow_array *array, size_t size, size_t index, const void *item) {
    GIVE(array, size, item, 1, bytes, refuse_items(array, size, index, index + 1, 1),
         ecow_proved_array_set(&array, index, item, bytes));
}

ecow_status ecow_array_push(ecow_array *array, size_t size, const void *item) {
    GIVE(array, size, item, 1, bytes,
         refuse_items(array, size, ecow_array_len(array, size), ecow_array_len(array, size), 1),
         ecow_proved_array_push(&array, item, bytes));
}

ecow_status ecow_array_pop(ecow_array *array, size_t size, void *item) {
    return ecow_array_remove(array, size, ecow_array_len(array, size) - 1, item);
}

ecow_status ecow_array_insert(ecow_array *array, size_t size, size_t index, const void *item) {
    return ecow_array_splice(array, size, index, index, item, 1);
}

ecow_status ecow_array_remove(ecow_array *array, size_t size, size_t index, void *item) {
    return item && size < PAST_MEMORY
               ? ecow_proved_array_remove(&array, index, item, size)
               : ecow_proved_array_splice(&array, size, index, index + 1, nothing, 0);
}

ecow_status ecow_array_truncate(ecow_array *array, size_t size, size_t len) {
    return ecow_proved_array_truncate(&array, size, len);
}

ecow_status ecow_array_reserve(ecow_array *array, size_t size, size_t additional) {
    return ecow_proved_array_reserve(&array, size, additional);
}

size_t ecow_array_capacity(const ecow_array *array, size_t size) {
    ecow_array *place = (ecow_array *)array;
    return ecow_proved_array_capacity(&place, size);
}

ecow_status ecow_array_extend(ecow_array *array, size_t size, const void *items, size_t count) {
    GIVE(array, size, items, count, bytes,
         refuse_items(array, size, ecow_array_len(array, size), ecow_array_len(array, size), count),
         ecow_proved_array_extend(&array, size, items, bytes));
}

ecow_status ecow_array_splice(ecow_array *array, size_t size, size_t start, size_t end,
                              const void *items, size_t count) {
    GIVE(array, size, items, count, bytes, refuse_items(array, size, start, end, count),
         ecow_proved_array_splice(&array, size, start, end, items, bytes));
}
