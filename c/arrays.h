/* The calls that kinds whose items stand in one array have in common. A comment names what each
 * definition makes. It is included before `values.h`, with one name more:
 *     CAN_CUT(value, index)   whether an index isn't inside a character */

/* What a call answers of an array that no memory holds, put in place of a range.
 * ecow_list_refuse, ecow_bytes_refuse, ecow_text_refuse */
static ecow_status CALL(refuse)(const VALUE *value, size_t start, size_t end, const ITEM *items,
                                size_t count) {
    size_t len = CALL(len)(value);
    if (!value || !items) {
        return ECOW_NULL;
    }
    if (start > end || end > len) {
        return ECOW_INDEX;
    }
    if (!CAN_CUT(value, start) || !CAN_CUT(value, end)) {
        return ECOW_BOUNDARY;
    }
    return count > PTRDIFF_MAX - (len - (end - start)) ? ECOW_CAPACITY : ECOW_MEMORY;
}

/* An array that a call was given, as it stays while the value changes.
 * ecow_list_array, ecow_bytes_array, ecow_text_array */
typedef struct CALL(array) {
    const ITEM *items;
    bool is_copied;
    VALUE copy;
} CALL(array);

/* Keeps an array: one that lies in the value is copied.
 * ecow_list_keep, ecow_bytes_keep, ecow_text_keep */
static inline ecow_status CALL(keep)(CALL(array) * array, const VALUE *value, const ITEM *items,
                                     size_t count) {
    size_t len, size = count * sizeof(ITEM);
    const ITEM *all = CALL(slice)(value, &len);
    array->items = items ? items : (const ITEM *)nothing;
    array->is_copied = false;
    if (!value || (!items && count)) {
        return ECOW_NULL;
    }
    if (overlap(items, size, value, sizeof(VALUE))
        || overlap(items, size, all, len * sizeof(ITEM))) {
        VALUE *copy = &array->copy;
        array->is_copied = true;
        array->copy = CALL(new)();
        ecow_status status = PROVED(assign)(&copy, items, count);
        array->items = CALL(slice)(copy, NULL);
        return status;
    }
    return ECOW_OK;
}

/* ecow_list_let_go, ecow_bytes_let_go, ecow_text_let_go */
static void CALL(let_go)(CALL(array) * array) {
    if (array->is_copied) {
        CALL(drop)(&array->copy);
    }
}

/* ecow_list_assign, ecow_bytes_assign, ecow_text_assign */
ecow_status CALL(assign)(VALUE *value, const ITEM *items, size_t count) {
    CALL(array) array;
    if (count >= PAST_MEMORY) {
        return CALL(refuse)(value, 0, CALL(len)(value), items, count);
    }
    ecow_status status = CALL(keep)(&array, value, items, count);
    if (status == ECOW_OK) {
        status = PROVED(assign)(&value, array.items, count);
    }
    CALL(let_go)(&array);
    return status;
}

/* ecow_list_extend, ecow_bytes_extend, ecow_text_extend */
ecow_status CALL(extend)(VALUE *value, const ITEM *items, size_t count) {
    CALL(array) array;
    if (count >= PAST_MEMORY) {
        size_t len = CALL(len)(value);
        return CALL(refuse)(value, len, len, items, count);
    }
    ecow_status status = CALL(keep)(&array, value, items, count);
    if (status == ECOW_OK) {
        status = PROVED(extend)(&value, array.items, count);
    }
    CALL(let_go)(&array);
    return status;
}

/* ecow_list_splice, ecow_bytes_splice, ecow_text_splice */
ecow_status CALL(splice)(VALUE *value, size_t start, size_t end, const ITEM *items, size_t count) {
    CALL(array) array;
    if (count >= PAST_MEMORY) {
        return CALL(refuse)(value, start, end, items, count);
    }
    ecow_status status = CALL(keep)(&array, value, items, count);
    if (status == ECOW_OK) {
        status = PROVED(splice)(&value, start, end, array.items, count);
    }
    CALL(let_go)(&array);
    return status;
}
