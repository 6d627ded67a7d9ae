/* The calls that lists and bytes have in common, for one item. It is included before `values.h`. A
 * comment names what each definition makes. */

/* ecow_list_edit, ecow_bytes_edit. A request for no more capacity copies what is shared, and leaves
 * all else as it is. */
ecow_status CALL(edit)(VALUE *value, ITEM **items, size_t *len) {
    ecow_status status = PROVED(reserve)(&value, 0);
    if (status == ECOW_OK) {
        ITEM *all = (ITEM *)CALL(slice)(value, len);
        if (items) {
            *items = all;
        }
    }
    return status;
}

/* ecow_list_get, ecow_bytes_get */
ecow_status CALL(get)(const VALUE *value, size_t index, ITEM *out) {
    VALUE *place = (VALUE *)value;
    ITEM ignored = 0;
    return PROVED(get)(&place, index, out ? out : &ignored);
}

/* ecow_list_set, ecow_bytes_set */
ecow_status CALL(set)(VALUE *value, size_t index, ITEM item) {
    return PROVED(set)(&value, index, item);
}

/* ecow_list_push, ecow_bytes_push */
ecow_status CALL(push)(VALUE *value, ITEM item) {
    return PROVED(push)(&value, item);
}

/* ecow_list_pop, ecow_bytes_pop */
ecow_status CALL(pop)(VALUE *value, ITEM *out) {
    ITEM ignored = 0;
    return PROVED(pop)(&value, out ? out : &ignored);
}

/* ecow_list_insert, ecow_bytes_insert */
ecow_status CALL(insert)(VALUE *value, size_t index, ITEM item) {
    return PROVED(insert)(&value, index, item);
}

/* ecow_list_remove, ecow_bytes_remove */
ecow_status CALL(remove)(VALUE *value, size_t index, ITEM *out) {
    ITEM ignored = 0;
    return PROVED(remove)(&value, index, out ? out : &ignored);
}
