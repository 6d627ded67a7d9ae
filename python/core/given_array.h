/* What lists, arrays and bytes, whose items are given and stand in one run, do for `sequence.h`. It
 * is included before that, with the same names and one more:
 *     AT(value, items, index)    where an item stands among those of a value */

static ecow_status OWN(add_given)(VALUE *value, const GIVEN *given) {
    return CALL(extend)(value, given->items, (size_t)given->count);
}

static ecow_status OWN(put_given)(VALUE *value, size_t start, size_t end, const GIVEN *given) {
    return CALL(splice)(value, start, end, given->items, (size_t)given->count);
}

static ecow_status OWN(set_given)(VALUE *value, size_t index, const GIVEN *given, size_t from) {
    return CALL(set)(value, index, PASS(*AT(value, given->items, from)));
}

static ecow_status OWN(add_part)(VALUE *to, const VALUE *from, Py_ssize_t start, Py_ssize_t step,
                                 Py_ssize_t count) {
    const ITEM *items = CALL(slice)(from, NULL);
    if (step == 1) {
        return CALL(extend)(to, AT(from, items, start), (size_t)count);
    }
    ecow_status status = CALL(reserve)(to, (size_t)count);
    for (Py_ssize_t at = 0; at < count && status == ECOW_OK; at++) {
        status = CALL(push)(to, PASS(*AT(from, items, start + at * step)));
    }
    return status;
}
