/* The calls that all kinds of value have in common. It is included once for each, with VALUE, CALL
 * and PROVED of `ecow.c`, the type of its ITEM, and one name more:
 *     SLICE(value, len)   where the items lie, and how many they are
 * KIND and ITEM end with it. A comment names what each definition makes. */

/* ecow_list_new, ecow_array_new, ecow_bytes_new, ecow_text_new, ecow_texts_new */
VALUE CALL(new)(void) {
    VALUE value = {{0}};
    return value;
}

/* ecow_list_drop, ecow_array_drop, ecow_bytes_drop, ecow_text_drop, ecow_texts_drop */
extern inline void CALL(drop)(VALUE *value);

/* ecow_list_clone, ecow_array_clone, ecow_bytes_clone, ecow_text_clone, ecow_texts_clone */
extern inline ecow_status CALL(clone)(VALUE *to, const VALUE *from);

/* ecow_list_clear, ecow_array_clear, ecow_bytes_clear, ecow_text_clear, ecow_texts_clear */
ecow_status CALL(clear)(VALUE *value) {
    return PROVED(clear)(&value);
}

/* ecow_list_shrink_to_fit, ecow_array_shrink_to_fit, ecow_bytes_shrink_to_fit,
 * ecow_text_shrink_to_fit, ecow_texts_shrink_to_fit */
ecow_status CALL(shrink_to_fit)(VALUE *value) {
    return PROVED(shrink_to_fit)(&value);
}

/* A block holds its items in one place alone, and those of a struct stand in none.
 * ecow_list_shares, ecow_array_shares, ecow_bytes_shares, ecow_text_shares, ecow_texts_shares */
bool CALL(shares)(const VALUE *left, const VALUE *right) {
    size_t len, other_len;
    const ITEM *items = SLICE(left, &len);
    return items == SLICE(right, &other_len) && len > 0 && len == other_len
           && !overlap(items, 1, left, sizeof(VALUE));
}

/* ecow_list_equal, ecow_array_equal, ecow_bytes_equal, ecow_text_equal, ecow_texts_equal */
bool CALL(equal)(const VALUE *left, const VALUE *right) {
    VALUE *first = (VALUE *)left, *second = (VALUE *)right;
    return left == right || CALL(shares)(left, right) || PROVED(equal)(&first, &second);
}

/* ecow_list_hash, ecow_array_hash, ecow_bytes_hash, ecow_text_hash, ecow_texts_hash */
uint64_t CALL(hash)(const VALUE *value) {
    VALUE *place = (VALUE *)value;
    return PROVED(hash)(&place);
}

#ifndef SIZED
/* ecow_list_len, ecow_bytes_len, ecow_text_len, ecow_texts_len */
extern inline size_t CALL(len)(const VALUE *value);

/* ecow_list_slice, ecow_bytes_slice, ecow_text_slice, ecow_texts_slice */
extern inline const ITEM *CALL(slice)(const VALUE *value, size_t *len);

/* ecow_list_truncate, ecow_bytes_truncate, ecow_text_truncate, ecow_texts_truncate */
ecow_status CALL(truncate)(VALUE *value, size_t len) {
    return PROVED(truncate)(&value, len);
}

/* ecow_list_reserve, ecow_bytes_reserve, ecow_text_reserve, ecow_texts_reserve */
ecow_status CALL(reserve)(VALUE *value, size_t additional) {
    return PROVED(reserve)(&value, additional);
}

/* ecow_list_capacity, ecow_bytes_capacity, ecow_text_capacity, ecow_texts_capacity */
size_t CALL(capacity)(const VALUE *value) {
    VALUE *place = (VALUE *)value;
    return PROVED(capacity)(&place);
}

/* ecow_list_compare, ecow_bytes_compare, ecow_text_compare, ecow_texts_compare */
int CALL(compare)(const VALUE *left, const VALUE *right) {
    VALUE *first = (VALUE *)left, *second = (VALUE *)right;
    return left == right || CALL(shares)(left, right) ? 0 : PROVED(compare)(&first, &second);
}
#endif

#undef KIND
#undef ITEM
