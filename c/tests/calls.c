/* Every call of the header once, or more often: its result, each status that it can answer, and
 * what it leaves. Requests for memory aren't refused here. */
#include "check.h"

static void lists(void) {
    const int64_t numbers[] = {5, -7, INT64_MAX, INT64_MIN};
    ecow_list list = ecow_list_new(), clone = {{0}};
    int64_t out = 99;
    CHECK(list_holds(&list, NULL, 0) && ecow_list_slice(&list, NULL) != NULL);
    CHECK(ecow_list_pop(&list, &out) == ECOW_INDEX && out == 99);
    CHECK(ecow_list_assign(&list, numbers, 4) == ECOW_OK && list_holds(&list, numbers, 4));
    CHECK(ecow_list_get(&list, 3, &out) == ECOW_OK && out == INT64_MIN);
    CHECK(ecow_list_get(&list, 0, NULL) == ECOW_OK);
    CHECK(ecow_list_get(&list, 4, &out) == ECOW_INDEX && out == INT64_MIN);
    CHECK(ecow_list_clone(&clone, &list) == ECOW_OK);
    CHECK(ecow_list_slice(&clone, NULL) == ecow_list_slice(&list, NULL));
    CHECK(ecow_list_set(&list, 1, 8) == ECOW_OK && list_holds(&clone, numbers, 4));
    CHECK(list_holds(&list, (int64_t[]){5, 8, INT64_MAX, INT64_MIN}, 4));
    CHECK(ecow_list_set(&list, 4, 8) == ECOW_INDEX);
    CHECK(ecow_list_push(&list, 9) == ECOW_OK && ecow_list_len(&list) == 5);
    CHECK(ecow_list_pop(&list, &out) == ECOW_OK && out == 9);
    CHECK(ecow_list_pop(&list, NULL) == ECOW_OK && ecow_list_len(&list) == 3);
    CHECK(ecow_list_insert(&list, 3, 1) == ECOW_OK && ecow_list_insert(&list, 0, 2) == ECOW_OK);
    CHECK(ecow_list_insert(&list, 6, 1) == ECOW_INDEX);
    CHECK(list_holds(&list, (int64_t[]){2, 5, 8, INT64_MAX, 1}, 5));
    CHECK(ecow_list_remove(&list, 3, &out) == ECOW_OK && out == INT64_MAX);
    CHECK(ecow_list_remove(&list, 0, NULL) == ECOW_OK);
    CHECK(ecow_list_remove(&list, 3, &out) == ECOW_INDEX && out == INT64_MAX);
    CHECK(list_holds(&list, (int64_t[]){5, 8, 1}, 3));
    CHECK(ecow_list_extend(&list, numbers, 2) == ECOW_OK
          && ecow_list_extend(&list, NULL, 0) == ECOW_OK);
    CHECK(list_holds(&list, (int64_t[]){5, 8, 1, 5, -7}, 5));
    CHECK(ecow_list_splice(&list, 1, 4, numbers + 2, 1) == ECOW_OK);
    CHECK(list_holds(&list, (int64_t[]){5, INT64_MAX, -7}, 3));
    CHECK(ecow_list_splice(&list, 3, 3, numbers, 1) == ECOW_OK && ecow_list_len(&list) == 4);
    CHECK(ecow_list_splice(&list, 2, 1, numbers, 1) == ECOW_INDEX);
    CHECK(ecow_list_splice(&list, 0, 5, numbers, 1) == ECOW_INDEX);
    CHECK(ecow_list_truncate(&list, 9) == ECOW_OK && ecow_list_len(&list) == 4);
    CHECK(ecow_list_truncate(&list, 2) == ECOW_OK
          && list_holds(&list, (int64_t[]){5, INT64_MAX}, 2));
    CHECK(ecow_list_reserve(&list, 100) == ECOW_OK && ecow_list_len(&list) == 2);
    CHECK(ecow_list_reserve(&list, SIZE_MAX) == ECOW_CAPACITY);
    CHECK(ecow_list_extend(&list, numbers, SIZE_MAX) == ECOW_CAPACITY);
    const int64_t *before = ecow_list_slice(&list, NULL);
    CHECK(ecow_list_clear(&list) == ECOW_OK && list_holds(&list, NULL, 0));
    CHECK(ecow_list_push(&list, 3) == ECOW_OK && ecow_list_slice(&list, NULL) == before);
    ecow_list_drop(&list);
    CHECK(list_holds(&list, NULL, 0) && list_holds(&clone, numbers, 4));
    ecow_list_drop(&list);
    ecow_list_drop(&clone);
}

/* What is written in place is the value's own: a clone made before keeps its items, and a sole value
 * keeps its memory. */
static void edits_in_place(void) {
    ecow_list list = {{0}}, copy = {{0}};
    ecow_bytes bytes = {{0}}, few = {{0}};
    int64_t *numbers = NULL;
    uint8_t *items = NULL;
    size_t len = 99;
    CHECK(ecow_list_edit(&list, &numbers, &len) == ECOW_OK && numbers && len == 0);
    CHECK(ecow_list_assign(&list, (int64_t[]){3, 1, 2}, 3) == ECOW_OK);
    const int64_t *before = ecow_list_slice(&list, NULL);
    CHECK(ecow_list_edit(&list, &numbers, &len) == ECOW_OK && numbers == before && len == 3);
    CHECK(ecow_list_clone(&copy, &list) == ECOW_OK);
    CHECK(ecow_list_edit(&list, &numbers, &len) == ECOW_OK && numbers != before && len == 3);
    CHECK(numbers == ecow_list_slice(&list, NULL) && before == ecow_list_slice(&copy, NULL));
    numbers[0] = 7;
    CHECK(list_holds(&list, (int64_t[]){7, 1, 2}, 3) && list_holds(&copy, (int64_t[]){3, 1, 2}, 3));
    CHECK(ecow_list_edit(&copy, NULL, NULL) == ECOW_OK);
    CHECK(ecow_list_edit(NULL, &numbers, &len) == ECOW_NULL && numbers[0] == 7 && len == 3);
    CHECK(ecow_bytes_assign(&few, (const uint8_t *)"few", 3) == ECOW_OK);
    CHECK(ecow_bytes_clone(&bytes, &few) == ECOW_OK);
    CHECK(ecow_bytes_edit(&bytes, &items, &len) == ECOW_OK && len == 3);
    items[0] = 'n';
    CHECK(bytes_hold(&bytes, "new", 3) && bytes_hold(&few, "few", 3));
    CHECK(ecow_bytes_assign(&few, (const uint8_t *)"sixteen or more..", 17) == ECOW_OK);
    CHECK(ecow_bytes_clone(&bytes, &few) == ECOW_OK);
    CHECK(ecow_bytes_edit(&bytes, &items, &len) == ECOW_OK && len == 17);
    items[0] = 'S';
    CHECK(bytes_hold(&bytes, "Sixteen or more..", 17) && bytes_hold(&few, "sixteen or more..", 17));
    ecow_list_drop(&list);
    ecow_list_drop(&copy);
    ecow_bytes_drop(&bytes);
    ecow_bytes_drop(&few);
}

static void orders_of_lists(void) {
    ecow_list left = {{0}}, right = {{0}};
    CHECK(ecow_list_equal(&left, &right) && ecow_list_compare(&left, &right) == 0);
    CHECK(ecow_list_hash(&left) == ecow_list_hash(&right));
    CHECK(ecow_list_push(&left, -1) == ECOW_OK && !ecow_list_equal(&left, &right));
    CHECK(ecow_list_compare(&left, &right) > 0 && ecow_list_compare(&right, &left) < 0);
    CHECK(ecow_list_hash(&left) != ecow_list_hash(&right));
    CHECK(ecow_list_push(&right, 1) == ECOW_OK && ecow_list_compare(&left, &right) < 0);
    CHECK(ecow_list_push(&left, 5) == ECOW_OK && ecow_list_compare(&left, &right) < 0);
    CHECK(ecow_list_set(&right, 0, -1) == ECOW_OK && ecow_list_push(&right, 5) == ECOW_OK);
    CHECK(ecow_list_equal(&left, &right) && ecow_list_hash(&left) == ecow_list_hash(&right));
    /* What the hasher of Rust's standard library gives for the same. */
    CHECK(ecow_list_assign(&left, (int64_t[]){1, 2, 3}, 3) == ECOW_OK);
    CHECK(ecow_list_hash(&left) == UINT64_C(1561758979349565031));
    CHECK(ecow_list_equal(&left, &left) && ecow_list_compare(&left, &left) == 0);
    CHECK(ecow_list_equal(NULL, NULL) && !ecow_list_equal(&left, NULL)
          && !ecow_list_equal(NULL, &left));
    CHECK(ecow_list_compare(NULL, NULL) == 0 && ecow_list_compare(NULL, &left) < 0);
    CHECK(ecow_list_compare(&left, NULL) > 0);
    ecow_list_drop(&left);
    ecow_list_drop(&right);
}

/* Every call on an array whose items have this size. */
static void arrays_of(size_t size) {
    ecow_array array = ecow_array_new(), clone = {{0}};
    uint8_t out[4096], taken[4096];
    memset(out, 99, size);
    memset(taken, 99, size);
    CHECK(array_holds(&array, size, ""));
    CHECK(ecow_array_pop(&array, size, out) == ECOW_INDEX && memcmp(out, taken, size) == 0);
    CHECK(ecow_array_assign(&array, size, some_items(size, "abcd"), 4) == ECOW_OK);
    CHECK(array_holds(&array, size, "abcd") && !ecow_array_at(&array, size, SIZE_MAX));
    CHECK(ecow_array_clone(&clone, &array) == ECOW_OK && array_holds(&clone, size, "abcd"));
    CHECK(ecow_array_slice(&clone, size, NULL) == ecow_array_slice(&array, size, NULL));
    CHECK(ecow_array_set(&array, size, 1, some_items(size, "x")) == ECOW_OK);
    CHECK(array_holds(&array, size, "axcd") && array_holds(&clone, size, "abcd"));
    CHECK(ecow_array_set(&array, size, 4, some_items(size, "x")) == ECOW_INDEX);
    CHECK(ecow_array_set(&array, size, SIZE_MAX, some_items(size, "x")) == ECOW_INDEX);
    CHECK(ecow_array_set(&array, size, SIZE_MAX / size + (size > 1), some_items(size, "x")) == ECOW_INDEX);
    CHECK(ecow_array_push(&array, size, some_items(size, "e")) == ECOW_OK);
    CHECK(ecow_array_pop(&array, size, out) == ECOW_OK);
    CHECK(memcmp(out, some_items(size, "e"), size) == 0 && array_holds(&array, size, "axcd"));
    CHECK(ecow_array_pop(&array, size, NULL) == ECOW_OK && array_holds(&array, size, "axc"));
    CHECK(ecow_array_insert(&array, size, 3, some_items(size, "y")) == ECOW_OK);
    CHECK(ecow_array_insert(&array, size, 0, some_items(size, "z")) == ECOW_OK);
    CHECK(ecow_array_insert(&array, size, 6, some_items(size, "z")) == ECOW_INDEX);
    CHECK(ecow_array_insert(&array, size, SIZE_MAX, some_items(size, "z")) == ECOW_INDEX);
    CHECK(array_holds(&array, size, "zaxcy"));
    CHECK(ecow_array_remove(&array, size, 3, out) == ECOW_OK);
    CHECK(memcmp(out, some_items(size, "c"), size) == 0);
    CHECK(ecow_array_remove(&array, size, 0, NULL) == ECOW_OK);
    CHECK(ecow_array_remove(&array, size, 3, out) == ECOW_INDEX);
    CHECK(ecow_array_remove(&array, size, SIZE_MAX, NULL) == ECOW_INDEX);
    CHECK(memcmp(out, some_items(size, "c"), size) == 0 && array_holds(&array, size, "axy"));
    CHECK(ecow_array_extend(&array, size, some_items(size, "bc"), 2) == ECOW_OK);
    CHECK(ecow_array_extend(&array, size, NULL, 0) == ECOW_OK && array_holds(&array, size, "axybc"));
    CHECK(ecow_array_splice(&array, size, 1, 4, some_items(size, "q"), 1) == ECOW_OK);
    CHECK(array_holds(&array, size, "aqc"));
    CHECK(ecow_array_splice(&array, size, 3, 3, some_items(size, "rs"), 2) == ECOW_OK);
    CHECK(ecow_array_splice(&array, size, 0, 1, NULL, 0) == ECOW_OK);
    CHECK(ecow_array_splice(&array, size, 2, 1, some_items(size, "t"), 1) == ECOW_INDEX);
    CHECK(ecow_array_splice(&array, size, 0, 5, some_items(size, "t"), 1) == ECOW_INDEX);
    CHECK(ecow_array_splice(&array, size, 0, SIZE_MAX, NULL, 0) == ECOW_INDEX);
    CHECK(array_holds(&array, size, "qcrs") && array_holds(&clone, size, "abcd"));
    CHECK(ecow_array_truncate(&array, size, 4) == ECOW_OK && array_holds(&array, size, "qcrs"));
    CHECK(ecow_array_truncate(&array, size, SIZE_MAX) == ECOW_OK);
    CHECK(ecow_array_truncate(&array, size, SIZE_MAX / size + (size > 1)) == ECOW_OK);
    CHECK(ecow_array_truncate(&array, size, 2) == ECOW_OK && array_holds(&array, size, "qc"));
    CHECK(ecow_array_reserve(&array, size, 100) == ECOW_OK && array_holds(&array, size, "qc"));
    CHECK(ecow_array_capacity(&array, size) >= 102);
    CHECK(ecow_array_reserve(&array, size, SIZE_MAX) == ECOW_CAPACITY);
    CHECK(ecow_array_extend(&array, size, out, SIZE_MAX) == ECOW_CAPACITY);
    const void *before = ecow_array_slice(&array, size, NULL);
    CHECK(ecow_array_clear(&array) == ECOW_OK && array_holds(&array, size, ""));
    CHECK(ecow_array_push(&array, size, some_items(size, "a")) == ECOW_OK);
    CHECK(ecow_array_slice(&array, size, NULL) == before && array_holds(&array, size, "a"));
    CHECK(ecow_array_shrink_to_fit(&array) == ECOW_OK && array_holds(&array, size, "a"));
    CHECK(ecow_array_capacity(&array, size) == 1 && ecow_array_capacity(&array, 1) == size);
    ecow_array_drop(&array);
    CHECK(array_holds(&array, size, "") && array_holds(&clone, size, "abcd"));
    /* The first item makes room for four. */
    CHECK(ecow_array_push(&array, size, some_items(size, "a")) == ECOW_OK);
    CHECK(ecow_array_capacity(&array, size) == 4);
    ecow_array_drop(&array);
    CHECK(ecow_array_insert(&array, size, 0, some_items(size, "a")) == ECOW_OK);
    CHECK(ecow_array_capacity(&array, size) == 4);
    ecow_array_drop(&array);
    CHECK(ecow_array_extend(&array, size, some_items(size, "abcdef"), 6) == ECOW_OK);
    CHECK(ecow_array_capacity(&array, size) == 6 && array_holds(&array, size, "abcdef"));
    ecow_array_drop(&array);
    ecow_array_drop(&clone);
}

/* What is written in place is the array's own, and equality, hashes and sharing are of bytes. */
static void arrays_in_place(size_t size) {
    ecow_array array = {{0}}, copy = {{0}};
    void *items = NULL;
    size_t len = 99;
    CHECK(ecow_array_edit(&array, size, &items, &len) == ECOW_OK && items && len == 0);
    CHECK(ecow_array_equal(&array, &copy) && ecow_array_hash(&array) == ecow_array_hash(NULL));
    CHECK(ecow_array_assign(&array, size, some_items(size, "cab"), 3) == ECOW_OK);
    CHECK(!ecow_array_equal(&array, &copy) && !ecow_array_equal(&copy, &array));
    const void *before = ecow_array_slice(&array, size, NULL);
    CHECK(ecow_array_edit(&array, size, &items, &len) == ECOW_OK && items == before && len == 3);
    CHECK(ecow_array_clone(&copy, &array) == ECOW_OK && ecow_array_equal(&array, &copy));
    CHECK(ecow_array_shares(&array, &copy));
    CHECK(ecow_array_edit(&array, size, &items, &len) == ECOW_OK && items != before && len == 3);
    CHECK(items == ecow_array_slice(&array, size, NULL));
    CHECK(before == ecow_array_slice(&copy, size, NULL) && !ecow_array_shares(&array, &copy));
    CHECK(ecow_array_equal(&array, &copy) && ecow_array_hash(&array) == ecow_array_hash(&copy));
    uint8_t *last = (uint8_t *)items + 3 * size - 1;
    *last ^= 1;
    CHECK(!ecow_array_equal(&array, &copy) && ecow_array_hash(&array) != ecow_array_hash(&copy));
    CHECK(array_holds(&copy, size, "cab"));
    *last ^= 1;
    CHECK(array_holds(&array, size, "cab") && ecow_array_edit(&copy, size, NULL, NULL) == ECOW_OK);
    CHECK(ecow_array_edit(NULL, size, &items, &len) == ECOW_NULL && len == 3);
    CHECK(ecow_array_equal(NULL, NULL) && !ecow_array_equal(&array, NULL));
    CHECK(!ecow_array_equal(NULL, &array) && ecow_array_equal(&array, &array));
    CHECK(!ecow_array_shares(&array, NULL) && !ecow_array_shares(NULL, NULL));
    ecow_array_drop(&array);
    CHECK(!ecow_array_shares(&array, &array));
    ecow_array_drop(&copy);
}

/* Items of another size, and of none, are refused, and the array stays. */
static void sizes_of_items(size_t size) {
    const size_t wrongs[] = {0, 2 * size};
    ecow_array array = {{0}};
    uint8_t item[2 * 4096] = {0}, out[2 * 4096] = {0};
    void *items = NULL;
    size_t len = 99;
    CHECK(ecow_array_assign(&array, size, some_items(size, "abc"), 3) == ECOW_OK);
    for (size_t at = 0; at < 2; at++) {
        const size_t wrong = wrongs[at];
        CHECK(ecow_array_len(&array, wrong) == at);
        CHECK(ecow_array_set(&array, wrong, 9, item) == ECOW_KIND);
        CHECK(ecow_array_push(&array, wrong, item) == ECOW_KIND);
        CHECK(ecow_array_pop(&array, wrong, out) == ECOW_KIND && !memcmp(item, out, sizeof item));
        CHECK(ecow_array_pop(&array, wrong, NULL) == ECOW_KIND);
        CHECK(ecow_array_insert(&array, wrong, 9, item) == ECOW_KIND);
        CHECK(ecow_array_remove(&array, wrong, 0, out) == ECOW_KIND && !memcmp(item, out, sizeof item));
        CHECK(ecow_array_remove(&array, wrong, 9, NULL) == ECOW_KIND);
        CHECK(ecow_array_truncate(&array, wrong, 0) == ECOW_KIND);
        CHECK(ecow_array_reserve(&array, wrong, SIZE_MAX) == ECOW_KIND);
        CHECK(ecow_array_extend(&array, wrong, item, 1) == ECOW_KIND);
        CHECK(ecow_array_extend(&array, wrong, NULL, 0) == ECOW_KIND);
        CHECK(ecow_array_splice(&array, wrong, 2, 1, item, 1) == ECOW_KIND);
        CHECK(ecow_array_edit(&array, wrong, &items, &len) == ECOW_KIND && !items && len == 99);
        CHECK(array_holds(&array, size, "abc"));
    }
    CHECK(ecow_array_assign(&array, 0, item, 1) == ECOW_KIND && ecow_array_capacity(&array, 0) == 0);
    CHECK(ecow_array_extend(&array, 2 * size, item, SIZE_MAX) == ECOW_KIND);
    CHECK(ecow_array_splice(&array, 2 * size, 2, 1, item, SIZE_MAX) == ECOW_KIND);
    CHECK(ecow_array_set(&array, SIZE_MAX, 0, item) == ECOW_KIND);
    CHECK(ecow_array_push(&array, SIZE_MAX, item) == ECOW_KIND);
    CHECK(ecow_array_remove(&array, SIZE_MAX, 0, item) == ECOW_KIND);
    CHECK(!ecow_array_at(&array, 0, 0) && ecow_array_slice(&array, 0, &len) && len == 0);
    CHECK(array_holds(&array, size, "abc"));
    CHECK(ecow_array_assign(&array, 2 * size, some_items(2 * size, "a"), 1) == ECOW_OK);
    CHECK(array_holds(&array, 2 * size, "a") && ecow_array_len(&array, size) == 2);
    ecow_array_drop(&array);
    /* An empty one takes items of each size. */
    CHECK(ecow_array_set(&array, SIZE_MAX, 0, item) == ECOW_INDEX);
    CHECK(ecow_array_push(&array, (size_t)1 << 62, item) == ECOW_MEMORY);
    CHECK(ecow_array_push(&array, SIZE_MAX, item) == ECOW_CAPACITY);
    CHECK(ecow_array_insert(&array, SIZE_MAX, 0, item) == ECOW_CAPACITY);
    CHECK(ecow_array_reserve(&array, SIZE_MAX, 1) == ECOW_CAPACITY);
    CHECK(ecow_array_remove(&array, SIZE_MAX, 0, item) == ECOW_INDEX);
    CHECK(ecow_array_pop(&array, SIZE_MAX, NULL) == ECOW_INDEX && array_holds(&array, size, ""));
}

/* A type of the program's, by its own calls. */
struct point {
    double x, y;
};

ECOW_ARRAY(points, struct point)

static void typed_calls(void) {
    const struct point some[] = {{1, 2}, {3, 4}, {5, 6}};
    ecow_array array = {{0}};
    struct point *all = NULL, out = {0, 0};
    size_t len = 99;
    CHECK(points_push(&array, some[0]) == ECOW_OK && points_len(&array) == 1);
    CHECK(points_extend(&array, some, 3) == ECOW_OK && points_slice(&array, &len)[3].y == 6);
    CHECK(len == 4 && points_at(&array, 2)->x == 3 && !points_at(&array, 4));
    CHECK(points_set(&array, 0, some[2]) == ECOW_OK && points_at(&array, 0)->x == 5);
    CHECK(points_insert(&array, 1, some[1]) == ECOW_OK && points_at(&array, 1)->x == 3);
    CHECK(points_remove(&array, 0, &out) == ECOW_OK && out.x == 5 && points_len(&array) == 4);
    CHECK(points_pop(&array, &out) == ECOW_OK && out.y == 6);
    CHECK(points_edit(&array, &all, &len) == ECOW_OK && all == points_slice(&array, NULL));
    all[0].x = 9;
    CHECK(points_edit(&array, NULL, NULL) == ECOW_OK && points_at(&array, 0)->x == 9);
    CHECK(points_splice(&array, 1, 3, some, 1) == ECOW_OK && points_at(&array, 1)->x == 1);
    CHECK(points_truncate(&array, 1) == ECOW_OK && points_len(&array) == 1);
    CHECK(points_reserve(&array, 9) == ECOW_OK && points_capacity(&array) >= 10);
    CHECK(points_assign(&array, some, 3) == ECOW_OK && points_at(&array, 2)->y == 6);
    CHECK(points_edit(NULL, &all, &len) == ECOW_NULL && points_at(NULL, 0) == NULL);
    ecow_array_drop(&array);
}

static void arrays(void) {
    const size_t sizes[] = {1, 2, 3, 4, 8, 12, 16, 24, 65, 4096};
    for (size_t at = 0; at < sizeof sizes / sizeof *sizes; at++) {
        arrays_of(sizes[at]);
        arrays_in_place(sizes[at]);
        sizes_of_items(sizes[at]);
    }
    typed_calls();
}

static void null_arrays(void) {
    const size_t most = SIZE_MAX;
    ecow_array array = {{0}};
    uint8_t item[8] = {0};
    size_t len = 99;
    CHECK(ecow_array_len(NULL, 8) == 0 && ecow_array_slice(NULL, 8, &len) && len == 0);
    CHECK(ecow_array_capacity(NULL, 8) == 0 && !ecow_array_at(NULL, 8, 0));
    CHECK(ecow_array_clone(NULL, &array) == ECOW_NULL && ecow_array_clone(&array, NULL) == ECOW_NULL);
    CHECK(ecow_array_clone(NULL, NULL) == ECOW_NULL && ecow_array_clone(&array, &array) == ECOW_OK);
    ecow_array_drop(NULL);
    CHECK(ecow_array_clear(NULL) == ECOW_NULL && ecow_array_shrink_to_fit(NULL) == ECOW_NULL);
    CHECK(ecow_array_assign(NULL, 0, NULL, 0) == ECOW_NULL);
    CHECK(ecow_array_assign(NULL, 8, item, most) == ECOW_NULL);
    CHECK(ecow_array_assign(&array, 8, NULL, 1) == ECOW_NULL);
    CHECK(ecow_array_assign(&array, 0, NULL, 1) == ECOW_NULL);
    CHECK(ecow_array_set(NULL, 0, 0, item) == ECOW_NULL && ecow_array_push(NULL, 0, item) == ECOW_NULL);
    CHECK(ecow_array_set(&array, 8, 0, NULL) == ECOW_NULL);
    CHECK(ecow_array_push(&array, most, NULL) == ECOW_NULL);
    CHECK(ecow_array_pop(NULL, 0, item) == ECOW_NULL && ecow_array_pop(NULL, 8, NULL) == ECOW_NULL);
    CHECK(ecow_array_insert(NULL, 0, 0, item) == ECOW_NULL);
    CHECK(ecow_array_insert(&array, 8, most, NULL) == ECOW_NULL);
    CHECK(ecow_array_remove(NULL, 0, 0, item) == ECOW_NULL);
    CHECK(ecow_array_remove(NULL, most, most, NULL) == ECOW_NULL);
    CHECK(ecow_array_truncate(NULL, 0, 0) == ECOW_NULL && ecow_array_reserve(NULL, 0, most) == ECOW_NULL);
    CHECK(ecow_array_extend(NULL, 0, NULL, 0) == ECOW_NULL);
    CHECK(ecow_array_extend(NULL, 8, item, most) == ECOW_NULL);
    CHECK(ecow_array_extend(&array, 0, NULL, 1) == ECOW_NULL);
    CHECK(ecow_array_splice(NULL, 0, 2, 1, NULL, 0) == ECOW_NULL);
    CHECK(ecow_array_splice(NULL, 8, 2, 1, item, most) == ECOW_NULL);
    CHECK(ecow_array_splice(&array, 0, 2, 1, NULL, most) == ECOW_NULL);
    CHECK(ecow_array_edit(NULL, 0, NULL, NULL) == ECOW_NULL && array_holds(&array, 8, ""));
}

static void all_bytes(void) {
    const uint8_t letters[] = "abcdefghijklmnopqrst";
    ecow_bytes bytes = ecow_bytes_new(), clone = {{0}};
    uint8_t out = 99;
    CHECK(bytes_hold(&bytes, NULL, 0) && ecow_bytes_pop(&bytes, &out) == ECOW_INDEX && out == 99);
    for (size_t len = 0; len <= 20; len++) {
        CHECK(ecow_bytes_assign(&bytes, letters, len) == ECOW_OK
              && bytes_hold(&bytes, letters, len));
        CHECK(ecow_bytes_clone(&clone, &bytes) == ECOW_OK && ecow_bytes_equal(&clone, &bytes));
        CHECK(ecow_bytes_hash(&clone) == ecow_bytes_hash(&bytes));
        CHECK(ecow_bytes_push(&clone, 0) == ECOW_OK && bytes_hold(&bytes, letters, len));
        CHECK(ecow_bytes_compare(&bytes, &clone) < 0 && ecow_bytes_compare(&clone, &bytes) > 0);
    }
    CHECK(ecow_bytes_get(&bytes, 19, &out) == ECOW_OK && out == 't');
    CHECK(ecow_bytes_get(&bytes, 20, &out) == ECOW_INDEX && out == 't');
    CHECK(ecow_bytes_set(&bytes, 0, 255) == ECOW_OK && ecow_bytes_set(&bytes, 20, 1) == ECOW_INDEX);
    CHECK(ecow_bytes_get(&bytes, 0, &out) == ECOW_OK && out == 255);
    CHECK(ecow_bytes_truncate(&bytes, 3) == ECOW_OK && bytes_hold(&bytes, "\377bc", 3));
    CHECK(ecow_bytes_insert(&bytes, 1, 'x') == ECOW_OK
          && ecow_bytes_insert(&bytes, 5, 0) == ECOW_INDEX);
    CHECK(ecow_bytes_remove(&bytes, 0, &out) == ECOW_OK && out == 255);
    CHECK(ecow_bytes_remove(&bytes, 3, &out) == ECOW_INDEX && bytes_hold(&bytes, "xbc", 3));
    CHECK(ecow_bytes_extend(&bytes, letters, 20) == ECOW_OK);
    CHECK(ecow_bytes_splice(&bytes, 3, 23, letters + 3, 1) == ECOW_OK
          && bytes_hold(&bytes, "xbcd", 4));
    CHECK(ecow_bytes_splice(&bytes, 0, 5, letters, 1) == ECOW_INDEX);
    CHECK(ecow_bytes_splice(&bytes, 3, 2, letters, 1) == ECOW_INDEX);
    CHECK(ecow_bytes_pop(&bytes, &out) == ECOW_OK && out == 'd' && bytes_hold(&bytes, "xbc", 3));
    CHECK(ecow_bytes_assign(&bytes, (uint8_t[]){1, 2, 3}, 3) == ECOW_OK);
    CHECK(ecow_bytes_hash(&bytes) == UINT64_C(8086395815454877121));
    CHECK(ecow_bytes_reserve(&bytes, SIZE_MAX) == ECOW_CAPACITY
          && ecow_bytes_reserve(&bytes, 9) == ECOW_OK);
    CHECK(ecow_bytes_clear(&bytes) == ECOW_OK && bytes_hold(&bytes, NULL, 0));
    ecow_bytes_drop(&bytes);
    ecow_bytes_drop(&clone);
}

static void texts(void) {
    ecow_text text = ecow_text_new(), clone = {{0}};
    uint32_t out = 99;
    CHECK(text_is(&text, "") && ecow_text_pop(&text, &out) == ECOW_INDEX && out == 99);
    CHECK(ecow_text_assign(&text, "h\xc3\xa9\xf0\x9f\x8c\xb1!", 8) == ECOW_OK);
    CHECK(ecow_text_clone(&clone, &text) == ECOW_OK && ecow_text_equal(&clone, &text));
    CHECK(ecow_text_get(&text, 1, &out) == ECOW_OK && out == 0xe9);
    CHECK(ecow_text_get(&text, 3, &out) == ECOW_OK && out == 0x1f331);
    CHECK(ecow_text_get(&text, 2, &out) == ECOW_BOUNDARY && out == 0x1f331);
    CHECK(ecow_text_get(&text, 8, &out) == ECOW_INDEX
          && ecow_text_get(&text, 9, NULL) == ECOW_INDEX);
    CHECK(ecow_text_is_boundary(&text, 0) && ecow_text_is_boundary(&text, 8));
    CHECK(!ecow_text_is_boundary(&text, 2) && !ecow_text_is_boundary(&text, 9));
    CHECK(ecow_text_push(&text, 0x20ac) == ECOW_OK && ecow_text_len(&text) == 11);
    CHECK(ecow_text_push(&text, 0xd800) == ECOW_UTF8
          && ecow_text_push(&text, 0x110000) == ECOW_UTF8);
    CHECK(ecow_text_pop(&text, &out) == ECOW_OK && out == 0x20ac
          && ecow_text_pop(&text, NULL) == ECOW_OK);
    CHECK(ecow_text_insert(&text, 1, "\xc3\xbc", 2) == ECOW_OK);
    CHECK(ecow_text_insert(&text, 2, "x", 1) == ECOW_BOUNDARY);
    CHECK(ecow_text_insert(&text, 10, "x", 1) == ECOW_INDEX);
    CHECK(ecow_text_insert(&text, 0, "\xff", 1) == ECOW_UTF8);
    CHECK(text_is(&text, "h\xc3\xbc\xc3\xa9\xf0\x9f\x8c\xb1"));
    CHECK(ecow_text_remove(&text, 5, &out) == ECOW_OK && out == 0x1f331);
    CHECK(ecow_text_remove(&text, 5, &out) == ECOW_INDEX
          && ecow_text_remove(&text, 2, &out) == ECOW_BOUNDARY);
    CHECK(text_is(&text, "h\xc3\xbc\xc3\xa9") && out == 0x1f331);
    CHECK(ecow_text_truncate(&text, 4) == ECOW_BOUNDARY && ecow_text_truncate(&text, 3) == ECOW_OK);
    CHECK(ecow_text_truncate(&text, 99) == ECOW_OK && text_is(&text, "h\xc3\xbc"));
    CHECK(ecow_text_extend(&text, "\xc3", 1) == ECOW_UTF8
          && ecow_text_extend(&text, "t, hot", 6) == ECOW_OK);
    CHECK(ecow_text_splice(&text, 1, 3, "u", 1) == ECOW_OK && text_is(&text, "hut, hot"));
    CHECK(ecow_text_assign(&text, "\xc3\xa9\xc3\xa9", 4) == ECOW_OK);
    CHECK(ecow_text_splice(&text, 1, 2, "", 0) == ECOW_BOUNDARY);
    CHECK(ecow_text_splice(&text, 0, 3, "", 0) == ECOW_BOUNDARY);
    CHECK(ecow_text_splice(&text, 2, 0, "", 0) == ECOW_INDEX
          && ecow_text_splice(&text, 0, 5, "", 0) == ECOW_INDEX);
    CHECK(ecow_text_splice(&text, 0, 2, "\xed\xa0\x80", 3) == ECOW_UTF8);
    CHECK(ecow_text_assign(&text, "\xf0\x9f", 2) == ECOW_UTF8
          && text_is(&text, "\xc3\xa9\xc3\xa9"));
    CHECK(ecow_text_to_uppercase(&text) == ECOW_OK && text_is(&text, "\xc3\x89\xc3\x89"));
    CHECK(ecow_text_assign(&text,
                           "Stra\xc3\x9f"
                           "E",
                           7)
          == ECOW_OK);
    CHECK(ecow_text_to_uppercase(&text) == ECOW_OK && text_is(&text, "STRASSE"));
    CHECK(ecow_text_to_lowercase(&text) == ECOW_OK && text_is(&text, "strasse"));
    CHECK(ecow_text_replace(&text, "s", 1, "\xc3\xa9", 2) == ECOW_OK);
    CHECK(text_is(&text, "\xc3\xa9tra\xc3\xa9\xc3\xa9"
                         "e"));
    CHECK(ecow_text_assign(&text, "ab", 2) == ECOW_OK);
    CHECK(ecow_text_replace(&text, "", 0, "-", 1) == ECOW_OK && text_is(&text, "-a-b-"));
    CHECK(ecow_text_replace(&text, "\xff", 1, "", 0) == ECOW_UTF8);
    CHECK(ecow_text_replace(&text, "a", 1, "\xff", 1) == ECOW_UTF8 && text_is(&text, "-a-b-"));
    CHECK(ecow_text_repeat(&text, 4) == ECOW_OK && text_is(&text, "-a-b--a-b--a-b--a-b-"));
    CHECK(ecow_text_repeat(&text, SIZE_MAX) == ECOW_CAPACITY && ecow_text_len(&text) == 20);
    CHECK(ecow_text_reserve(&text, SIZE_MAX) == ECOW_CAPACITY
          && ecow_text_reserve(&text, 9) == ECOW_OK);
    CHECK(ecow_text_compare(&text, &clone) < 0 && ecow_text_compare(&clone, &text) > 0);
    CHECK(ecow_text_hash(&text) != ecow_text_hash(&clone));
    CHECK(ecow_text_assign(&text, "caf\xc3\xa9", 5) == ECOW_OK);
    CHECK(ecow_text_hash(&text) == UINT64_C(11281344579646283583));
    CHECK(ecow_text_repeat(&text, 0) == ECOW_OK && text_is(&text, ""));
    CHECK(ecow_text_clear(&clone) == ECOW_OK && ecow_text_equal(&text, &clone));
    CHECK(ecow_text_compare(&text, &clone) == 0 && ecow_text_hash(&text) == ecow_text_hash(&clone));
    CHECK(ecow_is_utf8("h\xc3\xa9", 3) && !ecow_is_utf8("h\xc3\xa9", 2) && ecow_is_utf8(NULL, 0));
    CHECK(!ecow_is_utf8(NULL, 1) && !ecow_is_utf8("\xc0\x80", 2) && !ecow_is_utf8("", SIZE_MAX));
    ecow_text_drop(&text);
    ecow_text_drop(&clone);
}

#define LONG_TEXT "a text of more than 15 bytes"

/* The texts that are given, and how many they are. */
#define THESE(...)                      \
    (const char *const[]){__VA_ARGS__}, \
        sizeof((const char *const[]){__VA_ARGS__}) / sizeof(const char *)

static void lists_of_texts(void) {
    ecow_texts texts = ecow_texts_new(), clone = {{0}};
    ecow_text text = {{0}}, out = {{0}};
    size_t len = 99;
    CHECK(texts_hold(&texts, NULL, 0) && ecow_text_assign(&out, "kept", 4) == ECOW_OK);
    CHECK(ecow_texts_pop(&texts, &out) == ECOW_INDEX && text_is(&out, "kept"));
    CHECK(ecow_text_assign(&text, LONG_TEXT, strlen(LONG_TEXT)) == ECOW_OK);
    CHECK(ecow_texts_push(&texts, &text) == ECOW_OK && text_is(&text, LONG_TEXT));
    CHECK(ecow_texts_at(&texts, 0, NULL) == ecow_text_slice(&text, NULL));
    CHECK(ecow_texts_push_text(&texts, "h\xc3\xa9", 3) == ECOW_OK);
    CHECK(ecow_texts_push_text(&texts, NULL, 0) == ECOW_OK);
    CHECK(ecow_texts_push_text(&texts, "h\xc3\xa9", 2) == ECOW_UTF8);
    CHECK(texts_hold(&texts, THESE(LONG_TEXT, "h\xc3\xa9", "")));
    CHECK(ecow_texts_at(&texts, 2, &len) != NULL && len == 0);
    CHECK(ecow_texts_at(&texts, 1, &len) != NULL && len == 3);
    CHECK(ecow_texts_at(&texts, 3, &len) == NULL && len == 0);
    CHECK(ecow_texts_get(&texts, 0, &out) == ECOW_OK && text_is(&out, LONG_TEXT));
    CHECK(ecow_text_slice(&out, NULL) == ecow_text_slice(&text, NULL));
    CHECK(ecow_texts_get(&texts, 3, &out) == ECOW_INDEX && text_is(&out, LONG_TEXT));
    CHECK(ecow_texts_get(&texts, 1, NULL) == ECOW_OK
          && ecow_texts_get(&texts, 3, NULL) == ECOW_INDEX);
    CHECK(ecow_text_push(&out, '!') == ECOW_OK);
    CHECK(texts_hold(&texts, THESE(LONG_TEXT, "h\xc3\xa9", "")) && text_is(&text, LONG_TEXT));
    CHECK(ecow_texts_clone(&clone, &texts) == ECOW_OK);
    CHECK(ecow_texts_at(&clone, 1, NULL) == ecow_texts_at(&texts, 1, NULL));
    CHECK(ecow_texts_set(&texts, 1, &out) == ECOW_OK && text_is(&out, LONG_TEXT "!"));
    CHECK(ecow_texts_at(&texts, 1, NULL) == ecow_text_slice(&out, NULL));
    CHECK(ecow_texts_at(&texts, 0, NULL) == ecow_texts_at(&clone, 0, NULL));
    CHECK(ecow_texts_set_text(&texts, 2, "c", 1) == ECOW_OK);
    CHECK(ecow_texts_set(&texts, 3, &out) == ECOW_INDEX);
    CHECK(ecow_texts_set_text(&texts, 3, "c", 1) == ECOW_INDEX);
    CHECK(ecow_texts_set_text(&texts, 0, "\xff", 1) == ECOW_UTF8);
    CHECK(texts_hold(&texts, THESE(LONG_TEXT, LONG_TEXT "!", "c")));
    CHECK(texts_hold(&clone, THESE(LONG_TEXT, "h\xc3\xa9", "")));
    CHECK(ecow_text_assign(&text, "x", 1) == ECOW_OK);
    CHECK(ecow_texts_insert(&texts, 3, &text) == ECOW_OK
          && ecow_texts_insert(&texts, 0, &text) == ECOW_OK);
    CHECK(ecow_texts_insert(&texts, 6, &text) == ECOW_INDEX);
    CHECK(texts_hold(&texts, THESE("x", LONG_TEXT, LONG_TEXT "!", "c", "x")));
    CHECK(ecow_texts_remove(&texts, 2, &out) == ECOW_OK && text_is(&out, LONG_TEXT "!"));
    CHECK(ecow_texts_remove(&texts, 0, NULL) == ECOW_OK);
    CHECK(ecow_texts_remove(&texts, 3, &out) == ECOW_INDEX && text_is(&out, LONG_TEXT "!"));
    CHECK(texts_hold(&texts, THESE(LONG_TEXT, "c", "x")));
    CHECK(ecow_texts_pop(&texts, &out) == ECOW_OK && text_is(&out, "x"));
    CHECK(ecow_texts_pop(&texts, NULL) == ECOW_OK && texts_hold(&texts, THESE(LONG_TEXT)));
    CHECK(ecow_texts_extend(&texts, &clone) == ECOW_OK);
    CHECK(texts_hold(&texts, THESE(LONG_TEXT, LONG_TEXT, "h\xc3\xa9", "")));
    CHECK(texts_hold(&clone, THESE(LONG_TEXT, "h\xc3\xa9", "")));
    CHECK(ecow_texts_truncate(&texts, 9) == ECOW_OK && ecow_texts_len(&texts) == 4);
    CHECK(ecow_texts_truncate(&texts, 2) == ECOW_OK
          && texts_hold(&texts, THESE(LONG_TEXT, LONG_TEXT)));
    CHECK(ecow_texts_splice(&texts, 1, 1, &clone) == ECOW_OK);
    CHECK(texts_hold(&texts, THESE(LONG_TEXT, LONG_TEXT, "h\xc3\xa9", "", LONG_TEXT)));
    CHECK(ecow_texts_splice(&texts, 2, 1, &clone) == ECOW_INDEX);
    CHECK(ecow_texts_splice(&texts, 0, 6, &clone) == ECOW_INDEX);
    CHECK(ecow_texts_splice(&texts, 0, 5, &clone) == ECOW_OK);
    CHECK(texts_hold(&texts, THESE(LONG_TEXT, "h\xc3\xa9", "")));
    CHECK(ecow_texts_reserve(&texts, 100) == ECOW_OK && ecow_texts_len(&texts) == 3);
    CHECK(ecow_texts_reserve(&texts, SIZE_MAX) == ECOW_CAPACITY);
    CHECK(ecow_texts_reserve(&texts, PTRDIFF_MAX) == ECOW_CAPACITY);
    CHECK(ecow_texts_reserve(&texts, PTRDIFF_MAX - 3) == ECOW_MEMORY);
    CHECK(texts_hold(&texts, THESE(LONG_TEXT, "h\xc3\xa9", "")));
    CHECK(ecow_texts_clear(&texts) == ECOW_OK && texts_hold(&texts, NULL, 0));
    CHECK(ecow_texts_push_text(&texts, "y", 1) == ECOW_OK && texts_hold(&texts, THESE("y")));
    ecow_texts_drop(&texts);
    CHECK(texts_hold(&texts, NULL, 0));
    CHECK(texts_hold(&clone, THESE(LONG_TEXT, "h\xc3\xa9", "")));
    ecow_texts_drop(&texts);
    ecow_texts_drop(&clone);
    ecow_text_drop(&text);
    ecow_text_drop(&out);
}

/* The list itself where another is given, and bytes that lie in it. */
static void lists_of_texts_in_themselves(void) {
    ecow_texts texts = {{0}}, clone = {{0}};
    CHECK(ecow_texts_push_text(&texts, "ab", 2) == ECOW_OK);
    CHECK(ecow_texts_push_text(&texts, LONG_TEXT, strlen(LONG_TEXT)) == ECOW_OK);
    CHECK(ecow_texts_clone(&texts, &texts) == ECOW_OK);
    CHECK(ecow_texts_extend(&texts, &texts) == ECOW_OK);
    CHECK(texts_hold(&texts, THESE("ab", LONG_TEXT, "ab", LONG_TEXT)));
    CHECK(ecow_texts_splice(&texts, 1, 3, &texts) == ECOW_OK);
    CHECK(texts_hold(&texts, THESE("ab", "ab", LONG_TEXT, "ab", LONG_TEXT, LONG_TEXT)));
    CHECK(ecow_texts_splice(&texts, 2, 1, &texts) == ECOW_INDEX && ecow_texts_len(&texts) == 6);
    for (size_t index = 0; index < 6; index++) {
        size_t len;
        const char *bytes = ecow_texts_at(&texts, index, &len);
        CHECK(ecow_texts_push_text(&texts, bytes, len) == ECOW_OK);
        bytes = ecow_texts_at(&texts, index, &len);
        CHECK(ecow_texts_set_text(&texts, index, bytes + 1, len - 1) == ECOW_OK);
    }
    CHECK(texts_hold(&texts, THESE("b", "b", &LONG_TEXT[1], "b", &LONG_TEXT[1], &LONG_TEXT[1], "ab",
                                   "ab", LONG_TEXT, "ab", LONG_TEXT, LONG_TEXT)));
    CHECK(ecow_texts_truncate(&texts, 0) == ECOW_OK && texts_hold(&texts, NULL, 0));
    CHECK(ecow_texts_extend(&texts, &texts) == ECOW_OK && texts_hold(&texts, NULL, 0));
    CHECK(ecow_texts_splice(&texts, 0, 0, &clone) == ECOW_OK && texts_hold(&texts, NULL, 0));
    ecow_texts_drop(&texts);
    ecow_texts_drop(&clone);
}

static void orders_of_lists_of_texts(void) {
    ecow_texts left = {{0}}, right = {{0}};
    CHECK(ecow_texts_equal(&left, &right) && ecow_texts_compare(&left, &right) == 0);
    CHECK(ecow_texts_hash(&left) == ecow_texts_hash(&right));
    CHECK(ecow_texts_push_text(&left, "one", 3) == ECOW_OK && !ecow_texts_equal(&left, &right));
    CHECK(ecow_texts_compare(&left, &right) > 0 && ecow_texts_compare(&right, &left) < 0);
    CHECK(ecow_texts_hash(&left) != ecow_texts_hash(&right));
    CHECK(ecow_texts_push_text(&right, "only", 4) == ECOW_OK);
    CHECK(ecow_texts_compare(&left, &right) < 0 && !ecow_texts_equal(&left, &right));
    CHECK(ecow_texts_push_text(&left, "caf\xc3\xa9", 5) == ECOW_OK);
    CHECK(ecow_texts_compare(&left, &right) < 0 && ecow_texts_compare(&right, &left) > 0);
    CHECK(ecow_texts_set_text(&right, 0, "one", 3) == ECOW_OK);
    CHECK(ecow_texts_push_text(&right, "caf\xc3\xa9", 5) == ECOW_OK);
    CHECK(ecow_texts_equal(&left, &right) && ecow_texts_compare(&left, &right) == 0);
    CHECK(ecow_texts_push_text(&left, "", 0) == ECOW_OK && !ecow_texts_equal(&left, &right));
    /* What the hasher of Rust's standard library gives for a vector of the same strings. */
    CHECK(ecow_texts_hash(&left) == UINT64_C(5263874958803710912));
    CHECK(ecow_texts_equal(&left, &left) && ecow_texts_compare(&left, &left) == 0);
    CHECK(ecow_texts_equal(NULL, NULL) && !ecow_texts_equal(&left, NULL)
          && !ecow_texts_equal(NULL, &left));
    CHECK(ecow_texts_compare(NULL, NULL) == 0 && ecow_texts_compare(NULL, &left) < 0);
    CHECK(ecow_texts_compare(&left, NULL) > 0);
    ecow_texts_drop(&left);
    ecow_texts_drop(&right);
}

/* A null pointer at each place, and which refusal is told where several apply. */
static void refusals_of_lists_of_texts(void) {
    const size_t large = (size_t)1 << 60, most = SIZE_MAX;
    ecow_texts texts = {{0}}, none = {{0}};
    ecow_text text = {{0}};
    size_t len = 99;
    CHECK(ecow_texts_len(NULL) == 0 && ecow_texts_hash(NULL) == ecow_texts_hash(&none));
    CHECK(ecow_texts_at(NULL, 0, &len) == NULL && len == 0);
    CHECK(ecow_texts_clone(NULL, &none) == ECOW_NULL && ecow_texts_clone(&none, NULL) == ECOW_NULL);
    CHECK(ecow_texts_clone(NULL, NULL) == ECOW_NULL);
    ecow_texts_drop(NULL);
    CHECK(ecow_texts_push_text(&texts, "ab", 2) == ECOW_OK);
    CHECK(ecow_text_assign(&text, "cd", 2) == ECOW_OK);
    CHECK(ecow_texts_get(NULL, 9, &text) == ECOW_NULL
          && ecow_texts_get(NULL, 0, NULL) == ECOW_NULL);
    CHECK(ecow_texts_pop(NULL, &text) == ECOW_NULL && ecow_texts_pop(NULL, NULL) == ECOW_NULL);
    CHECK(ecow_texts_remove(NULL, 9, &text) == ECOW_NULL
          && ecow_texts_remove(NULL, 0, NULL) == ECOW_NULL);
    CHECK(ecow_texts_set(NULL, 9, &text) == ECOW_NULL
          && ecow_texts_set(NULL, 0, NULL) == ECOW_NULL);
    CHECK(ecow_texts_set(&texts, 9, NULL) == ECOW_NULL
          && ecow_texts_set(&texts, 0, NULL) == ECOW_NULL);
    CHECK(ecow_texts_push(NULL, &text) == ECOW_NULL && ecow_texts_push(&texts, NULL) == ECOW_NULL);
    CHECK(ecow_texts_push(NULL, NULL) == ECOW_NULL);
    CHECK(ecow_texts_insert(NULL, 9, &text) == ECOW_NULL
          && ecow_texts_insert(&texts, 9, NULL) == ECOW_NULL);
    CHECK(ecow_texts_truncate(NULL, 0) == ECOW_NULL && ecow_texts_clear(NULL) == ECOW_NULL);
    CHECK(ecow_texts_reserve(NULL, most) == ECOW_NULL);
    CHECK(ecow_texts_extend(NULL, &none) == ECOW_NULL
          && ecow_texts_extend(&texts, NULL) == ECOW_NULL);
    CHECK(ecow_texts_extend(NULL, NULL) == ECOW_NULL);
    CHECK(ecow_texts_splice(NULL, 2, 1, &none) == ECOW_NULL
          && ecow_texts_splice(&texts, 2, 1, NULL) == ECOW_NULL);
    CHECK(ecow_texts_splice(NULL, 0, 0, NULL) == ECOW_NULL);
    CHECK(ecow_texts_push_text(NULL, "\xff", 1) == ECOW_NULL
          && ecow_texts_push_text(NULL, NULL, 0) == ECOW_NULL);
    CHECK(ecow_texts_push_text(&texts, NULL, 1) == ECOW_NULL
          && ecow_texts_push_text(&texts, NULL, most) == ECOW_NULL);
    CHECK(ecow_texts_push_text(&texts, "a", large) == ECOW_MEMORY);
    CHECK(ecow_texts_push_text(&texts, "a", PTRDIFF_MAX) == ECOW_MEMORY);
    CHECK(ecow_texts_push_text(&texts, "a", most) == ECOW_CAPACITY);
    CHECK(ecow_texts_set_text(NULL, 9, "\xff", 1) == ECOW_NULL
          && ecow_texts_set_text(NULL, 0, NULL, 0) == ECOW_NULL);
    CHECK(ecow_texts_set_text(&texts, 0, NULL, 1) == ECOW_NULL
          && ecow_texts_set_text(&texts, 9, NULL, most) == ECOW_NULL);
    CHECK(ecow_texts_set_text(&texts, 9, "\xff", 1) == ECOW_UTF8);
    CHECK(ecow_texts_set_text(&texts, 0, "a", large) == ECOW_MEMORY);
    CHECK(ecow_texts_set_text(&texts, 0, "a", most) == ECOW_CAPACITY);
    CHECK(ecow_texts_set_text(&texts, 1, "a", most) == ECOW_INDEX);
    CHECK(texts_hold(&texts, THESE("ab")) && text_is(&text, "cd") && texts_hold(&none, NULL, 0));
    ecow_texts_drop(&texts);
    ecow_text_drop(&text);
}

/* Whether the value is a number, or a text. */
static bool is_number(const ecow_value *value, int64_t number) {
    int64_t found = ~number;
    return ecow_value_kind(value) == ECOW_KIND_NUMBER && ecow_value_number(value, &found) == ECOW_OK
           && found == number;
}

static bool is_the_text(const ecow_value *value, const char *bytes) {
    ecow_text found = {{0}};
    bool same = ecow_value_kind(value) == ECOW_KIND_TEXT
                && ecow_value_text(value, &found) == ECOW_OK && text_is(&found, bytes);
    ecow_text_drop(&found);
    return same;
}

/* Whether the value is a list of these numbers. */
static bool has_numbers(const ecow_value *value, const int64_t *numbers, size_t count) {
    ecow_value item = {{0}};
    bool same = ecow_value_kind(value) == ECOW_KIND_LIST && ecow_value_len(value) == count;
    for (size_t index = 0; same && index < count; index++) {
        same = ecow_value_get(value, index, &item) == ECOW_OK && is_number(&item, numbers[index]);
    }
    ecow_value_drop(&item);
    return same;
}

/* Whether the value has a field with this number at the index. */
static bool has_field(const ecow_value *value, size_t index, const char *name, int64_t number) {
    ecow_value item = {{0}};
    ecow_text found = {{0}};
    bool same = ecow_value_kind(value) == ECOW_KIND_FIELDS
                && ecow_value_field_name(value, index, &found) == ECOW_OK && text_is(&found, name)
                && ecow_value_get(value, index, &item) == ECOW_OK && is_number(&item, number);
    ecow_value_drop(&item);
    ecow_text_drop(&found);
    return same;
}

static ecow_value number_value(int64_t number) {
    ecow_value value = {{0}};
    CHECK(ecow_value_set_number(&value, number) == ECOW_OK);
    return value;
}

/* What a value is made, and read as; each reader refuses each other kind. */
static void values(void) {
    ecow_value value = ecow_value_new(), item = {{0}};
    ecow_text text = {{0}}, kept = {{0}};
    bool truth = true;
    int64_t number = 99;
    double real = 0.5, nan = 0, same;
    uint64_t bits = UINT64_C(0x7ff8000000abcdef);
    memcpy(&nan, &bits, sizeof nan);
    CHECK(ecow_text_assign(&text, LONG_TEXT, strlen(LONG_TEXT)) == ECOW_OK);
    CHECK(ecow_text_assign(&kept, "kept", 4) == ECOW_OK);
    for (int kind = ECOW_KIND_NOTHING; kind <= ECOW_KIND_FIELDS; kind++) {
        ecow_status (*const made[])(ecow_value *) = {ecow_value_set_nothing, ecow_value_set_list,
                                                     ecow_value_set_fields};
        CHECK(kind != ECOW_KIND_NOTHING || made[0](&value) == ECOW_OK);
        CHECK(kind != ECOW_KIND_TRUTH || ecow_value_set_truth(&value, false) == ECOW_OK);
        CHECK(kind != ECOW_KIND_NUMBER || ecow_value_set_number(&value, INT64_MIN) == ECOW_OK);
        CHECK(kind != ECOW_KIND_REAL || ecow_value_set_real(&value, -0.0) == ECOW_OK);
        CHECK(kind != ECOW_KIND_TEXT || ecow_value_set_text(&value, &text) == ECOW_OK);
        CHECK(kind != ECOW_KIND_LIST || made[1](&value) == ECOW_OK);
        CHECK(kind != ECOW_KIND_FIELDS || made[2](&value) == ECOW_OK);
        CHECK((int)ecow_value_kind(&value) == kind && ecow_value_len(&value) == 0);
        if (kind != ECOW_KIND_TRUTH) {
            CHECK(ecow_value_truth(&value, &truth) == ECOW_KIND && truth);
        }
        if (kind != ECOW_KIND_NUMBER) {
            CHECK(ecow_value_number(&value, &number) == ECOW_KIND && number == 99);
        }
        if (kind != ECOW_KIND_REAL) {
            CHECK(ecow_value_real(&value, &real) == ECOW_KIND && real == 0.5);
        }
        if (kind != ECOW_KIND_TEXT) {
            CHECK(ecow_value_text(&value, &kept) == ECOW_KIND && text_is(&kept, "kept"));
            CHECK(ecow_value_text(&value, NULL) == ECOW_KIND);
        }
        if (kind != ECOW_KIND_LIST) {
            CHECK(ecow_value_set(&value, 0, &item) == ECOW_KIND);
            CHECK(ecow_value_swap(&value, 0, &item) == ECOW_KIND);
            CHECK(ecow_value_push(&value, &item) == ECOW_KIND);
            CHECK(ecow_value_pop(&value, &item) == ECOW_KIND);
            CHECK(ecow_value_insert(&value, 1, &item) == ECOW_KIND);
            CHECK(ecow_value_remove(&value, 0, &item) == ECOW_KIND);
            CHECK(ecow_value_truncate(&value, 0) == ECOW_KIND);
        }
        if (kind != ECOW_KIND_FIELDS) {
            CHECK(ecow_value_get_field(&value, "a", 1, &item) == ECOW_KIND);
            CHECK(ecow_value_swap_field(&value, "a", 1, &item) == ECOW_KIND);
            CHECK(ecow_value_set_field(&value, "a", 1, &item) == ECOW_KIND);
            CHECK(ecow_value_push_field(&value, "a", 1, &item) == ECOW_KIND);
            CHECK(ecow_value_remove_field(&value, "a", 1, &item) == ECOW_KIND);
            CHECK(ecow_value_field_name(&value, 0, &kept) == ECOW_KIND && text_is(&kept, "kept"));
        }
        CHECK(ecow_value_get(&value, 0, &item) == (kind < ECOW_KIND_LIST ? ECOW_KIND : ECOW_INDEX));
        CHECK(ecow_value_kind(&item) == ECOW_KIND_NOTHING && (int)ecow_value_kind(&value) == kind);
    }
    CHECK(ecow_value_set_truth(&value, false) == ECOW_OK);
    CHECK(ecow_value_truth(&value, &truth) == ECOW_OK && !truth);
    CHECK(ecow_value_truth(&value, NULL) == ECOW_OK
          && ecow_value_set_truth(&value, true) == ECOW_OK);
    CHECK(ecow_value_truth(&value, &truth) == ECOW_OK && truth);
    value = number_value(INT64_MIN);
    CHECK(is_number(&value, INT64_MIN) && ecow_value_number(&value, NULL) == ECOW_OK);
    CHECK(ecow_value_set_real(&value, -2.5) == ECOW_OK
          && ecow_value_real(&value, &real) == ECOW_OK);
    CHECK(real == -2.5 && ecow_value_real(&value, NULL) == ECOW_OK);
    CHECK(ecow_value_set_real(&value, nan) == ECOW_OK && ecow_value_real(&value, &same) == ECOW_OK);
    CHECK(same != same);
    CHECK(ecow_value_set_text(&value, &text) == ECOW_OK && text_is(&text, LONG_TEXT));
    CHECK(is_the_text(&value, LONG_TEXT) && ecow_value_text(&value, &kept) == ECOW_OK);
    CHECK(ecow_text_slice(&kept, NULL) == ecow_text_slice(&text, NULL));
    CHECK(ecow_text_push(&text, '!') == ECOW_OK && is_the_text(&value, LONG_TEXT));
    ecow_value_drop(&value);
    CHECK(ecow_value_kind(&value) == ECOW_KIND_NOTHING);
    ecow_value_drop(&value);
    ecow_text_drop(&text);
    ecow_text_drop(&kept);
}

static void lists_in_values(void) {
    ecow_value list = {{0}}, clone = {{0}}, item = number_value(7), out = number_value(-1);
    const size_t far = (size_t)1 << 32;
    CHECK(ecow_value_set_list(&list) == ECOW_OK && has_numbers(&list, NULL, 0));
    CHECK(ecow_value_pop(&list, &out) == ECOW_INDEX && is_number(&out, -1));
    CHECK(ecow_value_push(&list, &item) == ECOW_OK && is_number(&item, 7));
    CHECK(ecow_value_set_number(&item, 8) == ECOW_OK && ecow_value_push(&list, &item) == ECOW_OK);
    CHECK(ecow_value_clone(&clone, &list) == ECOW_OK && ecow_value_equal(&clone, &list));
    CHECK(ecow_value_insert(&list, 2, &out) == ECOW_OK
          && ecow_value_insert(&list, 0, &out) == ECOW_OK);
    CHECK(ecow_value_insert(&list, 5, &out) == ECOW_INDEX
          && ecow_value_insert(&list, far, &out) == ECOW_INDEX);
    CHECK(has_numbers(&list, (int64_t[]){-1, 7, 8, -1}, 4));
    CHECK(has_numbers(&clone, (int64_t[]){7, 8}, 2) && !ecow_value_equal(&clone, &list));
    CHECK(ecow_value_set_number(&item, 9) == ECOW_OK && ecow_value_set(&list, 3, &item) == ECOW_OK);
    CHECK(ecow_value_set(&list, 4, &item) == ECOW_INDEX
          && ecow_value_set(&list, far, &item) == ECOW_INDEX);
    CHECK(has_numbers(&list, (int64_t[]){-1, 7, 8, 9}, 4));
    CHECK(ecow_value_swap(&list, 1, &item) == ECOW_OK && is_number(&item, 7));
    CHECK(has_numbers(&list, (int64_t[]){-1, 9, 8, 9}, 4));
    CHECK(ecow_value_swap(&list, 4, &item) == ECOW_INDEX
          && ecow_value_swap(&list, far, &item) == ECOW_INDEX && is_number(&item, 7));
    CHECK(ecow_value_swap(&list, 1, &item) == ECOW_OK && is_number(&item, 9));
    CHECK(has_numbers(&list, (int64_t[]){-1, 7, 8, 9}, 4));
    CHECK(ecow_value_get(&list, 2, &out) == ECOW_OK && is_number(&out, 8));
    CHECK(ecow_value_get(&list, 4, &out) == ECOW_INDEX && is_number(&out, 8));
    CHECK(ecow_value_get(&list, far, &out) == ECOW_INDEX
          && ecow_value_get(&list, 0, NULL) == ECOW_OK);
    CHECK(ecow_value_remove(&list, 0, &out) == ECOW_OK && is_number(&out, -1));
    CHECK(ecow_value_remove(&list, 3, &out) == ECOW_INDEX && is_number(&out, -1));
    CHECK(ecow_value_remove(&list, far, NULL) == ECOW_INDEX
          && ecow_value_remove(&list, 0, NULL) == ECOW_OK);
    CHECK(has_numbers(&list, (int64_t[]){8, 9}, 2));
    CHECK(ecow_value_pop(&list, &out) == ECOW_OK && is_number(&out, 9));
    CHECK(ecow_value_pop(&list, NULL) == ECOW_OK && has_numbers(&list, NULL, 0));
    CHECK(ecow_value_truncate(&clone, far) == ECOW_OK && has_numbers(&clone, (int64_t[]){7, 8}, 2));
    CHECK(ecow_value_truncate(&clone, 1) == ECOW_OK && has_numbers(&clone, (int64_t[]){7}, 1));
    ecow_value_drop(&list);
    ecow_value_drop(&clone);
}

static void fields_in_values(void) {
    ecow_value fields = {{0}}, clone = {{0}}, item = number_value(1), out = number_value(-1);
    ecow_text name = {{0}};
    CHECK(ecow_value_set_fields(&fields) == ECOW_OK);
    CHECK(ecow_value_get_field(&fields, "a", 1, &out) == ECOW_INDEX && is_number(&out, -1));
    CHECK(ecow_value_remove_field(&fields, "a", 1, &out) == ECOW_INDEX && is_number(&out, -1));
    CHECK(ecow_value_set_field(&fields, "b", 1, &item) == ECOW_OK && is_number(&item, 1));
    CHECK(ecow_value_set_number(&item, 2) == ECOW_OK);
    CHECK(ecow_value_set_field(&fields, LONG_TEXT, strlen(LONG_TEXT), &item) == ECOW_OK);
    CHECK(ecow_value_set_number(&item, 3) == ECOW_OK);
    CHECK(ecow_value_set_field(&fields, NULL, 0, &item) == ECOW_OK && ecow_value_len(&fields) == 3);
    CHECK(ecow_value_clone(&clone, &fields) == ECOW_OK);
    CHECK(ecow_value_set_number(&item, 4) == ECOW_OK);
    CHECK(ecow_value_set_field(&fields, LONG_TEXT, strlen(LONG_TEXT), &item) == ECOW_OK);
    CHECK(ecow_value_len(&fields) == 3 && has_field(&fields, 0, "b", 1));
    CHECK(has_field(&fields, 1, LONG_TEXT, 4) && has_field(&fields, 2, "", 3));
    CHECK(has_field(&clone, 1, LONG_TEXT, 2) && ecow_value_len(&clone) == 3);
    CHECK(ecow_value_get_field(&fields, LONG_TEXT, strlen(LONG_TEXT), &out) == ECOW_OK);
    CHECK(is_number(&out, 4) && ecow_value_get_field(&fields, "", 0, &out) == ECOW_OK);
    CHECK(is_number(&out, 3) && ecow_value_get_field(&fields, "b", 1, NULL) == ECOW_OK);
    CHECK(ecow_value_get_field(&fields, "B", 1, &out) == ECOW_INDEX && is_number(&out, 3));
    CHECK(ecow_value_get_field(&fields, "bb", 2, &out) == ECOW_INDEX);
    CHECK(ecow_value_get(&fields, 3, &out) == ECOW_INDEX && is_number(&out, 3));
    CHECK(ecow_value_field_name(&fields, 3, &name) == ECOW_INDEX && text_is(&name, ""));
    CHECK(ecow_value_field_name(&fields, 1, NULL) == ECOW_OK);
    CHECK(ecow_value_get_field(&fields, "\xff", 1, &out) == ECOW_UTF8);
    CHECK(ecow_value_set_field(&fields, "\xff", 1, &item) == ECOW_UTF8);
    CHECK(ecow_value_remove_field(&fields, "\xff", 1, &out) == ECOW_UTF8 && is_number(&out, 3));
    CHECK(ecow_value_remove_field(&fields, "b", 1, &out) == ECOW_OK && is_number(&out, 1));
    CHECK(ecow_value_remove_field(&fields, "b", 1, &out) == ECOW_INDEX && is_number(&out, 1));
    CHECK(ecow_value_remove_field(&fields, "", 0, NULL) == ECOW_OK);
    CHECK(has_field(&fields, 0, LONG_TEXT, 4) && ecow_value_len(&fields) == 1);
    CHECK(ecow_value_len(&clone) == 3 && has_field(&clone, 0, "b", 1));
    ecow_value_drop(&fields);
    ecow_value_drop(&clone);
    ecow_text_drop(&name);
}

/* Of fields that are appended the calls by a name mean the first. */
static void fields_of_one_name(void) {
    ecow_value fields = {{0}}, item = number_value(1), out = {{0}};
    CHECK(ecow_value_set_fields(&fields) == ECOW_OK);
    CHECK(ecow_value_push_field(&fields, LONG_TEXT, strlen(LONG_TEXT), &item) == ECOW_OK);
    CHECK(ecow_value_push_field(&fields, "a", 1, &item) == ECOW_OK && is_number(&item, 1));
    CHECK(ecow_value_set_number(&item, 2) == ECOW_OK);
    CHECK(ecow_value_push_field(&fields, "a", 1, &item) == ECOW_OK);
    CHECK(ecow_value_push_field(&fields, NULL, 0, &item) == ECOW_OK);
    CHECK(ecow_value_len(&fields) == 4 && has_field(&fields, 0, LONG_TEXT, 1));
    CHECK(has_field(&fields, 2, "a", 2) && has_field(&fields, 3, "", 2));
    CHECK(ecow_value_get_field(&fields, "a", 1, &out) == ECOW_OK && is_number(&out, 1));
    CHECK(ecow_value_set_number(&item, 3) == ECOW_OK);
    CHECK(ecow_value_set_field(&fields, "a", 1, &item) == ECOW_OK && has_field(&fields, 1, "a", 3));
    CHECK(ecow_value_remove_field(&fields, "a", 1, &out) == ECOW_OK && is_number(&out, 3));
    CHECK(ecow_value_get_field(&fields, "a", 1, &out) == ECOW_OK && is_number(&out, 2));
    /* Of itself, as it was, under a name that lies in it. */
    CHECK(ecow_value_push_field(&fields, (const char *)&fields, 1, &fields) == ECOW_OK);
    CHECK(ecow_value_get(&fields, 3, &out) == ECOW_OK && ecow_value_len(&out) == 3);
    CHECK(ecow_value_depth(&fields) == 2);
    ecow_value_drop(&fields);
    ecow_value_drop(&out);
}

/* A change deep in a value: what lies beside the way is shared, and clones don't see it. */
static void deep_changes(void) {
    ecow_value root = {{0}}, before = {{0}}, list = {{0}}, beside = {{0}}, item = number_value(1);
    ecow_value found = {{0}};
    ecow_text text = {{0}}, held = {{0}};
    CHECK(ecow_text_assign(&text, LONG_TEXT, strlen(LONG_TEXT)) == ECOW_OK);
    CHECK(ecow_value_set_text(&beside, &text) == ECOW_OK && ecow_value_set_list(&list) == ECOW_OK);
    CHECK(ecow_value_push(&list, &item) == ECOW_OK && ecow_value_push(&list, &beside) == ECOW_OK);
    CHECK(ecow_value_set_fields(&root) == ECOW_OK);
    CHECK(ecow_value_set_field(&root, "list", 4, &list) == ECOW_OK);
    CHECK(ecow_value_set_field(&root, "beside", 6, &beside) == ECOW_OK);
    ecow_value_drop(&list);
    ecow_value_drop(&beside);
    CHECK(ecow_value_clone(&before, &root) == ECOW_OK && ecow_value_equal(&before, &root));
    CHECK(ecow_value_get_field(&root, "list", 4, &list) == ECOW_OK);
    CHECK(ecow_value_set_number(&item, 2) == ECOW_OK && ecow_value_set(&list, 0, &item) == ECOW_OK);
    CHECK(ecow_value_set_field(&root, "list", 4, &list) == ECOW_OK);
    CHECK(!ecow_value_equal(&before, &root));
    CHECK(ecow_value_get_field(&before, "list", 4, &found) == ECOW_OK);
    CHECK(ecow_value_get(&found, 0, &found) == ECOW_OK && is_number(&found, 1));
    CHECK(ecow_value_get_field(&root, "list", 4, &found) == ECOW_OK);
    CHECK(ecow_value_get(&found, 1, &item) == ECOW_OK && ecow_value_text(&item, &held) == ECOW_OK);
    CHECK(ecow_text_slice(&held, NULL) == ecow_text_slice(&text, NULL));
    CHECK(ecow_value_get(&found, 0, &found) == ECOW_OK && is_number(&found, 2));
    CHECK(ecow_value_get_field(&root, "beside", 6, &found) == ECOW_OK);
    CHECK(ecow_value_text(&found, &held) == ECOW_OK);
    CHECK(ecow_text_slice(&held, NULL) == ecow_text_slice(&text, NULL));
    /* The value itself where another one or a result is given. */
    CHECK(ecow_value_clone(&item, &list) == ECOW_OK && ecow_value_push(&list, &list) == ECOW_OK);
    CHECK(ecow_value_len(&list) == 3 && ecow_value_get(&list, 2, &found) == ECOW_OK);
    CHECK(ecow_value_equal(&found, &item) && ecow_value_insert(&list, 0, &list) == ECOW_OK);
    CHECK(ecow_value_len(&list) == 4 && ecow_value_set(&list, 1, &list) == ECOW_OK);
    CHECK(ecow_value_get(&list, 1, &found) == ECOW_OK && ecow_value_len(&found) == 4);
    CHECK(ecow_value_remove(&list, 0, &list) == ECOW_OK && ecow_value_len(&list) == 3);
    CHECK(ecow_value_pop(&list, &list) == ECOW_OK && ecow_value_equal(&list, &item));
    CHECK(ecow_value_clone(&list, &list) == ECOW_OK && ecow_value_equal(&list, &item));
    CHECK(ecow_value_set_field(&root, "root", 4, &root) == ECOW_OK && ecow_value_len(&root) == 3);
    CHECK(ecow_value_get_field(&root, "root", 4, &found) == ECOW_OK && ecow_value_len(&found) == 2);
    CHECK(ecow_value_remove_field(&root, "root", 4, &root) == ECOW_OK);
    CHECK(ecow_value_equal(&root, &found) && ecow_value_get(&root, 0, &root) == ECOW_OK);
    CHECK(ecow_value_equal(&root, &list) && ecow_value_set_fields(&root) == ECOW_OK);
    /* A value that is exchanged with its own part. */
    CHECK(ecow_value_push(&list, &found) == ECOW_OK);
    CHECK(ecow_value_swap(&list, 2, &list) == ECOW_OK && ecow_value_equal(&list, &found));
    CHECK(ecow_value_swap_field(&list, "list", 4, &list) == ECOW_OK);
    CHECK(ecow_value_equal(&list, &item) && ecow_value_swap(&list, 2, &list) == ECOW_INDEX);
    CHECK(ecow_value_equal(&list, &item) && ecow_value_clone(&found, &item) == ECOW_OK);
    /* A name that lies in the value's struct. */
    char name[sizeof root];
    memcpy(name, &root, sizeof root);
    CHECK(ecow_value_set_field(&root, (const char *)&root, sizeof root, &item) == ECOW_OK);
    CHECK(ecow_value_get_field(&root, name, sizeof name, &found) == ECOW_OK);
    CHECK(ecow_value_equal(&found, &item));
    /* And one that lies in the other value's. */
    ecow_value other = number_value(5);
    memcpy(name, &other, sizeof other);
    CHECK(ecow_value_set_field(&root, name, sizeof name, &item) == ECOW_OK);
    CHECK(ecow_value_swap_field(&root, (const char *)&other, sizeof other, &other) == ECOW_OK);
    CHECK(ecow_value_equal(&other, &item));
    CHECK(ecow_value_get_field(&root, name, sizeof name, &found) == ECOW_OK);
    CHECK(is_number(&found, 5));
    ecow_value_drop(&other);
    ecow_value_drop(&root);
    ecow_value_drop(&before);
    ecow_value_drop(&list);
    ecow_value_drop(&found);
    ecow_value_drop(&item);
    ecow_text_drop(&text);
    ecow_text_drop(&held);
}

/* Results that own memory, and that nobody wants: they are given up. */
/* A value that nests so deep: lists, or fields, each the one part of the next. */
static ecow_value nested(size_t levels, bool is_list) {
    ecow_value made = {{0}};
    for (size_t level = 0; level < levels; level++) {
        ecow_value outer = {{0}};
        CHECK((is_list ? ecow_value_set_list(&outer) : ecow_value_set_fields(&outer)) == ECOW_OK);
        CHECK(ecow_value_depth(&outer) == 1);
        CHECK(level == 0
              || (is_list ? ecow_value_push(&outer, &made)
                          : ecow_value_set_field(&outer, LONG_TEXT, strlen(LONG_TEXT), &made))
                     == ECOW_OK);
        CHECK(ecow_value_depth(&outer) == level + 1);
        ecow_value_drop(&made);
        made = outer;
    }
    return made;
}

/* The deepest value goes into no other. */
static void depths(void) {
    for (int is_list = 0; is_list < 2; is_list++) {
        ecow_value deepest = nested(ECOW_MAX_DEPTH, is_list), list = {{0}}, fields = {{0}};
        ecow_value lower = nested(ECOW_MAX_DEPTH - 1, is_list), item = number_value(7);
        CHECK(ECOW_MAX_DEPTH == 512 && ecow_value_depth(&deepest) == 512);
        CHECK(ecow_value_depth(&item) == 0 && ecow_value_depth(NULL) == 0);
        CHECK(ecow_value_set_list(&list) == ECOW_OK && ecow_value_push(&list, &item) == ECOW_OK);
        CHECK(ecow_value_set_fields(&fields) == ECOW_OK
              && ecow_value_set_field(&fields, "a", 1, &item) == ECOW_OK);
        CHECK(ecow_value_push(&list, &deepest) == ECOW_DEPTH);
        CHECK(ecow_value_insert(&list, 1, &deepest) == ECOW_DEPTH
              && ecow_value_insert(&list, 2, &deepest) == ECOW_INDEX);
        CHECK(ecow_value_set(&list, 0, &deepest) == ECOW_DEPTH
              && ecow_value_set(&list, 1, &deepest) == ECOW_INDEX);
        CHECK(ecow_value_swap(&list, 0, &deepest) == ECOW_DEPTH
              && ecow_value_swap(&list, 1, &deepest) == ECOW_INDEX);
        CHECK(ecow_value_set_field(&fields, "a", 1, &deepest) == ECOW_DEPTH
              && ecow_value_set_field(&fields, "b", 1, &deepest) == ECOW_DEPTH
              && ecow_value_set_field(&fields, "\xff", 1, &deepest) == ECOW_UTF8);
        CHECK(ecow_value_push_field(&fields, "a", 1, &deepest) == ECOW_DEPTH
              && ecow_value_push_field(&fields, "\xff", 1, &deepest) == ECOW_UTF8
              && ecow_value_push_field(&list, "a", 1, &deepest) == ECOW_KIND);
        CHECK(ecow_value_swap_field(&fields, "a", 1, &deepest) == ECOW_DEPTH
              && ecow_value_swap_field(&fields, "b", 1, &deepest) == ECOW_INDEX);
        CHECK(ecow_value_push(&item, &deepest) == ECOW_KIND
              && ecow_value_set_field(&list, "a", 1, &deepest) == ECOW_KIND);
        CHECK(ecow_value_push(&deepest, &deepest) == (is_list ? ECOW_DEPTH : ECOW_KIND));
        CHECK(has_numbers(&list, (int64_t[]){7}, 1) && ecow_value_depth(&list) == 1);
        CHECK(has_field(&fields, 0, "a", 7) && ecow_value_len(&fields) == 1);
        CHECK(ecow_value_depth(&fields) == 1 && ecow_value_depth(&deepest) == 512);
        /* A container is one deeper than its deepest part, also where one was taken out. */
        CHECK(ecow_value_set_field(&fields, "b", 1, &lower) == ECOW_OK);
        CHECK(ecow_value_depth(&fields) == 512 && ecow_value_push(&list, &fields) == ECOW_DEPTH);
        CHECK(ecow_value_swap_field(&fields, "b", 1, &item) == ECOW_OK);
        CHECK(ecow_value_depth(&item) == 511 && ecow_value_depth(&fields) == 1);
        CHECK(ecow_value_push(&list, &fields) == ECOW_OK && ecow_value_depth(&list) == 2);
        CHECK(ecow_value_push(&list, &lower) == ECOW_OK && ecow_value_depth(&list) == 512);
        CHECK(ecow_value_remove(&list, 1, NULL) == ECOW_OK && ecow_value_depth(&list) == 512);
        CHECK(ecow_value_set(&list, 1, &fields) == ECOW_OK && ecow_value_depth(&list) == 2);
        CHECK(ecow_value_insert(&list, 0, &lower) == ECOW_OK
              && ecow_value_insert(&list, 0, &lower) == ECOW_OK && ecow_value_depth(&list) == 512);
        CHECK(ecow_value_remove(&list, 1, NULL) == ECOW_OK && ecow_value_depth(&list) == 512);
        CHECK(ecow_value_swap(&list, 0, &fields) == ECOW_OK && ecow_value_depth(&list) == 2);
        CHECK(ecow_value_depth(&fields) == 511 && ecow_value_push(&list, &lower) == ECOW_OK);
        CHECK(ecow_value_pop(&list, NULL) == ECOW_OK && ecow_value_depth(&list) == 2);
        CHECK(ecow_value_push(&list, &lower) == ECOW_OK
              && ecow_value_truncate(&list, 3) == ECOW_OK);
        CHECK(ecow_value_depth(&list) == 2 && ecow_value_truncate(&list, 0) == ECOW_OK);
        CHECK(ecow_value_depth(&list) == 1 && ecow_value_set_fields(&fields) == ECOW_OK);
        CHECK(ecow_value_set_field(&fields, "a", 1, &lower) == ECOW_OK
              && ecow_value_set_field(&fields, "b", 1, &lower) == ECOW_OK);
        CHECK(ecow_value_remove_field(&fields, "a", 1, NULL) == ECOW_OK);
        CHECK(ecow_value_depth(&fields) == 512
              && ecow_value_set_field(&fields, "b", 1, &list) == ECOW_OK);
        CHECK(ecow_value_depth(&fields) == 2
              && ecow_value_set_field(&fields, "b", 1, &lower) == ECOW_OK);
        CHECK(ecow_value_remove_field(&fields, "b", 1, NULL) == ECOW_OK);
        CHECK(ecow_value_depth(&fields) == 1);
        /* However often a value holds what it was before, without what that held. */
        for (int round = 0; round < 2000; round++) {
            CHECK(ecow_value_clone(&item, &fields) == ECOW_OK);
            ecow_status status = ecow_value_remove_field(&item, "before", 6, NULL);
            CHECK(status == (round ? ECOW_OK : ECOW_INDEX));
            CHECK(ecow_value_set_field(&fields, "before", 6, &item) == ECOW_OK);
            CHECK(ecow_value_depth(&fields) == 2);
        }
        ecow_value_drop(&deepest);
        ecow_value_drop(&list);
        ecow_value_drop(&fields);
        ecow_value_drop(&item);
        ecow_value_drop(&lower);
    }
}

/* A path: to the field of that name, and then to items. */
static ecow_value path_of(const char *name, const int64_t *indices, size_t count) {
    ecow_value path = {{0}}, step = {{0}};
    ecow_text text = {{0}};
    CHECK(ecow_value_set_list(&path) == ECOW_OK);
    CHECK(ecow_text_assign(&text, name, strlen(name)) == ECOW_OK);
    CHECK(ecow_value_set_text(&step, &text) == ECOW_OK && ecow_value_push(&path, &step) == ECOW_OK);
    for (size_t at = 0; at < count; at++) {
        CHECK(ecow_value_set_number(&step, indices[at]) == ECOW_OK);
        CHECK(ecow_value_push(&path, &step) == ECOW_OK);
    }
    ecow_value_drop(&step);
    ecow_text_drop(&text);
    return path;
}

/* Each call by a path answers one status, and changes nothing. */
static void leads_nowhere(ecow_value *value, const ecow_value *path, ecow_status status) {
    ecow_value before = {{0}}, item = number_value(5);
    CHECK(ecow_value_clone(&before, value) == ECOW_OK);
    CHECK(ecow_value_get_at(value, path, &item) == status && is_number(&item, 5));
    CHECK(ecow_value_get_at(value, path, NULL) == status);
    CHECK(ecow_value_set_at(value, path, &item) == status && is_number(&item, 5));
    CHECK(ecow_value_swap_at(value, path, &item) == status && is_number(&item, 5));
    CHECK(ecow_value_equal(value, &before));
    ecow_value_drop(&before);
}

/* Parts by paths: `{"sizes": [[800, 600], 9]}`. */
static void paths(void) {
    ecow_value root = {{0}}, list = {{0}}, pair = {{0}}, item = number_value(800), found = {{0}};
    ecow_value before = {{0}}, none = {{0}};
    CHECK(ecow_value_set_list(&pair) == ECOW_OK && ecow_value_push(&pair, &item) == ECOW_OK);
    CHECK(ecow_value_set_number(&item, 600) == ECOW_OK);
    CHECK(ecow_value_push(&pair, &item) == ECOW_OK && ecow_value_set_list(&list) == ECOW_OK);
    CHECK(ecow_value_set_number(&item, 9) == ECOW_OK);
    CHECK(ecow_value_push(&list, &pair) == ECOW_OK && ecow_value_push(&list, &item) == ECOW_OK);
    CHECK(ecow_value_set_fields(&root) == ECOW_OK);
    CHECK(ecow_value_set_field(&root, "sizes", 5, &list) == ECOW_OK);
    CHECK(ecow_value_clone(&before, &root) == ECOW_OK && ecow_value_set_list(&none) == ECOW_OK);
    ecow_value width = path_of("sizes", (int64_t[]){0, 0}, 2);
    CHECK(ecow_value_get_at(&root, &width, &found) == ECOW_OK && is_number(&found, 800));
    CHECK(ecow_value_get_at(&root, &width, NULL) == ECOW_OK);
    CHECK(ecow_value_set_at(&root, &width, &item) == ECOW_OK && is_number(&item, 9));
    CHECK(ecow_value_get_at(&root, &width, &found) == ECOW_OK && is_number(&found, 9));
    CHECK(ecow_value_get_at(&before, &width, &found) == ECOW_OK && is_number(&found, 800));
    CHECK(ecow_value_swap_at(&root, &width, &found) == ECOW_OK && is_number(&found, 9));
    CHECK(ecow_value_equal(&root, &before));
    /* The path of no steps leads to the value. */
    CHECK(ecow_value_get_at(&root, &none, &found) == ECOW_OK && ecow_value_equal(&found, &root));
    CHECK(ecow_value_set_at(&found, &none, &item) == ECOW_OK && is_number(&found, 9));
    CHECK(ecow_value_swap_at(&found, &none, &pair) == ECOW_OK && is_number(&pair, 9));
    CHECK(has_numbers(&found, (int64_t[]){800, 600}, 2));
    CHECK(ecow_value_swap(&pair, 0, &found) == ECOW_KIND);
    /* Paths that lead nowhere, and what is no path. */
    const int64_t ways[][2] = {{0, 2}, {2, 0},         {0, -1},       {-1, 0},
                               {1, 0}, {0, INT64_MIN}, {INT64_MAX, 0}};
    for (size_t at = 0; at < sizeof ways / sizeof *ways; at++) {
        ecow_value nowhere = path_of("sizes", ways[at], 2);
        leads_nowhere(&root, &nowhere, ECOW_INDEX);
        ecow_value_drop(&nowhere);
    }
    ecow_value other_name = path_of("size", NULL, 0), no_name = path_of("", NULL, 0);
    leads_nowhere(&root, &other_name, ECOW_INDEX);
    leads_nowhere(&root, &no_name, ECOW_INDEX);
    leads_nowhere(&list, &other_name, ECOW_INDEX);
    leads_nowhere(&item, &other_name, ECOW_INDEX);
    CHECK(ecow_value_remove(&width, 0, NULL) == ECOW_OK);
    leads_nowhere(&root, &width, ECOW_INDEX);
    CHECK(ecow_value_insert(&width, 0, &none) == ECOW_OK);
    leads_nowhere(&root, &width, ECOW_KIND);
    CHECK(ecow_value_set_real(&found, 0) == ECOW_OK
          && ecow_value_set(&width, 0, &found) == ECOW_OK);
    leads_nowhere(&root, &width, ECOW_KIND);
    CHECK(ecow_value_set_truth(&found, false) == ECOW_OK
          && ecow_value_set(&width, 0, &found) == ECOW_OK);
    leads_nowhere(&root, &width, ECOW_KIND);
    CHECK(ecow_value_set_nothing(&found) == ECOW_OK
          && ecow_value_set(&width, 0, &found) == ECOW_OK);
    leads_nowhere(&root, &width, ECOW_KIND);
    leads_nowhere(&root, &root, ECOW_KIND);
    leads_nowhere(&root, &item, ECOW_KIND);
    /* How deep what is put in may nest there. */
    ecow_value sizes = path_of("sizes", NULL, 0), lower = nested(ECOW_MAX_DEPTH - 1, true);
    ecow_value below = path_of("sizes", (int64_t[]){1}, 1);
    CHECK(ecow_value_set_at(&root, &below, &lower) == ECOW_DEPTH);
    CHECK(ecow_value_swap_at(&root, &below, &lower) == ECOW_DEPTH
          && ecow_value_depth(&lower) == 511);
    CHECK(ecow_value_set_at(&root, &width, &lower) == ECOW_KIND);
    CHECK(ecow_value_set_at(&root, &other_name, &lower) == ECOW_INDEX);
    CHECK(ecow_value_equal(&root, &before) && ecow_value_depth(&root) == 3);
    CHECK(ecow_value_set_at(&root, &sizes, &lower) == ECOW_OK && ecow_value_depth(&root) == 512);
    CHECK(ecow_value_swap_at(&root, &sizes, &list) == ECOW_OK && ecow_value_depth(&list) == 511);
    CHECK(ecow_value_equal(&root, &before) && ecow_value_depth(&root) == 3);
    /* Where one value is given twice. */
    CHECK(ecow_value_set_at(&root, &below, &root) == ECOW_OK && ecow_value_depth(&root) == 5);
    CHECK(ecow_value_get_at(&root, &below, &found) == ECOW_OK && ecow_value_equal(&found, &before));
    CHECK(ecow_value_swap_at(&root, &below, &root) == ECOW_OK && ecow_value_equal(&root, &before));
    CHECK(ecow_value_get_at(&root, &below, &root) == ECOW_OK && is_number(&root, 9));
    ecow_value first = path_of("a", NULL, 0);
    CHECK(ecow_value_set_number(&item, 0) == ECOW_OK
          && ecow_value_set(&first, 0, &item) == ECOW_OK);
    CHECK(ecow_value_get_at(&first, &first, &found) == ECOW_OK && is_number(&found, 0));
    CHECK(ecow_value_set_at(&first, &first, &first) == ECOW_OK && ecow_value_depth(&first) == 2);
    CHECK(ecow_value_clone(&found, &before) == ECOW_OK);
    CHECK(ecow_value_swap_at(&found, &below, &below) == ECOW_OK && is_number(&below, 9));
    CHECK(ecow_value_get_at(&found, &sizes, &sizes) == ECOW_OK && ecow_value_len(&sizes) == 2);
    CHECK(ecow_value_get(&sizes, 1, &found) == ECOW_OK && ecow_value_len(&found) == 2);
    CHECK(ecow_value_get_at(NULL, &none, &item) == ECOW_NULL
          && ecow_value_get_at(&root, NULL, &item) == ECOW_NULL);
    CHECK(ecow_value_set_at(NULL, &none, &item) == ECOW_NULL
          && ecow_value_set_at(&root, NULL, &item) == ECOW_NULL
          && ecow_value_set_at(&root, &root, NULL) == ECOW_NULL);
    CHECK(ecow_value_swap_at(NULL, &none, &item) == ECOW_NULL
          && ecow_value_swap_at(&root, NULL, &item) == ECOW_NULL
          && ecow_value_swap_at(&root, &root, NULL) == ECOW_NULL);
    CHECK(is_number(&root, 9) && is_number(&item, 0));
    ecow_value *const all[] = {&root,       &list,    &pair,  &found, &before, &none, &width,
                               &other_name, &no_name, &sizes, &lower, &below,  &first};
    for (size_t at = 0; at < sizeof all / sizeof *all; at++) {
        ecow_value_drop(all[at]);
    }
}

static void unwanted_results(void) {
    ecow_texts texts = {{0}};
    ecow_text text = {{0}};
    ecow_value list = {{0}}, fields = {{0}}, item = {{0}};
    const size_t length = strlen(LONG_TEXT);
    CHECK(ecow_text_assign(&text, LONG_TEXT, length) == ECOW_OK);
    CHECK(ecow_value_set_text(&item, &text) == ECOW_OK && ecow_value_set_list(&list) == ECOW_OK);
    for (int each = 0; each < 3; each++) {
        CHECK(ecow_texts_push(&texts, &text) == ECOW_OK);
        CHECK(ecow_value_push(&list, &item) == ECOW_OK);
    }
    CHECK(ecow_texts_get(&texts, 0, NULL) == ECOW_OK && ecow_texts_pop(&texts, NULL) == ECOW_OK);
    CHECK(ecow_texts_remove(&texts, 0, NULL) == ECOW_OK && ecow_texts_len(&texts) == 1);
    CHECK(ecow_value_text(&item, NULL) == ECOW_OK && ecow_value_get(&list, 0, NULL) == ECOW_OK);
    CHECK(ecow_value_pop(&list, NULL) == ECOW_OK && ecow_value_remove(&list, 0, NULL) == ECOW_OK);
    CHECK(ecow_value_len(&list) == 1 && ecow_value_set_fields(&fields) == ECOW_OK);
    CHECK(ecow_value_set_field(&fields, LONG_TEXT, length, &list) == ECOW_OK);
    CHECK(ecow_value_get(&fields, 0, NULL) == ECOW_OK);
    CHECK(ecow_value_get_field(&fields, LONG_TEXT, length, NULL) == ECOW_OK);
    CHECK(ecow_value_field_name(&fields, 0, NULL) == ECOW_OK);
    CHECK(ecow_value_remove_field(&fields, LONG_TEXT, length, NULL) == ECOW_OK);
    CHECK(ecow_value_len(&fields) == 0 && ecow_value_len(&list) == 1);
    ecow_texts_drop(&texts);
    ecow_text_drop(&text);
    ecow_value_drop(&list);
    ecow_value_drop(&fields);
    ecow_value_drop(&item);
}

static void equality_of_values(void) {
    ecow_value left = {{0}}, right = {{0}}, item = {{0}}, first = {{0}}, second = {{0}};
    ecow_text text = {{0}};
    double nan = 0;
    uint64_t bits = UINT64_C(0x7ff8000000000000);
    memcpy(&nan, &bits, sizeof nan);
    CHECK(ecow_value_equal(&left, &right) && ecow_value_equal(&left, &left));
    CHECK(ecow_value_equal(NULL, NULL) && !ecow_value_equal(&left, NULL));
    CHECK(!ecow_value_equal(NULL, &left));
    CHECK(ecow_value_set_truth(&left, false) == ECOW_OK && !ecow_value_equal(&left, &right));
    CHECK(ecow_value_set_truth(&right, true) == ECOW_OK && !ecow_value_equal(&left, &right));
    CHECK(ecow_value_set_truth(&right, false) == ECOW_OK && ecow_value_equal(&left, &right));
    CHECK(ecow_value_set_number(&left, 0) == ECOW_OK && !ecow_value_equal(&left, &right));
    CHECK(ecow_value_set_number(&right, 0) == ECOW_OK && ecow_value_equal(&left, &right));
    CHECK(ecow_value_set_number(&right, -1) == ECOW_OK && !ecow_value_equal(&left, &right));
    CHECK(ecow_value_set_real(&right, 0.0) == ECOW_OK && !ecow_value_equal(&left, &right));
    CHECK(ecow_value_set_real(&left, 0.0) == ECOW_OK && ecow_value_equal(&left, &right));
    CHECK(ecow_value_set_real(&left, -0.0) == ECOW_OK && ecow_value_equal(&left, &right));
    CHECK(ecow_value_set_real(&left, 1.5) == ECOW_OK && !ecow_value_equal(&left, &right));
    CHECK(ecow_value_set_real(&left, nan) == ECOW_OK && !ecow_value_equal(&left, &right));
    CHECK(!ecow_value_equal(&right, &left) && ecow_value_clone(&right, &left) == ECOW_OK);
    CHECK(ecow_value_equal(&left, &right) && ecow_value_set_real(&right, -nan) == ECOW_OK);
    CHECK(ecow_value_equal(&left, &right));
    /* A text that is spilled is equal to one that is inline. */
    CHECK(ecow_text_assign(&text, "short", 5) == ECOW_OK);
    CHECK(ecow_value_set_text(&left, &text) == ECOW_OK && !ecow_value_equal(&left, &right));
    CHECK(ecow_text_reserve(&text, 100) == ECOW_OK);
    CHECK(ecow_value_set_text(&right, &text) == ECOW_OK && ecow_value_equal(&left, &right));
    CHECK(ecow_text_push(&text, '!') == ECOW_OK && ecow_value_set_text(&right, &text) == ECOW_OK);
    CHECK(!ecow_value_equal(&left, &right));
    CHECK(ecow_value_clone(&first, &left) == ECOW_OK
          && ecow_value_clone(&second, &right) == ECOW_OK);
    CHECK(ecow_value_set_list(&left) == ECOW_OK && ecow_value_set_fields(&right) == ECOW_OK);
    CHECK(!ecow_value_equal(&left, &right) && ecow_value_set_list(&right) == ECOW_OK);
    CHECK(ecow_value_equal(&left, &right) && ecow_value_push(&left, &item) == ECOW_OK);
    CHECK(!ecow_value_equal(&left, &right) && !ecow_value_equal(&right, &left));
    CHECK(ecow_value_push(&right, &item) == ECOW_OK && ecow_value_equal(&left, &right));
    CHECK(ecow_value_push(&left, &first) == ECOW_OK && ecow_value_push(&right, &second) == ECOW_OK);
    CHECK(!ecow_value_equal(&left, &right) && ecow_value_set(&right, 1, &first) == ECOW_OK);
    CHECK(ecow_value_equal(&left, &right));
    CHECK(ecow_value_set_fields(&left) == ECOW_OK && ecow_value_set_fields(&right) == ECOW_OK);
    CHECK(ecow_value_equal(&left, &right));
    CHECK(ecow_value_set_field(&left, "a", 1, &first) == ECOW_OK);
    CHECK(ecow_value_set_field(&left, "b", 1, &second) == ECOW_OK);
    CHECK(ecow_value_set_field(&right, "b", 1, &second) == ECOW_OK);
    CHECK(!ecow_value_equal(&left, &right));
    CHECK(ecow_value_set_field(&right, "a", 1, &first) == ECOW_OK);
    /* The order counts, and the names. */
    CHECK(!ecow_value_equal(&left, &right));
    CHECK(ecow_value_remove_field(&left, "a", 1, NULL) == ECOW_OK);
    CHECK(ecow_value_set_field(&left, "c", 1, &first) == ECOW_OK
          && !ecow_value_equal(&left, &right));
    CHECK(ecow_value_remove_field(&left, "c", 1, NULL) == ECOW_OK);
    CHECK(ecow_value_set_field(&left, "a", 1, &first) == ECOW_OK
          && ecow_value_equal(&left, &right));
    CHECK(ecow_value_set_field(&left, "a", 1, &second) == ECOW_OK);
    CHECK(!ecow_value_equal(&left, &right));
    ecow_value_drop(&left);
    ecow_value_drop(&right);
    ecow_value_drop(&first);
    ecow_value_drop(&second);
    ecow_text_drop(&text);
}

/* A null pointer at each place, and which refusal is told where several apply. */
static void refusals_of_values(void) {
    const size_t large = (size_t)1 << 60, most = SIZE_MAX;
    ecow_value list = {{0}}, fields = {{0}}, item = number_value(5);
    ecow_text text = {{0}};
    CHECK(ecow_value_set_list(&list) == ECOW_OK && ecow_value_set_fields(&fields) == ECOW_OK);
    CHECK(ecow_value_kind(NULL) == ECOW_KIND_NOTHING && ecow_value_len(NULL) == 0);
    ecow_value_drop(NULL);
    CHECK(ecow_value_clone(NULL, &item) == ECOW_NULL && ecow_value_clone(&item, NULL) == ECOW_NULL);
    CHECK(ecow_value_clone(NULL, NULL) == ECOW_NULL);
    CHECK(ecow_value_set_nothing(NULL) == ECOW_NULL
          && ecow_value_set_truth(NULL, true) == ECOW_NULL);
    CHECK(ecow_value_set_number(NULL, 1) == ECOW_NULL && ecow_value_set_real(NULL, 1) == ECOW_NULL);
    CHECK(ecow_value_set_text(NULL, &text) == ECOW_NULL
          && ecow_value_set_text(&item, NULL) == ECOW_NULL);
    CHECK(ecow_value_set_list(NULL) == ECOW_NULL && ecow_value_set_fields(NULL) == ECOW_NULL);
    CHECK(ecow_value_truth(NULL, NULL) == ECOW_NULL && ecow_value_number(NULL, NULL) == ECOW_NULL);
    CHECK(ecow_value_real(NULL, NULL) == ECOW_NULL && ecow_value_text(NULL, &text) == ECOW_NULL);
    CHECK(ecow_value_get(NULL, 0, &item) == ECOW_NULL
          && ecow_value_get(NULL, 0, NULL) == ECOW_NULL);
    CHECK(ecow_value_set(NULL, 0, &item) == ECOW_NULL
          && ecow_value_set(&list, 9, NULL) == ECOW_NULL);
    CHECK(ecow_value_set(&fields, 9, NULL) == ECOW_NULL
          && ecow_value_set(NULL, 9, NULL) == ECOW_NULL);
    CHECK(ecow_value_swap(NULL, 0, &item) == ECOW_NULL
          && ecow_value_swap(&fields, 9, NULL) == ECOW_NULL);
    CHECK(ecow_value_swap(NULL, 9, NULL) == ECOW_NULL);
    CHECK(ecow_value_push(NULL, &item) == ECOW_NULL && ecow_value_push(&list, NULL) == ECOW_NULL);
    CHECK(ecow_value_push(&item, NULL) == ECOW_NULL && ecow_value_push(NULL, NULL) == ECOW_NULL);
    CHECK(ecow_value_pop(NULL, &item) == ECOW_NULL && ecow_value_pop(NULL, NULL) == ECOW_NULL);
    CHECK(ecow_value_insert(NULL, 9, &item) == ECOW_NULL
          && ecow_value_insert(&list, 9, NULL) == ECOW_NULL);
    CHECK(ecow_value_remove(NULL, 0, &item) == ECOW_NULL
          && ecow_value_truncate(NULL, 0) == ECOW_NULL);
    CHECK(ecow_value_get_field(NULL, "\xff", 1, &item) == ECOW_NULL
          && ecow_value_get_field(&fields, NULL, 1, &item) == ECOW_NULL);
    CHECK(ecow_value_set_field(NULL, "\xff", 1, &item) == ECOW_NULL
          && ecow_value_set_field(&fields, NULL, 1, &item) == ECOW_NULL);
    CHECK(ecow_value_set_field(&fields, "\xff", 1, NULL) == ECOW_NULL);
    CHECK(ecow_value_push_field(NULL, "\xff", 1, &item) == ECOW_NULL
          && ecow_value_push_field(&fields, NULL, 1, &item) == ECOW_NULL
          && ecow_value_push_field(&fields, "\xff", 1, NULL) == ECOW_NULL);
    CHECK(ecow_value_push_field(&fields, "a", most, &item) == ECOW_MEMORY
          && ecow_value_push_field(&list, "\xff", 1, &item) == ECOW_UTF8);
    CHECK(ecow_value_swap_field(NULL, "\xff", 1, &item) == ECOW_NULL
          && ecow_value_swap_field(&fields, NULL, 1, &item) == ECOW_NULL);
    CHECK(ecow_value_swap_field(&fields, "\xff", 1, NULL) == ECOW_NULL
          && ecow_value_swap_field(&list, "\xff", 1, &item) == ECOW_UTF8);
    CHECK(ecow_value_swap_field(&fields, "a", most, &item) == ECOW_MEMORY
          && ecow_value_swap_field(&fields, "a", 1, &item) == ECOW_INDEX);
    CHECK(ecow_value_remove_field(NULL, "\xff", 1, &item) == ECOW_NULL
          && ecow_value_remove_field(&fields, NULL, 1, &item) == ECOW_NULL);
    CHECK(ecow_value_field_name(NULL, 0, &text) == ECOW_NULL);
    CHECK(ecow_value_get_field(&fields, "a", large, &item) == ECOW_MEMORY);
    CHECK(ecow_value_set_field(&fields, "a", most, &item) == ECOW_MEMORY);
    CHECK(ecow_value_remove_field(&fields, "a", most, &item) == ECOW_MEMORY);
    CHECK(ecow_value_get_field(&list, "\xff", 1, &item) == ECOW_UTF8);
    CHECK(ecow_value_set_field(&list, "\xff", 1, &item) == ECOW_UTF8);
    CHECK(ecow_value_remove_field(&list, "\xff", 1, &item) == ECOW_UTF8);
    CHECK(ecow_value_len(&list) == 0 && ecow_value_len(&fields) == 0 && is_number(&item, 5));
    CHECK(text_is(&text, ""));
}

/* A null pointer at each place where a value, an array or a result stands. */
static void null_pointers(void) {
    ecow_list list = {{0}};
    ecow_bytes bytes = {{0}};
    ecow_text text = {{0}};
    size_t len = 99;
    CHECK(ecow_list_len(NULL) == 0 && ecow_bytes_len(NULL) == 0 && ecow_text_len(NULL) == 0);
    CHECK(ecow_list_slice(NULL, &len) != NULL && len == 0);
    CHECK(ecow_bytes_slice(NULL, NULL) != NULL && ecow_text_slice(NULL, NULL) != NULL);
    CHECK(ecow_list_hash(NULL) == ecow_list_hash(&list)
          && ecow_text_hash(NULL) == ecow_text_hash(&text));
    CHECK(ecow_bytes_hash(NULL) == ecow_bytes_hash(&bytes));
    CHECK(ecow_text_is_boundary(NULL, 0) && !ecow_text_is_boundary(NULL, 1));
    CHECK(ecow_list_get(NULL, 0, NULL) == ECOW_NULL && ecow_bytes_get(NULL, 0, NULL) == ECOW_NULL);
    CHECK(ecow_text_get(NULL, 0, NULL) == ECOW_NULL);
    CHECK(ecow_list_clone(NULL, &list) == ECOW_NULL && ecow_list_clone(&list, NULL) == ECOW_NULL);
    CHECK(ecow_list_clone(NULL, NULL) == ECOW_NULL && ecow_list_clone(&list, &list) == ECOW_OK);
    CHECK(ecow_bytes_clone(NULL, &bytes) == ECOW_NULL && ecow_text_clone(&text, NULL) == ECOW_NULL);
    ecow_list_drop(NULL);
    ecow_bytes_drop(NULL);
    ecow_text_drop(NULL);
    CHECK(ecow_list_assign(NULL, NULL, 0) == ECOW_NULL
          && ecow_list_assign(&list, NULL, 1) == ECOW_NULL);
    CHECK(ecow_list_set(NULL, 0, 1) == ECOW_NULL && ecow_list_push(NULL, 1) == ECOW_NULL);
    CHECK(ecow_list_pop(NULL, NULL) == ECOW_NULL && ecow_list_insert(NULL, 0, 1) == ECOW_NULL);
    CHECK(ecow_list_remove(NULL, 0, NULL) == ECOW_NULL && ecow_list_truncate(NULL, 0) == ECOW_NULL);
    CHECK(ecow_list_clear(NULL) == ECOW_NULL && ecow_list_reserve(NULL, 1) == ECOW_NULL);
    CHECK(ecow_list_extend(NULL, NULL, 0) == ECOW_NULL
          && ecow_list_extend(&list, NULL, 1) == ECOW_NULL);
    CHECK(ecow_list_splice(NULL, 0, 0, NULL, 0) == ECOW_NULL);
    CHECK(ecow_list_splice(&list, 0, 0, NULL, 1) == ECOW_NULL && list_holds(&list, NULL, 0));
    CHECK(ecow_bytes_assign(NULL, NULL, 0) == ECOW_NULL && ecow_bytes_set(NULL, 0, 1) == ECOW_NULL);
    CHECK(ecow_bytes_push(NULL, 1) == ECOW_NULL && ecow_bytes_pop(NULL, NULL) == ECOW_NULL);
    CHECK(ecow_bytes_insert(NULL, 0, 1) == ECOW_NULL
          && ecow_bytes_remove(NULL, 0, NULL) == ECOW_NULL);
    CHECK(ecow_bytes_truncate(NULL, 0) == ECOW_NULL && ecow_bytes_clear(NULL) == ECOW_NULL);
    CHECK(ecow_bytes_reserve(NULL, 1) == ECOW_NULL
          && ecow_bytes_extend(NULL, NULL, 0) == ECOW_NULL);
    CHECK(ecow_bytes_splice(NULL, 0, 0, NULL, 0) == ECOW_NULL);
    CHECK(ecow_text_assign(NULL, NULL, 0) == ECOW_NULL && ecow_text_push(NULL, 'a') == ECOW_NULL);
    CHECK(ecow_text_pop(NULL, NULL) == ECOW_NULL
          && ecow_text_insert(NULL, 0, NULL, 0) == ECOW_NULL);
    CHECK(ecow_text_insert(&text, 0, NULL, 1) == ECOW_NULL
          && ecow_text_remove(NULL, 0, NULL) == ECOW_NULL);
    CHECK(ecow_text_truncate(NULL, 0) == ECOW_NULL && ecow_text_clear(NULL) == ECOW_NULL);
    CHECK(ecow_text_reserve(NULL, 1) == ECOW_NULL && ecow_text_extend(NULL, "", 0) == ECOW_NULL);
    CHECK(ecow_text_splice(NULL, 0, 0, "", 0) == ECOW_NULL);
    CHECK(ecow_text_replace(NULL, "", 0, "", 0) == ECOW_NULL);
    CHECK(ecow_text_replace(&text, NULL, 1, "", 0) == ECOW_NULL);
    CHECK(ecow_text_replace(&text, "", 0, NULL, 1) == ECOW_NULL && text_is(&text, ""));
    CHECK(ecow_text_to_lowercase(NULL) == ECOW_NULL && ecow_text_to_uppercase(NULL) == ECOW_NULL);
    CHECK(ecow_text_repeat(NULL, 1) == ECOW_NULL);
}

/* Where several refusals apply: a null value is told first, then a null array, bytes that are no
 * UTF-8, an index past the end, an index inside a character. */
static void orders_of_refusals(void) {
    const int64_t numbers[] = {1};
    const uint8_t byte[] = {1};
    const size_t most = SIZE_MAX;
    ecow_list list = {{0}};
    ecow_bytes bytes = {{0}};
    ecow_text text = {{0}};
    CHECK(ecow_list_assign(NULL, numbers, most) == ECOW_NULL);
    CHECK(ecow_list_extend(NULL, numbers, most) == ECOW_NULL);
    CHECK(ecow_list_splice(NULL, 2, 1, numbers, most) == ECOW_NULL);
    CHECK(ecow_list_get(NULL, most, NULL) == ECOW_NULL
          && ecow_list_set(NULL, most, 1) == ECOW_NULL);
    CHECK(ecow_list_insert(NULL, most, 1) == ECOW_NULL);
    CHECK(ecow_list_remove(NULL, most, NULL) == ECOW_NULL);
    CHECK(ecow_list_reserve(NULL, most) == ECOW_NULL);
    CHECK(ecow_bytes_assign(NULL, byte, most) == ECOW_NULL);
    CHECK(ecow_bytes_extend(NULL, byte, most) == ECOW_NULL);
    CHECK(ecow_bytes_splice(NULL, 2, 1, byte, most) == ECOW_NULL);
    CHECK(ecow_bytes_get(NULL, most, NULL) == ECOW_NULL);
    CHECK(ecow_bytes_set(NULL, most, 1) == ECOW_NULL);
    CHECK(ecow_bytes_insert(NULL, most, 1) == ECOW_NULL);
    CHECK(ecow_bytes_remove(NULL, most, NULL) == ECOW_NULL);
    CHECK(ecow_bytes_reserve(NULL, most) == ECOW_NULL);
    CHECK(ecow_text_assign(NULL, "\xff", 1) == ECOW_NULL);
    CHECK(ecow_text_assign(NULL, "a", most) == ECOW_NULL);
    CHECK(ecow_text_extend(NULL, "\xff", 1) == ECOW_NULL);
    CHECK(ecow_text_extend(NULL, "a", most) == ECOW_NULL);
    CHECK(ecow_text_splice(NULL, 2, 1, "\xff", 1) == ECOW_NULL);
    CHECK(ecow_text_splice(NULL, 2, 1, "a", most) == ECOW_NULL);
    CHECK(ecow_text_insert(NULL, 1, "\xff", 1) == ECOW_NULL);
    CHECK(ecow_text_insert(NULL, 1, "a", most) == ECOW_NULL);
    CHECK(ecow_text_replace(NULL, "\xff", 1, "\xff", 1) == ECOW_NULL);
    CHECK(ecow_text_replace(NULL, "a", most, "a", most) == ECOW_NULL);
    CHECK(ecow_text_get(NULL, most, NULL) == ECOW_NULL);
    CHECK(ecow_text_remove(NULL, most, NULL) == ECOW_NULL);
    CHECK(ecow_text_push(NULL, 0xd800) == ECOW_NULL && ecow_text_repeat(NULL, most) == ECOW_NULL);
    CHECK(ecow_text_reserve(NULL, most) == ECOW_NULL);
    CHECK(ecow_list_assign(&list, NULL, most) == ECOW_NULL);
    CHECK(ecow_list_extend(&list, NULL, most) == ECOW_NULL);
    CHECK(ecow_list_splice(&list, 2, 1, NULL, most) == ECOW_NULL);
    CHECK(ecow_bytes_assign(&bytes, NULL, most) == ECOW_NULL);
    CHECK(ecow_bytes_extend(&bytes, NULL, most) == ECOW_NULL);
    CHECK(ecow_bytes_splice(&bytes, 2, 1, NULL, most) == ECOW_NULL);
    CHECK(ecow_text_assign(&text, NULL, most) == ECOW_NULL);
    CHECK(ecow_text_extend(&text, NULL, most) == ECOW_NULL);
    CHECK(ecow_text_splice(&text, 2, 1, NULL, most) == ECOW_NULL);
    CHECK(ecow_text_insert(&text, 1, NULL, most) == ECOW_NULL);
    CHECK(ecow_text_replace(&text, NULL, most, "\xff", 1) == ECOW_NULL);
    CHECK(ecow_text_replace(&text, "\xff", 1, NULL, most) == ECOW_NULL);
    CHECK(ecow_text_replace(&text, "a", most, NULL, 1) == ECOW_NULL);
    CHECK(ecow_text_assign(&text, "\xc3\xa9\xc3\xa9", 4) == ECOW_OK);
    CHECK(ecow_text_insert(&text, 5, "\xff", 1) == ECOW_UTF8);
    CHECK(ecow_text_insert(&text, 1, "\xff", 1) == ECOW_UTF8);
    CHECK(ecow_text_splice(&text, 2, 1, "\xff", 1) == ECOW_UTF8);
    CHECK(ecow_text_splice(&text, 0, 1, "\xff", 1) == ECOW_UTF8);
    CHECK(ecow_text_splice(&text, 1, 5, "", 0) == ECOW_INDEX);
    CHECK(ecow_text_splice(&text, 3, 1, "", 0) == ECOW_INDEX);
    CHECK(ecow_text_len(&text) == 4);
    ecow_text_drop(&text);
}

/* The number and the words of each status. */
static void statuses(void) {
    CHECK(ECOW_OK == 0 && strcmp(ecow_status_text(0), "done") == 0);
    CHECK(ECOW_MEMORY == 1 && strcmp(ecow_status_text(1), "out of memory") == 0);
    CHECK(ECOW_CAPACITY == 2 && strcmp(ecow_status_text(2), "capacity overflow") == 0);
    CHECK(ECOW_INDEX == 3 && strcmp(ecow_status_text(3), "index past the end") == 0);
    CHECK(ECOW_BOUNDARY == 4 && strcmp(ecow_status_text(4), "index inside a character") == 0);
    CHECK(ECOW_UTF8 == 5 && strcmp(ecow_status_text(5), "invalid UTF-8") == 0);
    CHECK(ECOW_NULL == 6 && strcmp(ecow_status_text(6), "null pointer") == 0);
    CHECK(ECOW_KIND == 7 && strcmp(ecow_status_text(7), "value of another kind") == 0);
    CHECK(ECOW_INNER_NUL == 8 && strcmp(ecow_status_text(8), "a 0 inside the text") == 0);
    CHECK(ECOW_DEPTH == 9 && strcmp(ecow_status_text(9), "nested too deep") == 0);
    CHECK(strcmp(ecow_status_text(10), "no status") == 0);
}

/* The version that the library names is that of the header. */
static void versions(void) {
    char version[64];
    snprintf(version, sizeof version, "%d.%d.%d", ECOW_VERSION_MAJOR, ECOW_VERSION_MINOR,
             ECOW_VERSION_PATCH);
    CHECK(strcmp(version, ECOW_VERSION) == 0 && strcmp(version, ecow_version()) == 0);
}

/* Results that aren't wanted, and indices and numbers that 32 bits can't hold. */
static void wide_numbers(void) {
    const size_t far = (size_t)1 << 32;
    ecow_list list = {{0}}, other = {{0}};
    ecow_bytes bytes = {{0}};
    ecow_text text = {{0}};
    ecow_texts texts = {{0}};
    int64_t number = 0;
    CHECK(ecow_list_push(&list, INT64_MIN) == ECOW_OK);
    CHECK(ecow_list_insert(&list, 1, INT64_MAX) == ECOW_OK);
    CHECK(list_holds(&list, (int64_t[]){INT64_MIN, INT64_MAX}, 2));
    CHECK(ecow_list_get(&list, far, &number) == ECOW_INDEX && number == 0);
    CHECK(ecow_list_set(&list, far, 1) == ECOW_INDEX);
    CHECK(ecow_list_insert(&list, far, 1) == ECOW_INDEX);
    CHECK(ecow_list_remove(&list, far, NULL) == ECOW_INDEX);
    CHECK(ecow_list_truncate(&list, far) == ECOW_OK && ecow_list_len(&list) == 2);
    CHECK(ecow_list_set(&list, 0, INT64_MIN + 1) == ECOW_OK);
    CHECK(list_holds(&list, (int64_t[]){INT64_MIN + 1, INT64_MAX}, 2));
    CHECK(ecow_list_clone(&list, NULL) == ECOW_NULL && ecow_list_len(&list) == 2);
    CHECK(ecow_list_clone(NULL, &list) == ECOW_NULL && ecow_list_clone(&other, &list) == ECOW_OK);
    CHECK(ecow_bytes_assign(&bytes, (const uint8_t *)"abc", 3) == ECOW_OK);
    CHECK(ecow_bytes_get(&bytes, 0, NULL) == ECOW_OK
          && ecow_bytes_get(&bytes, far, NULL) == ECOW_INDEX);
    CHECK(ecow_bytes_set(&bytes, far, 1) == ECOW_INDEX
          && ecow_bytes_insert(&bytes, far, 1) == ECOW_INDEX);
    CHECK(ecow_bytes_pop(&bytes, NULL) == ECOW_OK && ecow_bytes_remove(&bytes, 0, NULL) == ECOW_OK);
    CHECK(ecow_bytes_truncate(&bytes, far) == ECOW_OK && bytes_hold(&bytes, "b", 1));
    CHECK(ecow_text_assign(&text, "abc", 3) == ECOW_OK && ecow_text_get(&text, 0, NULL) == ECOW_OK);
    CHECK(ecow_text_get(&text, far, NULL) == ECOW_INDEX && !ecow_text_is_boundary(&text, far));
    CHECK(ecow_text_insert(&text, far, "x", 1) == ECOW_INDEX);
    CHECK(ecow_text_pop(&text, NULL) == ECOW_OK && ecow_text_remove(&text, 0, NULL) == ECOW_OK);
    CHECK(ecow_text_truncate(&text, far) == ECOW_OK && text_is(&text, "b"));
    CHECK(ecow_texts_push(&texts, &text) == ECOW_OK && ecow_texts_at(&texts, far, NULL) == NULL);
    CHECK(ecow_texts_get(&texts, far, &text) == ECOW_INDEX
          && ecow_texts_set(&texts, far, &text) == ECOW_INDEX);
    CHECK(ecow_texts_insert(&texts, far, &text) == ECOW_INDEX
          && ecow_texts_remove(&texts, far, &text) == ECOW_INDEX);
    CHECK(ecow_texts_set_text(&texts, far, "c", 1) == ECOW_INDEX);
    CHECK(ecow_texts_splice(&texts, 0, far, &texts) == ECOW_INDEX);
    CHECK(ecow_texts_truncate(&texts, far) == ECOW_OK && texts_hold(&texts, THESE("b")));
    CHECK(text_is(&text, "b"));
    ecow_texts_drop(&texts);
    ecow_list_drop(&list);
    ecow_list_drop(&other);
    ecow_bytes_drop(&bytes);
    ecow_text_drop(&text);
}

/* Values may be moved, and a clone shares its block with what it was cloned from. */
static void moves_and_shares(void) {
    ecow_text first = {{0}}, second = {{0}}, moved;
    CHECK(ecow_text_assign(&first, "sixteen letters.", 16) == ECOW_OK);
    CHECK(ecow_text_clone(&second, &first) == ECOW_OK);
    CHECK(ecow_text_slice(&first, NULL) == ecow_text_slice(&second, NULL));
    memcpy(&moved, &first, sizeof moved);
    CHECK(ecow_text_push(&moved, '!') == ECOW_OK && text_is(&moved, "sixteen letters.!"));
    CHECK(text_is(&second, "sixteen letters."));
    ecow_text_drop(&moved);
    CHECK(ecow_text_assign(&second, "short", 5) == ECOW_OK);
    moved = second;
    CHECK(ecow_text_push(&moved, '!') == ECOW_OK && text_is(&moved, "short!"));
    ecow_text_drop(&moved);
}

/* Two values share after a clone, until one of them changes, and not where they are equal alone. It
 * makes these calls:
 * ecow_list_shares, ecow_array_shares, ecow_bytes_shares, ecow_text_shares, ecow_texts_shares,
 * ecow_value_shares, ecow_list_equal, ecow_array_equal, ecow_bytes_equal, ecow_text_equal,
 * ecow_texts_equal, ecow_value_equal, ecow_list_clone, ecow_array_clone, ecow_bytes_clone,
 * ecow_text_clone, ecow_texts_clone, ecow_value_clone, ecow_list_drop, ecow_array_drop,
 * ecow_bytes_drop, ecow_text_drop, ecow_texts_drop, ecow_value_drop */
#define CHECK_SHARES(kind, first, second, change)                                           \
    do {                                                                                    \
        CHECK(!ecow_##kind##_shares(first, second) && ecow_##kind##_equal(first, second));  \
        CHECK(ecow_##kind##_clone(second, first) == ECOW_OK);                               \
        CHECK(ecow_##kind##_shares(first, second) && ecow_##kind##_shares(second, first));  \
        CHECK(ecow_##kind##_equal(first, second) && ecow_##kind##_shares(first, first));    \
        CHECK((change) == ECOW_OK && !ecow_##kind##_shares(first, second));                 \
        CHECK(!ecow_##kind##_equal(first, second));                                         \
        CHECK(!ecow_##kind##_shares(first, NULL) && !ecow_##kind##_shares(NULL, first));    \
        CHECK(!ecow_##kind##_shares(NULL, NULL));                                           \
        ecow_##kind##_drop(first);                                                          \
        CHECK(!ecow_##kind##_shares(first, first) && !ecow_##kind##_shares(first, second)); \
        CHECK(ecow_##kind##_clone(second, first) == ECOW_OK);                               \
        CHECK(!ecow_##kind##_shares(first, second) && ecow_##kind##_equal(first, second));  \
        ecow_##kind##_drop(second);                                                         \
    } while (0)

static void shared_memory(void) {
    const uint8_t letters[] = "sixteen letters.";
    ecow_list lists[2] = {{{0}}, {{0}}};
    ecow_array arrays[2] = {{{0}}, {{0}}};
    ecow_bytes bytes[2] = {{{0}}, {{0}}};
    ecow_text texts[2] = {{{0}}, {{0}}};
    ecow_texts lines[2] = {{{0}}, {{0}}};
    ecow_value values[2] = {{{0}}, {{0}}}, lone = {{0}};
    for (int index = 0; index < 2; index++) {
        CHECK(ecow_list_push(&lists[index], 7) == ECOW_OK);
        CHECK(ecow_array_push(&arrays[index], 3, letters) == ECOW_OK);
        CHECK(ecow_bytes_assign(&bytes[index], letters, 16) == ECOW_OK);
        CHECK(ecow_text_assign(&texts[index], (const char *)letters, 16) == ECOW_OK);
        CHECK(ecow_texts_push(&lines[index], &texts[0]) == ECOW_OK);
        CHECK(ecow_value_set_list(&values[index]) == ECOW_OK);
        CHECK(ecow_value_push(&values[index], &lone) == ECOW_OK);
    }
    CHECK_SHARES(list, &lists[0], &lists[1], ecow_list_push(&lists[0], 8));
    CHECK_SHARES(array, &arrays[0], &arrays[1], ecow_array_push(&arrays[0], 3, letters));
    CHECK_SHARES(bytes, &bytes[0], &bytes[1], ecow_bytes_push(&bytes[0], 8));
    CHECK_SHARES(texts, &lines[0], &lines[1], ecow_texts_push(&lines[0], &texts[0]));
    CHECK_SHARES(value, &values[0], &values[1], ecow_value_push(&values[0], &values[1]));
    for (int index = 0; index < 2; index++) {
        CHECK(ecow_value_set_text(&values[index], &texts[index]) == ECOW_OK);
    }
    CHECK_SHARES(value, &values[0], &values[1], ecow_value_set_truth(&values[0], true));
    for (int index = 0; index < 2; index++) {
        CHECK(ecow_value_set_fields(&values[index]) == ECOW_OK);
        CHECK(ecow_value_set_field(&values[index], "a", 1, &lone) == ECOW_OK);
    }
    CHECK_SHARES(value, &values[0], &values[1], ecow_value_set_field(&values[0], "b", 1, &lone));
    CHECK_SHARES(text, &texts[0], &texts[1], ecow_text_push(&texts[0], '!'));
}

/* What takes no memory shares none: short texts and bytes, and values of one number. */
static void nothing_is_shared(void) {
    ecow_bytes bytes = {{0}}, other_bytes = {{0}};
    ecow_text text = {{0}}, other = {{0}};
    ecow_value value = {{0}}, other_value = {{0}};
    CHECK(ecow_bytes_push(&bytes, 1) == ECOW_OK
          && ecow_bytes_clone(&other_bytes, &bytes) == ECOW_OK);
    CHECK(!ecow_bytes_shares(&bytes, &other_bytes) && !ecow_bytes_shares(&bytes, &bytes));
    CHECK(ecow_text_assign(&text, "fifteen letters", 15) == ECOW_OK);
    CHECK(ecow_text_clone(&other, &text) == ECOW_OK);
    CHECK(!ecow_text_shares(&text, &other) && !ecow_text_shares(&text, &text));
    CHECK(ecow_text_equal(&text, &other) && ecow_text_compare(&text, &other) == 0);
    CHECK(ecow_value_set_text(&value, &text) == ECOW_OK);
    CHECK(ecow_value_clone(&other_value, &value) == ECOW_OK);
    CHECK(!ecow_value_shares(&value, &other_value) && ecow_value_equal(&value, &other_value));
    CHECK(ecow_value_set_number(&value, 5) == ECOW_OK);
    CHECK(ecow_value_clone(&other_value, &value) == ECOW_OK);
    CHECK(!ecow_value_shares(&value, &other_value) && ecow_value_equal(&value, &other_value));
    CHECK(ecow_value_set_list(&value) == ECOW_OK && ecow_value_set_list(&other_value) == ECOW_OK);
    CHECK(!ecow_value_shares(&value, &other_value) && ecow_value_equal(&value, &other_value));
    CHECK(ecow_value_set_fields(&other_value) == ECOW_OK);
    CHECK(!ecow_value_shares(&value, &other_value) && !ecow_value_equal(&value, &other_value));
}

/* Strings of C: each length about 15, what stands inside, and what a change leaves of it. */
static void strings_of_c(void) {
    const char letters[] = "abcdefghijklmnopqrstuvwxyz";
    ecow_text text = {{0}}, clone = {{0}};
    const char *string = NULL;
    for (size_t len = 0; len <= 26; len++) {
        CHECK(ecow_text_assign(&text, letters, len) == ECOW_OK);
        CHECK(ecow_text_c_str(&text, &string) == ECOW_OK && strlen(string) == len);
        CHECK(memcmp(string, letters, len) == 0 && text_holds(&text, letters, len));
        CHECK(ecow_text_clone(&clone, &text) == ECOW_OK && ecow_text_push(&clone, '!') == ECOW_OK);
        CHECK(strlen(string) == len && ecow_text_len(&clone) == len + 1);
        CHECK(ecow_text_clone(&clone, &text) == ECOW_OK && ecow_text_push(&text, '!') == ECOW_OK);
        CHECK(text_holds(&clone, letters, len) && ecow_text_c_str(&text, &string) == ECOW_OK);
        CHECK(strlen(string) == len + 1 && string[len] == '!');
        CHECK(ecow_text_c_str(&clone, &string) == ECOW_OK && strlen(string) == len);
        CHECK(ecow_text_shrink_to_fit(&text) == ECOW_OK && ecow_text_len(&text) == len + 1);
    }
    CHECK(ecow_text_assign(&text, "a\0b", 3) == ECOW_OK);
    CHECK(ecow_text_c_str(&text, &string) == ECOW_INNER_NUL && strlen(string) == 26);
    CHECK(text_holds(&text, "a\0b", 3) && ecow_text_c_str(&text, NULL) == ECOW_INNER_NUL);
    CHECK(ecow_text_c_str(NULL, &string) == ECOW_NULL && ecow_text_truncate(&text, 1) == ECOW_OK);
    CHECK(ecow_text_c_str(&text, NULL) == ECOW_OK && text_is(&text, "a"));
    ecow_text_drop(&text);
    ecow_text_drop(&clone);
    CHECK(ecow_list_shrink_to_fit(NULL) == ECOW_NULL);
    CHECK(ecow_bytes_shrink_to_fit(NULL) == ECOW_NULL);
    CHECK(ecow_text_shrink_to_fit(NULL) == ECOW_NULL);
    CHECK(ecow_texts_shrink_to_fit(NULL) == ECOW_NULL);
}

/* The library's values fit into the structs of the header: nothing around them is written. */
static void sizes(void) {
    struct {
        uint64_t before;
        ecow_list list;
        uint64_t between;
        ecow_bytes bytes;
        uint64_t behind;
        ecow_text text;
        uint64_t after;
        ecow_texts texts;
        uint64_t end;
        ecow_value value;
        uint64_t last;
        ecow_array array;
        uint64_t done;
    } all = {1, {{0}}, 2, {{0}}, 3, {{0}}, 4, {{0}}, 5, {{0}}, 6, {{0}}, 7};
    for (int time = 0; time < 40; time++) {
        CHECK(ecow_list_push(&all.list, -1) == ECOW_OK);
        CHECK(ecow_bytes_push(&all.bytes, 255) == ECOW_OK);
        CHECK(ecow_text_push(&all.text, 0x10ffff) == ECOW_OK);
        CHECK(ecow_texts_push(&all.texts, &all.text) == ECOW_OK);
        CHECK(ecow_value_set_text(&all.value, &all.text) == ECOW_OK);
        CHECK(ecow_array_push(&all.array, 8, &all.before) == ECOW_OK);
        CHECK(all.before == 1 && all.between == 2 && all.behind == 3 && all.after == 4);
        CHECK(all.end == 5 && all.last == 6 && all.done == 7);
    }
    ecow_list_drop(&all.list);
    ecow_bytes_drop(&all.bytes);
    ecow_text_drop(&all.text);
    ecow_texts_drop(&all.texts);
    ecow_value_drop(&all.value);
    ecow_array_drop(&all.array);
    CHECK(all.before == 1 && all.between == 2 && all.behind == 3 && all.after == 4);
    CHECK(all.end == 5 && all.last == 6 && all.done == 7);
}

int main(void) {
    take_no_buffer();
    lists();
    edits_in_place();
    orders_of_lists();
    arrays();
    null_arrays();
    all_bytes();
    texts();
    lists_of_texts();
    lists_of_texts_in_themselves();
    orders_of_lists_of_texts();
    refusals_of_lists_of_texts();
    values();
    lists_in_values();
    fields_in_values();
    fields_of_one_name();
    deep_changes();
    depths();
    paths();
    unwanted_results();
    equality_of_values();
    refusals_of_values();
    null_pointers();
    orders_of_refusals();
    statuses();
    wide_numbers();
    moves_and_shares();
    versions();
    shared_memory();
    nothing_is_shared();
    strings_of_c();
    sizes();
    printf("calls: %ld checks\n", checks);
    return 0;
}
