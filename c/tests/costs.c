/* What calls ask of memory, for tools/gate/c_short.sh: a line for each, beside which the library of
 * tools/gate/refuse.c writes how many requests there were. `costs.out` has both, by hand, by the
 * rules of docs/COSTS.md. */
#include "check.h"
#include "typed.h"

#include <ctype.h>

enum { MANY = 100000 };

/* Asks for as many bytes, and gives them back. */
static void ask_for(size_t bytes) {
    void *volatile block = malloc(bytes);
    free(block);
}

static void begin(void) {
    ask_for(5555551);
}

static void end(const char *what) {
    ask_for(5555553);
    puts(what);
}

#define COUNTED(what, call)  \
    do {                     \
        begin();             \
        call;                \
        end(NAME ": " what); \
    } while (0)

#define VALUE ecow_list
#define ITEM int64_t
#define OUT int64_t
#define CALL(name) ecow_list_##name
#define NAME "list"
#include "costs.h"

static void changes_of_lists(void) {
    ecow_list list = {{0}}, clone = {{0}};
    CHECK(ecow_list_assign(&list, ecow_list_items, MANY) == ECOW_OK);
    COUNTED("set", CHECK(ecow_list_set(&list, MANY - 1, 0) == ECOW_OK));
    COUNTED("edit", CHECK(ecow_list_edit(&list, NULL, NULL) == ECOW_OK));
    COUNTED("insert", CHECK(ecow_list_insert(&list, MANY, 5) == ECOW_OK));
    COUNTED("insert again", CHECK(ecow_list_insert(&list, 0, 5) == ECOW_OK));
    CHECK(ecow_list_clone(&clone, &list) == ECOW_OK);
    COUNTED("set of a shared one", CHECK(ecow_list_set(&list, 0, 0) == ECOW_OK));
    CHECK(ecow_list_clone(&clone, &list) == ECOW_OK);
    COUNTED("edit of a shared one", CHECK(ecow_list_edit(&list, NULL, NULL) == ECOW_OK));
    COUNTED("push to a full one", CHECK(ecow_list_push(&list, 0) == ECOW_OK));
    COUNTED("shrink_to_fit", CHECK(ecow_list_shrink_to_fit(&list) == ECOW_OK));
    COUNTED("shrink_to_fit again", CHECK(ecow_list_shrink_to_fit(&list) == ECOW_OK));
    COUNTED("push to a full one", CHECK(ecow_list_push(&list, 0) == ECOW_OK));
    CHECK(ecow_list_clone(&clone, &list) == ECOW_OK);
    COUNTED("shrink_to_fit of a shared one", CHECK(ecow_list_shrink_to_fit(&list) == ECOW_OK));
    CHECK(ecow_list_shares(&list, &clone) && ecow_list_len(&list) == MANY + 4);
    ecow_list_drop(&list);
    ecow_list_drop(&clone);
}

#undef VALUE
#undef ITEM
#undef OUT
#undef CALL
#undef NAME

TYPED(doubles, double)

static int doubles_compare(const doubles *left, const doubles *right) {
    const size_t len = doubles_len(left), other = doubles_len(right);
    return (len > other) - (len < other);
}

#define VALUE doubles
#define ITEM double
#define OUT double
#define CALL(name) doubles_##name
#define NAME "array of doubles"
#include "costs.h"

#undef NAME
#define NAME "array"

/* Appends items of that size until there are `len`. */
static void push_sized_up_to(ecow_array *array, size_t size, size_t len) {
    const void *item = some_items(size, "a");
    while (ecow_array_len(array, size) < len) {
        CHECK(ecow_array_push(array, size, item) == ECOW_OK);
    }
}

/* Changes of items of 24 bytes, and growth to 1000 items of each size. */
static void changes_of_arrays(void) {
    const size_t sizes[] = {1, 2, 3, 4, 8, 12, 16, 24, 65, 4096};
    static uint8_t items[24 * MANY];
    ecow_array array = {{0}}, clone = {{0}};
    for (size_t at = 0; at < sizeof sizes / sizeof *sizes; at++) {
        begin();
        push_sized_up_to(&array, sizes[at], 1000);
        end(at ? NAME ": 1000 pushes" : NAME ": 1000 pushes of bytes");
        ecow_array_drop(&array);
    }
    CHECK(ecow_array_assign(&array, 24, items, MANY) == ECOW_OK);
    COUNTED("set", CHECK(ecow_array_set(&array, 24, MANY - 1, items) == ECOW_OK));
    COUNTED("edit", CHECK(ecow_array_edit(&array, 24, NULL, NULL) == ECOW_OK));
    COUNTED("insert", CHECK(ecow_array_insert(&array, 24, MANY, items) == ECOW_OK));
    COUNTED("insert again", CHECK(ecow_array_insert(&array, 24, 0, items) == ECOW_OK));
    CHECK(ecow_array_clone(&clone, &array) == ECOW_OK);
    COUNTED("set of a shared one", CHECK(ecow_array_set(&array, 24, 0, items) == ECOW_OK));
    CHECK(ecow_array_clone(&clone, &array) == ECOW_OK);
    COUNTED("edit of a shared one", CHECK(ecow_array_edit(&array, 24, NULL, NULL) == ECOW_OK));
    COUNTED("push to a full one", CHECK(ecow_array_push(&array, 24, items) == ECOW_OK));
    COUNTED("shrink_to_fit", CHECK(ecow_array_shrink_to_fit(&array) == ECOW_OK));
    COUNTED("shrink_to_fit again", CHECK(ecow_array_shrink_to_fit(&array) == ECOW_OK));
    COUNTED("push to a full one", CHECK(ecow_array_push(&array, 24, items) == ECOW_OK));
    CHECK(ecow_array_clone(&clone, &array) == ECOW_OK);
    COUNTED("shrink_to_fit of a shared one", CHECK(ecow_array_shrink_to_fit(&array) == ECOW_OK));
    COUNTED("extend by nothing of a shared one",
            CHECK(ecow_array_extend(&array, 24, NULL, 0) == ECOW_OK));
    CHECK(ecow_array_shares(&array, &clone) && ecow_array_len(&array, 24) == MANY + 4);
    const uint8_t *own = ecow_array_slice(&array, 24, NULL);
    COUNTED("remove of a shared one", CHECK(ecow_array_remove(&array, 24, 0, NULL) == ECOW_OK));
    COUNTED("push of a clone's item", CHECK(ecow_array_push(&array, 24, own) == ECOW_OK));
    own = ecow_array_slice(&array, 24, NULL);
    COUNTED("set by an item of its own", CHECK(ecow_array_set(&array, 24, 7, own) == ECOW_OK));
    COUNTED("push of an item of its own", CHECK(ecow_array_push(&array, 24, own) == ECOW_OK));
    ecow_array_drop(&array);
    ecow_array_drop(&clone);
}

#undef VALUE
#undef ITEM
#undef OUT
#undef CALL
#undef NAME

#define VALUE ecow_bytes
#define ITEM uint8_t
#define OUT uint8_t
#define CALL(name) ecow_bytes_##name
#define NAME "bytes"
#include "costs.h"

static void changes_of_bytes(void) {
    ecow_bytes bytes = {{0}}, clone = {{0}};
    CHECK(ecow_bytes_assign(&bytes, ecow_bytes_items, MANY) == ECOW_OK);
    COUNTED("set", CHECK(ecow_bytes_set(&bytes, MANY - 1, 0) == ECOW_OK));
    COUNTED("edit", CHECK(ecow_bytes_edit(&bytes, NULL, NULL) == ECOW_OK));
    COUNTED("insert", CHECK(ecow_bytes_insert(&bytes, MANY, 5) == ECOW_OK));
    COUNTED("insert again", CHECK(ecow_bytes_insert(&bytes, 0, 5) == ECOW_OK));
    CHECK(ecow_bytes_clone(&clone, &bytes) == ECOW_OK);
    COUNTED("set of a shared one", CHECK(ecow_bytes_set(&bytes, 0, 0) == ECOW_OK));
    CHECK(ecow_bytes_clone(&clone, &bytes) == ECOW_OK);
    COUNTED("edit of a shared one", CHECK(ecow_bytes_edit(&bytes, NULL, NULL) == ECOW_OK));
    COUNTED("shrink_to_fit", CHECK(ecow_bytes_shrink_to_fit(&bytes) == ECOW_OK));
    CHECK(ecow_bytes_len(&bytes) == MANY + 2 && ecow_bytes_truncate(&bytes, 15) == ECOW_OK);
    COUNTED("shrink_to_fit of 15", CHECK(ecow_bytes_shrink_to_fit(&bytes) == ECOW_OK));
    CHECK(ecow_bytes_len(&bytes) == 15);
    COUNTED("one more", CHECK(ecow_bytes_push(&bytes, 1) == ECOW_OK));
    ecow_bytes_drop(&bytes);
    ecow_bytes_drop(&clone);
}

#undef VALUE
#undef ITEM
#undef OUT
#undef CALL
#undef NAME

#define VALUE ecow_text
#define ITEM char
#define OUT uint32_t
#define CALL(name) ecow_text_##name
#define NAME "text"
#include "costs.h"

static void changes_of_texts(void) {
    static char changed[2 * MANY];
    const char *items = ecow_text_items;
    size_t len = 0;
    ecow_text text = {{0}}, clone = {{0}};
    CHECK(ecow_text_assign(&text, items, MANY) == ECOW_OK);
    COUNTED("insert", CHECK(ecow_text_insert(&text, 0, items, MANY) == ECOW_OK));
    CHECK(ecow_text_is_filled(&text, 2 * MANY) && ecow_text_truncate(&text, MANY) == ECOW_OK);
    COUNTED("insert again", CHECK(ecow_text_insert(&text, MANY, items, MANY) == ECOW_OK));
    CHECK(ecow_text_is_filled(&text, 2 * MANY) && ecow_text_truncate(&text, MANY) == ECOW_OK);
    COUNTED("to_lowercase", CHECK(ecow_text_to_lowercase(&text) == ECOW_OK));
    for (size_t index = 0; index < MANY; index++) {
        changed[index] = (char)tolower(items[index]);
    }
    CHECK(text_holds(&text, changed, MANY) && ecow_text_assign(&text, items, MANY) == ECOW_OK);
    COUNTED("to_uppercase", CHECK(ecow_text_to_uppercase(&text) == ECOW_OK));
    for (size_t index = 0; index < MANY; index++) {
        changed[index] = (char)toupper(items[index]);
    }
    CHECK(text_holds(&text, changed, MANY) && ecow_text_assign(&text, items, MANY) == ECOW_OK);
    COUNTED("replace", CHECK(ecow_text_replace(&text, "A", 1, "bc", 2) == ECOW_OK));
    for (size_t index = 0; index < MANY; index++) {
        changed[len++] = items[index] == 'A' ? 'b' : items[index];
        if (items[index] == 'A') {
            changed[len++] = 'c';
        }
    }
    CHECK(text_holds(&text, changed, len));
    CHECK(ecow_text_replace(&text, changed, len, items, MANY) == ECOW_OK);
    CHECK(ecow_text_is_filled(&text, MANY));
    COUNTED("repeat", CHECK(ecow_text_repeat(&text, 4) == ECOW_OK));
    CHECK(ecow_text_is_filled(&text, 4 * MANY));
    CHECK(ecow_text_assign(&text, items, 1) == ECOW_OK && ecow_text_repeat(&text, MANY) == ECOW_OK);
    memset(changed, items[0], MANY);
    CHECK(text_holds(&text, changed, MANY));
    CHECK(ecow_text_assign(&text, items, MANY) == ECOW_OK);
    const char *string = NULL;
    COUNTED("c_str of a full one", CHECK(ecow_text_c_str(&text, &string) == ECOW_OK));
    CHECK(strlen(string) == MANY && ecow_text_is_filled(&text, MANY));
    COUNTED("c_str again", CHECK(ecow_text_c_str(&text, &string) == ECOW_OK));
    CHECK(strlen(string) == MANY && ecow_text_clone(&clone, &text) == ECOW_OK);
    COUNTED("c_str of a shared one", CHECK(ecow_text_c_str(&text, &string) == ECOW_OK));
    CHECK(strlen(string) == MANY && !ecow_text_shares(&text, &clone));
    for (size_t len = 0; len <= 16; len++) {
        CHECK(ecow_text_assign(&text, items, len) == ECOW_OK);
        begin();
        CHECK(ecow_text_c_str(&text, &string) == ECOW_OK && strlen(string) == len);
        CHECK(memcmp(string, items, len) == 0 && ecow_text_is_filled(&text, len));
        end(len < 14 ? NAME ": c_str of up to 13 bytes" : NAME ": c_str of 14 to 16 bytes");
    }
    ecow_text_drop(&text);
    ecow_text_drop(&clone);
}

#undef VALUE
#undef ITEM
#undef OUT
#undef CALL
#undef NAME

#define NAME "texts"
#define SPILLED "a text of 25 bytes, as is"

/* Appends the text until there are `len`. */
static void push_texts_up_to(ecow_texts *texts, const ecow_text *text, size_t len) {
    while (ecow_texts_len(texts) < len) {
        CHECK(ecow_texts_push(texts, text) == ECOW_OK);
    }
}

/* Whether there are `len` texts, which all share the memory of `text`. */
static bool all_share(const ecow_texts *texts, const ecow_text *text, size_t len) {
    const char *bytes = ecow_text_slice(text, NULL);
    for (size_t index = 0; index < len; index++) {
        if (ecow_texts_at(texts, index, NULL) != bytes) {
            return false;
        }
    }
    return ecow_texts_len(texts) == len;
}

/* A list of texts and its clone: what reads asks for nothing, a change copies the list and no
 * text. */
static void clones_of_lists_of_texts(void) {
    ecow_texts texts = {{0}}, clone = {{0}}, second = {{0}};
    ecow_text text = {{0}}, out = {{0}};
    size_t len;
    CHECK(ecow_text_assign(&text, SPILLED, strlen(SPILLED)) == ECOW_OK);
    COUNTED("1000 pushes", push_texts_up_to(&texts, &text, 1000));
    CHECK(all_share(&texts, &text, 1000));
    COUNTED("clone", CHECK(ecow_texts_clone(&clone, &texts) == ECOW_OK));
    COUNTED("clone of a clone", CHECK(ecow_texts_clone(&second, &clone) == ECOW_OK));
    begin();
    CHECK(all_share(&clone, &text, 1000) && all_share(&second, &text, 1000));
    CHECK(ecow_texts_get(&clone, 999, &out) == ECOW_OK && text_is(&out, SPILLED));
    CHECK(ecow_texts_get(&clone, 1000, &out) == ECOW_INDEX);
    CHECK(ecow_texts_at(&clone, 0, &len) && len == strlen(SPILLED));
    CHECK(ecow_texts_equal(&texts, &clone) && ecow_texts_compare(&texts, &clone) == 0);
    CHECK(ecow_texts_hash(&texts) == ecow_texts_hash(&clone));
    end(NAME ": reads");
    COUNTED("drop of a clone", ecow_texts_drop(&second));
    COUNTED("push to a shared one", push_texts_up_to(&texts, &text, 1001));
    COUNTED("23 pushes", push_texts_up_to(&texts, &text, 1024));
    COUNTED("push past the room", push_texts_up_to(&texts, &text, 1025));
    CHECK(all_share(&texts, &text, 1025) && all_share(&clone, &text, 1000));
    COUNTED("drop", ecow_texts_drop(&texts));
    CHECK(all_share(&clone, &text, 1000) && ecow_texts_clone(&texts, &clone) == ECOW_OK);
    COUNTED("set of a shared one", CHECK(ecow_texts_set(&texts, 0, &text) == ECOW_OK));
    CHECK(all_share(&texts, &text, 1000) && ecow_texts_clone(&texts, &clone) == ECOW_OK);
    COUNTED("set_text of a shared one",
            CHECK(ecow_texts_set_text(&texts, 0, SPILLED, strlen(SPILLED)) == ECOW_OK));
    CHECK(ecow_texts_clone(&texts, &clone) == ECOW_OK);
    COUNTED("insert into a shared one", CHECK(ecow_texts_insert(&texts, 5, &text) == ECOW_OK));
    CHECK(all_share(&texts, &text, 1001) && ecow_texts_clone(&texts, &clone) == ECOW_OK);
    COUNTED("remove of a shared one", CHECK(ecow_texts_remove(&texts, 5, &out) == ECOW_OK));
    CHECK(all_share(&texts, &text, 999) && ecow_texts_clone(&texts, &clone) == ECOW_OK);
    COUNTED("pop of a shared one", CHECK(ecow_texts_pop(&texts, &out) == ECOW_OK));
    CHECK(all_share(&texts, &text, 999) && ecow_texts_clone(&texts, &clone) == ECOW_OK);
    CHECK(ecow_text_slice(&out, NULL) == ecow_text_slice(&text, NULL));
    COUNTED("truncate of a shared one", CHECK(ecow_texts_truncate(&texts, 10) == ECOW_OK));
    CHECK(all_share(&texts, &text, 10) && ecow_texts_clone(&texts, &clone) == ECOW_OK);
    COUNTED("clear of a shared one", CHECK(ecow_texts_clear(&texts) == ECOW_OK));
    CHECK(all_share(&texts, &text, 0) && all_share(&clone, &text, 1000));
    ecow_texts_drop(&clone);
    ecow_text_drop(&text);
    ecow_text_drop(&out);
}

/* Changes of a list that no other shares. */
static void changes_of_lists_of_texts(void) {
    ecow_texts texts = {{0}}, other = {{0}};
    ecow_text text = {{0}}, out = {{0}};
    CHECK(ecow_text_assign(&text, SPILLED, strlen(SPILLED)) == ECOW_OK);
    COUNTED("push_text of 15 bytes to none",
            CHECK(ecow_texts_push_text(&texts, SPILLED, 15) == ECOW_OK));
    COUNTED("push_text of 15 bytes", CHECK(ecow_texts_push_text(&texts, SPILLED, 15) == ECOW_OK));
    COUNTED("push_text of 16 bytes", CHECK(ecow_texts_push_text(&texts, SPILLED, 16) == ECOW_OK));
    COUNTED("set_text of 15 bytes", CHECK(ecow_texts_set_text(&texts, 0, SPILLED, 15) == ECOW_OK));
    ecow_texts_drop(&texts);
    COUNTED("reserve 1000 for none", CHECK(ecow_texts_reserve(&texts, 1000) == ECOW_OK));
    COUNTED("1000 pushes", push_texts_up_to(&texts, &text, 1000));
    COUNTED("set", CHECK(ecow_texts_set(&texts, 999, &text) == ECOW_OK));
    COUNTED("remove", CHECK(ecow_texts_remove(&texts, 0, &out) == ECOW_OK));
    COUNTED("insert", CHECK(ecow_texts_insert(&texts, 0, &out) == ECOW_OK));
    COUNTED("pop", CHECK(ecow_texts_pop(&texts, &out) == ECOW_OK));
    COUNTED("push of what was taken", CHECK(ecow_texts_push(&texts, &out) == ECOW_OK));
    CHECK(ecow_texts_clone(&other, &texts) == ECOW_OK
          && ecow_texts_truncate(&other, 10) == ECOW_OK);
    COUNTED("splice 10 for 10", CHECK(ecow_texts_splice(&texts, 10, 20, &other) == ECOW_OK));
    COUNTED("extend by 10", CHECK(ecow_texts_extend(&texts, &other) == ECOW_OK));
    COUNTED("extend by itself", CHECK(ecow_texts_extend(&texts, &texts) == ECOW_OK));
    CHECK(all_share(&texts, &text, 2020) && all_share(&other, &text, 10));
    COUNTED("truncate", CHECK(ecow_texts_truncate(&texts, 1000) == ECOW_OK));
    COUNTED("clear", CHECK(ecow_texts_clear(&texts) == ECOW_OK));
    COUNTED("1000 pushes again", push_texts_up_to(&texts, &text, 1000));
    CHECK(all_share(&texts, &text, 1000));
    ecow_texts_drop(&texts);
    ecow_texts_drop(&other);
    ecow_text_drop(&text);
    ecow_text_drop(&out);
}

#undef NAME
#define NAME "value"

/* Appends an item until there are `len`. */
static void push_items_up_to(ecow_value *list, const ecow_value *item, size_t len) {
    while (ecow_value_len(list) < len) {
        CHECK(ecow_value_push(list, item) == ECOW_OK);
    }
}

/* Whether the value is a text in that memory. */
static bool shares(const ecow_value *value, const char *bytes) {
    ecow_text text = {{0}};
    bool same = ecow_value_text(value, &text) == ECOW_OK && ecow_text_slice(&text, NULL) == bytes;
    ecow_text_drop(&text);
    return same;
}

/* A nested list and its clone: what reads asks for nothing, a change copies the list alone. */
static void clones_of_nested_lists(void) {
    ecow_value list = {{0}}, clone = {{0}}, item = {{0}}, out = {{0}};
    ecow_text text = {{0}};
    CHECK(ecow_text_assign(&text, SPILLED, strlen(SPILLED)) == ECOW_OK);
    const char *bytes = ecow_text_slice(&text, NULL);
    COUNTED("set_text", CHECK(ecow_value_set_text(&item, &text) == ECOW_OK));
    COUNTED("set_list", CHECK(ecow_value_set_list(&list) == ECOW_OK));
    COUNTED("1000 pushes", push_items_up_to(&list, &item, 1000));
    COUNTED("clone", CHECK(ecow_value_clone(&clone, &list) == ECOW_OK));
    begin();
    for (size_t index = 0; index < 1000; index++) {
        CHECK(ecow_value_get(&clone, index, &out) == ECOW_OK && shares(&out, bytes));
    }
    CHECK(ecow_value_get(&clone, 1000, &out) == ECOW_INDEX && ecow_value_equal(&list, &clone));
    end(NAME ": reads");
    COUNTED("push to a shared one", push_items_up_to(&list, &item, 1001));
    COUNTED("drop", ecow_value_drop(&list));
    CHECK(ecow_value_clone(&list, &clone) == ECOW_OK);
    COUNTED("set of a shared one", CHECK(ecow_value_set(&list, 5, &item) == ECOW_OK));
    COUNTED("set", CHECK(ecow_value_set(&list, 6, &item) == ECOW_OK));
    COUNTED("swap", CHECK(ecow_value_swap(&list, 6, &out) == ECOW_OK && shares(&out, bytes)));
    CHECK(ecow_value_swap(&list, 6, &out) == ECOW_OK && ecow_value_clone(&list, &clone) == ECOW_OK);
    COUNTED("swap of a shared one", CHECK(ecow_value_swap(&list, 5, &out) == ECOW_OK));
    CHECK(ecow_value_swap(&list, 5, &out) == ECOW_OK);
    COUNTED("remove", CHECK(ecow_value_remove(&list, 5, &out) == ECOW_OK && shares(&out, bytes)));
    CHECK(ecow_value_clone(&list, &clone) == ECOW_OK);
    COUNTED("insert into a shared one", CHECK(ecow_value_insert(&list, 5, &item) == ECOW_OK));
    CHECK(ecow_value_clone(&list, &clone) == ECOW_OK);
    COUNTED("remove of a shared one", CHECK(ecow_value_remove(&list, 5, &out) == ECOW_OK));
    CHECK(ecow_value_clone(&list, &clone) == ECOW_OK);
    COUNTED("pop of a shared one", CHECK(ecow_value_pop(&list, &out) == ECOW_OK));
    CHECK(shares(&out, bytes) && ecow_value_clone(&list, &clone) == ECOW_OK);
    COUNTED("truncate of a shared one", CHECK(ecow_value_truncate(&list, 10) == ECOW_OK));
    CHECK(ecow_value_len(&list) == 10 && ecow_value_clone(&list, &clone) == ECOW_OK);
    COUNTED("truncate of a shared one to none", CHECK(ecow_value_truncate(&list, 0) == ECOW_OK));
    CHECK(ecow_value_len(&clone) == 1000);
    COUNTED("push of the list to itself", CHECK(ecow_value_push(&clone, &clone) == ECOW_OK));
    ecow_value_drop(&list);
    ecow_value_drop(&clone);
    ecow_value_drop(&item);
    ecow_value_drop(&out);
    ecow_text_drop(&text);
}

/* Fields, and a change deep in a value: the way is copied where it is shared. */
static void changes_of_fields(void) {
    ecow_value root = {{0}}, before = {{0}}, list = {{0}}, item = {{0}};
    ecow_text text = {{0}};
    CHECK(ecow_text_assign(&text, SPILLED, strlen(SPILLED)) == ECOW_OK);
    CHECK(ecow_value_set_text(&item, &text) == ECOW_OK && ecow_value_set_list(&list) == ECOW_OK);
    push_items_up_to(&list, &item, 1000);
    COUNTED("set_fields", CHECK(ecow_value_set_fields(&root) == ECOW_OK));
    COUNTED("set_field of none", CHECK(ecow_value_set_field(&root, "list", 4, &list) == ECOW_OK));
    COUNTED("set_field of a new name",
            CHECK(ecow_value_set_field(&root, SPILLED, 15, &item) == ECOW_OK));
    COUNTED("set_field of a new name of 16 bytes",
            CHECK(ecow_value_set_field(&root, SPILLED, 16, &item) == ECOW_OK));
    COUNTED("push_field of a name of 17 bytes, and remove_field",
            CHECK(ecow_value_push_field(&root, SPILLED, 17, &item) == ECOW_OK
                  && ecow_value_remove_field(&root, SPILLED, 17, NULL) == ECOW_OK));
    COUNTED("set_field in place",
            CHECK(ecow_value_set_field(&root, SPILLED, 16, &item) == ECOW_OK));
    COUNTED("clone", CHECK(ecow_value_clone(&before, &root) == ECOW_OK));
    begin();
    CHECK(ecow_value_get_field(&root, SPILLED, 16, &item) == ECOW_OK);
    CHECK(ecow_value_field_name(&root, 2, &text) == ECOW_OK && ecow_value_equal(&root, &before));
    end(NAME ": reads of fields");
    ecow_value_drop(&list);
    begin();
    CHECK(ecow_value_get_field(&root, "list", 4, &list) == ECOW_OK);
    CHECK(ecow_value_set(&list, 0, &item) == ECOW_OK);
    CHECK(ecow_value_set_field(&root, "list", 4, &list) == ECOW_OK);
    end(NAME ": deep change of a shared one");
    ecow_value_drop(&list);
    ecow_value_drop(&before);
    begin();
    CHECK(ecow_value_get_field(&root, "list", 4, &list) == ECOW_OK);
    CHECK(ecow_value_set(&list, 0, &item) == ECOW_OK);
    CHECK(ecow_value_set_field(&root, "list", 4, &list) == ECOW_OK);
    end(NAME ": deep change");
    ecow_value_drop(&list);
    begin();
    CHECK(ecow_value_remove_field(&root, "list", 4, &list) == ECOW_OK);
    CHECK(ecow_value_set(&list, 0, &item) == ECOW_OK);
    CHECK(ecow_value_set_field(&root, "list", 4, &list) == ECOW_OK);
    end(NAME ": deep change by way of remove_field");
    ecow_value_drop(&list);
    begin();
    CHECK(ecow_value_swap_field(&root, "list", 4, &list) == ECOW_OK);
    CHECK(ecow_value_set(&list, 0, &item) == ECOW_OK);
    CHECK(ecow_value_swap_field(&root, "list", 4, &list) == ECOW_OK);
    end(NAME ": deep change by swaps");
    ecow_value_drop(&list);
    /* A path's steps take a block while a call goes by them. */
    ecow_value way = {{0}}, first = {{0}};
    CHECK(ecow_value_set_list(&way) == ECOW_OK && ecow_text_assign(&text, "list", 4) == ECOW_OK);
    CHECK(ecow_value_set_text(&list, &text) == ECOW_OK && ecow_value_push(&way, &list) == ECOW_OK);
    CHECK(ecow_value_set_number(&list, 0) == ECOW_OK && ecow_value_clone(&first, &way) == ECOW_OK);
    CHECK(ecow_value_push(&first, &list) == ECOW_OK);
    COUNTED("get_at", CHECK(ecow_value_get_at(&root, &first, &item) == ECOW_OK));
    COUNTED("set_at", CHECK(ecow_value_set_at(&root, &first, &item) == ECOW_OK));
    begin();
    CHECK(ecow_value_swap_at(&root, &way, &list) == ECOW_OK);
    CHECK(ecow_value_set(&list, 0, &item) == ECOW_OK);
    CHECK(ecow_value_swap_at(&root, &way, &list) == ECOW_OK);
    end(NAME ": deep change by swap_at");
    CHECK(ecow_value_clone(&before, &root) == ECOW_OK);
    COUNTED("set_at of a shared one", CHECK(ecow_value_set_at(&root, &first, &item) == ECOW_OK));
    CHECK(ecow_value_clone(&before, &root) == ECOW_OK);
    COUNTED("swap_at of a shared one", CHECK(ecow_value_swap_at(&root, &first, &item) == ECOW_OK));
    ecow_value_drop(&way);
    ecow_value_drop(&first);
    CHECK(ecow_value_clone(&before, &root) == ECOW_OK);
    COUNTED("remove_field of a shared one",
            CHECK(ecow_value_remove_field(&root, SPILLED, 16, &item) == ECOW_OK));
    CHECK(ecow_value_len(&root) == 2 && ecow_value_len(&before) == 3);
    ecow_value_drop(&root);
    ecow_value_drop(&before);
    ecow_value_drop(&list);
    ecow_value_drop(&item);
    ecow_text_drop(&text);
}

int main(void) {
    take_no_buffer();
    ecow_list_costs();
    changes_of_lists();
    doubles_costs();
    changes_of_arrays();
    ecow_bytes_costs();
    changes_of_bytes();
    ecow_text_costs();
    changes_of_texts();
    clones_of_lists_of_texts();
    changes_of_lists_of_texts();
    clones_of_nested_lists();
    changes_of_fields();
    return 0;
}
