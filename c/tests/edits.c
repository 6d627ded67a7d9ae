/* Edits by a seed, of each kind of value, beside plain arrays: edits [COUNT]. Some values are
 * kept, cloned from others, and none may change with another. Every call may answer ECOW_MEMORY,
 * and then leaves its value as it was: so the program serves also while requests are refused. */
#include "check.h"

/* How many values of a kind there are, and how many bytes each has at most. */
enum { VALUES = 6, MOST = 2400 };

/* What a value has to hold. */
typedef struct array {
    char bytes[MOST];
    size_t size;
} array;

static void array_splice(array *all, size_t start, size_t end, const void *added, size_t size) {
    char kept[MOST];
    if (size) {
        memcpy(kept, added, size);
    }
    memmove(all->bytes + start + size, all->bytes + end, all->size - end);
    memcpy(all->bytes + start, kept, size);
    all->size += size - (end - start);
}

static size_t least(size_t left, size_t right) {
    return left < right ? left : right;
}

/* Whether a call that may be refused for want of memory was done; any other status is a fault. */
static bool is_done(ecow_status status) {
    CHECK(status == ECOW_OK || status == ECOW_MEMORY);
    return status == ECOW_OK;
}

static void edit_list(ecow_list lists[VALUES], array models[VALUES], uint64_t *seed) {
    size_t which = below(seed, VALUES), other = below(seed, VALUES);
    ecow_list *list = &lists[which];
    array *model = &models[which];
    size_t size = sizeof(int64_t), len = model->size / size;
    size_t index = below(seed, len + 1), end = index + below(seed, len - index + 1);
    int64_t number = (int64_t)next_number(seed), out = number;
    const int64_t *items = ecow_list_slice(&lists[other], NULL);
    size_t count = least(models[other].size, MOST - model->size) / size;
    switch (below(seed, 14)) {
    case 0:
    case 1:
        if (model->size + size <= MOST && is_done(ecow_list_push(list, number))) {
            array_splice(model, model->size, model->size, &number, size);
        }
        break;
    case 2:
        if (!len) {
            CHECK(ecow_list_pop(list, &out) == ECOW_INDEX && out == number);
        } else if (is_done(ecow_list_pop(list, &out))) {
            CHECK(memcmp(&out, model->bytes + model->size - size, size) == 0);
            model->size -= size;
        }
        break;
    case 3:
        if (model->size + size <= MOST && is_done(ecow_list_insert(list, index, number))) {
            array_splice(model, index * size, index * size, &number, size);
        }
        CHECK(ecow_list_insert(list, model->size / size + 1, number) == ECOW_INDEX);
        break;
    case 4:
        if (index == len) {
            CHECK(ecow_list_remove(list, index, &out) == ECOW_INDEX && out == number);
        } else if (is_done(ecow_list_remove(list, index, &out))) {
            CHECK(memcmp(&out, model->bytes + index * size, size) == 0);
            array_splice(model, index * size, (index + 1) * size, NULL, 0);
        }
        break;
    case 5:
        if (index == len) {
            CHECK(ecow_list_set(list, index, number) == ECOW_INDEX);
        } else if (is_done(ecow_list_set(list, index, number))) {
            memcpy(model->bytes + index * size, &number, size);
        }
        break;
    case 6:
        if (is_done(ecow_list_truncate(list, index))) {
            model->size = index * size;
        }
        break;
    case 7:
        if (below(seed, 8) == 0 && is_done(ecow_list_clear(list))) {
            model->size = 0;
        }
        break;
    case 8:
        is_done(below(seed, 2) ? ecow_list_reserve(list, index) : ecow_list_shrink_to_fit(list));
        CHECK(ecow_list_capacity(list) >= len);
        break;
    case 9:
        if (is_done(ecow_list_extend(list, items, count))) {
            array_splice(model, model->size, model->size, models[other].bytes, count * size);
        }
        break;
    case 10:
        if (is_done(ecow_list_splice(list, index, end, items, least(count, 5)))) {
            array_splice(model, index * size, end * size, models[other].bytes,
                         least(count, 5) * size);
        }
        break;
    case 11:
        if (is_done(ecow_list_assign(list, items, models[other].size / size))) {
            *model = models[other];
        }
        break;
    case 12:
        if (is_done(ecow_list_clone(list, &lists[other]))) {
            *model = models[other];
            CHECK(ecow_list_shares(list, &lists[other]) || !(model->size > 0));
        }
        break;
    default:
        if (below(seed, 8) == 0) {
            ecow_list_drop(list);
            model->size = 0;
        }
        CHECK(ecow_list_get(list, model->size / size, &out) == ECOW_INDEX && out == number);
        CHECK(ecow_list_equal(list, &lists[other])
              == (model->size == models[other].size
                  && !memcmp(model->bytes, models[other].bytes, model->size)));
    }
    CHECK(list_holds(list, (const int64_t *)(const void *)model->bytes, model->size / size));
}

/* The size of the items of an array. Two of them have each. */
static size_t size_at(size_t which) {
    static const size_t sizes[VALUES / 2] = {3, 8, 40};
    return sizes[which / 2];
}

static void edit_array(ecow_array arrays[VALUES], array models[VALUES], uint64_t *seed) {
    size_t which = below(seed, VALUES), other = which / 2 * 2 + below(seed, 2);
    ecow_array *value = &arrays[which];
    array *model = &models[which];
    size_t size = size_at(which), len = model->size / size;
    size_t index = below(seed, len + 1), end = index + below(seed, len - index + 1);
    uint64_t item[5] = {next_number(seed), 2, 3, 4, 5}, out[5];
    const void *items = ecow_array_slice(&arrays[other], size, NULL);
    size_t count = least(models[other].size, MOST - model->size) / size;
    void *all = NULL;
    memcpy(out, item, sizeof out);
    switch (below(seed, 14)) {
    case 0:
    case 1:
        if (model->size + size <= MOST && is_done(ecow_array_push(value, size, item))) {
            array_splice(model, model->size, model->size, item, size);
        }
        break;
    case 2:
        if (!len) {
            CHECK(ecow_array_pop(value, size, out) == ECOW_INDEX && !memcmp(out, item, size));
        } else if (is_done(ecow_array_pop(value, size, out))) {
            CHECK(memcmp(out, model->bytes + model->size - size, size) == 0);
            model->size -= size;
        }
        break;
    case 3:
        if (model->size + size <= MOST && is_done(ecow_array_insert(value, size, index, item))) {
            array_splice(model, index * size, index * size, item, size);
        }
        CHECK(ecow_array_insert(value, size, model->size / size + 1, item) == ECOW_INDEX);
        break;
    case 4:
        if (index == len) {
            CHECK(ecow_array_remove(value, size, index, out) == ECOW_INDEX);
            CHECK(memcmp(out, item, size) == 0);
        } else if (is_done(ecow_array_remove(value, size, index, out))) {
            CHECK(memcmp(out, model->bytes + index * size, size) == 0);
            array_splice(model, index * size, (index + 1) * size, NULL, 0);
        }
        break;
    case 5:
        if (index == len) {
            CHECK(ecow_array_set(value, size, index, item) == ECOW_INDEX);
        } else if (is_done(ecow_array_set(value, size, index, item))) {
            memcpy(model->bytes + index * size, item, size);
        }
        break;
    case 6:
        if (is_done(ecow_array_truncate(value, size, index))) {
            model->size = index * size;
        }
        break;
    case 7:
        if (below(seed, 8) == 0 && is_done(ecow_array_clear(value))) {
            model->size = 0;
        }
        break;
    case 8:
        is_done(below(seed, 2) ? ecow_array_reserve(value, size, index)
                               : ecow_array_shrink_to_fit(value));
        CHECK(ecow_array_capacity(value, size) >= len);
        break;
    case 9:
        if (is_done(ecow_array_extend(value, size, items, count))) {
            array_splice(model, model->size, model->size, models[other].bytes, count * size);
        }
        break;
    case 10:
        if (is_done(ecow_array_splice(value, size, index, end, items, least(count, 5)))) {
            array_splice(model, index * size, end * size, models[other].bytes,
                         least(count, 5) * size);
        }
        break;
    case 11:
        if (is_done(ecow_array_assign(value, size, items, models[other].size / size))) {
            *model = models[other];
        }
        break;
    case 12:
        if (is_done(ecow_array_clone(value, &arrays[other]))) {
            *model = models[other];
            CHECK(ecow_array_shares(value, &arrays[other]) || !(model->size > 0));
        }
        break;
    default:
        if (below(seed, 8) == 0) {
            ecow_array_drop(value);
            model->size = 0;
        }
        if (is_done(ecow_array_edit(value, size, &all, &len))) {
            CHECK(len == model->size / size);
            CHECK(len == 0 || all == ecow_array_slice(value, size, NULL));
            memcpy(len ? all : item, item, size);
            memcpy(model->bytes, item, len ? size : 0);
        }
        CHECK(ecow_array_equal(value, &arrays[other])
              == (model->size == models[other].size
                  && !memcmp(model->bytes, models[other].bytes, model->size)));
    }
}

static bool holds_items(const ecow_array *value, const array *model) {
    size_t len;
    const void *held = ecow_array_slice(value, 1, &len);
    return len == model->size && memcmp(held, model->bytes, len) == 0;
}

static void edit_bytes(ecow_bytes values[VALUES], array models[VALUES], uint64_t *seed) {
    size_t which = below(seed, VALUES), other = below(seed, VALUES);
    ecow_bytes *bytes = &values[which];
    array *model = &models[which];
    size_t len = model->size, index = below(seed, len + 1);
    size_t end = index + below(seed, len - index + 1);
    uint8_t byte = (uint8_t)next_number(seed), out = byte;
    const uint8_t *items = ecow_bytes_slice(&values[other], NULL);
    size_t count = least(models[other].size, MOST - len);
    int order;
    switch (below(seed, 14)) {
    case 0:
    case 1:
        if (len < MOST && is_done(ecow_bytes_push(bytes, byte))) {
            array_splice(model, len, len, &byte, 1);
        }
        break;
    case 2:
        if (!len) {
            CHECK(ecow_bytes_pop(bytes, &out) == ECOW_INDEX && out == byte);
        } else if (is_done(ecow_bytes_pop(bytes, &out))) {
            CHECK(out == (uint8_t)model->bytes[--model->size]);
        }
        break;
    case 3:
        if (len < MOST && is_done(ecow_bytes_insert(bytes, index, byte))) {
            array_splice(model, index, index, &byte, 1);
        }
        break;
    case 4:
        if (index == len) {
            CHECK(ecow_bytes_remove(bytes, index, &out) == ECOW_INDEX && out == byte);
        } else if (is_done(ecow_bytes_remove(bytes, index, &out))) {
            CHECK(out == (uint8_t)model->bytes[index]);
            array_splice(model, index, index + 1, NULL, 0);
        }
        break;
    case 5:
        if (index == len) {
            CHECK(ecow_bytes_set(bytes, index, byte) == ECOW_INDEX);
        } else if (is_done(ecow_bytes_set(bytes, index, byte))) {
            model->bytes[index] = (char)byte;
        }
        break;
    case 6:
        if (is_done(ecow_bytes_truncate(bytes, index))) {
            model->size = index;
        }
        break;
    case 7:
        if (below(seed, 8) == 0 && is_done(ecow_bytes_clear(bytes))) {
            model->size = 0;
        }
        break;
    case 8:
        is_done(below(seed, 2) ? ecow_bytes_reserve(bytes, index % 20)
                               : ecow_bytes_shrink_to_fit(bytes));
        CHECK(ecow_bytes_capacity(bytes) >= len);
        break;
    case 9:
        if (is_done(ecow_bytes_extend(bytes, items, least(count, 20)))) {
            array_splice(model, len, len, models[other].bytes, least(count, 20));
        }
        break;
    case 10:
        if (is_done(ecow_bytes_splice(bytes, index, end, items, least(count, 9)))) {
            array_splice(model, index, end, models[other].bytes, least(count, 9));
        }
        break;
    case 11:
        if (is_done(ecow_bytes_assign(bytes, items, models[other].size))) {
            *model = models[other];
        }
        break;
    case 12:
        if (is_done(ecow_bytes_clone(bytes, &values[other]))) {
            *model = models[other];
            CHECK(ecow_bytes_shares(bytes, &values[other]) || !(model->size > 15));
        }
        break;
    default:
        if (below(seed, 4) == 0) {
            ecow_bytes_drop(bytes);
            model->size = 0;
        }
        order = memcmp(model->bytes, models[other].bytes, least(model->size, models[other].size));
        if (!order) {
            order = (model->size > models[other].size) - (model->size < models[other].size);
        }
        out = (uint8_t)ecow_bytes_compare(bytes, &values[other]);
        CHECK(order ? (order < 0) == ((int8_t)out < 0) && out : !out);
    }
    CHECK(bytes_hold(bytes, model->bytes, model->size));
}

static bool is_boundary(const array *text, size_t index) {
    return index == text->size || (index < text->size && (text->bytes[index] & 0xc0) != 0x80);
}

/* The status for a call at an index. */
static ecow_status status_at(const array *text, size_t index) {
    return index > text->size ? ECOW_INDEX : is_boundary(text, index) ? ECOW_OK : ECOW_BOUNDARY;
}

static void edit_text(ecow_text texts[VALUES], array models[VALUES], uint64_t *seed) {
    static const struct {
        uint32_t number;
        const char *bytes;
    } characters[] = {{'a', "a"},
                      {'z', "z"},
                      {0xe9, "\xc3\xa9"},
                      {0x20ac, "\xe2\x82\xac"},
                      {0x1f331, "\xf0\x9f\x8c\xb1"}};
    size_t chosen = below(seed, 5), which = below(seed, VALUES), other = below(seed, VALUES);
    const char *bytes = characters[chosen].bytes;
    ecow_text *text = &texts[which];
    array *model = &models[which];
    size_t len = model->size, size = strlen(bytes), index = below(seed, len + 2);
    size_t end = index + below(seed, len + 2), width = 1;
    uint32_t out = 99;
    ecow_status status = status_at(model, index);
    const char *items = ecow_text_slice(&texts[other], NULL);
    size_t count = models[other].size;
    const char *string = NULL;
    switch (below(seed, 14)) {
    case 0:
    case 1:
        if (len + size <= MOST && is_done(ecow_text_push(text, characters[chosen].number))) {
            array_splice(model, len, len, bytes, size);
        }
        break;
    case 2:
        if (!len) {
            CHECK(ecow_text_pop(text, &out) == ECOW_INDEX && out == 99);
        } else if (is_done(ecow_text_pop(text, &out))) {
            while (!is_boundary(model, model->size - width)) {
                width++;
            }
            model->size -= width;
            CHECK(width == (out < 0x80 ? 1 : out < 0x800 ? 2 : out < 0x10000 ? 3 : 4));
        }
        break;
    case 3:
        if (len + size > MOST) {
            break;
        }
        if (status != ECOW_OK) {
            CHECK(ecow_text_insert(text, index, bytes, size) == status);
        } else if (is_done(ecow_text_insert(text, index, bytes, size))) {
            array_splice(model, index, index, bytes, size);
        }
        break;
    case 4:
        if (index >= len || status != ECOW_OK) {
            status = index >= len ? ECOW_INDEX : status;
            CHECK(ecow_text_remove(text, index, &out) == status && out == 99);
        } else if (is_done(ecow_text_remove(text, index, &out))) {
            while (!is_boundary(model, index + width)) {
                width++;
            }
            array_splice(model, index, index + width, NULL, 0);
        }
        break;
    case 5:
        if (index < len && status == ECOW_OK) {
            CHECK(ecow_text_get(text, index, &out) == ECOW_OK);
            CHECK(out < 0x80 ? out == (uint8_t)model->bytes[index] : is_boundary(model, index));
        } else {
            status = index >= len ? ECOW_INDEX : status;
            CHECK(ecow_text_get(text, index, &out) == status && out == 99);
        }
        break;
    case 6:
        if (status == ECOW_BOUNDARY) {
            CHECK(ecow_text_truncate(text, index) == status);
        } else if (is_done(ecow_text_truncate(text, index))) {
            model->size = least(index, len);
        }
        break;
    case 7:
        if (below(seed, 8) == 0 && is_done(ecow_text_clear(text))) {
            model->size = 0;
        }
        break;
    case 8:
        is_done(below(seed, 2) ? ecow_text_reserve(text, index % 20)
                               : ecow_text_shrink_to_fit(text));
        if (is_done(ecow_text_c_str(text, &string))) {
            CHECK(strlen(string) == len && string == ecow_text_slice(text, NULL));
        }
        CHECK(ecow_text_is_boundary(text, index) == is_boundary(model, index));
        break;
    case 9:
        if (len + count <= MOST && is_done(ecow_text_extend(text, items, count))) {
            array_splice(model, len, len, models[other].bytes, count);
        }
        break;
    case 10:
        if (end > len) {
            status = ECOW_INDEX;
        } else if (!is_boundary(model, end)) {
            status = ECOW_BOUNDARY;
        }
        if (len + count > MOST) {
            break;
        }
        if (status != ECOW_OK) {
            /* Items in memory that the text shares are copied first. */
            ecow_status found = ecow_text_splice(text, index, end, items, count);
            CHECK(found == status || found == ECOW_MEMORY);
        } else if (is_done(ecow_text_splice(text, index, end, items, count))) {
            array_splice(model, index, end, models[other].bytes, count);
        }
        break;
    case 11:
        if (is_done(ecow_text_assign(text, items, count))) {
            *model = models[other];
        }
        break;
    case 12:
        if (is_done(ecow_text_clone(text, &texts[other]))) {
            *model = models[other];
            CHECK(ecow_text_shares(text, &texts[other]) || !(model->size > 15));
        }
        break;
    default:
        if (below(seed, 4) == 0) {
            ecow_text_drop(text);
            model->size = 0;
        } else if (2 * len <= MOST && is_done(ecow_text_repeat(text, 2))) {
            array_splice(model, len, len, model->bytes, len);
        }
        if (is_done(ecow_text_replace(text, "z", 1, "a", 1))) {
            for (size_t at = 0; at < model->size; at++) {
                if (model->bytes[at] == 'z') {
                    model->bytes[at] = 'a';
                }
            }
        }
    }
    CHECK(text_holds(text, model->bytes, model->size));
}

/* How many texts a list has at most, and how many bytes a text. */
enum { MOST_TEXTS = 24, MOST_LETTERS = 24 };

/* What a list of texts has to hold. */
typedef struct strings {
    char text[MOST_TEXTS][MOST_LETTERS + 1];
    size_t len;
} strings;

static void strings_splice(strings *all, size_t start, size_t end, const strings *added,
                           size_t count) {
    strings made = *all;
    memcpy(made.text + start, added->text, count * sizeof *made.text);
    memcpy(made.text + start + count, all->text + end, (all->len - end) * sizeof *made.text);
    made.len = all->len - (end - start) + count;
    *all = made;
}

static bool holds(const ecow_texts *texts, const strings *model) {
    const char *items[MOST_TEXTS];
    for (size_t index = 0; index < model->len; index++) {
        items[index] = model->text[index];
    }
    return texts_hold(texts, items, model->len);
}

/* The order of two arrays of strings. */
static int strings_compare(const strings *left, const strings *right) {
    for (size_t index = 0; index < least(left->len, right->len); index++) {
        int order = strcmp(left->text[index], right->text[index]);
        if (order) {
            return order;
        }
    }
    return (left->len > right->len) - (left->len < right->len);
}

static void edit_texts(ecow_texts lists[VALUES], strings models[VALUES], uint64_t *seed) {
    size_t which = below(seed, VALUES), other = below(seed, VALUES);
    ecow_texts *list = &lists[which];
    strings *model = &models[which], word = {{{0}}, 1};
    size_t len = model->len, index = below(seed, len + 1);
    size_t end = index + below(seed, len - index + 1), letters = below(seed, MOST_LETTERS + 1);
    bool fits = len < MOST_TEXTS, by_bytes = below(seed, 2);
    ecow_text text = {{0}};
    for (size_t at = 0; at < letters; at++) {
        word.text[0][at] = (char)('a' + below(seed, 2));
    }
    if (!is_done(ecow_text_assign(&text, word.text[0], letters))) {
        return;
    }
    switch (below(seed, 14)) {
    case 0:
    case 1:
        if (fits
            && is_done(by_bytes ? ecow_texts_push_text(list, word.text[0], letters)
                                : ecow_texts_push(list, &text))) {
            strings_splice(model, len, len, &word, 1);
        }
        break;
    case 2:
        if (!len) {
            CHECK(ecow_texts_pop(list, &text) == ECOW_INDEX && text_is(&text, word.text[0]));
        } else if (is_done(ecow_texts_pop(list, &text))) {
            CHECK(text_is(&text, model->text[--model->len]));
        }
        break;
    case 3:
        if (fits && is_done(ecow_texts_insert(list, index, &text))) {
            strings_splice(model, index, index, &word, 1);
        }
        CHECK(ecow_texts_insert(list, model->len + 1, &text) == ECOW_INDEX);
        break;
    case 4:
        if (index == len) {
            CHECK(ecow_texts_remove(list, index, &text) == ECOW_INDEX
                  && text_is(&text, word.text[0]));
        } else if (is_done(ecow_texts_remove(list, index, &text))) {
            CHECK(text_is(&text, model->text[index]));
            strings_splice(model, index, index + 1, &word, 0);
        }
        break;
    case 5:
        if (index == len) {
            CHECK(ecow_texts_set(list, index, &text) == ECOW_INDEX);
        } else if (is_done(by_bytes ? ecow_texts_set_text(list, index, word.text[0], letters)
                                    : ecow_texts_set(list, index, &text))) {
            strings_splice(model, index, index + 1, &word, 1);
        }
        break;
    case 6:
        if (is_done(ecow_texts_truncate(list, index))) {
            model->len = index;
        }
        break;
    case 7:
        if (below(seed, 8) == 0 && is_done(ecow_texts_clear(list))) {
            model->len = 0;
        }
        break;
    case 8:
        is_done(below(seed, 2) ? ecow_texts_reserve(list, index) : ecow_texts_shrink_to_fit(list));
        CHECK(ecow_texts_capacity(list) >= len);
        break;
    case 9:
        if (len + models[other].len <= MOST_TEXTS
            && is_done(ecow_texts_extend(list, &lists[other]))) {
            strings_splice(model, len, len, &models[other], models[other].len);
        }
        break;
    case 10:
        if (len + models[other].len <= MOST_TEXTS
            && is_done(ecow_texts_splice(list, index, end, &lists[other]))) {
            strings_splice(model, index, end, &models[other], models[other].len);
        }
        break;
    case 11:
        if (index == len) {
            CHECK(ecow_texts_get(list, index, &text) == ECOW_INDEX && text_is(&text, word.text[0]));
        } else if (is_done(ecow_texts_get(list, index, &text))) {
            CHECK(text_is(&text, model->text[index]));
            /* A change of what was taken out as a clone is not seen in the list. */
            is_done(ecow_text_push(&text, '!'));
        }
        break;
    case 12:
        if (is_done(ecow_texts_clone(list, &lists[other]))) {
            *model = models[other];
            CHECK(ecow_texts_shares(list, &lists[other]) || !(model->len > 0));
        }
        break;
    default:
        if (below(seed, 8) == 0) {
            ecow_texts_drop(list);
            model->len = 0;
        }
        int order = strings_compare(model, &models[other]);
        int found = ecow_texts_compare(list, &lists[other]);
        CHECK((order < 0) == (found < 0) && (order > 0) == (found > 0));
        CHECK(ecow_texts_equal(list, &lists[other]) == !order);
        CHECK(order || ecow_texts_hash(list) == ecow_texts_hash(&lists[other]));
    }
    ecow_text_drop(&text);
    CHECK(holds(list, model));
}

/* How many parts a nested value has at most, itself included. */
enum { MOST_PARTS = 100 };

static const char *const names[] = {"a", "b", "", "a name of more than 15 bytes"};

/* A part of a nested value, and how many parts it has, itself included. Its items or fields follow
 * it, each with its own. */
typedef struct part {
    ecow_kind kind;
    int64_t number;
    size_t name, size;
    char text[MOST_LETTERS + 1];
} part;

/* What a nested value has to hold. */
typedef struct tree {
    part parts[MOST_PARTS];
} tree;

static part part_of(ecow_kind kind, int64_t number) {
    part made;
    memset(&made, 0, sizeof made);
    made.kind = kind;
    made.number = number;
    made.size = 1;
    return made;
}

/* Where the item or field at an index begins. */
static size_t place_of(const tree *all, size_t at, size_t index) {
    size_t place = at + 1;
    while (index--) {
        place += all->parts[place].size;
    }
    return place;
}

static size_t items_of(const tree *all, size_t at) {
    size_t count = 0;
    for (size_t place = at + 1; place < at + all->parts[at].size; count++) {
        place += all->parts[place].size;
    }
    return count;
}

/* Where the field of a name is, or how many there are. */
static size_t field_of(const tree *all, size_t at, size_t name) {
    size_t index = 0, len = items_of(all, at);
    while (index < len && all->parts[place_of(all, at, index)].name != name) {
        index++;
    }
    return index;
}

/* Puts parts in place of others, which lie in each of the parts of a way. */
static void tree_splice(tree *all, const size_t *way, size_t depth, size_t place, size_t size,
                        const part *added, size_t count) {
    part kept[MOST_PARTS];
    size_t total = all->parts[0].size;
    memcpy(kept, added, count * sizeof *kept);
    memmove(all->parts + place + count, all->parts + place + size,
            (total - place - size) * sizeof *kept);
    memcpy(all->parts + place, kept, count * sizeof *kept);
    for (size_t step = 0; step < depth; step++) {
        all->parts[way[step]].size += count - size;
    }
}

/* How deep a part nests. */
static size_t depth_of(const tree *all, size_t at) {
    size_t deepest = 0, len = items_of(all, at);
    for (size_t index = 0; index < len; index++) {
        size_t depth = depth_of(all, place_of(all, at, index));
        deepest = depth > deepest ? depth : deepest;
    }
    return all->parts[at].kind < ECOW_KIND_LIST ? 0 : deepest + 1;
}

static bool holds_tree(const ecow_value *value, const tree *all, size_t at) {
    const part *model = &all->parts[at];
    size_t len = items_of(all, at);
    ecow_value item = {{0}}, found = {{0}};
    ecow_text text = {{0}};
    int64_t number = 0;
    double real = 0;
    bool truth = false, same = ecow_value_kind(value) == model->kind;
    same = same && ecow_value_len(value) == len && ecow_value_depth(value) == depth_of(all, at);
    switch (model->kind) {
    case ECOW_KIND_TRUTH:
        same = same && ecow_value_truth(value, &truth) == ECOW_OK && truth == model->number;
        break;
    case ECOW_KIND_NUMBER:
        same = same && ecow_value_number(value, &number) == ECOW_OK && number == model->number;
        break;
    case ECOW_KIND_REAL:
        same = same && ecow_value_real(value, &real) == ECOW_OK && real == (double)model->number;
        break;
    case ECOW_KIND_TEXT:
        same = same && ecow_value_text(value, &text) == ECOW_OK && text_is(&text, model->text);
        break;
    default:
        break;
    }
    for (size_t index = 0; same && index < len; index++) {
        size_t place = place_of(all, at, index);
        const char *name = names[all->parts[place].name];
        same = ecow_value_get(value, index, &item) == ECOW_OK && holds_tree(&item, all, place);
        if (same && model->kind == ECOW_KIND_FIELDS) {
            same = ecow_value_field_name(value, index, &text) == ECOW_OK && text_is(&text, name)
                   && ecow_value_get_field(value, name, strlen(name), &found) == ECOW_OK
                   && ecow_value_equal(&found, &item);
        }
    }
    ecow_value_drop(&item);
    ecow_value_drop(&found);
    ecow_text_drop(&text);
    return same;
}

/* Makes a value one of a kind that the seed decides. */
static bool make_value(ecow_value *value, tree *all, const size_t *way, size_t depth,
                       uint64_t *seed) {
    size_t kind = below(seed, 2) ? ECOW_KIND_LIST + below(seed, 2) : below(seed, 7);
    part made = part_of((ecow_kind)kind, (int64_t)below(seed, 1000));
    size_t at = way[depth], letters = below(seed, MOST_LETTERS + 1);
    ecow_text text = {{0}};
    ecow_status status = ECOW_OK;
    made.name = all->parts[at].name;
    switch (made.kind) {
    case ECOW_KIND_NOTHING:
        status = ecow_value_set_nothing(value);
        break;
    case ECOW_KIND_TRUTH:
        made.number %= 2;
        status = ecow_value_set_truth(value, made.number);
        break;
    case ECOW_KIND_NUMBER:
        status = ecow_value_set_number(value, made.number);
        break;
    case ECOW_KIND_REAL:
        status = ecow_value_set_real(value, (double)made.number);
        break;
    case ECOW_KIND_TEXT:
        memset(made.text, 'a' + (char)(made.number % 26), letters);
        status = ecow_text_assign(&text, made.text, letters);
        if (status == ECOW_OK) {
            status = ecow_value_set_text(value, &text);
        }
        ecow_text_drop(&text);
        break;
    case ECOW_KIND_LIST:
        status = ecow_value_set_list(value);
        break;
    case ECOW_KIND_FIELDS:
        status = ecow_value_set_fields(value);
        break;
    }
    if (!is_done(status)) {
        return false;
    }
    if (made.kind != ECOW_KIND_TRUTH && made.kind != ECOW_KIND_NUMBER
        && made.kind != ECOW_KIND_REAL) {
        made.number = 0;
    }
    tree_splice(all, way, depth, at, all->parts[at].size, &made, 1);
    return true;
}

/* Edits a list, by parts of another value. */
static bool edit_items(ecow_value *value, tree *all, const size_t *way, size_t depth,
                       const ecow_value *given, const part *parts, uint64_t *seed) {
    size_t at = way[depth], len = items_of(all, at), index = below(seed, len + 1);
    size_t place = place_of(all, at, index), behind = at + all->parts[at].size, last;
    size_t size = index < len ? all->parts[place].size : 0;
    ecow_value item = {{0}};
    bool done = false;
    switch (below(seed, 8)) {
    case 0:
    case 1:
        if ((done = is_done(ecow_value_push(value, given)))) {
            tree_splice(all, way, depth + 1, behind, 0, parts, parts->size);
        }
        break;
    case 2:
        if ((done = is_done(ecow_value_insert(value, index, given)))) {
            tree_splice(all, way, depth + 1, place, 0, parts, parts->size);
        }
        CHECK(ecow_value_insert(value, items_of(all, at) + 1, given) == ECOW_INDEX);
        break;
    case 3:
        if (index == len) {
            CHECK(ecow_value_set(value, index, given) == ECOW_INDEX);
        } else if ((done = is_done(ecow_value_set(value, index, given)))) {
            tree_splice(all, way, depth + 1, place, size, parts, parts->size);
        }
        break;
    case 4:
        if (index == len) {
            CHECK(ecow_value_remove(value, index, &item) == ECOW_INDEX);
        } else if ((done = is_done(ecow_value_remove(value, index, &item)))) {
            CHECK(holds_tree(&item, all, place));
            tree_splice(all, way, depth + 1, place, size, parts, 0);
        }
        break;
    case 5:
        last = len ? place_of(all, at, len - 1) : 0;
        if (!len) {
            CHECK(ecow_value_pop(value, &item) == ECOW_INDEX);
        } else if ((done = is_done(ecow_value_pop(value, &item)))) {
            CHECK(holds_tree(&item, all, last));
            tree_splice(all, way, depth + 1, last, behind - last, parts, 0);
        }
        break;
    case 6:
        if ((done = is_done(ecow_value_truncate(value, index)))) {
            tree_splice(all, way, depth + 1, place, behind - place, parts, 0);
        }
        break;
    default:
        CHECK(ecow_value_get_field(value, "a", 1, &item) == ECOW_KIND);
    }
    ecow_value_drop(&item);
    return done;
}

/* Edits fields, by parts of another value. */
static bool edit_fields(ecow_value *value, tree *all, const size_t *way, size_t depth,
                        const ecow_value *given, const part *parts, uint64_t *seed) {
    size_t at = way[depth], name = below(seed, 4), index = field_of(all, at, name);
    bool is_there = index < items_of(all, at);
    size_t place = place_of(all, at, index), size = is_there ? all->parts[place].size : 0;
    const char *bytes = names[name];
    ecow_value item = {{0}};
    bool done = false;
    if (below(seed, 3)) {
        bool is_new = !is_there && below(seed, 2);
        if ((done = is_done((is_new ? ecow_value_push_field : ecow_value_set_field)(
                 value, bytes, strlen(bytes), given)))) {
            tree_splice(all, way, depth + 1, place, size, parts, parts->size);
            all->parts[place].name = name;
        }
    } else if (!is_there) {
        CHECK(ecow_value_remove_field(value, bytes, strlen(bytes), &item) == ECOW_INDEX);
    } else if ((done = is_done(ecow_value_remove_field(value, bytes, strlen(bytes), &item)))) {
        CHECK(holds_tree(&item, all, place));
        tree_splice(all, way, depth + 1, place, size, parts, 0);
    }
    ecow_value_drop(&item);
    return done;
}

/* Exchanges a part of a list or of fields and another value. */
static ecow_status swap_part(ecow_value *value, ecow_kind kind, size_t index, const char *name,
                             ecow_value *other) {
    return kind == ECOW_KIND_LIST ? ecow_value_swap(value, index, other)
                                  : ecow_value_swap_field(value, name, strlen(name), other);
}

/* Edits a value, or a part of it that is taken out and put in again. Once a part is exchanged, its
 * list is no other's, so that it goes in again without memory. What is given must not be the whole
 * then, from which the part is missing. */
static bool edit_below(ecow_value *value, tree *all, size_t *way, size_t depth,
                       const ecow_value *given, const part *parts, bool is_whole, uint64_t *seed) {
    size_t at = way[depth], len = items_of(all, at), index = len ? below(seed, len) : 0;
    ecow_kind kind = all->parts[at].kind;
    if (depth < 3 && len && below(seed, 2)) {
        ecow_value item = {{0}};
        way[depth + 1] = place_of(all, at, index);
        const char *name = names[all->parts[way[depth + 1]].name];
        if (!is_whole && below(seed, 2)) {
            bool is_out = is_done(swap_part(value, kind, index, name, &item));
            bool done =
                is_out && edit_below(&item, all, way, depth + 1, given, parts, is_whole, seed);
            CHECK(!is_out || swap_part(value, kind, index, name, &item) == ECOW_OK);
            CHECK(ecow_value_kind(&item) == ECOW_KIND_NOTHING);
            return done;
        }
        CHECK(ecow_value_get(value, index, &item) == ECOW_OK);
        bool done = edit_below(&item, all, way, depth + 1, given, parts, is_whole, seed)
                    && is_done(kind == ECOW_KIND_LIST
                                   ? ecow_value_set(value, index, &item)
                                   : ecow_value_set_field(value, name, strlen(name), &item));
        ecow_value_drop(&item);
        return done;
    }
    if (kind == ECOW_KIND_LIST && below(seed, 30)) {
        return edit_items(value, all, way, depth, given, parts, seed);
    }
    if (kind == ECOW_KIND_FIELDS && below(seed, 30)) {
        return edit_fields(value, all, way, depth, given, parts, seed);
    }
    return make_value(value, all, way, depth, seed);
}

/* Edits a value by a path that the seed decides: the part at its end is read, and put out of its
 * place by another value. */
static bool edit_by_path(ecow_value *value, tree *all, const ecow_value *given, const part *parts,
                         uint64_t *seed) {
    size_t way[5] = {0}, depth = 0, len, end;
    ecow_value path = {{0}}, step = {{0}}, found = {{0}};
    ecow_text name = {{0}};
    bool done = is_done(ecow_value_set_list(&path));
    while (done && depth < 4 && (len = items_of(all, way[depth])) > 0 && below(seed, 4)) {
        size_t index = below(seed, len), place = place_of(all, way[depth], index);
        const char *bytes = names[all->parts[place].name];
        done = is_done(all->parts[way[depth]].kind == ECOW_KIND_LIST
                           ? ecow_value_set_number(&step, (int64_t)index)
                           : ecow_text_assign(&name, bytes, strlen(bytes)));
        if (done && all->parts[way[depth]].kind == ECOW_KIND_FIELDS) {
            done = is_done(ecow_value_set_text(&step, &name));
        }
        done = done && is_done(ecow_value_push(&path, &step));
        way[++depth] = place;
    }
    end = way[depth];
    if (done && is_done(ecow_value_get_at(value, &path, &found))) {
        CHECK(holds_tree(&found, all, end));
    }
    bool is_swap = below(seed, 2);
    if (done && is_swap) {
        done = is_done(ecow_value_clone(&found, given))
               && is_done(ecow_value_swap_at(value, &path, &found));
        CHECK(!done || holds_tree(&found, all, end));
    } else if (done) {
        done = is_done(ecow_value_set_at(value, &path, given));
    }
    if (done) {
        size_t kept = all->parts[end].name;
        tree_splice(all, way, depth, end, all->parts[end].size, parts, parts->size);
        all->parts[end].name = kept;
    }
    ecow_value_drop(&path);
    ecow_value_drop(&step);
    ecow_value_drop(&found);
    ecow_text_drop(&name);
    return done;
}

/* Whether two trees hold the same. The names of the values themselves don't count. */
static bool same_trees(const tree *left, const tree *right) {
    if (left->parts[0].size != right->parts[0].size) {
        return false;
    }
    for (size_t at = 0; at < left->parts[0].size; at++) {
        const part *one = &left->parts[at], *other = &right->parts[at];
        if (one->kind != other->kind || one->number != other->number || one->size != other->size
            || strcmp(one->text, other->text) || (at && one->name != other->name)) {
            return false;
        }
    }
    return true;
}

static void edit_value(ecow_value values[VALUES], tree models[VALUES], uint64_t *seed) {
    size_t which = below(seed, VALUES), other = below(seed, VALUES), way[5] = {0};
    ecow_value *value = &values[which], number = {{0}};
    tree changed = models[which];
    const ecow_value *given = &values[other];
    part parts[MOST_PARTS];
    memcpy(parts, models[other].parts, sizeof parts);
    if (changed.parts[0].size + parts->size > MOST_PARTS || below(seed, 2)) {
        parts[0] = part_of(ECOW_KIND_NUMBER, (int64_t)below(seed, 5));
        CHECK(ecow_value_set_number(&number, parts[0].number) == ECOW_OK);
        given = &number;
    }
    parts[0].name = 0;
    if (changed.parts[0].size + parts->size > MOST_PARTS) {
        ecow_value_drop(value);
        models[which].parts[0] = part_of(ECOW_KIND_NOTHING, 0);
    } else if (below(seed, 10) == 0) {
        if (is_done(ecow_value_clone(value, &values[other]))) {
            models[which] = models[other];
        }
    } else if (below(seed, 4)
                   ? edit_below(value, &changed, way, 0, given, parts, given == value, seed)
                   : edit_by_path(value, &changed, given, parts, seed)) {
        models[which] = changed;
    }
    CHECK(ecow_value_equal(value, &values[other]) == same_trees(&models[which], &models[other]));
    CHECK(holds_tree(value, &models[which], 0));
}

#ifndef ECOW_FUZZ
int main(int argc, char **argv) {
    long edits = argc > 1 ? atol(argv[1]) : 1000000;
    uint64_t seed = 20260915;
    static ecow_list lists[VALUES];
    static ecow_array arrays[VALUES];
    static ecow_bytes bytes[VALUES];
    static ecow_text texts[VALUES];
    static ecow_texts lists_of_texts[VALUES];
    static strings of_lists_of_texts[VALUES];
    static ecow_value nested[VALUES];
    static tree of_nested[VALUES];
    static array of_lists[VALUES], of_arrays[VALUES], of_bytes[VALUES], of_texts[VALUES];
    take_no_buffer();
    for (size_t at = 0; at < VALUES; at++) {
        of_nested[at].parts[0] = part_of(ECOW_KIND_NOTHING, 0);
    }
    for (long edit = 0; edit < edits; edit++) {
        edit_list(lists, of_lists, &seed);
        edit_array(arrays, of_arrays, &seed);
        edit_bytes(bytes, of_bytes, &seed);
        edit_text(texts, of_texts, &seed);
        edit_texts(lists_of_texts, of_lists_of_texts, &seed);
        edit_value(nested, of_nested, &seed);
        for (size_t at = 0; at < VALUES; at++) {
            const int64_t *numbers = (const int64_t *)(const void *)of_lists[at].bytes;
            CHECK(list_holds(&lists[at], numbers, of_lists[at].size / sizeof *numbers));
            CHECK(holds_items(&arrays[at], &of_arrays[at]));
            CHECK(bytes_hold(&bytes[at], of_bytes[at].bytes, of_bytes[at].size));
            CHECK(text_holds(&texts[at], of_texts[at].bytes, of_texts[at].size));
            CHECK(holds(&lists_of_texts[at], &of_lists_of_texts[at]));
            CHECK(edit % 16 || holds_tree(&nested[at], &of_nested[at], 0));
        }
    }
    for (size_t at = 0; at < VALUES; at++) {
        ecow_list_drop(&lists[at]);
        ecow_array_drop(&arrays[at]);
        ecow_bytes_drop(&bytes[at]);
        ecow_text_drop(&texts[at]);
        ecow_texts_drop(&lists_of_texts[at]);
        ecow_value_drop(&nested[at]);
    }
    printf("edits: %ld of each kind, %ld checks\n", edits, checks);
    return 0;
}
#endif
