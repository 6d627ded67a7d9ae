/* The calls of the header over those of the proved library. Nothing here is proved: it takes the
 * address of each pointer, tells arrays and results that are null, two pointers to one value,
 * arrays that overlap the value that is changed, and arrays that no memory holds. It also finds the
 * parts that a nested value lends, and the order and the hash of nested values, since only here can
 * addresses be compared. */
#include "proved.h"

#include <math.h>
#include <string.h>

/* Where an array of no items begins. */
static const int64_t nothing[1] = {0};

/* No memory holds as many items. */
#define PAST_MEMORY ((size_t)1 << 60)

static bool overlap(const void *left, size_t left_size, const void *right, size_t right_size) {
    return (uintptr_t)left - (uintptr_t)right < right_size
           || (uintptr_t)right - (uintptr_t)left < left_size;
}

/* Returns the status of `call`, which puts a text at `out`: this is `text` or, where that is null, a
 * text that is dropped. */
#define PUT_TEXT(text, call)                                  \
    ecow_text ignored = {{0}}, *out = text ? text : &ignored; \
    ecow_status status = call;                                \
    ecow_text_drop(&ignored);                                 \
    return status

const char *ecow_status_text(ecow_status status) {
    switch (status) {
    case ECOW_OK:
        return "done";
    case ECOW_MEMORY:
        return "out of memory";
    case ECOW_CAPACITY:
        return "capacity overflow";
    case ECOW_INDEX:
        return "index past the end";
    case ECOW_BOUNDARY:
        return "index inside a character";
    case ECOW_UTF8:
        return "invalid UTF-8";
    case ECOW_NULL:
        return "null pointer";
    case ECOW_KIND:
        return "value of another kind";
    case ECOW_INNER_NUL:
        return "a 0 inside the text";
    case ECOW_DEPTH:
        return "nested too deep";
    }
    return "no status";
}

const char *ecow_version(void) {
    return ECOW_VERSION;
}

/* The build says how the library beside this file counts owners. */
#ifdef ECOW_COUNT_PLAIN
const char ecow_library_counts_owners_for_one_thread = 1;
#else
const char ecow_library_counts_owners_atomically = 1;
#endif

/* The type of a kind of value, a call of the header, and one of the proved library. */
#define JOIN(prefix, kind, name) prefix##kind##name
#define JOINED(prefix, kind, name) JOIN(prefix, kind, name)
#define VALUE JOINED(ecow_, KIND, )
#define CALL(name) JOINED(ecow_, KIND, _##name)
#define PROVED(name) JOINED(ecow_proved_, KIND, _##name)

#define SIZED
#define SLICE(array, len) ecow_array_slice(array, 1, len)
#define KIND array
#define ITEM void
#include "sized.h"
#include "values.h"
#undef SIZED
#undef SLICE

#define SLICE CALL(slice)
#define CAN_CUT(value, index) true
#define KIND list
#define ITEM int64_t
#include "arrays.h"
#include "items.h"
#include "values.h"

#define KIND bytes
#define ITEM uint8_t
#include "arrays.h"
#include "items.h"
#include "values.h"
#undef CAN_CUT

#define CAN_CUT ecow_text_is_boundary
#define KIND text
#define ITEM char
#include "arrays.h"
#include "values.h"
#undef CAN_CUT

#define KIND texts
#define ITEM ecow_text
#include "values.h"

bool ecow_is_utf8(const char *bytes, size_t count) {
    return bytes && count < PAST_MEMORY ? ecow_proved_is_utf8(bytes, count) : count == 0;
}

bool ecow_text_is_boundary(const ecow_text *text, size_t index) {
    ecow_text *place = (ecow_text *)text;
    return text ? ecow_proved_text_is_boundary(&place, index) : index == 0;
}

ecow_status ecow_text_get(const ecow_text *text, size_t index, uint32_t *character) {
    ecow_text *place = (ecow_text *)text;
    uint32_t ignored = 0;
    return ecow_proved_text_get(&place, index, character ? character : &ignored);
}

ecow_status ecow_text_push(ecow_text *text, uint32_t character) {
    return ecow_proved_text_push(&text, character);
}

ecow_status ecow_text_pop(ecow_text *text, uint32_t *character) {
    uint32_t ignored = 0;
    return ecow_proved_text_pop(&text, character ? character : &ignored);
}

ecow_status ecow_text_insert(ecow_text *text, size_t index, const char *added, size_t count) {
    ecow_text_array array;
    if (count >= PAST_MEMORY) {
        return ecow_text_refuse(text, index, index, added, count);
    }
    ecow_status status = ecow_text_keep(&array, text, added, count);
    status = status ? status : ecow_proved_text_insert(&text, index, array.items, count);
    ecow_text_let_go(&array);
    return status;
}

ecow_status ecow_text_remove(ecow_text *text, size_t index, uint32_t *character) {
    uint32_t ignored = 0;
    return ecow_proved_text_remove(&text, index, character ? character : &ignored);
}

ecow_status ecow_text_replace(ecow_text *text, const char *pattern, size_t pattern_count,
                              const char *replacement, size_t replacement_count) {
    ecow_text_array from, to;
    if (!text || (!pattern && pattern_count) || (!replacement && replacement_count)) {
        return ECOW_NULL;
    }
    if (pattern_count >= PAST_MEMORY || replacement_count >= PAST_MEMORY) {
        return ECOW_MEMORY;
    }
    ecow_status status = ecow_text_keep(&from, text, pattern, pattern_count);
    ecow_status other = ecow_text_keep(&to, text, replacement, replacement_count);
    status = status ? status : other;
    status = status ? status
                    : ecow_proved_text_replace(&text, from.items, pattern_count, to.items,
                                               replacement_count);
    ecow_text_let_go(&from);
    ecow_text_let_go(&to);
    return status;
}

ecow_status ecow_text_to_lowercase(ecow_text *text) {
    return ecow_proved_text_to_lowercase(&text);
}

ecow_status ecow_text_to_uppercase(ecow_text *text) {
    return ecow_proved_text_to_uppercase(&text);
}

ecow_status ecow_text_repeat(ecow_text *text, size_t count) {
    return ecow_proved_text_repeat(&text, count);
}

/* The 0 is appended and taken away again, so that it stands behind the bytes of a block that is not
 * shared. Of 14 bytes in the struct the one behind them is the library's, so these leave it. */
ecow_status ecow_text_c_str(ecow_text *text, const char **out) {
    size_t len = ecow_text_len(text);
    const char *start = ecow_text_slice(text, NULL);
    if (memchr(start, 0, len)) {
        return ECOW_INNER_NUL;
    }
    ecow_status status = ecow_text_reserve(text, 2);
    status = status ? status : ecow_text_push(text, 0);
    status = status ? status : ecow_text_truncate(text, len);
    if (status == ECOW_OK && out) {
        *out = ecow_text_slice(text, NULL);
    }
    return status;
}

ecow_status ecow_texts_get(const ecow_texts *texts, size_t index, ecow_text *text) {
    ecow_texts *place = (ecow_texts *)texts;
    PUT_TEXT(text, ecow_proved_texts_get(&place, index, &out));
}

extern inline const char *ecow_texts_at(const ecow_texts *texts, size_t index, size_t *len);

ecow_status ecow_texts_set(ecow_texts *texts, size_t index, const ecow_text *text) {
    ecow_text *item = (ecow_text *)text;
    return ecow_proved_texts_set(&texts, index, &item);
}

/* The bytes are copied before the list changes, and so may lie in it. */
ecow_status ecow_texts_set_text(ecow_texts *texts, size_t index, const char *bytes, size_t count) {
    ecow_text text = {{0}};
    ecow_status status = texts ? ecow_text_assign(&text, bytes, count) : ECOW_NULL;
    if (status == ECOW_CAPACITY && index >= ecow_texts_len(texts)) {
        status = ECOW_INDEX;
    }
    status = status ? status : ecow_texts_set(texts, index, &text);
    ecow_text_drop(&text);
    return status;
}

ecow_status ecow_texts_push(ecow_texts *texts, const ecow_text *text) {
    ecow_text *item = (ecow_text *)text;
    return ecow_proved_texts_push(&texts, &item);
}

/* The bytes are copied before the list changes, and so may lie in it. */
ecow_status ecow_texts_push_text(ecow_texts *texts, const char *bytes, size_t count) {
    ecow_text text = {{0}};
    ecow_status status = texts ? ecow_text_assign(&text, bytes, count) : ECOW_NULL;
    status = status ? status : ecow_texts_push(texts, &text);
    ecow_text_drop(&text);
    return status;
}

ecow_status ecow_texts_pop(ecow_texts *texts, ecow_text *text) {
    PUT_TEXT(text, ecow_proved_texts_pop(&texts, &out));
}

ecow_status ecow_texts_insert(ecow_texts *texts, size_t index, const ecow_text *text) {
    ecow_text *item = (ecow_text *)text;
    return ecow_proved_texts_insert(&texts, index, &item);
}

ecow_status ecow_texts_remove(ecow_texts *texts, size_t index, ecow_text *text) {
    PUT_TEXT(text, ecow_proved_texts_remove(&texts, index, &out));
}

/* What a call was given, as it stays while a value changes: a clone holds that value itself.
 * given_texts, keep_texts, given_value, keep_value */
#define KEEP(kind)                                                                  \
    typedef struct given_##kind {                                                   \
        ecow_##kind *kind;                                                          \
        ecow_##kind held;                                                           \
    } given_##kind;                                                                 \
                                                                                    \
    static ecow_status keep_##kind(given_##kind *given, const ecow_##kind *changed, \
                                   const ecow_##kind *item) {                       \
        bool is_itself = changed && changed == item;                                \
        given->held = ecow_##kind##_new();                                          \
        given->kind = is_itself ? &given->held : (ecow_##kind *)item;               \
        return is_itself ? ecow_##kind##_clone(&given->held, changed) : ECOW_OK;    \
    }

KEEP(texts)
KEEP(value)

ecow_status ecow_texts_extend(ecow_texts *texts, const ecow_texts *added) {
    given_texts given;
    ecow_status status = keep_texts(&given, texts, added);
    status = status ? status : ecow_proved_texts_extend(&texts, &given.texts);
    ecow_texts_drop(&given.held);
    return status;
}

ecow_status ecow_texts_splice(ecow_texts *texts, size_t start, size_t end,
                              const ecow_texts *added) {
    given_texts given;
    ecow_status status = keep_texts(&given, texts, added);
    status = status ? status : ecow_proved_texts_splice(&texts, start, end, &given.texts);
    ecow_texts_drop(&given.held);
    return status;
}

ecow_value ecow_value_new(void) {
    ecow_value value = {{0}};
    return value;
}

extern inline void ecow_value_drop(ecow_value *value);

extern inline ecow_status ecow_value_clone(ecow_value *to, const ecow_value *from);

ecow_kind ecow_value_kind(const ecow_value *value) {
    ecow_value *place = (ecow_value *)value;
    return (ecow_kind)ecow_proved_value_kind(&place);
}

ecow_status ecow_value_set_nothing(ecow_value *value) {
    return ecow_proved_value_drop(&value);
}

ecow_status ecow_value_set_truth(ecow_value *value, bool truth) {
    return ecow_proved_value_set_truth(&value, truth);
}

ecow_status ecow_value_set_number(ecow_value *value, int64_t number) {
    return ecow_proved_value_set_number(&value, number);
}

ecow_status ecow_value_set_real(ecow_value *value, double real) {
    return ecow_proved_value_set_real(&value, real);
}

ecow_status ecow_value_set_text(ecow_value *value, const ecow_text *text) {
    ecow_text *from = (ecow_text *)text;
    return ecow_proved_value_set_text(&value, &from);
}

ecow_status ecow_value_set_list(ecow_value *value) {
    return ecow_proved_value_set_list(&value);
}

ecow_status ecow_value_set_fields(ecow_value *value) {
    return ecow_proved_value_set_fields(&value);
}

ecow_status ecow_value_truth(const ecow_value *value, bool *truth) {
    ecow_value *place = (ecow_value *)value;
    bool found = false;
    ecow_status status = ecow_proved_value_truth(&place, &found);
    if (status == ECOW_OK && truth) {
        *truth = found;
    }
    return status;
}

ecow_status ecow_value_number(const ecow_value *value, int64_t *number) {
    ecow_value *place = (ecow_value *)value;
    int64_t ignored = 0;
    return ecow_proved_value_number(&place, number ? number : &ignored);
}

ecow_status ecow_value_real(const ecow_value *value, double *real) {
    ecow_value *place = (ecow_value *)value;
    double ignored = 0;
    return ecow_proved_value_real(&place, real ? real : &ignored);
}

ecow_status ecow_value_text(const ecow_value *value, ecow_text *text) {
    ecow_value *place = (ecow_value *)value;
    PUT_TEXT(text, ecow_proved_value_text(&place, &out));
}

size_t ecow_value_len(const ecow_value *value) {
    ecow_value *place = (ecow_value *)value;
    return ecow_proved_value_len(&place);
}

size_t ecow_value_depth(const ecow_value *value) {
    ecow_value *place = (ecow_value *)value;
    return ecow_proved_value_depth(&place);
}

/* Gives a call's result to the caller, whose value may be the one that the call took it from. A
 * result that isn't wanted, and that of a refusal, are given up. */
static ecow_status hand_over(ecow_status status, ecow_value *made, ecow_value *out) {
    if (status == ECOW_OK && out) {
        ecow_value_drop(out);
        *out = *made;
    } else {
        ecow_value_drop(made);
    }
    return status;
}

ecow_status ecow_value_get(const ecow_value *value, size_t index, ecow_value *item) {
    ecow_value *place = (ecow_value *)value, made = {{0}}, *out = &made;
    return hand_over(ecow_proved_value_get(&place, index, &out), &made, item);
}

ecow_status ecow_value_pop(ecow_value *value, ecow_value *item) {
    ecow_value made = {{0}}, *out = &made;
    return hand_over(ecow_proved_value_pop(&value, &out), &made, item);
}

ecow_status ecow_value_remove(ecow_value *value, size_t index, ecow_value *item) {
    ecow_value made = {{0}}, *out = &made;
    return hand_over(ecow_proved_value_remove(&value, index, &out), &made, item);
}

static ecow_status end_value(ecow_status status, given_value *given) {
    ecow_value_drop(&given->held);
    return status;
}

ecow_status ecow_value_set(ecow_value *value, size_t index, const ecow_value *item) {
    given_value given;
    ecow_status refused = keep_value(&given, value, item);
    return end_value(refused ? refused : ecow_proved_value_set(&value, index, &given.value),
                     &given);
}

/* Ends an exchange: where a value was exchanged with its own part, it becomes that part. */
static ecow_status end_swap(ecow_status status, given_value *given, ecow_value *value) {
    return given->value == &given->held ? hand_over(status, &given->held, value) : status;
}

ecow_status ecow_value_swap(ecow_value *value, size_t index, ecow_value *other) {
    given_value given;
    ecow_status refused = keep_value(&given, value, other);
    return end_swap(refused ? refused : ecow_proved_value_swap(&value, index, &given.value), &given,
                    value);
}

ecow_status ecow_value_push(ecow_value *value, const ecow_value *item) {
    given_value given;
    ecow_status refused = keep_value(&given, value, item);
    return end_value(refused ? refused : ecow_proved_value_push(&value, &given.value), &given);
}

ecow_status ecow_value_insert(ecow_value *value, size_t index, const ecow_value *item) {
    given_value given;
    ecow_status refused = keep_value(&given, value, item);
    return end_value(refused ? refused : ecow_proved_value_insert(&value, index, &given.value),
                     &given);
}

ecow_status ecow_value_truncate(ecow_value *value, size_t len) {
    return ecow_proved_value_truncate(&value, len);
}

/* The name that a call was given, as it stays while the value and another one change: one that
 * overlaps a struct of theirs is copied. */
typedef struct given_name {
    const char *bytes;
    ecow_text held;
} given_name;

static ecow_status keep_name(given_name *given, const ecow_value *value, const ecow_value *other,
                             const char *name, size_t count) {
    given->bytes = name ? name : (const char *)nothing;
    given->held = ecow_text_new();
    if (!value || !other || (!name && count)) {
        return ECOW_NULL;
    }
    if (count >= PAST_MEMORY) {
        return ECOW_MEMORY;
    }
    if (overlap(name, count, value, sizeof *value) || overlap(name, count, other, sizeof *other)) {
        ecow_status status = ecow_text_assign(&given->held, name, count);
        given->bytes = ecow_text_slice(&given->held, NULL);
        return status;
    }
    return ECOW_OK;
}

typedef ecow_status named_call(ecow_value **, const char *, size_t, ecow_value **);

/* Makes a call that takes a name and gives a value. */
static ecow_status take_field(named_call *call, const ecow_value *value, const char *name,
                              size_t count, ecow_value *item) {
    ecow_value *place = (ecow_value *)value, made = {{0}}, *out = &made;
    given_name given;
    ecow_status status = keep_name(&given, value, value, name, count);
    status = status ? status : call(&place, given.bytes, count, &out);
    ecow_text_drop(&given.held);
    return hand_over(status, &made, item);
}

ecow_status ecow_value_get_field(const ecow_value *value, const char *name, size_t count,
                                 ecow_value *item) {
    return take_field(ecow_proved_value_get_field, value, name, count, item);
}

ecow_status ecow_value_remove_field(ecow_value *value, const char *name, size_t count,
                                    ecow_value *item) {
    return take_field(ecow_proved_value_remove_field, value, name, count, item);
}

/* Makes a call that takes a name and a value. */
static ecow_status give_field(named_call *call, ecow_value *value, const char *name, size_t count,
                              const ecow_value *item, given_value *kept) {
    given_name given;
    ecow_status status = keep_name(&given, value, item, name, count);
    ecow_status other = keep_value(kept, value, item);
    status = status ? status : other;
    status = status ? status : call(&value, given.bytes, count, &kept->value);
    ecow_text_drop(&given.held);
    return status;
}

ecow_status ecow_value_set_field(ecow_value *value, const char *name, size_t count,
                                 const ecow_value *item) {
    given_value kept;
    return end_value(give_field(ecow_proved_value_set_field, value, name, count, item, &kept),
                     &kept);
}

ecow_status ecow_value_push_field(ecow_value *value, const char *name, size_t count,
                                  const ecow_value *item) {
    given_value kept;
    return end_value(give_field(ecow_proved_value_push_field, value, name, count, item, &kept),
                     &kept);
}

ecow_status ecow_value_swap_field(ecow_value *value, const char *name, size_t count,
                                  ecow_value *other) {
    given_value kept;
    return end_swap(give_field(ecow_proved_value_swap_field, value, name, count, other, &kept),
                    &kept, value);
}

/* Makes a call by a path: by a clone, since the call may change the path too. */
static ecow_status go(ecow_status (*call)(ecow_value **, ecow_value **, ecow_value **),
                      const ecow_value *value, const ecow_value *path, const ecow_value *other,
                      given_value *kept) {
    ecow_value *place = (ecow_value *)value, clone = {{0}}, *way = &clone;
    ecow_status status = keep_value(kept, value, other);
    status = status ? status : ecow_value_clone(&clone, path);
    status = status ? status : call(&place, &way, &kept->value);
    ecow_value_drop(&clone);
    return status;
}

ecow_status ecow_value_get_at(const ecow_value *value, const ecow_value *path, ecow_value *part) {
    ecow_value made = {{0}};
    given_value kept;
    return hand_over(go(ecow_proved_value_get_at, value, path, &made, &kept), &made, part);
}

ecow_status ecow_value_set_at(ecow_value *value, const ecow_value *path, const ecow_value *item) {
    given_value kept;
    return end_value(go(ecow_proved_value_set_at, value, path, item, &kept), &kept);
}

ecow_status ecow_value_swap_at(ecow_value *value, const ecow_value *path, ecow_value *other) {
    given_value kept;
    return end_swap(go(ecow_proved_value_swap_at, value, path, other, &kept), &kept, value);
}

ecow_status ecow_value_field_name(const ecow_value *value, size_t index, ecow_text *name) {
    ecow_value *place = (ecow_value *)value;
    PUT_TEXT(name, ecow_proved_value_field_name(&place, index, &out));
}

/* How a field lies in memory: whether it is there or was removed, its name, its value, what the index
 * of names has of it, and in the first one the places of those that were removed, in rising order. */
typedef struct field {
    uint64_t is_there;
    ecow_text name;
    ecow_value value;
    uint64_t links[2], is_repeated;
    const ecow_head *gaps;
} field;

/* Behind the word with its kind, a value has its text, or the word of its list or fields. This is the
 * address of a head, where there are items or fields. */
static const ecow_head *head_of(const ecow_value *value) {
    return (const ecow_head *)(uintptr_t)value->word[1];
}

/* The field at an index below the length: as many places further as there are gaps up to it. */
static const field *field_of(const ecow_value *value, size_t index) {
    const field *fields = head_of(value)->items;
    size_t low = 0, high = fields->gaps ? fields->gaps->len : 0;
    while (low < high) {
        const size_t middle = low + (high - low) / 2;
        const bool is_before = ((const uint64_t *)fields->gaps->items)[middle] - middle <= index;
        *(is_before ? &low : &high) = middle + is_before;
    }
    return &fields[index + low];
}

/* The item or the field's value at an index below the length. */
static const ecow_value *part_of(const ecow_value *value, size_t index) {
    return ecow_value_kind(value) == ECOW_KIND_LIST
               ? (const ecow_value *)head_of(value)->items + index
               : &field_of(value, index)->value;
}

const ecow_value *ecow_value_peek(const ecow_value *value, size_t index) {
    return index < ecow_value_len(value) ? part_of(value, index) : NULL;
}

const ecow_value *ecow_value_peek_field(const ecow_value *value, const char *name, size_t count) {
    ecow_value *place = (ecow_value *)value;
    const char *bytes = name || count ? name : "";
    size_t index = 0;
    if (!bytes || count >= PAST_MEMORY
        || ecow_proved_value_position(&place, bytes, count, &index) != ECOW_OK) {
        return NULL;
    }
    return part_of(value, index);
}

const ecow_text *ecow_value_peek_name(const ecow_value *value, size_t index) {
    const bool is_there =
        ecow_value_kind(value) == ECOW_KIND_FIELDS && index < ecow_value_len(value);
    return is_there ? &field_of(value, index)->name : NULL;
}

const ecow_text *ecow_value_peek_text(const ecow_value *value) {
    return ecow_value_kind(value) == ECOW_KIND_TEXT ? (const ecow_text *)&value->word[1] : NULL;
}

bool ecow_value_shares(const ecow_value *left, const ecow_value *right) {
    ecow_kind kind = ecow_value_kind(left);
    if (!left || !right || ecow_value_kind(right) != kind) {
        return false;
    }
    if (kind == ECOW_KIND_TEXT) {
        return ecow_text_shares(ecow_value_peek_text(left), ecow_value_peek_text(right));
    }
    return ecow_value_len(left) > 0 && left->word[1] == right->word[1];
}

/* What is known of lists and fields, by the addresses of their heads: that two are equal, or the hash
 * of one. So a part that stands in several places is visited once. A note may take the place of
 * another one. */
typedef struct note {
    const ecow_head *head, *other;
    uint64_t hash;
} note;

enum { NOTES = 256 };

static uint64_t mix(uint64_t sum, uint64_t more) {
    const uint64_t mixed = (sum ^ more) * 0x9E3779B97F4A7C15;
    return mixed ^ mixed >> 32;
}

static note *note_of(note *notes, const ecow_head *head, const ecow_head *other) {
    return &notes[mix((uintptr_t)head, 3 * (uintptr_t)other) % NOTES];
}

static int order_of(bool is_less, bool is_greater) {
    return is_greater - is_less;
}

/* The order of two scalars of one kind. */
static int compare_scalars(ecow_kind kind, const ecow_value *left, const ecow_value *right) {
    bool truth = false, other_truth = false;
    int64_t number = 0, other_number = 0;
    double real = 0, other_real = 0;
    switch (kind) {
    case ECOW_KIND_TRUTH:
        ecow_ignore(ecow_value_truth(left, &truth));
        ecow_ignore(ecow_value_truth(right, &other_truth));
        return order_of(truth < other_truth, truth > other_truth);
    case ECOW_KIND_NUMBER:
        ecow_ignore(ecow_value_number(left, &number));
        ecow_ignore(ecow_value_number(right, &other_number));
        return order_of(number < other_number, number > other_number);
    case ECOW_KIND_REAL:
        ecow_ignore(ecow_value_real(left, &real));
        ecow_ignore(ecow_value_real(right, &other_real));
        return isnan(real) || isnan(other_real)
                   ? order_of(!isnan(other_real), !isnan(real))
                   : order_of(real < other_real, real > other_real);
    case ECOW_KIND_TEXT:
        return ecow_text_compare(ecow_value_peek_text(left), ecow_value_peek_text(right));
    default:
        return 0;
    }
}

/* The order of two values, which are there. Where it only matters whether they are equal, lists of
 * different lengths aren't compared. */
static int compare_values(const ecow_value *left, const ecow_value *right, note *notes,
                          bool has_order) {
    const ecow_kind kind = ecow_value_kind(left), other_kind = ecow_value_kind(right);
    const size_t len = ecow_value_len(left), other_len = ecow_value_len(right);
    const int by_length = order_of(len < other_len, len > other_len);
    if (kind != other_kind) {
        return order_of(kind < other_kind, kind > other_kind);
    }
    if (len == 0 || other_len == 0 || (!has_order && by_length)) {
        return by_length ? by_length : compare_scalars(kind, left, right);
    }
    note *known = note_of(notes, head_of(left), head_of(right));
    if (left->word[1] == right->word[1]
        || (known->head == head_of(left) && known->other == head_of(right))) {
        return 0;
    }
    for (size_t at = 0; at < len && at < other_len; at++) {
        const ecow_text *name = ecow_value_peek_name(left, at);
        int order = name ? ecow_text_compare(name, ecow_value_peek_name(right, at)) : 0;
        order = order ? order
                      : compare_values(part_of(left, at), part_of(right, at), notes, has_order);
        if (order) {
            return order;
        }
    }
    if (by_length == 0) {
        known->head = head_of(left);
        known->other = head_of(right);
    }
    return by_length;
}

/* Whether memory of parts has other owners too. Then a part may stand in several places. */
static bool has_shared_parts(const ecow_value *value) {
    const size_t len = ecow_value_len(value);
    for (size_t at = 0; at < len; at++) {
        const ecow_value *part = part_of(value, at);
        if (ecow_value_len(part) > 0
            && (__atomic_load_n(&head_of(part)->owners, __ATOMIC_RELAXED) > 1
                || has_shared_parts(part))) {
            return true;
        }
    }
    return false;
}

/* The proved call visits a part as often as it occurs in both values. */
bool ecow_value_equal(const ecow_value *left, const ecow_value *right) {
    ecow_value *first = (ecow_value *)left, *second = (ecow_value *)right;
    if (left == right || ecow_value_shares(left, right)) {
        return true;
    }
    if (has_shared_parts(left) && has_shared_parts(right)) {
        note notes[NOTES] = {{0}};
        return compare_values(left, right, notes, false) == 0;
    }
    return ecow_proved_value_equal(&first, &second);
}

int ecow_value_compare(const ecow_value *left, const ecow_value *right) {
    note notes[NOTES] = {{0}};
    return left && right ? compare_values(left, right, notes, true) : order_of(!left, !right);
}

static uint64_t hash_of(const ecow_value *value, note *notes) {
    const size_t len = ecow_value_len(value);
    const ecow_text *text = ecow_value_peek_text(value);
    uint64_t sum = mix(0, (uint64_t)ecow_value_kind(value));
    if (len == 0) {
        bool truth = false;
        int64_t number = 0;
        double real = 0;
        ecow_ignore(ecow_value_truth(value, &truth));
        ecow_ignore(ecow_value_number(value, &number));
        ecow_ignore(ecow_value_real(value, &real));
        /* Each NaN equals each other one, and 0 equals -0. */
        real = isnan(real) ? NAN : real + 0.0;
        uint64_t bits;
        memcpy(&bits, &real, sizeof bits);
        return mix(sum, text ? ecow_text_hash(text) : truth ^ (uint64_t)number ^ bits);
    }
    note *known = note_of(notes, head_of(value), NULL);
    if (known->head != head_of(value)) {
        for (size_t at = 0; at < len; at++) {
            const ecow_text *name = ecow_value_peek_name(value, at);
            sum = mix(sum, name ? ecow_text_hash(name) : 0);
            sum = mix(sum, hash_of(part_of(value, at), notes));
        }
        known->head = head_of(value);
        known->hash = sum;
    }
    return known->hash;
}

uint64_t ecow_value_hash(const ecow_value *value) {
    note notes[NOTES] = {{0}};
    return hash_of(value, notes);
}
