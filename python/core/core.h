/* What the files of the extension module `ecow._core` have in common.
 *
 * Each kind of value of `ecow.h` has an object that holds one. A method reads the value, makes what
 * it needs, and calls the library. No code of Python's runs between the reading of an index or of a
 * slice and the call that uses it, so the value can't change meanwhile. */
#ifndef ECOW_CORE_H
#define ECOW_CORE_H

#define PY_SSIZE_T_CLEAN
#define Py_LIMITED_API 0x030B0000
#include <Python.h>
#include <structmember.h>

#include "ecow.h"

#include <stdbool.h>
#include <stddef.h>
#include <stdint.h>
#include <string.h>

/* clang-format off */
/* The methods of `bytes` and `str` that `Bytes` and `Text` hand on to them: those of no argument,
 * the others, and those whose `bytes` or `str` come out as they are. */
#define ALONE_OF_BOTH(X)                                                                       \
    X(capitalize) X(isalnum) X(isalpha) X(isascii) X(isdigit) X(islower) X(isspace)            \
    X(istitle) X(isupper) X(lower) X(swapcase) X(title) X(upper)
#define ALONE_OF_STR(X)                                                                        \
    X(casefold) X(isdecimal) X(isidentifier) X(isnumeric) X(isprintable)
#define METHODS_OF_BOTH(X)                                                                     \
    X(center) X(expandtabs) X(ljust) X(lstrip) X(partition) X(removeprefix) X(removesuffix)    \
    X(replace) X(rjust) X(rpartition) X(rsplit) X(rstrip) X(split) X(splitlines) X(strip)      \
    X(translate) X(zfill)
#define METHODS_OF_BYTES(X) X(join)
#define METHODS_OF_STR(X) X(format) X(format_map)
#define PLAIN_OF_BYTES(X) X(decode) X(hex)
#define PLAIN_OF_STR(X) X(encode)

#define ALL_OF_BYTES(X) ALONE_OF_BOTH(X) METHODS_OF_BOTH(X) METHODS_OF_BYTES(X) PLAIN_OF_BYTES(X)
#define ALL_OF_STR(X)                                                                          \
    ALONE_OF_BOTH(X) ALONE_OF_STR(X) METHODS_OF_BOTH(X) METHODS_OF_STR(X) PLAIN_OF_STR(X)

/* The names that are looked up in other objects. */
#define NAMES(X) X(copied) X(equal) X(hashed) X(plain) X(reduced)
/* clang-format on */

typedef struct text_object text_object;

/* Bytes of that size or less, and texts, may lie in the value itself. */
enum { INLINE = 15 };

/* How many texts' memory is kept. */
enum { SPARE = 64 };

/* What a module object owns. */
typedef struct core_state {
    PyTypeObject *list, *array, *bytes, *text, *texts, *value, *snapshot;
    /* Those of what a container hands out, which isn't changed, and has a hash. */
    PyTypeObject *lent_text, *lent_value;
    /* Memory of texts that are gone, for those to come. */
    text_object *spare[SPARE];
    Py_ssize_t spares;
    /* Names, and methods of `bytes` and `str` that aren't bound to an object. */
#define FIELD(name) PyObject *name;
    struct {
        NAMES(FIELD)
    } names;
    struct {
        ALL_OF_BYTES(FIELD)
    } of_bytes;
    struct {
        ALL_OF_STR(FIELD)
    } of_str;
#undef FIELD
} core_state;

/* The start of every object. The module outlives it, since its type holds the module. */
#define VALUE_HEAD             \
    PyObject ob_base;          \
    core_state *state;         \
    PyObject *weak_references;

typedef struct list_object {
    VALUE_HEAD
    ecow_list value;
} list_object;

/* A type of items, by the letter of `array.array`, which is a buffer's format too. The family is
 * 's' of numbers with a sign, 'u' of those without, and 'r' of floats. */
typedef struct item_type {
    const char *code;
    char family;
    size_t size;
    int (*read)(PyObject *given, void *item);
    PyObject *(*object_of)(const void *item);
} item_type;

/* Items of a type, which is null until the array's `__init__` names it, and never changes behind
 * that. While views that write to the items are open, they aren't changed otherwise, nor cloned. */
typedef struct typed_items {
    ecow_array array;
    const item_type *type;
    Py_ssize_t views;
} typed_items;

typedef struct array_object {
    VALUE_HEAD
    typed_items value;
    /* Whether the next view writes, and how many items all such views have, of which size. */
    bool lends;
    Py_ssize_t sizes[2];
} array_object;

typedef struct bytes_object {
    VALUE_HEAD
    ecow_bytes value;
} bytes_object;

struct text_object {
    VALUE_HEAD
    ecow_text value;
    /* How many characters there are, or -1 where they weren't counted yet. */
    Py_ssize_t count;
    /* A character's index, and that of its first byte. Both are 0, or were asked for last. */
    Py_ssize_t character, byte;
    /* A `str` of the text, or null, and how many bytes were passed while there was none. */
    PyObject *plain;
    Py_ssize_t passed;
};

typedef struct texts_object {
    VALUE_HEAD
    ecow_texts value;
} texts_object;

typedef struct value_object {
    VALUE_HEAD
    ecow_value value;
} value_object;

/* ---- core.c ---- */

/* The module's state, where a type is one of the module's or is derived from one; else null. */
core_state *state_of_type(PyTypeObject *type);

/* The state, where one of two objects is of the module's types. */
core_state *state_of_either(PyObject *left, PyObject *right);

/* What a call answers that would move or share what is being written to through a view. */
#define IN_USE ((ecow_status)(ECOW_DEPTH + 1))

/* Raises the error of a status other than ECOW_OK, and answers -1. */
int refuse(ecow_status status, const char *what);

/* The same, but answers 0 where the status is ECOW_OK. */
static inline int check(ecow_status status, const char *what) {
    return status == ECOW_OK ? 0 : refuse(status, what);
}

/* None, unless an error was raised, which is below 0. */
PyObject *none_if(int done);

/* Raises the error of a change of what a container has handed out, and answers false. */
bool refuse_change(const char *what);

/* Reads the one argument of a constructor: null where there is none. */
bool read_source(const char *name, PyObject *arguments, PyObject *named, PyObject **source);

/* Calls a function of the module `ecow._objects` with one or two arguments. */
PyObject *call_helper(PyObject *name, PyObject *first, PyObject *second);

/* Reads a length or a count. One that no `Py_ssize_t` holds is the most that it holds. */
bool read_size(PyObject *given, size_t *size);

/* Reads an optional bound of a range of `len` items, as slices do. */
bool read_bound(PyObject *given, Py_ssize_t len, Py_ssize_t *bound);

/* Reads the optional bounds `start` and `stop` behind the first argument of a search. */
bool read_bounds(const char *name, PyObject *const *arguments, Py_ssize_t count, Py_ssize_t len,
                 Py_ssize_t *start, Py_ssize_t *stop);

/* Raises a TypeError unless a call has between `least` and `most` arguments. */
bool takes(const char *name, Py_ssize_t count, Py_ssize_t least, Py_ssize_t most);

/* Compares a sequence with a list, as two lists are compared. */
PyObject *compare_with_list(PyObject *sequence, PyObject *list, int operation);

/* Python's answer for an order: below 0, 0, or above. */
PyObject *ordered(int order, int operation);

/* Reverses the order of the items of a sequence. */
PyObject *reverse(PyObject *self, PyObject *none);

/* Where an item of a sequence equals another object: -1 where none does, -2 where an error is
 * raised. A range may pass the end. */
Py_ssize_t seek_object(PyObject *sequence, PyObject *object, Py_ssize_t start, Py_ssize_t stop);

/* Text for people: the type's name, and what `repr` gives of an object, or of each member of a
 * tuple. That is given up. */
PyObject *named_repr(PyObject *self, PyObject *contents);

/* ---- search.c ---- */

/* What is sought: the first place, the last one, how often without overlap, or whether bytes begin
 * or end so. */
typedef enum search { FIRST, LAST, OFTEN, START, END } search;

/* Where `part` stands in `size` bytes, or how often: -1 where it doesn't, -2 with an error. */
Py_ssize_t search_bytes(const char *bytes, Py_ssize_t size, const char *part, Py_ssize_t count,
                        search what);

/* ---- snapshot.c ---- */

/* Lend the contents of the moment to a reader of buffers. */
int lend_list(core_state *state, const ecow_list *list, Py_buffer *view, int flags);
int lend_array(core_state *state, const typed_items *items, Py_buffer *view, int flags);
int lend_bytes(core_state *state, const ecow_bytes *bytes, Py_buffer *view, int flags);
extern PyType_Spec snapshot_spec;

/* Does nothing. A type that has such a call tells its readers to keep a view as long as they use
 * its memory: what isn't kept may be gone once the value is changed. */
void release_buffer(PyObject *self, Py_buffer *view);

/* Fills in a view of so many items of a size, which keeps its lender and reads both there. */
void fill_view(PyObject *lender, Py_ssize_t sizes[2], const void *items, const char *format,
               Py_buffer *view, int flags);

/* ---- array.c ---- */

/* Reads a number of 64 bits. */
int read_q(PyObject *given, void *number);

/* Whether a buffer is an array of such items. */
bool is_array(const Py_buffer *view, char family, size_t size);

/* ---- foreign.c ---- */

/* Call a method of `bytes` or `str` on `plain`, which has the contents of `self` and is given up.
 * Texts among the arguments go in as `str`. */
PyObject *call_plain(PyObject *self, PyObject *plain, PyObject *method, PyObject *arguments,
                     PyObject *named);

/* What a method of no argument gives. */
PyObject *call_alone(PyObject *plain, PyObject *method);

/* What a method gave, which is given up, as an object of the module's: a `bytes` or `str`, and the
 * members of a list or a tuple. What is unchanged is a clone of `self`. */
PyObject *wrapped(PyObject *self, PyObject *result);

/* The same object, unless it is a text: then a `str` of it. */
PyObject *without_text(core_state *state, PyObject *object);

/* A new list of what an iterable gives, in which texts are `str`. */
PyObject *plain_list(core_state *state, PyObject *iterable);

/* ---- The library's calls on arrays, with a type in place of a size ---- */

static inline size_t item_size(const typed_items *items) {
    return items->type ? items->type->size : 0;
}

#define SIZED(name, items, ...) ecow_array_##name(&(items)->array, item_size(items), __VA_ARGS__)
#define CHANGE(name, items, ...) ((items)->views ? IN_USE : SIZED(name, items, __VA_ARGS__))
#define items_new() ((typed_items){{{0}}, NULL, 0})
#define items_drop(items) ecow_array_drop(&(items)->array)
#define items_len(items) ecow_array_len(&(items)->array, item_size(items))
#define items_slice(items, len) SIZED(slice, items, len)
#define items_hash(items) ecow_array_hash(&(items)->array)
#define items_clear(items) ((items)->views ? IN_USE : ecow_array_clear(&(items)->array))
#define items_set(items, ...) CHANGE(set, items, __VA_ARGS__)
#define items_push(items, ...) CHANGE(push, items, __VA_ARGS__)
#define items_insert(items, ...) CHANGE(insert, items, __VA_ARGS__)
#define items_remove(items, ...) CHANGE(remove, items, __VA_ARGS__)
#define items_truncate(items, ...) CHANGE(truncate, items, __VA_ARGS__)
#define items_reserve(items, ...) CHANGE(reserve, items, __VA_ARGS__)
#define items_extend(items, ...) CHANGE(extend, items, __VA_ARGS__)
#define items_splice(items, ...) CHANGE(splice, items, __VA_ARGS__)

/* ECOW_KIND where `to` has another type; it takes that of `from` where it has none. */
static inline ecow_status items_clone(typed_items *to, const typed_items *from) {
    if (from->views || (to->type && to->type != from->type)) {
        return from->views ? IN_USE : ECOW_KIND;
    }
    to->type = from->type;
    return ecow_array_clone(&to->array, &from->array);
}

/* ---- One file for each kind ---- */

extern PyType_Spec list_spec, array_spec, bytes_spec, text_spec, texts_spec, value_spec;
extern PyType_Spec lent_text_spec, lent_value_spec;

/* A new object of one of the module's own types that takes a value over. The value is left empty, and
 * is given up where there is no object. */
PyObject *list_own(core_state *state, PyTypeObject *type, ecow_list *value);
PyObject *array_own(core_state *state, PyTypeObject *type, typed_items *value);
PyObject *bytes_own(core_state *state, PyTypeObject *type, ecow_bytes *value);
PyObject *text_own(core_state *state, PyTypeObject *type, ecow_text *value);
PyObject *texts_own(core_state *state, PyTypeObject *type, ecow_texts *value);
PyObject *value_own(core_state *state, PyTypeObject *type, ecow_value *value);

/* What a `Value` is in objects of Python's own, as `plain_of` there. */
PyObject *value_plain(PyObject *module, PyObject *const *arguments, Py_ssize_t count);

/* Makes an empty `text` the text of a `str`, a `Text` or a `Value` of that kind. */
int read_text(core_state *state, PyObject *given, ecow_text *text);

/* The UTF-8 of a `str` or a `Text`, valid until it is changed, and how many characters it has. */
typedef struct utf8 {
    const char *bytes;
    Py_ssize_t size;
    Py_ssize_t count;
} utf8;

bool is_text(core_state *state, PyObject *given);
int read_utf8(core_state *state, PyObject *given, utf8 *text);

/* Reads what is sought, and answers 1 for a `str` with lone surrogates, which no text has. */
int read_sought(core_state *state, PyObject *given, utf8 *text);

/* A `str` of UTF-8. */
PyObject *str_of(const ecow_text *text);

#endif
