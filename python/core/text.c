/* The type `Text`, over `ecow_text`. Its methods count characters; the library counts bytes. */
#include "core.h"

#define OBJECT text_object
#define VALUE ecow_text
#define CALL(name) ecow_text_##name
#define OWN(name) text_##name
#define TYPE text
#define LENT lent_text
#define NAME "Text"
#define NOTE(to, from) note(to, from)
#define FORGET(object) forget(object)
#define SPARED(state, type) spared(state, type)
#define SPARE_IT(object) spare_it(object)

static void forget(text_object *object) {
    object->count = -1;
    object->character = object->byte = object->passed = 0;
    Py_CLEAR(object->plain);
}

static void note(text_object *to, const text_object *from) {
    to->count = from->count;
    to->character = from->character;
    to->byte = from->byte;
    to->plain = Py_XNewRef(from->plain);
}

static text_object *spared(core_state *state, PyTypeObject *type) {
    if ((type != state->text && type != state->lent_text) || state->spares == 0) {
        return NULL;
    }
    /* What is gone has forgotten everything else. */
    text_object *made = state->spare[--state->spares];
    made->count = 0;
    return (text_object *)PyObject_Init((PyObject *)made, type);
}

static bool spare_it(text_object *object) {
    core_state *state = object->state;
    PyTypeObject *type = Py_TYPE((PyObject *)object);
    bool kept = (type == state->text || type == state->lent_text) && state->spares < SPARE;
    if (kept) {
        state->spare[state->spares++] = object;
    }
    return kept;
}

#include "kind.h"

/* ---- Characters and bytes ---- */

/* Whether a byte is inside a character. */
static inline bool is_inside(char byte) {
    return (byte & 0xC0) == 0x80;
}

static Py_ssize_t count_characters(const char *bytes, Py_ssize_t size) {
    Py_ssize_t count = 0;
    for (Py_ssize_t at = 0; at < size; at++) {
        count += !is_inside(bytes[at]);
    }
    return count;
}

static inline const char *contents(const text_object *object, Py_ssize_t *size) {
    size_t len;
    const char *bytes = ecow_text_slice(&object->value, &len);
    *size = (Py_ssize_t)len;
    return bytes;
}

static Py_ssize_t count_of(text_object *object) {
    if (object->count < 0) {
        Py_ssize_t size;
        const char *bytes = contents(object, &size);
        object->count = count_characters(bytes, size);
    }
    return object->count;
}

static Py_ssize_t text_length(PyObject *self) {
    return count_of(text_cast(self));
}

/* Where a character begins, or the text ends. It is looked for from the nearest of three places:
 * the start, the end, and the place inside that was asked for last. */
static Py_ssize_t byte_of(text_object *object, Py_ssize_t character) {
    Py_ssize_t size, count = count_of(object);
    const char *bytes = contents(object, &size);
    if (count == size || character == 0) {
        return character;
    }
    if (character == count) {
        return size;
    }
    Py_ssize_t at = object->character, byte = object->byte;
    if (character < at - character) {
        at = byte = 0;
    }
    if (count - character < (character < at ? at - character : character - at)) {
        at = count;
        byte = size;
    }
    object->passed += character < at ? at - character : character - at;
    for (; at < character; at++) {
        do {
            byte++;
        } while (byte < size && is_inside(bytes[byte]));
    }
    for (; at > character; at--) {
        do {
            byte--;
        } while (is_inside(bytes[byte]));
    }
    object->character = at;
    object->byte = byte;
    return byte;
}

/* The index of the character that begins at a byte. */
static Py_ssize_t character_of(text_object *object, Py_ssize_t byte) {
    Py_ssize_t size;
    const char *bytes = contents(object, &size);
    if (count_of(object) == size) {
        return byte;
    }
    bool behind = byte >= object->byte;
    Py_ssize_t from = behind ? object->byte : 0;
    object->character =
        (behind ? object->character : 0) + count_characters(bytes + from, byte - from);
    object->byte = byte;
    return object->character;
}

/* ---- Texts that a call was given ---- */

bool is_text(core_state *state, PyObject *given) {
    return PyUnicode_Check(given) || text_is(state, given);
}

int read_utf8(core_state *state, PyObject *given, utf8 *text) {
    if (PyUnicode_Check(given)) {
        text->bytes = PyUnicode_AsUTF8AndSize(given, &text->size);
        text->count = PyUnicode_GetLength(given);
        return text->bytes ? 0 : -1;
    }
    if (!text_is(state, given)) {
        PyErr_Format(PyExc_TypeError, "must be str or Text, not %R", Py_TYPE(given));
        return -1;
    }
    text->bytes = contents(text_cast(given), &text->size);
    text->count = count_of(text_cast(given));
    return 0;
}

int read_sought(core_state *state, PyObject *given, utf8 *text) {
    int done = read_utf8(state, given, text);
    if (done < 0 && PyErr_ExceptionMatches(PyExc_UnicodeEncodeError)) {
        PyErr_Clear();
        return 1;
    }
    return done;
}

int read_text(core_state *state, PyObject *given, ecow_text *text) {
    if (PyUnicode_Check(given)) {
        Py_ssize_t size;
        const char *bytes = PyUnicode_AsUTF8AndSize(given, &size);
        return bytes ? check(ecow_text_assign(text, bytes, (size_t)size), NAME) : -1;
    }
    if (text_is(state, given)) {
        return check(ecow_text_clone(text, &text_cast(given)->value), NAME);
    }
    PyErr_Format(PyExc_TypeError, "must be str or Text, not %R", Py_TYPE(given));
    return -1;
}

PyObject *str_of(const ecow_text *text) {
    size_t size;
    const char *bytes = ecow_text_slice(text, &size);
    return PyUnicode_DecodeUTF8(bytes, (Py_ssize_t)size, NULL);
}

/* A text no longer than that keeps its `str`, and a longer one where it was passed that often. */
enum { SHORT = 64, OFTEN_PASSED = 4 };

static PyObject *text_str(PyObject *self) {
    text_object *object = text_cast(self);
    PyObject *plain = object->plain ? Py_NewRef(object->plain) : str_of(&object->value);
    Py_ssize_t size = (Py_ssize_t)ecow_text_len(&object->value);
    bool often = object->passed > 0 && object->passed > OFTEN_PASSED * object->count;
    if (plain && !object->plain && (size <= SHORT || often)) {
        object->plain = Py_NewRef(plain);
    }
    return plain;
}

/* A `str` of texts, joined with `between`. */
static PyObject *join_plain(core_state *state, PyObject *between, PyObject *texts) {
    PyObject *items = plain_list(state, texts);
    PyObject *joined = items ? PyUnicode_Join(between, items) : NULL;
    Py_XDECREF(items);
    return joined;
}

/* What `text` is read from: the same object, unless that is an iterable of texts: then a `str` of
 * all of them. */
static PyObject *one_text(core_state *state, PyObject *given) {
    if (is_text(state, given)) {
        Py_INCREF(given);
        return given;
    }
    PyObject *nothing = PyUnicode_FromString("");
    PyObject *joined = nothing ? join_plain(state, nothing, given) : NULL;
    Py_XDECREF(nothing);
    return joined;
}

/* ---- Changes ---- */

/* Readies a text for a change: not one that a container has handed out. */
static bool can_change(text_object *object) {
    object->passed = 0;
    Py_CLEAR(object->plain);
    return !text_is_lent((PyObject *)object) || refuse_change(NAME);
}

/* Appends UTF-8. */
static int add(text_object *object, utf8 added) {
    if (!can_change(object)
        || check(ecow_text_extend(&object->value, added.bytes, (size_t)added.size), NAME) < 0) {
        return -1;
    }
    object->count += object->count < 0 ? 0 : added.count;
    return 0;
}

/* Puts UTF-8 in place of the characters from `start` up to `end`. */
static int put(text_object *object, Py_ssize_t start, Py_ssize_t end, utf8 added) {
    Py_ssize_t count = count_of(object), to = byte_of(object, end), from = byte_of(object, start);
    if (!can_change(object)
        || check(ecow_text_splice(&object->value, (size_t)from, (size_t)to, added.bytes,
                                  (size_t)added.size),
                 NAME)
               < 0) {
        return -1;
    }
    object->count = count - (end - start) + added.count;
    object->character = start;
    object->byte = from;
    return 0;
}

static const utf8 no_text = {"", 0, 0};

/* Makes the text that of a `str`, which is given up. */
static int become(text_object *object, PyObject *plain) {
    ecow_text text = {{0}};
    int done = plain && can_change(object) ? read_text(object->state, plain, &text) : -1;
    if (done == 0) {
        text_take_over(object, &text);
        object->count = PyUnicode_GetLength(plain);
    }
    Py_XDECREF(plain);
    return done;
}

static int text_init(PyObject *self, PyObject *arguments, PyObject *named) {
    text_object *object = text_cast(self);
    ecow_text text = {{0}};
    PyObject *given;
    if (!read_source(NAME, arguments, named, &given) || !can_change(object)) {
        return -1;
    }
    if (given && PyObject_TypeCheck(given, object->state->value)) {
        if (check(ecow_value_text(&((value_object *)given)->value, &text), "the value") < 0) {
            return -1;
        }
    } else if (given && read_text(object->state, given, &text) < 0) {
        return -1;
    }
    text_take_over(object, &text);
    if (given && PyUnicode_Check(given)) {
        object->count = PyUnicode_GetLength(given);
    }
    return 0;
}

static PyObject *text_append(PyObject *self, PyObject *given) {
    text_object *object = text_cast(self);
    utf8 added;
    return read_utf8(object->state, given, &added) < 0 ? NULL : none_if(add(object, added));
}

static PyObject *text_extend(PyObject *self, PyObject *given) {
    text_object *object = text_cast(self);
    PyObject *text = one_text(object->state, given);
    PyObject *none = text ? text_append(self, text) : NULL;
    Py_XDECREF(text);
    return none;
}

static PyObject *text_insert(PyObject *self, PyObject *const *arguments, Py_ssize_t count) {
    text_object *object = text_cast(self);
    utf8 added;
    if (!takes("insert", count, 2, 2)) {
        return NULL;
    }
    Py_ssize_t index = PyNumber_AsSsize_t(arguments[0], NULL);
    if ((index == -1 && PyErr_Occurred()) || read_utf8(object->state, arguments[1], &added) < 0) {
        return NULL;
    }
    Py_ssize_t len = count_of(object);
    index = index < 0 ? index + len : index;
    index = index < 0 ? 0 : index > len ? len : index;
    return none_if(put(object, index, index, added));
}

static PyObject *text_item(PyObject *self, Py_ssize_t index) {
    text_object *object = text_cast(self);
    uint32_t character;
    if (index < 0 || index >= count_of(object)) {
        check(ECOW_INDEX, NAME);
        return NULL;
    }
    if (!object->plain && object->passed > OFTEN_PASSED * object->count) {
        Py_XDECREF(text_str(self));
        PyErr_Clear();
    }
    if (object->plain) {
        return PyUnicode_FromOrdinal((int)PyUnicode_ReadChar(object->plain, index));
    }
    ecow_status status = ecow_text_get(&object->value, (size_t)byte_of(object, index), &character);
    return check(status, NAME) < 0 ? NULL : PyUnicode_FromOrdinal((int)character);
}

/* Reads an index that counts from the end where it is below 0. */
static bool read_index(text_object *object, PyObject *given, Py_ssize_t *index) {
    *index = PyNumber_AsSsize_t(given, PyExc_IndexError);
    if (*index == -1 && PyErr_Occurred()) {
        return false;
    }
    *index += *index < 0 ? count_of(object) : 0;
    if (*index < 0 || *index >= count_of(object)) {
        check(ECOW_INDEX, NAME);
        return false;
    }
    return true;
}

static PyObject *text_pop(PyObject *self, PyObject *const *arguments, Py_ssize_t count) {
    text_object *object = text_cast(self);
    Py_ssize_t index = count_of(object) - 1;
    if (!takes("pop", count, 0, 1)) {
        return NULL;
    }
    if (index < 0) {
        PyErr_SetString(PyExc_IndexError, "pop from empty Text");
        return NULL;
    }
    if (count && !read_index(object, arguments[0], &index)) {
        return NULL;
    }
    PyObject *character = text_item(self, index);
    if (character && put(object, index, index + 1, no_text) < 0) {
        Py_CLEAR(character);
    }
    return character;
}

static PyObject *text_clear(PyObject *self, PyObject *Py_UNUSED(none)) {
    text_object *object = text_cast(self);
    if (!can_change(object) || check(ecow_text_clear(&object->value), NAME) < 0) {
        return NULL;
    }
    FORGET(object);
    Py_RETURN_NONE;
}

static PyObject *text_truncate(PyObject *self, PyObject *length) {
    text_object *object = text_cast(self);
    size_t len;
    if (!read_size(length, &len) || !can_change(object)) {
        return NULL;
    }
    if (len < (size_t)count_of(object)) {
        Py_ssize_t byte = byte_of(object, (Py_ssize_t)len);
        if (check(ecow_text_truncate(&object->value, (size_t)byte), NAME) < 0) {
            return NULL;
        }
        object->count = object->character = (Py_ssize_t)len;
        object->byte = byte;
    }
    Py_RETURN_NONE;
}

static PyObject *text_reserve(PyObject *self, PyObject *additional) {
    size_t size;
    return read_size(additional, &size) && can_change(text_cast(self))
               ? none_if(check(ecow_text_reserve(&text_cast(self)->value, size), NAME))
               : NULL;
}

/* ---- Indices and slices ---- */

static PyObject *text_subscript(PyObject *self, PyObject *key) {
    text_object *object = text_cast(self);
    if (PyIndex_Check(key)) {
        Py_ssize_t index;
        return read_index(object, key, &index) ? text_item(self, index) : NULL;
    }
    if (!PySlice_Check(key)) {
        PyErr_Format(PyExc_TypeError, "Text indices must be integers or slices, not %R",
                     Py_TYPE(key));
        return NULL;
    }
    Py_ssize_t start, stop, step;
    if (PySlice_Unpack(key, &start, &stop, &step) < 0) {
        return NULL;
    }
    Py_ssize_t count = PySlice_AdjustIndices(count_of(object), &start, &stop, step);
    if (step == 1 && count == count_of(object)) {
        return text_cloned(self, object->state->text);
    }
    text_object *made = text_make(object->state, object->state->text);
    int done = made ? 0 : -1;
    if (made && step == 1) {
        Py_ssize_t size, from = byte_of(object, start), to = byte_of(object, start + count);
        const char *bytes = contents(object, &size);
        done = add(made, (utf8){bytes + from, to - from, count});
    } else if (made) {
        PyObject *plain = text_str(self);
        done = become(made, plain ? PyObject_GetItem(plain, key) : NULL);
        Py_XDECREF(plain);
    }
    if (done < 0) {
        Py_CLEAR(made);
    }
    return (PyObject *)made;
}

/* Puts texts in place of every `step`th character, or takes these out, in a list of characters. */
static int put_apart(text_object *object, PyObject *key, PyObject *text) {
    PyObject *plain = text_str((PyObject *)object);
    PyObject *characters = plain ? PySequence_List(plain) : NULL;
    PyObject *nothing = PyUnicode_FromString("");
    int done = -1;
    if (characters && nothing) {
        done = text ? PyObject_SetItem(characters, key, text) : PyObject_DelItem(characters, key);
        done = done < 0 ? -1 : become(object, PyUnicode_Join(nothing, characters));
    }
    Py_XDECREF(plain);
    Py_XDECREF(characters);
    Py_XDECREF(nothing);
    return done;
}

static int text_set_subscript(PyObject *self, PyObject *key, PyObject *value) {
    text_object *object = text_cast(self);
    utf8 added = no_text;
    if (PyIndex_Check(key)) {
        Py_ssize_t index;
        /* An index is read first, since its code may change any text. */
        if (!read_index(object, key, &index)
            || (value && read_utf8(object->state, value, &added) < 0)) {
            return -1;
        }
        if (value && added.count != 1) {
            PyErr_SetString(PyExc_ValueError, "a character is a text of length 1");
            return -1;
        }
        return put(object, index, index + 1, added);
    }
    if (!PySlice_Check(key)) {
        PyErr_Format(PyExc_TypeError, "Text indices must be integers or slices, not %R",
                     Py_TYPE(key));
        return -1;
    }
    Py_ssize_t start, stop, step;
    PyObject *text = value ? one_text(object->state, value) : NULL;
    int done = value && !text ? -1 : PySlice_Unpack(key, &start, &stop, &step);
    if (done == 0 && text) {
        done = read_utf8(object->state, text, &added);
    }
    if (done == 0 && step != 1) {
        PyObject *plain = text ? without_text(object->state, text) : NULL;
        done = text && !plain ? -1 : put_apart(object, key, plain);
        Py_XDECREF(plain);
    } else if (done == 0) {
        Py_ssize_t count = PySlice_AdjustIndices(count_of(object), &start, &stop, step);
        done = put(object, start, start + count, added);
    }
    Py_XDECREF(text);
    return done;
}

static PyObject *text_byte_len(PyObject *self, PyObject *Py_UNUSED(none)) {
    return PyLong_FromSize_t(ecow_text_len(&text_cast(self)->value));
}

static PyObject *text_byte_index(PyObject *self, PyObject *given) {
    text_object *object = text_cast(self);
    Py_ssize_t index = PyNumber_AsSsize_t(given, PyExc_IndexError);
    if (index == -1 && PyErr_Occurred()) {
        return NULL;
    }
    index += index < 0 ? count_of(object) : 0;
    if (index < 0 || index > count_of(object)) {
        check(ECOW_INDEX, NAME);
        return NULL;
    }
    return PyLong_FromSsize_t(byte_of(object, index));
}

static PyObject *text_index_of_byte(PyObject *self, PyObject *given) {
    text_object *object = text_cast(self);
    Py_ssize_t byte = PyNumber_AsSsize_t(given, PyExc_IndexError);
    if (byte == -1 && PyErr_Occurred()) {
        return NULL;
    }
    if (byte < 0 || (size_t)byte > ecow_text_len(&object->value)) {
        check(ECOW_INDEX, NAME);
        return NULL;
    }
    if (!ecow_text_is_boundary(&object->value, (size_t)byte)) {
        PyErr_SetString(PyExc_ValueError, "byte is inside a character");
        return NULL;
    }
    return PyLong_FromSsize_t(character_of(object, byte));
}

/* ---- Searches ---- */

/* Places are indices of characters. */
static Py_ssize_t text_seek(PyObject *self, const char *name, PyObject *const *arguments,
                            Py_ssize_t count, search what) {
    text_object *object = text_cast(self);
    utf8 part;
    Py_ssize_t start, stop, size;
    if (!read_bounds(name, arguments, count, count_of(object), &start, &stop)) {
        return -2;
    }
    int done = read_sought(object->state, arguments[0], &part);
    if (done != 0) {
        return done < 0 ? -2 : what == OFTEN ? 0 : -1;
    }
    stop = stop < count_of(object) ? stop : count_of(object);
    if (start > stop) {
        return what == OFTEN ? 0 : -1;
    }
    if (what == OFTEN && part.size == 0) {
        return stop - start + 1;
    }
    Py_ssize_t to = byte_of(object, stop), from = byte_of(object, start);
    const char *bytes = contents(object, &size);
    Py_ssize_t found = search_bytes(bytes + from, to - from, part.bytes, part.size, what);
    return found >= 0 && what != OFTEN ? character_of(object, from + found) : found;
}

#define ABSENT "substring not found"
#include "searching.h"

static PyObject *text_remove(PyObject *self, PyObject *given) {
    text_object *object = text_cast(self);
    utf8 part;
    Py_ssize_t found = text_seek(self, "remove", &given, 1, FIRST);
    if (found == -1) {
        PyErr_SetString(PyExc_ValueError, "Text.remove(x): x not in Text");
    }
    return found < 0 || read_utf8(object->state, given, &part) < 0
               ? NULL
               : none_if(put(object, found, found + part.count, no_text));
}

/* ---- Operators ---- */

static PyObject *text_plus(PyObject *left, PyObject *right) {
    core_state *state = state_of_either(left, right);
    utf8 first, second;
    if (!state || !is_text(state, left) || !is_text(state, right)) {
        Py_RETURN_NOTIMPLEMENTED;
    }
    if (read_utf8(state, left, &first) < 0 || read_utf8(state, right, &second) < 0) {
        return NULL;
    }
    text_object *made;
    int done = 0;
    if (text_is(state, left)) {
        made = text_cast(text_cloned(left, state->text));
    } else {
        made = text_make(state, state->text);
        done = made ? add(made, first) : -1;
    }
    if (!made || done < 0 || add(made, second) < 0) {
        Py_CLEAR(made);
    }
    return (PyObject *)made;
}

/* As with a `str`, a text that may not be changed gives a new one. */
static PyObject *text_plus_in_place(PyObject *self, PyObject *other) {
    text_object *object = text_cast(self);
    utf8 added;
    if (text_is_lent(self)) {
        return text_plus(self, other);
    }
    if (!is_text(object->state, other)) {
        Py_RETURN_NOTIMPLEMENTED;
    }
    if (read_utf8(object->state, other, &added) < 0 || add(object, added) < 0) {
        return NULL;
    }
    Py_INCREF(self);
    return self;
}

static PyObject *text_repeat_in_place(PyObject *self, Py_ssize_t times) {
    PyObject *made = text_is_lent(self) ? text_cloned(self, text_cast(self)->state->text)
                                        : Py_NewRef(self);
    text_object *object = text_cast(made);
    times = times < 0 ? 0 : times;
    if (made && times != 1) {
        Py_ssize_t count = count_of(object);
        if (check(ecow_text_repeat(&object->value, (size_t)times), NAME) < 0) {
            Py_CLEAR(made);
            return NULL;
        }
        FORGET(object);
        object->count = count * times;
    }
    return made;
}

static PyObject *text_repeat(PyObject *self, Py_ssize_t times) {
    PyObject *made = text_cloned(self, text_cast(self)->state->text);
    PyObject *repeated = made ? text_repeat_in_place(made, times) : NULL;
    Py_XDECREF(made);
    return repeated;
}

/* A new text of a `str`, which is given up. */
static PyObject *text_of(core_state *state, PyObject *plain) {
    text_object *made = plain ? text_make(state, state->text) : NULL;
    if (made && become(made, plain) < 0) {
        Py_CLEAR(made);
    } else if (!made) {
        Py_XDECREF(plain);
    }
    return (PyObject *)made;
}

static PyObject *text_remainder(PyObject *left, PyObject *right) {
    core_state *state = state_of_type(Py_TYPE(left));
    if (!state || !text_is(state, left)) {
        Py_RETURN_NOTIMPLEMENTED;
    }
    PyObject *plain = text_str(left);
    PyObject *made = plain ? text_of(state, PyUnicode_Format(plain, right)) : NULL;
    Py_XDECREF(plain);
    return made;
}

static PyObject *text_compared(PyObject *self, PyObject *other, int operation) {
    text_object *object = text_cast(self);
    bool for_equality = operation == Py_EQ || operation == Py_NE;
    if (text_is(object->state, other)) {
        const ecow_text *right = &text_cast(other)->value;
        if (for_equality) {
            return PyBool_FromLong(ecow_text_equal(&object->value, right) == (operation == Py_EQ));
        }
        return ordered(ecow_text_compare(&object->value, right), operation);
    }
    if (!PyUnicode_Check(other)) {
        Py_RETURN_NOTIMPLEMENTED;
    }
    Py_ssize_t size, length;
    const char *bytes = contents(object, &size);
    const char *right = PyUnicode_AsUTF8AndSize(other, &length);
    if (!right) {
        /* It has lone surrogates, and so is no text's `str`. */
        PyErr_Clear();
        PyObject *plain = text_str(self);
        PyObject *answer = plain ? PyObject_RichCompare(plain, other, operation) : NULL;
        Py_XDECREF(plain);
        return answer;
    }
    if (for_equality && size != length) {
        return PyBool_FromLong(operation == Py_NE);
    }
    int order = memcmp(bytes, right, (size_t)(size < length ? size : length));
    return ordered(order ? order : size < length ? -1 : size > length, operation);
}

/* ---- What is handed on to `str` ---- */

static PyObject *text_repr(PyObject *self) {
    return named_repr(self, text_str(self));
}

static Py_hash_t text_hashed(PyObject *self) {
    PyObject *plain = text_str(self);
    Py_hash_t hash = plain ? PyObject_Hash(plain) : -1;
    Py_XDECREF(plain);
    return hash;
}

/* Loops pass over the characters of the moment at which they begin. */
static PyObject *text_iter(PyObject *self) {
    PyObject *plain = text_str(self);
    PyObject *iterator = plain ? PyObject_GetIter(plain) : NULL;
    Py_XDECREF(plain);
    return iterator;
}

static PyObject *text_reversed(PyObject *self, PyObject *Py_UNUSED(none)) {
    PyObject *iterator = (PyObject *)&PyReversed_Type;
    return call_alone(text_str(self), iterator);
}

static PyObject *text_formatted(PyObject *self, PyObject *format) {
    if (!PyUnicode_Check(format)) {
        PyErr_SetString(PyExc_TypeError, "__format__() argument must be str");
        return NULL;
    }
    PyObject *plain = text_str(self);
    if (plain && PyUnicode_GetLength(format) == 0) {
        return plain;
    }
    PyObject *formatted = plain ? PyObject_Format(plain, format) : NULL;
    Py_XDECREF(plain);
    return formatted;
}

static PyObject *text_join(PyObject *self, PyObject *texts) {
    core_state *state = text_cast(self)->state;
    PyObject *plain = text_str(self);
    PyObject *joined = plain ? text_of(state, join_plain(state, plain, texts)) : NULL;
    Py_XDECREF(plain);
    return joined;
}

static PyObject *text_hash(PyObject *self, PyObject *Py_UNUSED(none)) {
    return PyLong_FromUnsignedLongLong(ecow_text_hash(&text_cast(self)->value));
}

#define OF of_str
#define PLAIN_NAME "str"
#define FILL "' '"
#define CHARS "chars"
#define DELETED ""
#define WITHOUT_ARGUMENTS(X) ALONE_OF_BOTH(X) ALONE_OF_STR(X)
#define WITH_ARGUMENTS(X) METHODS_OF_BOTH(X) METHODS_OF_STR(X)
#define AS_THEY_ARE(X) PLAIN_OF_STR(X)
#include "handed_on.h"

/* clang-format off */
#define FAST(name, arguments, text)                                                            \
    {#name, (PyCFunction)(void (*)(void))text_##name, METH_FASTCALL,                           \
     PyDoc_STR(#name "($self, " arguments ", /)\n--\n\n" text)},
static PyMethodDef text_methods[] = {
    COPY_METHODS,
    {"append", text_append, METH_O,
     PyDoc_STR("append($self, text, /)\n--\n\nAppends a text of any length.")},
    {"extend", text_extend, METH_O,
     PyDoc_STR("extend($self, texts, /)\n--\n\n"
               "Appends a text, or all texts of an iterable; none where it raises an error.")},
    FAST(insert, "index, text", "Puts a text of any length in before the character at `index`.")
    FAST(pop, "index=-1", "Takes the character at `index`: IndexError where there is none.")
    {"remove", text_remove, METH_O,
     PyDoc_STR("remove($self, part, /)\n--\n\n"
               "Takes the first such part out: ValueError where there is none.")},
    {"reverse", reverse, METH_NOARGS,
     PyDoc_STR("reverse($self, /)\n--\n\nReverses the order of the characters.")},
    {"clear", text_clear, METH_NOARGS,
     PyDoc_STR("clear($self, /)\n--\n\n"
               "Keeps nothing. Memory that no copy shares is kept for what comes.")},
    {"truncate", text_truncate, METH_O,
     PyDoc_STR("truncate($self, length, /)\n--\n\n"
               "Keeps the first `length` characters, or all where there are fewer.")},
    {"reserve", text_reserve, METH_O,
     PyDoc_STR("reserve($self, additional, /)\n--\n\n"
               "Makes room for so many more bytes: MemoryError where there is no memory,\n"
               "OverflowError where the size would pass 2^63 - 1.")},
    {"byte_len", text_byte_len, METH_NOARGS,
     PyDoc_STR("byte_len($self, /)\n--\n\nHow many bytes its UTF-8 has.")},
    {"byte_index", text_byte_index, METH_O,
     PyDoc_STR("byte_index($self, index, /)\n--\n\n"
               "Where the character at `index` begins, or the text ends, in its UTF-8.")},
    {"index_of_byte", text_index_of_byte, METH_O,
     PyDoc_STR("index_of_byte($self, byte, /)\n--\n\n"
               "The index of the character that begins at a byte of its UTF-8: ValueError\n"
               "inside a character.")},
    SEARCH_METHODS("a text")
    HANDED_ON_METHODS
    {"join", text_join, METH_O,
     PyDoc_STR("join($self, texts, /)\n--\n\nA new text: all texts, with this one between.")},
    {"hash", text_hash, METH_NOARGS,
     PyDoc_STR("hash($self, /)\n--\n\n"
               "A hash of the contents, from 0 to 2^64 - 1, the same in every process.")},
    {"__format__", text_formatted, METH_O, NULL},
    {"__reversed__", text_reversed, METH_NOARGS, NULL},
    {NULL, NULL, 0, NULL},
};
/* clang-format on */
#undef FAST

static PyType_Slot text_slots[] = {
    {Py_tp_doc, "Text(text='', /)\n--\n\n"
                "A text, whose copies share memory. Up to 15 bytes of UTF-8 stand in the object\n"
                "itself. Lengths and indices count characters."},
    {Py_tp_new, text_new},
    {Py_tp_init, text_init},
    {Py_tp_dealloc, text_dealloc},
    {Py_tp_members, text_members},
    {Py_tp_methods, text_methods},
    {Py_tp_iter, text_iter},
    {Py_tp_hash, PyObject_HashNotImplemented},
    {Py_tp_str, text_str},
    {Py_tp_repr, text_repr},
    {Py_tp_richcompare, text_compared},
    {Py_sq_length, text_length},
    {Py_sq_item, text_item},
    {Py_sq_contains, text_contains},
    {Py_sq_repeat, text_repeat},
    {Py_sq_inplace_repeat, text_repeat_in_place},
    {Py_mp_length, text_length},
    {Py_mp_subscript, text_subscript},
    {Py_mp_ass_subscript, text_set_subscript},
    {Py_nb_add, text_plus},
    {Py_nb_inplace_add, text_plus_in_place},
    {Py_nb_remainder, text_remainder},
    {0, NULL},
};

TYPE_SPEC(Py_TPFLAGS_IMMUTABLETYPE);

static PyType_Slot lent_slots[] = {
    {Py_tp_doc, "A text that a container hands out. It can't be changed, and has the hash of a `str`."},
    {Py_tp_dealloc, text_dealloc},
    {Py_tp_hash, text_hashed},
    {Py_tp_richcompare, text_compared},
    {0, NULL},
};

LENT_SPEC(lent_text_spec, Py_TPFLAGS_IMMUTABLETYPE);
