/* The type `Texts`, over `ecow_texts`. */
#include "core.h"

#define OBJECT texts_object
#define VALUE ecow_texts
#define CALL(name) ecow_texts_##name
#define OWN(name) texts_##name
#define TYPE texts
#define LENT texts
#define NAME "Texts"
#define NOTE(to, from)
#define FORGET(object)
#define SPARED(state, type) NULL
#define SPARE_IT(object) false
#include "kind.h"

#define ITEM ecow_text
#define PASS(item) &item
#define EMPTY(value) ecow_texts_new()
#define GIVEN given_texts

/* Texts that a call was given, as clones. */
typedef struct given_texts {
    ecow_texts held;
    Py_ssize_t count;
} given_texts;

static int texts_read_item(texts_object *object, PyObject *given, ecow_text *text) {
    return read_text(object->state, given, text);
}

static void texts_drop_item(ecow_text *text) {
    ecow_text_drop(text);
}

static PyObject *texts_item_object(texts_object *object, ecow_text *text, bool is_lent) {
    core_state *state = object->state;
    return text_own(state, is_lent ? state->lent_text : state->text, text);
}

static int texts_give(texts_object *object, PyObject *source, given_texts *given) {
    if (texts_is(object->state, source)) {
        const ecow_texts *texts = &texts_cast(source)->value;
        given->count = (Py_ssize_t)ecow_texts_len(texts);
        return check(ecow_texts_clone(&given->held, texts), NAME);
    }
    PyObject *iterator = PyObject_GetIter(source), *item;
    if (!iterator) {
        return -1;
    }
    int done = 0;
    while (done == 0 && (item = PyIter_Next(iterator))) {
        ecow_text text = {{0}};
        done = read_text(object->state, item, &text);
        if (done == 0) {
            done = check(ecow_texts_push(&given->held, &text), NAME);
        }
        given->count++;
        ecow_text_drop(&text);
        Py_DECREF(item);
    }
    Py_DECREF(iterator);
    return PyErr_Occurred() ? -1 : 0;
}

static void texts_give_back(given_texts *given) {
    ecow_texts_drop(&given->held);
}

static ecow_status texts_add_given(ecow_texts *texts, const given_texts *given) {
    return ecow_texts_extend(texts, &given->held);
}

static ecow_status texts_put_given(ecow_texts *texts, size_t start, size_t end,
                                   const given_texts *given) {
    return ecow_texts_splice(texts, start, end, &given->held);
}

static ecow_status texts_set_given(ecow_texts *texts, size_t index, const given_texts *given,
                                   size_t from) {
    ecow_text text = {{0}};
    ecow_status status = ecow_texts_get(&given->held, from, &text);
    if (status == ECOW_OK) {
        status = ecow_texts_set(texts, index, &text);
    }
    ecow_text_drop(&text);
    return status;
}

static ecow_status texts_add_part(ecow_texts *to, const ecow_texts *from, Py_ssize_t start,
                                  Py_ssize_t step, Py_ssize_t count) {
    ecow_text text = {{0}};
    ecow_status status = ecow_texts_reserve(to, (size_t)count);
    for (Py_ssize_t at = 0; at < count && status == ECOW_OK; at++) {
        status = ecow_texts_get(from, (size_t)(start + at * step), &text);
        if (status == ECOW_OK) {
            status = ecow_texts_push(to, &text);
        }
    }
    ecow_text_drop(&text);
    return status;
}

#include "sequence.h"
#include "whole.h"

static Py_ssize_t texts_seek(PyObject *self, PyObject *object, Py_ssize_t start, Py_ssize_t stop) {
    texts_object *own = texts_cast(self);
    utf8 text;
    if (!is_text(own->state, object)) {
        return seek_object(self, object, start, stop);
    }
    int done = read_sought(own->state, object, &text);
    if (done != 0) {
        return done < 0 ? -2 : -1;
    }
    for (Py_ssize_t index = start; index < stop && index < texts_length(self); index++) {
        size_t size;
        const char *bytes = ecow_texts_at(&own->value, (size_t)index, &size);
        if (size == (size_t)text.size && memcmp(bytes, text.bytes, size) == 0) {
            return index;
        }
    }
    return -1;
}

#define MORE_METHODS
#include "list_like.h"

static PyObject *texts_repr(PyObject *self) {
    return named_repr(self, plain_list(texts_cast(self)->state, self));
}

static PyType_Slot texts_slots[] = {
    {Py_tp_doc, "Texts(texts=(), /)\n--\n\n"
                "A list of texts, whose copies share memory, and whose texts do."},
    LIST_LIKE_SLOTS,
    {Py_tp_repr, texts_repr},
    {0, NULL},
};

TYPE_SPEC(0);
