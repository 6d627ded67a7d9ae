/* The type `List`, over `ecow_list`. */
#include "core.h"

#define OBJECT list_object
#define VALUE ecow_list
#define CALL(name) ecow_list_##name
#define OWN(name) list_##name
#define TYPE list
#define LENT list
#define NAME "List"
#define NOTE(to, from)
#define FORGET(object)
#define SPARED(state, type) NULL
#define SPARE_IT(object) false
#include "kind.h"

#define ITEM int64_t
#define PASS(item) item
#define EMPTY(value) ecow_list_new()
#define AT(value, items, index) ((items) + (index))
#define WIDTH(object) sizeof(int64_t)
#define FAMILY(object) 's'
#define GIVEN given_numbers

static int list_read_item(list_object *Py_UNUSED(object), PyObject *given, int64_t *number) {
    return read_q(given, number);
}

static PyObject *list_item_object(list_object *Py_UNUSED(object), int64_t *number,
                                  bool Py_UNUSED(is_lent)) {
    return PyLong_FromLongLong(*number);
}

#include "given_numbers.h"
#include "given_array.h"
#include "sequence.h"
#include "whole.h"

static Py_ssize_t list_seek(PyObject *self, PyObject *object, Py_ssize_t start, Py_ssize_t stop) {
    if (!PyLong_CheckExact(object)) {
        return seek_object(self, object, start, stop);
    }
    int overflow;
    int64_t number = PyLong_AsLongLongAndOverflow(object, &overflow);
    size_t len;
    const int64_t *items = ecow_list_slice(&list_cast(self)->value, &len);
    stop = overflow ? 0 : stop < (Py_ssize_t)len ? stop : (Py_ssize_t)len;
    for (Py_ssize_t index = start; index < stop; index++) {
        if (items[index] == number) {
            return index;
        }
    }
    return -1;
}

#define MORE_METHODS
#include "list_like.h"

static PyObject *list_repr(PyObject *self) {
    return named_repr(self, PySequence_List(self));
}

static int list_buffer(PyObject *self, Py_buffer *view, int flags) {
    list_object *object = list_cast(self);
    return lend_list(object->state, &object->value, view, flags);
}

static PyType_Slot list_slots[] = {
    {Py_tp_doc, "List(numbers=(), /)\n--\n\n"
                "A list of numbers from -2^63 to 2^63 - 1, whose copies share memory."},
    LIST_LIKE_SLOTS,
    {Py_tp_repr, list_repr},
    {Py_bf_getbuffer, list_buffer},
    {Py_bf_releasebuffer, release_buffer},
    {0, NULL},
};

TYPE_SPEC(0);
