/* The type `Bytes`, over `ecow_bytes`. */
#include "core.h"

#define OBJECT bytes_object
#define VALUE ecow_bytes
#define CALL(name) ecow_bytes_##name
#define OWN(name) bytes_##name
#define TYPE bytes
#define LENT bytes
#define NAME "Bytes"
#define NOTE(to, from)
#define FORGET(object)
#define SPARED(state, type) NULL
#define SPARE_IT(object) false
#include "kind.h"

#define ITEM uint8_t
#define PASS(item) item
#define EMPTY(value) ecow_bytes_new()
#define AT(value, items, index) ((items) + (index))
#define GIVEN given_bytes

/* Bytes that a call was given: in a clone, in a buffer, or in a `bytes` that was made of them. */
typedef struct given_bytes {
    const uint8_t *items;
    Py_ssize_t count;
    ecow_bytes held;
    Py_buffer view;
    bool viewed;
} given_bytes;

static int bytes_read_item(bytes_object *Py_UNUSED(object), PyObject *given, uint8_t *byte) {
    PyObject *index = PyNumber_Index(given);
    if (!index) {
        return -1;
    }
    int overflow;
    long number = PyLong_AsLongAndOverflow(index, &overflow);
    Py_DECREF(index);
    if (overflow || number < 0 || number > UINT8_MAX) {
        PyErr_SetString(PyExc_ValueError, "byte must be in range(0, 256)");
        return -1;
    }
    *byte = (uint8_t)number;
    return 0;
}

static void bytes_drop_item(uint8_t *Py_UNUSED(byte)) {}

static PyObject *bytes_item_object(bytes_object *Py_UNUSED(object), uint8_t *byte,
                                   bool Py_UNUSED(is_lent)) {
    return PyLong_FromLong(*byte);
}

static int bytes_give(bytes_object *object, PyObject *source, given_bytes *given) {
    size_t count;
    if (bytes_is(object->state, source)) {
        if (check(ecow_bytes_clone(&given->held, &bytes_cast(source)->value), NAME) < 0) {
            return -1;
        }
        given->items = ecow_bytes_slice(&given->held, &count);
        given->count = (Py_ssize_t)count;
        return 0;
    }
    bool is_one = PyObject_CheckBuffer(source)
                  && PyObject_GetBuffer(source, &given->view, PyBUF_SIMPLE) == 0;
    PyErr_Clear();
    /* Bytes that don't stand in one run are copied. The view holds what was made. */
    PyObject *plain = is_one ? NULL : PyBytes_FromObject(source);
    if (is_one || (plain && PyObject_GetBuffer(plain, &given->view, PyBUF_SIMPLE) == 0)) {
        given->viewed = true;
        given->items = given->view.buf;
        given->count = given->view.len;
    }
    Py_XDECREF(plain);
    return given->viewed ? 0 : -1;
}

static void bytes_give_back(given_bytes *given) {
    ecow_bytes_drop(&given->held);
    if (given->viewed) {
        PyBuffer_Release(&given->view);
    }
}

#include "given_array.h"
#include "sequence.h"
#include "whole.h"

/* Reads what a search looks for: a byte by its number, or the bytes of a buffer. */
static int read_part(bytes_object *self, PyObject *object, uint8_t *byte, given_bytes *given) {
    if (!PyIndex_Check(object)) {
        if (PyObject_CheckBuffer(object)) {
            return bytes_give(self, object, given);
        }
        PyErr_Format(PyExc_TypeError, "a bytes-like object is required, not %R", Py_TYPE(object));
        return -1;
    }
    if (bytes_read_item(self, object, byte) < 0) {
        return -1;
    }
    given->items = byte;
    given->count = 1;
    return 0;
}

static Py_ssize_t bytes_seek(PyObject *self, const char *name, PyObject *const *arguments,
                             Py_ssize_t count, search what) {
    bytes_object *object = bytes_cast(self);
    given_bytes given = {0};
    uint8_t byte;
    Py_ssize_t start, stop, found = -2;
    if (what >= START && !PyObject_CheckBuffer(arguments[0])) {
        PyErr_Format(PyExc_TypeError, "%s first arg must be bytes-like or a tuple of these", name);
        return -2;
    }
    /* Both may run code that changes the value, so its bytes are read behind them. */
    if (read_bounds(name, arguments, count, bytes_length(self), &start, &stop)
        && read_part(object, arguments[0], &byte, &given) == 0) {
        size_t size;
        const char *bytes = (const char *)ecow_bytes_slice(&object->value, &size);
        stop = stop < (Py_ssize_t)size ? stop : (Py_ssize_t)size;
        if (start > stop) {
            found = what == OFTEN ? 0 : -1;
        } else {
            found = search_bytes(bytes + start, stop - start, (const char *)given.items,
                                 given.count, what);
            found += found >= 0 && what != OFTEN ? start : 0;
        }
    }
    bytes_give_back(&given);
    return found;
}

#define ABSENT "subsection not found"
#include "searching.h"

static PyObject *bytes_remove(PyObject *self, PyObject *given) {
    bytes_object *object = bytes_cast(self);
    uint8_t byte;
    if (bytes_read_item(object, given, &byte) < 0) {
        return NULL;
    }
    size_t size;
    const char *bytes = (const char *)ecow_bytes_slice(&object->value, &size);
    Py_ssize_t found = search_bytes(bytes, (Py_ssize_t)size, (const char *)&byte, 1, FIRST);
    if (found < 0) {
        PyErr_SetString(PyExc_ValueError, "value not found in Bytes");
        return NULL;
    }
    return none_if(check(ecow_bytes_remove(&object->value, (size_t)found, NULL), NAME));
}

/* Whether an object is compared and joined with bytes. A `List` and an `Array` lend buffers, but are
 * of other kinds. */
static bool is_bytes_like(core_state *state, PyObject *other) {
    return PyObject_CheckBuffer(other) && !PyObject_TypeCheck(other, state->list)
           && !PyObject_TypeCheck(other, state->array);
}

static bool can_join(PyObject *self, PyObject *other) {
    if (is_bytes_like(bytes_cast(self)->state, other)) {
        return true;
    }
    PyErr_Format(PyExc_TypeError, "can't concat %R to Bytes", Py_TYPE(other));
    return false;
}

static PyObject *bytes_concat(PyObject *self, PyObject *other) {
    return can_join(self, other) ? bytes_joined(bytes_cast(self)->state, self, other) : NULL;
}

static PyObject *bytes_concat_in_place(PyObject *self, PyObject *other) {
    return can_join(self, other) ? bytes_extend_in_place(self, other) : NULL;
}

static PyObject *bytes_compared(PyObject *self, PyObject *other, int operation) {
    bytes_object *object = bytes_cast(self);
    if (bytes_is(object->state, other)) {
        return bytes_compared_alike(self, other, operation);
    }
    Py_buffer view;
    if (!is_bytes_like(object->state, other)) {
        Py_RETURN_NOTIMPLEMENTED;
    }
    if (PyObject_GetBuffer(other, &view, PyBUF_SIMPLE) < 0) {
        PyErr_Clear();
        Py_RETURN_NOTIMPLEMENTED;
    }
    size_t size, least;
    const uint8_t *bytes = ecow_bytes_slice(&object->value, &size);
    least = size < (size_t)view.len ? size : (size_t)view.len;
    int order = least ? memcmp(bytes, view.buf, least) : 0;
    order = order ? order : size < (size_t)view.len ? -1 : size > (size_t)view.len;
    PyBuffer_Release(&view);
    return ordered(order, operation);
}

static PyObject *bytes_str(PyObject *self) {
    size_t size;
    const uint8_t *bytes = ecow_bytes_slice(&bytes_cast(self)->value, &size);
    return PyBytes_FromStringAndSize((const char *)bytes, (Py_ssize_t)size);
}

static PyObject *bytes_repr(PyObject *self) {
    return named_repr(self, bytes_str(self));
}

#define OF of_bytes
#define PLAIN_NAME "bytes"
#define FILL "b' '"
#define CHARS "bytes"
#define DELETED ", delete=b''"
#define WITHOUT_ARGUMENTS(X) ALONE_OF_BOTH(X)
#define WITH_ARGUMENTS(X) METHODS_OF_BOTH(X) METHODS_OF_BYTES(X)
#define AS_THEY_ARE(X) PLAIN_OF_BYTES(X)
#include "handed_on.h"

static int bytes_buffer(PyObject *self, Py_buffer *view, int flags) {
    bytes_object *object = bytes_cast(self);
    return lend_bytes(object->state, &object->value, view, flags);
}

/* clang-format off */
static PyMethodDef bytes_methods[] = {
    SEQUENCE_METHODS,
    SEARCH_METHODS("a byte or bytes")
    HANDED_ON_METHODS
    {"remove", bytes_remove, METH_O,
     PyDoc_STR("remove($self, byte, /)\n--\n\n"
               "Takes the first such byte out: ValueError where there is none.")},
    {NULL, NULL, 0, NULL},
};
/* clang-format on */

static PyType_Slot bytes_slots[] = {
    {Py_tp_doc, "Bytes(data=b'', /)\n--\n\n"
                "Bytes, whose copies share memory. Up to 15 stand in the object itself."},
    SEQUENCE_SLOTS,
    {Py_tp_methods, bytes_methods},
    {Py_tp_repr, bytes_repr},
    {Py_tp_richcompare, bytes_compared},
    {Py_sq_contains, bytes_contains},
    {Py_sq_concat, bytes_concat},
    {Py_sq_inplace_concat, bytes_concat_in_place},
    {Py_bf_getbuffer, bytes_buffer},
    {Py_bf_releasebuffer, release_buffer},
    {0, NULL},
};

TYPE_SPEC(Py_TPFLAGS_IMMUTABLETYPE);
