/* Methods that Python's own `bytes` and `str` carry out, so that they agree with them. */
#include "core.h"

PyObject *without_text(core_state *state, PyObject *object) {
    if (PyObject_TypeCheck(object, state->text)) {
        return str_of(&((text_object *)object)->value);
    }
    Py_INCREF(object);
    return object;
}

PyObject *plain_list(core_state *state, PyObject *iterable) {
    PyObject *items = PySequence_List(iterable);
    for (Py_ssize_t at = 0; items && at < PyList_Size(items); at++) {
        PyObject *plain = without_text(state, PyList_GetItem(items, at));
        if (!plain || PyList_SetItem(items, at, plain) < 0) {
            Py_CLEAR(items);
        }
    }
    return items;
}

/* Arguments for a method that isn't bound: what it is called on stands first. Buffers go in as
 * `bytes`, since a separator comes out as it went in. */
static PyObject *plain_arguments(core_state *state, PyObject *plain, PyObject *arguments) {
    Py_ssize_t count = PyTuple_Size(arguments);
    PyObject *made = PyTuple_New(count + 1);
    for (Py_ssize_t at = 0; made && at <= count; at++) {
        PyObject *given = at == 0 ? plain : PyTuple_GetItem(arguments, at - 1);
        bool is_buffer = at > 0 && PyBytes_Check(plain) && PyObject_CheckBuffer(given);
        given = is_buffer ? PyBytes_FromObject(given) : without_text(state, given);
        if (!given || PyTuple_SetItem(made, at, given) < 0) {
            Py_CLEAR(made);
        }
    }
    return made;
}

static PyObject *plain_named(core_state *state, PyObject *named) {
    PyObject *made = PyDict_New(), *name, *argument;
    Py_ssize_t place = 0;
    while (made && PyDict_Next(named, &place, &name, &argument)) {
        PyObject *plain = without_text(state, argument);
        if (!plain || PyDict_SetItem(made, name, plain) < 0) {
            Py_CLEAR(made);
        }
        Py_XDECREF(plain);
    }
    return made;
}

PyObject *call_plain(PyObject *self, PyObject *plain, PyObject *method, PyObject *arguments,
                     PyObject *named) {
    /* Each object of the module begins alike. */
    core_state *state = ((text_object *)self)->state;
    PyObject *given = plain ? plain_arguments(state, plain, arguments) : NULL;
    PyObject *by_name = given && named ? plain_named(state, named) : NULL;
    PyObject *result = given && (by_name || !named) ? PyObject_Call(method, given, by_name) : NULL;
    Py_XDECREF(plain);
    Py_XDECREF(given);
    Py_XDECREF(by_name);
    return result;
}

PyObject *call_alone(PyObject *plain, PyObject *method) {
    PyObject *result = plain ? PyObject_CallFunctionObjArgs(method, plain, NULL) : NULL;
    Py_XDECREF(plain);
    return result;
}

static PyObject *wrapped_text(PyObject *self, PyObject *result) {
    text_object *object = (text_object *)self;
    Py_ssize_t size;
    const char *bytes = PyUnicode_AsUTF8AndSize(result, &size);
    ecow_text text = {{0}};
    if (!bytes) {
        return NULL;
    }
    size_t own_size;
    const char *own = ecow_text_slice(&object->value, &own_size);
    ecow_status status = (size_t)size == own_size && memcmp(bytes, own, own_size) == 0
                             ? ecow_text_clone(&text, &object->value)
                             : ecow_text_assign(&text, bytes, (size_t)size);
    return check(status, "Text") < 0 ? NULL : text_own(object->state, object->state->text, &text);
}

static PyObject *wrapped_bytes(PyObject *self, PyObject *result) {
    bytes_object *object = (bytes_object *)self;
    const uint8_t *items = (const uint8_t *)PyBytes_AsString(result);
    size_t size = (size_t)PyBytes_Size(result), own_size;
    const uint8_t *own = ecow_bytes_slice(&object->value, &own_size);
    ecow_bytes bytes = {{0}};
    ecow_status status = size == own_size && memcmp(items, own, size) == 0
                             ? ecow_bytes_clone(&bytes, &object->value)
                             : ecow_bytes_assign(&bytes, items, size);
    return check(status, "Bytes") < 0 ? NULL
                                      : bytes_own(object->state, object->state->bytes, &bytes);
}

/* The members of a list or a tuple, which nobody else holds. */
static PyObject *wrapped_members(PyObject *self, PyObject *members) {
    bool is_list = PyList_Check(members);
    Py_ssize_t count = PySequence_Size(members);
    PyObject *made = is_list ? PyList_New(count) : PyTuple_New(count);
    for (Py_ssize_t at = 0; made && at < count; at++) {
        PyObject *item = wrapped(self, PySequence_GetItem(members, at));
        if (!item
            || (is_list ? PyList_SetItem(made, at, item) : PyTuple_SetItem(made, at, item)) < 0) {
            Py_CLEAR(made);
        }
    }
    return made;
}

PyObject *wrapped(PyObject *self, PyObject *result) {
    if (!result || PyBool_Check(result)) {
        return result;
    }
    PyObject *made = PyUnicode_Check(result) ? wrapped_text(self, result)
                     : PyBytes_Check(result) ? wrapped_bytes(self, result)
                                             : wrapped_members(self, result);
    Py_DECREF(result);
    return made;
}
