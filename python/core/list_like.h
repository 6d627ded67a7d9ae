/* What lists, arrays and lists of texts have in common: they are like a `list` of Python's. It is
 * included behind `sequence.h`, with two names more:
 *     OWN(seek)      where an item in a range equals an object: -1 where none does, -2 with an
 *                    error
 *     OWN(compared_alike)   compares two objects of this kind
 *     MORE_METHODS   methods of this kind alone */

static int OWN(contains)(PyObject *self, PyObject *object) {
    Py_ssize_t found = OWN(seek)(self, object, 0, PY_SSIZE_T_MAX);
    return found == -2 ? -1 : found >= 0;
}

static PyObject *OWN(index)(PyObject *self, PyObject *const *arguments, Py_ssize_t count) {
    Py_ssize_t start, stop;
    if (!read_bounds("index", arguments, count, OWN(length)(self), &start, &stop)) {
        return NULL;
    }
    Py_ssize_t found = OWN(seek)(self, arguments[0], start, stop);
    if (found == -1) {
        PyErr_Format(PyExc_ValueError, "%R is not in " NAME, arguments[0]);
    }
    return found < 0 ? NULL : PyLong_FromSsize_t(found);
}

static PyObject *OWN(count)(PyObject *self, PyObject *object) {
    Py_ssize_t times = 0, found = -1;
    while ((found = OWN(seek)(self, object, found + 1, PY_SSIZE_T_MAX)) >= 0) {
        times++;
    }
    return found == -2 ? NULL : PyLong_FromSsize_t(times);
}

static PyObject *OWN(remove)(PyObject *self, PyObject *object) {
    Py_ssize_t found = OWN(seek)(self, object, 0, PY_SSIZE_T_MAX);
    if (found == -1) {
        PyErr_SetString(PyExc_ValueError, NAME ".remove(x): x not in " NAME);
    }
    return found < 0
               ? NULL
               : none_if(check(CALL(remove)(&OWN(cast)(self)->value, (size_t)found, NULL), NAME));
}

static PyObject *OWN(plus)(PyObject *left, PyObject *right) {
    core_state *state = state_of_either(left, right);
    if (!state || !(OWN(is)(state, left) || PyList_Check(left))
        || !(OWN(is)(state, right) || PyList_Check(right))) {
        Py_RETURN_NOTIMPLEMENTED;
    }
    return OWN(joined)(state, left, right);
}

static PyObject *OWN(compared)(PyObject *self, PyObject *other, int operation) {
    if (PyList_Check(other)) {
        return compare_with_list(self, other, operation);
    }
    if (!OWN(is)(OWN(cast)(self)->state, other)) {
        Py_RETURN_NOTIMPLEMENTED;
    }
    return OWN(compared_alike)(self, other, operation);
}

/* clang-format off */
static PyMethodDef OWN(methods)[] = {
    SEQUENCE_METHODS,
    {"index", (PyCFunction)(void (*)(void))OWN(index), METH_FASTCALL,
     PyDoc_STR("index($self, item, start=0, stop=sys.maxsize, /)\n--\n\n"
               "Where the first such item stands: ValueError where there is none.")},
    {"count", OWN(count), METH_O,
     PyDoc_STR("count($self, item, /)\n--\n\nHow many such items there are.")},
    {"remove", OWN(remove), METH_O,
     PyDoc_STR("remove($self, item, /)\n--\n\n"
               "Takes the first such item out: ValueError where there is none.")},
    MORE_METHODS
    {NULL, NULL, 0, NULL},
};

#define LIST_LIKE_SLOTS                                                                        \
    SEQUENCE_SLOTS, {Py_tp_richcompare, OWN(compared)}, {Py_sq_contains, OWN(contains)},       \
        {Py_nb_add, OWN(plus)}, {Py_nb_inplace_add, OWN(extend_in_place)},                     \
        {Py_tp_methods, OWN(methods)}
/* clang-format on */
