/* The module: its types, its state, and what several kinds of value need. */
#include "core.h"

static struct PyModuleDef definition;

core_state *state_of_type(PyTypeObject *type) {
    for (; type; type = (PyTypeObject *)PyType_GetSlot(type, Py_tp_base)) {
        if (!(PyType_GetFlags(type) & Py_TPFLAGS_HEAPTYPE)) {
            continue;
        }
        PyObject *module = PyType_GetModule(type);
        if (!module) {
            PyErr_Clear();
        } else if (PyModule_GetDef(module) == &definition) {
            return PyModule_GetState(module);
        }
    }
    return NULL;
}

core_state *state_of_either(PyObject *left, PyObject *right) {
    core_state *state = state_of_type(Py_TYPE(left));
    return state ? state : state_of_type(Py_TYPE(right));
}

int refuse(ecow_status status, const char *what) {
    switch ((int)status) {
    case ECOW_MEMORY:
        PyErr_NoMemory();
        return -1;
    case ECOW_CAPACITY:
        PyErr_Format(PyExc_OverflowError, "%s would be longer than 2^63 - 1", what);
        return -1;
    case ECOW_INDEX:
        PyErr_Format(PyExc_IndexError, "%s index out of range", what);
        return -1;
    case ECOW_DEPTH:
        PyErr_Format(PyExc_RecursionError, "%s nested deeper than %d", what, ECOW_MAX_DEPTH);
        return -1;
    case ECOW_KIND:
        PyErr_Format(PyExc_TypeError, "%s is of another kind", what);
        return -1;
    case IN_USE:
        PyErr_Format(PyExc_BufferError, "%s is open for writing through a view", what);
        return -1;
    default:
        PyErr_Format(PyExc_SystemError, "%s: %s", what, ecow_status_text(status));
        return -1;
    }
}

PyObject *none_if(int done) {
    return done < 0 ? NULL : Py_NewRef(Py_None);
}

bool refuse_change(const char *what) {
    PyErr_Format(PyExc_TypeError,
                 "a %s that a container has handed out can't be changed: change a copy() of it, "
                 "and put that in",
                 what);
    return false;
}

bool read_source(const char *name, PyObject *arguments, PyObject *named, PyObject **source) {
    Py_ssize_t count = PyTuple_Size(arguments);
    *source = count == 1 ? PyTuple_GetItem(arguments, 0) : NULL;
    if (named && PyDict_Size(named) > 0) {
        PyErr_Format(PyExc_TypeError, "%s() takes no keyword arguments", name);
        return false;
    }
    return takes(name, count, 0, 1);
}

PyObject *call_helper(PyObject *name, PyObject *first, PyObject *second) {
    PyObject *module = PyImport_ImportModule("ecow._objects");
    if (!module) {
        return NULL;
    }
    PyObject *result = PyObject_CallMethodObjArgs(module, name, first, second, NULL);
    Py_DECREF(module);
    return result;
}

bool takes(const char *name, Py_ssize_t count, Py_ssize_t least, Py_ssize_t most) {
    if (count >= least && count <= most) {
        return true;
    }
    PyErr_Format(PyExc_TypeError, "%s() takes %zd to %zd arguments (%zd given)", name, least, most,
                 count);
    return false;
}

bool read_size(PyObject *given, size_t *size) {
    Py_ssize_t number = PyNumber_AsSsize_t(given, NULL);
    if (number < 0 && !PyErr_Occurred()) {
        PyErr_SetString(PyExc_ValueError, "length below 0");
    }
    *size = (size_t)number;
    return number >= 0;
}

bool read_bound(PyObject *given, Py_ssize_t len, Py_ssize_t *bound) {
    if (given == Py_None) {
        return true;
    }
    if (!PyIndex_Check(given)) {
        PyErr_SetString(PyExc_TypeError, "slice indices must be integers or None");
        return false;
    }
    Py_ssize_t index = PyNumber_AsSsize_t(given, NULL);
    if (index == -1 && PyErr_Occurred()) {
        return false;
    }
    index = index < 0 ? index + len : index;
    *bound = index < 0 ? 0 : index;
    return true;
}

bool read_bounds(const char *name, PyObject *const *arguments, Py_ssize_t count, Py_ssize_t len,
                 Py_ssize_t *start, Py_ssize_t *stop) {
    *start = 0;
    *stop = len;
    if (!takes(name, count, 1, 3) || (count > 1 && !read_bound(arguments[1], len, start))
        || (count > 2 && !read_bound(arguments[2], len, stop))) {
        return false;
    }
    *stop = *stop > len ? len : *stop;
    return true;
}

PyObject *ordered(int order, int operation) {
    bool holds = operation == Py_EQ   ? order == 0
                 : operation == Py_NE ? order != 0
                 : operation == Py_LT ? order < 0
                 : operation == Py_LE ? order <= 0
                 : operation == Py_GT ? order > 0
                                      : order >= 0;
    return PyBool_FromLong(holds);
}

PyObject *compare_with_list(PyObject *sequence, PyObject *list, int operation) {
    bool for_equality = operation == Py_EQ || operation == Py_NE;
    if (for_equality && PySequence_Size(sequence) != PyList_Size(list)) {
        return PyBool_FromLong(operation == Py_NE);
    }
    PyObject *items = PySequence_List(sequence);
    PyObject *answer = items ? PyObject_RichCompare(items, list, operation) : NULL;
    Py_XDECREF(items);
    return answer;
}

Py_ssize_t seek_object(PyObject *sequence, PyObject *object, Py_ssize_t start, Py_ssize_t stop) {
    Py_ssize_t len = -1;
    /* A comparison may run code that makes it of another kind, which has no length. */
    for (Py_ssize_t index = start; index < stop && index < (len = PySequence_Size(sequence));
         index++) {
        PyObject *item = PySequence_GetItem(sequence, index);
        int same = item ? PyObject_RichCompareBool(item, object, Py_EQ) : -1;
        Py_XDECREF(item);
        if (same) {
            return same > 0 ? index : -2;
        }
    }
    return len < 0 && PyErr_Occurred() ? -2 : -1;
}

PyObject *reverse(PyObject *self, PyObject *Py_UNUSED(none)) {
    PyObject *back = PyLong_FromLong(-1), *all = PySlice_New(NULL, NULL, NULL);
    PyObject *turn = back ? PySlice_New(NULL, NULL, back) : NULL;
    PyObject *turned = turn && all ? PyObject_GetItem(self, turn) : NULL;
    int done = turned ? PyObject_SetItem(self, all, turned) : -1;
    Py_XDECREF(back);
    Py_XDECREF(all);
    Py_XDECREF(turn);
    Py_XDECREF(turned);
    return none_if(done);
}

PyObject *named_repr(PyObject *self, PyObject *contents) {
    /* What is lent is named by its kind. No class is derived from its own type. */
    PyTypeObject *type = Py_TYPE(self);
    bool is_lent = !(PyType_GetFlags(type) & Py_TPFLAGS_BASETYPE);
    type = is_lent ? (PyTypeObject *)PyType_GetSlot(type, Py_tp_base) : type;
    PyObject *name = contents ? PyType_GetName(type) : NULL;
    const char *format = name && PyTuple_Check(contents) ? "%U%R" : "%U(%R)";
    PyObject *result = name ? PyUnicode_FromFormat(format, name, contents) : NULL;
    Py_XDECREF(name);
    Py_XDECREF(contents);
    return result;
}

static PyObject *is_utf8(PyObject *Py_UNUSED(module), PyObject *given) {
    Py_buffer view;
    if (PyObject_GetBuffer(given, &view, PyBUF_SIMPLE) < 0) {
        return NULL;
    }
    bool is = ecow_is_utf8(view.buf, (size_t)view.len);
    PyBuffer_Release(&view);
    return PyBool_FromLong(is);
}

/* Where the memory is that a value shares with its clones: 0 where it has none. */
static PyObject *address(PyObject *module, PyObject *given) {
    core_state *state = PyModule_GetState(module);
    size_t len = 0;
    const void *place = NULL;
    if (PyObject_TypeCheck(given, state->list)) {
        place = ecow_list_slice(&((list_object *)given)->value, &len);
    } else if (PyObject_TypeCheck(given, state->array)) {
        place = ecow_array_slice(&((array_object *)given)->value.array, 1, &len);
    } else if (PyObject_TypeCheck(given, state->bytes) || PyObject_TypeCheck(given, state->text)) {
        place = PyObject_TypeCheck(given, state->bytes)
                    ? (const void *)ecow_bytes_slice(&((bytes_object *)given)->value, &len)
                    : ecow_text_slice(&((text_object *)given)->value, &len);
        len = len <= INLINE ? 0 : len;
    } else if (PyObject_TypeCheck(given, state->texts)) {
        len = ecow_texts_len(&((texts_object *)given)->value);
        place = (void *)(uintptr_t)((texts_object *)given)->value.word[0];
    } else if (PyObject_TypeCheck(given, state->value)) {
        /* The word of a list or of fields stands behind that with the kind. */
        len = ecow_value_len(&((value_object *)given)->value);
        place = (void *)(uintptr_t)((value_object *)given)->value.word[1];
    }
    return PyLong_FromVoidPtr(len ? (void *)place : NULL);
}

static PyMethodDef functions[] = {
    {"_address", address, METH_O, NULL},
    {"_plain", (PyCFunction)(void (*)(void))value_plain, METH_FASTCALL, NULL},
    {"is_utf8", is_utf8, METH_O,
     PyDoc_STR("is_utf8($module, data, /)\n--\n\nWhether the bytes are UTF-8.")},
    {NULL, NULL, 0, NULL},
};

/* The types, and from which each is derived. */
#define TYPES(X)                                                                               \
    X(list, NULL) X(array, NULL) X(bytes, NULL) X(text, NULL) X(texts, NULL) X(value, NULL)    \
    X(snapshot, NULL) X(lent_text, state->text) X(lent_value, state->value)

static int add_type(PyObject *module, PyType_Spec *spec, PyTypeObject *base, PyTypeObject **type) {
    *type = (PyTypeObject *)PyType_FromModuleAndSpec(module, spec, (PyObject *)base);
    return *type && PyModule_AddType(module, *type) == 0 ? 0 : -1;
}

/* What is done for each name, and for each method of `bytes` and of `str`. */
#define FOR_ALL(NAME, OF_BYTES, OF_STR) NAMES(NAME) ALL_OF_BYTES(OF_BYTES) ALL_OF_STR(OF_STR)

static int look_names_up(core_state *state) {
    PyObject *bytes = (PyObject *)&PyBytes_Type, *str = (PyObject *)&PyUnicode_Type;
#define SPELL(name)                                                 \
    if (!(state->names.name = PyUnicode_InternFromString(#name))) { \
        return -1;                                                  \
    }
#define OF_BYTES(name)                                                    \
    if (!(state->of_bytes.name = PyObject_GetAttrString(bytes, #name))) { \
        return -1;                                                        \
    }
#define OF_STR(name)                                                  \
    if (!(state->of_str.name = PyObject_GetAttrString(str, #name))) { \
        return -1;                                                    \
    }
    FOR_ALL(SPELL, OF_BYTES, OF_STR)
#undef SPELL
#undef OF_BYTES
#undef OF_STR
    return 0;
}

static int execute(PyObject *module) {
    core_state *state = PyModule_GetState(module);
#define ADD(name, base) || add_type(module, &name##_spec, base, &state->name) < 0
    if (look_names_up(state) < 0 TYPES(ADD)) {
        return -1;
    }
#undef ADD
    return PyModule_AddStringConstant(module, "__version__", PACKAGE_VERSION);
}

static int visit(PyObject *module, visitproc visit, void *arg) {
    core_state *state = PyModule_GetState(module);
    if (state) {
#define VISIT(name, base) Py_VISIT(state->name);
        TYPES(VISIT)
#undef VISIT
    }
    return 0;
}

static void release(void *module) {
    core_state *state = PyModule_GetState(module);
    if (state) {
#define CLEAR(name, base) Py_CLEAR(state->name);
        TYPES(CLEAR)
#undef CLEAR
        while (state->spares > 0) {
            PyObject_Free(state->spare[--state->spares]);
        }
#define CLEAR_NAME(name) Py_CLEAR(state->names.name);
#define CLEAR_OF_BYTES(name) Py_CLEAR(state->of_bytes.name);
#define CLEAR_OF_STR(name) Py_CLEAR(state->of_str.name);
        FOR_ALL(CLEAR_NAME, CLEAR_OF_BYTES, CLEAR_OF_STR)
#undef CLEAR_NAME
#undef CLEAR_OF_BYTES
#undef CLEAR_OF_STR
    }
}

static PyModuleDef_Slot slots[] = {
    {Py_mod_exec, execute},
    {0, NULL},
};

/* The types hold the module, and the module the types. The collector breaks that cycle at the
 * types, so nothing is cleared here while an object may still read the state. */
static struct PyModuleDef definition = {
    PyModuleDef_HEAD_INIT,
    .m_name = "ecow._core",
    .m_doc = "The kinds of value of the package `ecow`.",
    .m_size = sizeof(core_state),
    .m_methods = functions,
    .m_slots = slots,
    .m_traverse = visit,
    .m_free = release,
};

PyMODINIT_FUNC PyInit__core(void) {
    return PyModuleDef_Init(&definition);
}
