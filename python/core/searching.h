/* What bytes and texts have in common: searches in a range. It is included behind `kind.h`, with more:
 *     OWN(seek)      where the first argument stands between the other two, or how often: -1 where
 *                    it doesn't, -2 where an error is raised
 *     ABSENT         what a ValueError says of a part that isn't there */

static int OWN(contains)(PyObject *self, PyObject *part) {
    Py_ssize_t found = OWN(seek)(self, "in", &part, 1, FIRST);
    return found == -2 ? -1 : found >= 0;
}

static PyObject *OWN(place)(Py_ssize_t found, bool is_needed) {
    if (found == -1 && is_needed) {
        PyErr_SetString(PyExc_ValueError, ABSENT);
    }
    return found == -2 || (found == -1 && is_needed) ? NULL : PyLong_FromSsize_t(found);
}

/* The first argument is a part, or a tuple of parts of which one is enough. */
static PyObject *OWN(meets)(PyObject *self, const char *name, PyObject *const *arguments,
                            Py_ssize_t count, search what) {
    if (!takes(name, count, 1, 3)) {
        return NULL;
    }
    bool several = PyTuple_Check(arguments[0]);
    Py_ssize_t parts = several ? PyTuple_Size(arguments[0]) : 1, found = -1;
    for (Py_ssize_t at = 0; at < parts && found == -1; at++) {
        PyObject *given[3] = {several ? PyTuple_GetItem(arguments[0], at) : arguments[0],
                              count > 1 ? arguments[1] : NULL, count > 2 ? arguments[2] : NULL};
        found = OWN(seek)(self, name, given, count, what);
    }
    return found == -2 ? NULL : PyBool_FromLong(found >= 0);
}

#define SEARCH(name, answer)                                                                    \
    static PyObject *OWN(name)(PyObject * self, PyObject *const *arguments, Py_ssize_t count) { \
        return answer;                                                                          \
    }
#define SOUGHT(name, what) OWN(seek)(self, name, arguments, count, what)
SEARCH(find, OWN(place)(SOUGHT("find", FIRST), false))
SEARCH(rfind, OWN(place)(SOUGHT("rfind", LAST), false))
SEARCH(index, OWN(place)(SOUGHT("index", FIRST), true))
SEARCH(rindex, OWN(place)(SOUGHT("rindex", LAST), true))
SEARCH(count, OWN(place)(SOUGHT("count", OFTEN), false))
SEARCH(startswith, OWN(meets)(self, "startswith", arguments, count, START))
SEARCH(endswith, OWN(meets)(self, "endswith", arguments, count, END))
#undef SEARCH
#undef SOUGHT

/* clang-format off */
#define SOUGHT(name, text)                                                                     \
    {#name, (PyCFunction)(void (*)(void))OWN(name), METH_FASTCALL,                             \
     PyDoc_STR(#name "($self, part, start=0, stop=sys.maxsize, /)\n--\n\n" text)},
#define SEARCH_METHODS(part)                                                                   \
    SOUGHT(find, "Where " part " first stands, or -1.")                                        \
    SOUGHT(rfind, "Where " part " last stands, or -1.")                                        \
    SOUGHT(index, "Where " part " first stands: ValueError where it doesn't.")                 \
    SOUGHT(rindex, "Where " part " last stands: ValueError where it doesn't.")                 \
    SOUGHT(count, "How often " part " occurs without overlap.")                                \
    SOUGHT(startswith, "Whether the range begins so, or with one of a tuple.")                 \
    SOUGHT(endswith, "Whether the range ends so, or with one of a tuple.")
/* clang-format on */
