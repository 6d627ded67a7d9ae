/* How lists and arrays read the items that a call was given. It is included behind `kind.h`, with
 * the names that `given_array.h` and `sequence.h` need, and two more:
 *     WIDTH(object), FAMILY(object)   the size and the family of an item */

/* Items that a call was given: in a clone, in a buffer, or in an array that was made of them. */
typedef struct GIVEN {
    const ITEM *items;
    Py_ssize_t count;
    VALUE held;
    Py_buffer view;
    bool viewed;
    ITEM *made;
} GIVEN;

static void OWN(drop_item)(ITEM *Py_UNUSED(item)) {}

/* Gathers the items of an iterable in an array. */
static int OWN(gather)(OBJECT *object, PyObject *source, GIVEN *given) {
    PyObject *items = PySequence_Tuple(source);
    Py_ssize_t count = items ? PyTuple_Size(items) : 0;
    int done = items ? 0 : -1;
    given->items = given->made = PyMem_Malloc((size_t)count * WIDTH(object));
    if (done == 0 && !given->made) {
        PyErr_NoMemory();
        done = -1;
    }
    for (; done == 0 && given->count < count; given->count++) {
        done = OWN(read_item)(object, PyTuple_GetItem(items, given->count),
                              AT(&object->value, given->made, given->count));
    }
    Py_XDECREF(items);
    return done;
}

static int OWN(give)(OBJECT *object, PyObject *source, GIVEN *given) {
    if (OWN(is)(object->state, source)) {
        const VALUE *value = &OWN(cast)(source)->value;
        given->held = EMPTY(object->value);
        if (check(CALL(clone)(&given->held, value), NAME) < 0) {
            return -1;
        }
        given->items = CALL(slice)(&given->held, NULL);
        given->count = (Py_ssize_t)CALL(len)(value);
        return 0;
    }
    if (PyObject_CheckBuffer(source)) {
        if (PyObject_GetBuffer(source, &given->view, PyBUF_CONTIG_RO | PyBUF_FORMAT) < 0) {
            PyErr_Clear();
        } else {
            given->viewed = true;
            if (is_array(&given->view, FAMILY(object), WIDTH(object))) {
                given->items = given->view.buf;
                given->count = given->view.len / (Py_ssize_t)WIDTH(object);
                return 0;
            }
        }
    }
    return OWN(gather)(object, source, given);
}

static void OWN(give_back)(GIVEN *given) {
    CALL(drop)(&given->held);
    if (given->viewed) {
        PyBuffer_Release(&given->view);
    }
    PyMem_Free(given->made);
}
