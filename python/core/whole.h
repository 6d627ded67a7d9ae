/* How lists, bytes and lists of texts are made of what a call was given, and compared with others
 * of their kind. It is included behind `sequence.h`. */

static int OWN(init)(PyObject *self, PyObject *arguments, PyObject *named) {
    OBJECT *object = OWN(cast)(self);
    PyObject *source;
    if (!read_source(NAME, arguments, named, &source)) {
        return -1;
    }
    if (!source) {
        return check(CALL(clear)(&object->value), NAME);
    }
    VALUE made = CALL(new)();
    int done;
    if (OWN(is)(object->state, source)) {
        done = check(CALL(clone)(&made, &OWN(cast)(source)->value), NAME);
    } else {
        GIVEN given = {0};
        done = OWN(give)(object, source, &given) < 0
                   ? -1
                   : check(OWN(add_given)(&made, &given), NAME);
        OWN(give_back)(&given);
    }
    if (done == 0) {
        OWN(take_over)(object, &made);
    }
    CALL(drop)(&made);
    return done;
}

static PyObject *OWN(compared_alike)(PyObject *self, PyObject *other, int operation) {
    const VALUE *left = &OWN(cast)(self)->value, *right = &OWN(cast)(other)->value;
    if (operation == Py_EQ || operation == Py_NE) {
        return PyBool_FromLong(CALL(equal)(left, right) == (operation == Py_EQ));
    }
    return ordered(CALL(compare)(left, right), operation);
}
