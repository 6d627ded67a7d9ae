/* What lists, arrays, bytes and lists of texts have in common. It is included behind `kind.h`, with
 * more:
 *     ITEM                       the type of an item of the library's; `PASS(item)` goes to a call
 *     EMPTY(value)               an empty value for items as those of another
 *     GIVEN                      the struct of items that a call was given, with their `count`
 *     OWN(read_item)             reads an item from an object of Python's; `OWN(drop_item)` ends it
 *     OWN(item_object)           makes an object of Python's of an item, which it takes over; one
 *                                that stays in its container is lent
 *     OWN(give)                  reads items from any iterable; `OWN(give_back)` ends them
 *     OWN(add_given)             appends given items to a value
 *     OWN(put_given)             puts them in place of a range
 *     OWN(set_given)             puts one of them in place of an item
 *     OWN(add_part)              appends every `step`th item of another value, from `start` on */

static Py_ssize_t OWN(length)(PyObject *self) {
    return (Py_ssize_t)CALL(len)(&OWN(cast)(self)->value);
}

static PyObject *OWN(item)(PyObject *self, Py_ssize_t index) {
    OBJECT *object = OWN(cast)(self);
    ITEM item = {0};
    if (check(CALL(get)(&object->value, (size_t)index, &item), NAME) < 0) {
        return NULL;
    }
    return OWN(item_object)(object, &item, true);
}

/* Reads an index that counts from the end where it is below 0. One before the start passes the end
 * when it is a `size_t`. */
static bool OWN(read_index)(PyObject *self, PyObject *given, size_t *index) {
    Py_ssize_t number = PyNumber_AsSsize_t(given, PyExc_IndexError);
    if (number == -1 && PyErr_Occurred()) {
        return false;
    }
    *index = (size_t)(number < 0 ? number + OWN(length)(self) : number);
    return true;
}

/* A new object of the module's own type with every `step`th item. All items share the memory. */
static PyObject *OWN(part)(PyObject *self, Py_ssize_t start, Py_ssize_t step, Py_ssize_t count) {
    OBJECT *object = OWN(cast)(self);
    if (step == 1 && count == OWN(length)(self)) {
        return OWN(cloned)(self, object->state->TYPE);
    }
    OBJECT *made = OWN(make)(object->state, object->state->TYPE);
    if (made) {
        made->value = EMPTY(object->value);
    }
    if (made && check(OWN(add_part)(&made->value, &object->value, start, step, count), NAME) < 0) {
        Py_CLEAR(made);
    }
    return (PyObject *)made;
}

/* Raises the error of an index that is neither a number nor a slice. */
static void OWN(refuse_index)(PyObject *key) {
    PyObject *name = PyType_GetName(Py_TYPE(key));
    if (name) {
        PyErr_Format(PyExc_TypeError, NAME " indices must be integers or slices, not %U", name);
        Py_DECREF(name);
    }
}

static PyObject *OWN(subscript)(PyObject *self, PyObject *key) {
    if (PyIndex_Check(key)) {
        size_t index;
        return OWN(read_index)(self, key, &index) ? OWN(item)(self, (Py_ssize_t)index) : NULL;
    }
    if (!PySlice_Check(key)) {
        OWN(refuse_index)(key);
        return NULL;
    }
    Py_ssize_t start, stop, step;
    if (PySlice_Unpack(key, &start, &stop, &step) < 0) {
        return NULL;
    }
    Py_ssize_t count = PySlice_AdjustIndices(OWN(length)(self), &start, &stop, step);
    return OWN(part)(self, start, step, count);
}

static int OWN(set_item)(PyObject *self, PyObject *key, PyObject *given) {
    OBJECT *object = OWN(cast)(self);
    size_t index;
    ITEM item = {0};
    if (!given) {
        return OWN(read_index)(self, key, &index)
                   ? check(CALL(remove)(&object->value, index, NULL), NAME)
                   : -1;
    }
    if (OWN(read_item)(object, given, &item) < 0) {
        return -1;
    }
    int done = OWN(read_index)(self, key, &index)
                   ? check(CALL(set)(&object->value, index, PASS(item)), NAME)
                   : -1;
    OWN(drop_item)(&item);
    return done;
}

/* Takes every `step`th item out. */
static int OWN(cut)(PyObject *self, Py_ssize_t start, Py_ssize_t step, Py_ssize_t count) {
    OBJECT *object = OWN(cast)(self);
    if (count == 0) {
        return 0;
    }
    if (step < 0) {
        start += step * (count - 1);
        step = -step;
    }
    if (step == 1) {
        GIVEN none = {0};
        size_t end = (size_t)(start + count);
        return check(OWN(put_given)(&object->value, (size_t)start, end, &none), NAME);
    }
    /* What stays is gathered in a new value, so that a refusal changes nothing. */
    VALUE kept = EMPTY(object->value);
    ecow_status status = OWN(add_part)(&kept, &object->value, 0, 1, start);
    for (Py_ssize_t taken = 0; taken < count && status == ECOW_OK; taken++) {
        Py_ssize_t from = start + taken * step + 1;
        Py_ssize_t to = taken + 1 < count ? start + (taken + 1) * step : OWN(length)(self);
        status = OWN(add_part)(&kept, &object->value, from, 1, to - from);
    }
    /* What must stay where it is refuses to be cleared. */
    status = status ? status : CALL(clear)(&object->value);
    if (status == ECOW_OK) {
        OWN(take_over)(object, &kept);
    }
    CALL(drop)(&kept);
    return check(status, NAME);
}

static int OWN(set_slice)(PyObject *self, Py_ssize_t start, Py_ssize_t stop, Py_ssize_t step,
                          const GIVEN *given) {
    OBJECT *object = OWN(cast)(self);
    Py_ssize_t count = PySlice_AdjustIndices(OWN(length)(self), &start, &stop, step);
    if (step == 1) {
        size_t end = (size_t)(start + count);
        return check(OWN(put_given)(&object->value, (size_t)start, end, given), NAME);
    }
    if (given->count != count) {
        PyErr_Format(PyExc_ValueError,
                     "attempt to assign sequence of size %zd to extended slice of size %zd",
                     given->count, count);
        return -1;
    }
    /* The first item copies what is shared, so memory can be refused there alone. */
    ecow_status status = ECOW_OK;
    for (Py_ssize_t at = 0; at < count && status == ECOW_OK; at++) {
        status = OWN(set_given)(&object->value, (size_t)(start + at * step), given, (size_t)at);
    }
    return check(status, NAME);
}

static int OWN(set_subscript)(PyObject *self, PyObject *key, PyObject *value) {
    OBJECT *object = OWN(cast)(self);
    if (PyIndex_Check(key)) {
        return OWN(set_item)(self, key, value);
    }
    if (!PySlice_Check(key)) {
        OWN(refuse_index)(key);
        return -1;
    }
    Py_ssize_t start, stop, step;
    if (PySlice_Unpack(key, &start, &stop, &step) < 0) {
        return -1;
    }
    if (!value) {
        Py_ssize_t count = PySlice_AdjustIndices(OWN(length)(self), &start, &stop, step);
        return OWN(cut)(self, start, step, count);
    }
    GIVEN given = {0};
    int done = OWN(give)(object, value, &given) < 0
                   ? -1
                   : OWN(set_slice)(self, start, stop, step, &given);
    OWN(give_back)(&given);
    return done;
}

static PyObject *OWN(append)(PyObject *self, PyObject *given) {
    OBJECT *object = OWN(cast)(self);
    ITEM item = {0};
    if (OWN(read_item)(object, given, &item) < 0) {
        return NULL;
    }
    ecow_status status = CALL(push)(&object->value, PASS(item));
    OWN(drop_item)(&item);
    return none_if(check(status, NAME));
}

static PyObject *OWN(extend)(PyObject *self, PyObject *source) {
    OBJECT *object = OWN(cast)(self);
    GIVEN given = {0};
    int done = OWN(give)(object, source, &given) < 0
                   ? -1
                   : check(OWN(add_given)(&object->value, &given), NAME);
    OWN(give_back)(&given);
    if (done < 0) {
        return NULL;
    }
    Py_RETURN_NONE;
}

static PyObject *OWN(insert)(PyObject *self, PyObject *const *arguments, Py_ssize_t count) {
    OBJECT *object = OWN(cast)(self);
    ITEM item = {0};
    if (!takes("insert", count, 2, 2)) {
        return NULL;
    }
    Py_ssize_t index = PyNumber_AsSsize_t(arguments[0], NULL);
    if ((index == -1 && PyErr_Occurred())
        || OWN(read_item)(object, arguments[1], &item) < 0) {
        return NULL;
    }
    Py_ssize_t len = OWN(length)(self);
    index = index < 0 ? index + len : index;
    index = index < 0 ? 0 : index > len ? len : index;
    ecow_status status = CALL(insert)(&object->value, (size_t)index, PASS(item));
    OWN(drop_item)(&item);
    return none_if(check(status, NAME));
}

/* The object of the item is made first: where that is refused, the item stays. */
static PyObject *OWN(pop)(PyObject *self, PyObject *const *arguments, Py_ssize_t count) {
    OBJECT *object = OWN(cast)(self);
    ITEM item = {0};
    size_t index = (size_t)OWN(length)(self) - 1;
    if (!takes("pop", count, 0, 1) || (count && !OWN(read_index)(self, arguments[0], &index))) {
        return NULL;
    }
    if (OWN(length)(self) == 0) {
        PyErr_SetString(PyExc_IndexError, "pop from empty " NAME);
        return NULL;
    }
    if (check(CALL(get)(&object->value, index, &item), NAME) < 0) {
        return NULL;
    }
    PyObject *taken = OWN(item_object)(object, &item, false);
    if (taken && check(CALL(remove)(&object->value, index, NULL), NAME) < 0) {
        Py_CLEAR(taken);
    }
    return taken;
}

static PyObject *OWN(clear)(PyObject *self, PyObject *Py_UNUSED(none)) {
    return none_if(check(CALL(clear)(&OWN(cast)(self)->value), NAME));
}

static PyObject *OWN(truncate)(PyObject *self, PyObject *length) {
    size_t len;
    return read_size(length, &len)
               ? none_if(check(CALL(truncate)(&OWN(cast)(self)->value, len), NAME))
               : NULL;
}

static PyObject *OWN(reserve)(PyObject *self, PyObject *additional) {
    size_t count;
    return read_size(additional, &count)
               ? none_if(check(CALL(reserve)(&OWN(cast)(self)->value, count), NAME))
               : NULL;
}

static PyObject *OWN(hash)(PyObject *self, PyObject *Py_UNUSED(none)) {
    return PyLong_FromUnsignedLongLong(CALL(hash)(&OWN(cast)(self)->value));
}

/* Makes an empty value the items of `self`, `times` times. */
static int OWN(repeated)(PyObject *self, Py_ssize_t times, VALUE *made) {
    const VALUE *value = &OWN(cast)(self)->value;
    Py_ssize_t len = OWN(length)(self);
    if (times <= 0 || len == 0) {
        return 0;
    }
    if (len > PY_SSIZE_T_MAX / times) {
        PyErr_NoMemory();
        return -1;
    }
    ecow_status status = CALL(reserve)(made, (size_t)(len * times));
    for (Py_ssize_t time = 0; time < times && status == ECOW_OK; time++) {
        status = OWN(add_part)(made, value, 0, 1, len);
    }
    return check(status, NAME);
}

static PyObject *OWN(repeat_in_place)(PyObject *self, Py_ssize_t times) {
    OBJECT *object = OWN(cast)(self);
    VALUE value = EMPTY(object->value);
    int done = times == 1 ? 0 : OWN(repeated)(self, times, &value);
    if (done == 0 && times != 1 && (done = check(CALL(clear)(&object->value), NAME)) == 0) {
        OWN(take_over)(object, &value);
    }
    CALL(drop)(&value);
    return done < 0 ? NULL : Py_NewRef(self);
}

static PyObject *OWN(repeat)(PyObject *self, Py_ssize_t times) {
    PyObject *made = OWN(cloned)(self, OWN(cast)(self)->state->TYPE);
    PyObject *repeated = made ? OWN(repeat_in_place)(made, times) : NULL;
    Py_XDECREF(made);
    return repeated;
}

/* A new object of the items of two objects: one of this kind, and one of what `OWN(give)` takes. */
static PyObject *OWN(joined)(core_state *state, PyObject *left, PyObject *right) {
    bool is_own = OWN(is)(state, left);
    PyObject *made = is_own ? OWN(cloned)(left, state->TYPE) : OWN(part)(right, 0, 1, 0);
    PyObject *first = made && !is_own ? OWN(extend)(made, left) : NULL;
    PyObject *second = made && (is_own || first) ? OWN(extend)(made, right) : NULL;
    Py_XDECREF(first);
    if (!second) {
        Py_CLEAR(made);
    }
    Py_XDECREF(second);
    return made;
}

static PyObject *OWN(extend_in_place)(PyObject *self, PyObject *source) {
    PyObject *none = OWN(extend)(self, source);
    if (!none) {
        return NULL;
    }
    Py_DECREF(none);
    Py_INCREF(self);
    return self;
}

/* clang-format off */
#define SEQUENCE_METHODS                                                                       \
    COPY_METHODS,                                                                              \
    {"append", OWN(append), METH_O,                                                            \
     PyDoc_STR("append($self, item, /)\n--\n\nAppends an item.")},                             \
    {"extend", OWN(extend), METH_O,                                                            \
     PyDoc_STR("extend($self, items, /)\n--\n\n"                                               \
               "Appends all items of an iterable, or none where it raises an error.")},        \
    {"insert", (PyCFunction)(void (*)(void))OWN(insert), METH_FASTCALL,                        \
     PyDoc_STR("insert($self, index, item, /)\n--\n\nPuts an item in before `index`.")},       \
    {"pop", (PyCFunction)(void (*)(void))OWN(pop), METH_FASTCALL,                              \
     PyDoc_STR("pop($self, index=-1, /)\n--\n\n"                                               \
               "Takes the item at `index`: IndexError where there is none.")},                 \
    {"reverse", reverse, METH_NOARGS,                                                          \
     PyDoc_STR("reverse($self, /)\n--\n\nReverses the order of the items.")},                  \
    {"clear", OWN(clear), METH_NOARGS,                                                         \
     PyDoc_STR("clear($self, /)\n--\n\n"                                                       \
               "Keeps no items. Memory that no copy shares is kept for what comes.")},         \
    {"truncate", OWN(truncate), METH_O,                                                        \
     PyDoc_STR("truncate($self, length, /)\n--\n\n"                                            \
               "Keeps the first `length` items, or all where there are fewer.")},              \
    {"reserve", OWN(reserve), METH_O,                                                          \
     PyDoc_STR("reserve($self, additional, /)\n--\n\n"                                         \
               "Makes room for so many more items: MemoryError where there is no memory,\n"    \
               "OverflowError where the length would pass 2^63 - 1.")},                        \
    {"hash", OWN(hash), METH_NOARGS,                                                           \
     PyDoc_STR("hash($self, /)\n--\n\n"                                                        \
               "A hash of the contents, from 0 to 2^64 - 1, the same in every process.")}

#define SEQUENCE_SLOTS                                                                         \
    {Py_tp_new, OWN(new)}, {Py_tp_init, OWN(init)}, {Py_tp_dealloc, OWN(dealloc)},             \
        {Py_tp_members, OWN(members)}, {Py_tp_iter, PySeqIter_New},                            \
        {Py_tp_hash, PyObject_HashNotImplemented}, {Py_sq_length, OWN(length)},                \
        {Py_sq_item, OWN(item)}, {Py_sq_repeat, OWN(repeat)},                                  \
        {Py_sq_inplace_repeat, OWN(repeat_in_place)}, {Py_mp_length, OWN(length)},             \
        {Py_mp_subscript, OWN(subscript)}, {Py_mp_ass_subscript, OWN(set_subscript)}
/* clang-format on */
