/* What the objects of all kinds of value have in common. It is included once for each:
 *     OBJECT                the struct of an object
 *     VALUE                 the struct of its value
 *     CALL(name)            a call of the library on it
 *     OWN(name)             a function of the kind's file
 *     TYPE, LENT            the fields of the state with its type, and with that of what is lent
 *     NAME                  the name of that type
 *     NOTE(to, from)        copies what an object notes beside its value
 *     FORGET(object)        forgets it
 *     SPARED(state, type)   memory for a new object, or null
 *     SPARE_IT(object)      whether the memory of one that is gone is kept for that */

static inline OBJECT *OWN(cast)(PyObject *self) {
    return (OBJECT *)self;
}

static inline bool OWN(is)(core_state *state, PyObject *given) {
    return PyObject_TypeCheck(given, state->TYPE);
}

/* A new empty object of a type. */
static OBJECT *OWN(make)(core_state *state, PyTypeObject *type) {
    OBJECT *made = SPARED(state, type);
    made = made ? made : (OBJECT *)PyType_GenericAlloc(type, 0);
    if (made) {
        made->state = state;
    }
    return made;
}

PyObject *OWN(own)(core_state *state, PyTypeObject *type, VALUE *value) {
    OBJECT *made = OWN(make)(state, type);
    if (made) {
        made->value = *value;
        *value = CALL(new)();
        FORGET(made);
    } else {
        CALL(drop)(value);
    }
    return (PyObject *)made;
}

/* A new object of a type, with a clone of another's value. */
static PyObject *OWN(cloned)(PyObject *self, PyTypeObject *type) {
    OBJECT *from = OWN(cast)(self), *made = OWN(make)(from->state, type);
    if (made && check(CALL(clone)(&made->value, &from->value), NAME) < 0) {
        Py_CLEAR(made);
    }
    if (made) {
        NOTE(made, from);
    }
    return (PyObject *)made;
}

/* Puts a value in place of an object's, and gives up what was there. */
static void OWN(take_over)(OBJECT *object, VALUE *value) {
    VALUE old = object->value;
    object->value = *value;
    *value = CALL(new)();
    FORGET(object);
    CALL(drop)(&old);
}

static PyObject *OWN(new)(PyTypeObject *type, PyObject *Py_UNUSED(arguments),
                          PyObject *Py_UNUSED(named)) {
    core_state *state = state_of_type(type);
    if (!state) {
        PyErr_SetString(PyExc_TypeError, "type is not one of ecow's");
        return NULL;
    }
    return (PyObject *)OWN(make)(state, type);
}

static void OWN(dealloc)(PyObject *self) {
    PyTypeObject *type = Py_TYPE(self);
    freefunc release = (freefunc)PyType_GetSlot(type, Py_tp_free);
    if (OWN(cast)(self)->weak_references) {
        PyObject_ClearWeakRefs(self);
    }
    FORGET(OWN(cast)(self));
    CALL(drop)(&OWN(cast)(self)->value);
    if (!SPARE_IT(OWN(cast)(self))) {
        release(self);
    }
    Py_DECREF(type);
}

static bool OWN(is_lent)(PyObject *self) {
    return Py_TYPE(self) == OWN(cast)(self)->state->LENT;
}

/* A copy, which can be changed; that of a subclass has the attributes too, or deep copies of them. */
static PyObject *OWN(deepcopy)(PyObject *self, PyObject *memo) {
    core_state *state = OWN(cast)(self)->state;
    PyTypeObject *type = OWN(is_lent)(self) ? state->TYPE : Py_TYPE(self);
    PyObject *made = OWN(cloned)(self, type);
    if (made && type != state->TYPE) {
        PyObject *pair = PyTuple_Pack(2, self, made);
        PyObject *both = pair ? call_helper(state->names.copied, pair, memo) : NULL;
        Py_XDECREF(pair);
        Py_DECREF(made);
        return both;
    }
    return made;
}

static PyObject *OWN(copy)(PyObject *self, PyObject *Py_UNUSED(none)) {
    return OWN(deepcopy)(self, Py_None);
}

static PyObject *OWN(reduce)(PyObject *self, PyObject *Py_UNUSED(none)) {
    return call_helper(OWN(cast)(self)->state->names.reduced, self, NULL);
}

/* clang-format off */
#define COPY_METHODS                                                                           \
    {"copy", OWN(copy), METH_NOARGS,                                                           \
     PyDoc_STR("copy($self, /)\n--\n\n"                                                        \
               "A copy. It shares the memory until one of both is changed.")},                 \
    {"__copy__", OWN(copy), METH_NOARGS, NULL},                                                \
    {"__deepcopy__", OWN(deepcopy), METH_O, NULL},                                             \
    {"__reduce__", OWN(reduce), METH_NOARGS, NULL}
/* clang-format on */

static PyMemberDef OWN(members)[] = {
    {"__weaklistoffset__", T_PYSSIZET, offsetof(OBJECT, weak_references), READONLY, NULL},
    {NULL, 0, 0, 0, NULL},
};

#define SPEC(spec, type_name, its_slots, more_flags)   \
    PyType_Spec spec = {                               \
        .name = "ecow." type_name,                     \
        .basicsize = sizeof(OBJECT),                   \
        .flags = Py_TPFLAGS_DEFAULT | (more_flags),    \
        .slots = its_slots,                            \
    }

/* The type, of the slots in `OWN(slots)`, and that of what is lent, which has more in `lent_slots`. */
#define TYPE_SPEC(more_flags) SPEC(OWN(spec), NAME, OWN(slots), Py_TPFLAGS_BASETYPE | (more_flags))
#define LENT_SPEC(spec, more_flags) \
    SPEC(spec, "Lent" NAME, lent_slots, Py_TPFLAGS_DISALLOW_INSTANTIATION | (more_flags))
