/* The type `Value`, over `ecow_value`. */
#include "core.h"

#define OBJECT value_object
#define VALUE ecow_value
#define CALL(name) ecow_value_##name
#define OWN(name) value_##name
#define TYPE value
#define LENT lent_value
#define NAME "Value"
#define NOTE(to, from)
#define FORGET(object)
#define SPARED(state, type) NULL
#define SPARE_IT(object) false
#include "kind.h"

/* Parts that nest so deep are read one by one; shared parts that do so are compared once. */
enum { SHALLOW = 16, RECORD = 3 };

static const char *const kind_names[] = {
    "nothing", "truth", "number", "real", "text", "list", "fields",
};

static const char *name_of(const ecow_value *value) {
    return kind_names[ecow_value_kind(value)];
}

static bool has_parts(const ecow_value *value) {
    return ecow_value_kind(value) >= ECOW_KIND_LIST;
}

/* ---- From Python ---- */

/* A list or fields that are being read, and the object that they are read from. */
typedef struct level {
    PyObject *source;
    /* The items, or pairs of a name and a value, which no other code changes. */
    PyObject *parts;
    Py_ssize_t next;
    ecow_value made;
    /* Whether a name may stand twice. */
    bool may_repeat;
} level;

/* Whether more refers to a part than its one place in `around`, which is being read: a list or a dict
 * refers to it, and what was taken out of that. */
static bool is_held_elsewhere(PyObject *part, PyObject *around) {
    return Py_REFCNT(part) > 1 + (PyList_Check(around) || PyDict_CheckExact(around));
}

/* Notes what an object became, by its address. The object is noted too, so that it stays there. */
static int remember(core_state *state, PyObject **known, PyObject *source, const ecow_value *made) {
    ecow_value clone = {{0}};
    int done = check(ecow_value_clone(&clone, made), NAME);
    *known = *known ? *known : PyDict_New();
    PyObject *place = PyLong_FromVoidPtr(source);
    PyObject *value = done < 0 ? NULL : value_own(state, state->value, &clone);
    PyObject *note = value ? PyTuple_Pack(2, value, source) : NULL;
    done = *known && place && note ? PyDict_SetItem(*known, place, note) : -1;
    Py_XDECREF(place);
    Py_XDECREF(value);
    Py_XDECREF(note);
    return done;
}

/* Makes `made` what an object became before, and answers 0, or 1 where it is met first. */
static int recall(PyObject *known, PyObject *source, ecow_value *made) {
    PyObject *place = known ? PyLong_FromVoidPtr(source) : NULL;
    PyObject *note = place ? PyDict_GetItemWithError(known, place) : NULL;
    Py_XDECREF(place);
    return note ? check(ecow_value_clone(made, &value_cast(PyTuple_GetItem(note, 0))->value), NAME)
                : !PyErr_Occurred() ? 1 : -1;
}

/* Makes `made` what an object is, and answers 0, or 1 and its parts where it has some. An object
 * that isn't of Python's own kinds is asked by `plain` what it is; `is_plain` says that it was. */
static int read_one(core_state *state, PyObject *known, PyObject *given, ecow_value *made,
                    PyObject **parts, bool is_plain) {
    int overflow = 0;
    if (given == Py_None) {
        return check(ecow_value_set_nothing(made), NAME);
    }
    if (PyBool_Check(given)) {
        return check(ecow_value_set_truth(made, given == Py_True), NAME);
    }
    if (PyLong_Check(given)) {
        int64_t number = PyLong_AsLongLongAndOverflow(given, &overflow);
        if (overflow) {
            PyErr_SetString(PyExc_OverflowError, "number outside 64 bits");
            return -1;
        }
        return check(ecow_value_set_number(made, number), NAME);
    }
    if (PyFloat_Check(given)) {
        return check(ecow_value_set_real(made, PyFloat_AsDouble(given)), NAME);
    }
    if (is_text(state, given)) {
        ecow_text text = {{0}};
        int done = read_text(state, given, &text);
        done = done < 0 ? done : check(ecow_value_set_text(made, &text), NAME);
        ecow_text_drop(&text);
        return done;
    }
    if (value_is(state, given)) {
        return check(ecow_value_clone(made, &value_cast(given)->value), NAME);
    }
    int met = is_plain ? 1 : recall(known, given, made);
    if (met <= 0) {
        return met;
    }
    if (PyTuple_Check(given) || PyList_Check(given)) {
        *parts = PyTuple_Check(given) ? Py_NewRef(given) : PyList_AsTuple(given);
        return *parts && check(ecow_value_set_list(made), NAME) == 0 ? 1 : -1;
    }
    if (PyDict_CheckExact(given)) {
        PyObject *items = PyDict_Items(given);
        *parts = items ? PyList_AsTuple(items) : NULL;
        Py_XDECREF(items);
        return *parts && check(ecow_value_set_fields(made), NAME) == 0 ? 1 : -1;
    }
    PyObject *plain = is_plain ? NULL : call_helper(state->names.plain, given, NULL);
    int done = plain ? read_one(state, known, plain, made, parts, true) : -1;
    Py_XDECREF(plain);
    return done;
}

/* Adds a part to what is being read. A name is read behind its value, whose code may change it. */
static int add_part(core_state *state, level *to, const ecow_value *part) {
    utf8 name;
    if (ecow_value_kind(&to->made) == ECOW_KIND_LIST) {
        return check(ecow_value_push(&to->made, part), NAME);
    }
    PyObject *key = PyTuple_GetItem(PyTuple_GetItem(to->parts, to->next - 1), 0);
    /* Texts of Python's own are keys of a dict once. */
    to->may_repeat |= !PyUnicode_CheckExact(key);
    return read_utf8(state, key, &name) < 0
               ? -1
               : check((to->may_repeat ? ecow_value_set_field : ecow_value_push_field)(
                           &to->made, name.bytes, (size_t)name.size, part),
                       NAME);
}

/* Makes `made` what an object of Python's is. It needs no more of the stack for a deep object, and
 * reads a part that stands there several times once. */
static int read_value(core_state *state, PyObject *given, ecow_value *made) {
    level *levels = NULL;
    Py_ssize_t count = 0;
    PyObject *known = NULL;
    int done;
    for (;;) {
        PyObject *parts = NULL;
        done = read_one(state, known, given, made, &parts, false);
        if (done == 1 && count == ECOW_MAX_DEPTH) {
            done = check(ECOW_DEPTH, NAME);
        }
        if (done == 1) {
            level *more = PyMem_Realloc(levels, (size_t)(count + 1) * sizeof *levels);
            if (!more) {
                Py_DECREF(parts);
                done = check(ECOW_MEMORY, NAME);
                break;
            }
            levels = more;
            levels[count++] = (level){given, parts, 0, *made, false};
            *made = ecow_value_new();
        } else if (done < 0) {
            Py_XDECREF(parts);
            break;
        }
        /* What is read goes into the list or the fields around it, as long as these are whole. */
        for (; count > 0; done = 0) {
            level *top = &levels[count - 1];
            if (done == 0 && (done = add_part(state, top, made)) < 0) {
                break;
            }
            ecow_value_drop(made);
            if (top->next < PyTuple_Size(top->parts)) {
                given = PyTuple_GetItem(top->parts, top->next++);
                given = ecow_value_kind(&top->made) == ECOW_KIND_LIST ? given
                                                                      : PyTuple_GetItem(given, 1);
                break;
            }
            *made = top->made;
            Py_DECREF(top->parts);
            count--;
            if (count > 0 && is_held_elsewhere(top->source, levels[count - 1].source)
                && (done = remember(state, &known, top->source, made)) < 0) {
                break;
            }
        }
        if (done < 0 || count == 0) {
            break;
        }
    }
    Py_XDECREF(known);
    for (; count > 0; count--) {
        Py_DECREF(levels[count - 1].parts);
        ecow_value_drop(&levels[count - 1].made);
    }
    PyMem_Free(levels);
    return done;
}

/* ---- To Python ---- */

static PyObject *plain_scalar(const ecow_value *value) {
    bool truth = false;
    int64_t number = 0;
    double real = 0;
    switch (ecow_value_kind(value)) {
    case ECOW_KIND_TRUTH:
        ecow_ignore(ecow_value_truth(value, &truth));
        return PyBool_FromLong(truth);
    case ECOW_KIND_NUMBER:
        ecow_ignore(ecow_value_number(value, &number));
        return PyLong_FromLongLong(number);
    case ECOW_KIND_REAL:
        ecow_ignore(ecow_value_real(value, &real));
        return PyFloat_FromDouble(real);
    case ECOW_KIND_TEXT:
        return str_of(ecow_value_peek_text(value));
    default:
        Py_RETURN_NONE;
    }
}

static PyObject *name_at(const ecow_value *value, size_t index) {
    const ecow_text *name = ecow_value_peek_name(value, index);
    check(name ? ECOW_OK : ECOW_INDEX, NAME);
    PyObject *made = name ? str_of(name) : NULL;
    if (made) {
        PyUnicode_InternInPlace(&made);
    }
    return made;
}

/* Whether a part stands in memory that others have than what holds the part. */
static bool is_shared(const ecow_value *part) {
    const ecow_text *text = ecow_value_peek_text(part);
    size_t size = text ? ecow_text_len(text) : ecow_value_len(part);
    uint64_t head = size > (text ? INLINE : 0) ? part->word[text ? 2 : 1] : 0;
    return head && ((const ecow_head *)head)->owners > 1;
}

/* What `find` answers for a part. */
static PyObject *found(core_state *state, PyObject *find, const ecow_value *part) {
    ecow_value clone = {{0}};
    int done = check(ecow_value_clone(&clone, part), NAME);
    PyObject *given = done < 0 ? NULL : value_own(state, state->value, &clone);
    PyObject *answer = given ? PyObject_CallFunctionObjArgs(find, given, NULL) : NULL;
    Py_XDECREF(given);
    return answer;
}

/* What a value is in objects of Python's own. No code changes the value meanwhile. Where `find` is
 * given, that is asked for what stands for a part that other values share, if it nests as deep as
 * `least` says, for one from which on the value is deep, and for a NaN. */
static PyObject *plain_of(core_state *state, const ecow_value *value, PyObject *find, size_t least) {
    if (!has_parts(value)) {
        return plain_scalar(value);
    }
    bool is_list = ecow_value_kind(value) == ECOW_KIND_LIST;
    size_t len = ecow_value_len(value);
    PyObject *made = is_list ? PyList_New((Py_ssize_t)len) : PyDict_New();
    for (size_t index = 0; made && index < len; index++) {
        const ecow_value *item = ecow_value_peek(value, index);
        double real = 0;
        size_t depth = find ? ecow_value_depth(item) : 0;
        bool is_far = find && ((depth >= least && is_shared(item)) || depth % SHALLOW == SHALLOW - 1
                               || (ecow_value_real(item, &real) == ECOW_OK && real != real));
        PyObject *plain =
            is_far ? found(state, find, item) : plain_of(state, item, find, least);
        int done = plain ? 0 : -1;
        if (plain && is_list) {
            done = PyList_SetItem(made, (Py_ssize_t)index, plain);
        } else if (plain) {
            PyObject *name = name_at(value, index);
            done = name ? PyDict_SetItem(made, name, plain) : -1;
            Py_XDECREF(name);
            Py_DECREF(plain);
        }
        if (done < 0) {
            Py_CLEAR(made);
        }
    }
    return made;
}

/* The same of an object's value, which code that runs meanwhile may change: a clone stays as it is. */
static PyObject *plain_object(const value_object *object, PyObject *find, size_t least) {
    ecow_value clone = {{0}};
    PyObject *made = check(ecow_value_clone(&clone, &object->value), NAME) < 0
                         ? NULL
                         : plain_of(object->state, &clone, find, least);
    ecow_value_drop(&clone);
    return made;
}

/* A list or fields as a `Value` of a type, which takes the part over, and another part as an object of
 * Python's own. */
static PyObject *part_object(core_state *state, PyTypeObject *type, ecow_value *part) {
    if (has_parts(part)) {
        return value_own(state, type, part);
    }
    PyObject *made = plain_scalar(part);
    ecow_value_drop(part);
    return made;
}

/* ---- Keys and paths ---- */

/* The error of a key that the library refused. */
static int refuse_key(const ecow_value *value, PyObject *key, ecow_status status) {
    if (status == ECOW_INDEX && ecow_value_kind(value) == ECOW_KIND_FIELDS) {
        PyErr_SetObject(PyExc_KeyError, key);
    } else if (status == ECOW_KIND) {
        PyErr_Format(PyExc_TypeError, "a value of the kind '%s' has no part %R", name_of(value),
                     key);
    } else {
        return check(status, NAME);
    }
    return -1;
}

typedef enum act { GET, SET, SWAP, REMOVE } act;

/* Reads, writes, exchanges or takes the part of a key, which is a `str` or an `int`. */
static int act_at(ecow_value *value, PyObject *key, act what, ecow_value *part) {
    ecow_status status;
    if (PyUnicode_Check(key)) {
        Py_ssize_t size;
        const char *name = PyUnicode_AsUTF8AndSize(key, &size);
        if (!name) {
            return -1;
        }
        status = what == GET    ? ecow_value_get_field(value, name, (size_t)size, part)
                 : what == SET  ? ecow_value_set_field(value, name, (size_t)size, part)
                 : what == SWAP ? ecow_value_swap_field(value, name, (size_t)size, part)
                                : ecow_value_remove_field(value, name, (size_t)size, part);
    } else {
        Py_ssize_t number = PyNumber_AsSsize_t(key, PyExc_IndexError);
        if (number == -1 && PyErr_Occurred()) {
            return -1;
        }
        size_t index = (size_t)(number < 0 ? number + (Py_ssize_t)ecow_value_len(value) : number);
        status = ecow_value_kind(value) == ECOW_KIND_FIELDS ? ECOW_KIND
                 : what == GET                              ? ecow_value_get(value, index, part)
                 : what == SET                              ? ecow_value_set(value, index, part)
                 : what == SWAP                             ? ecow_value_swap(value, index, part)
                                                            : ecow_value_remove(value, index, part);
    }
    return status == ECOW_OK ? 0 : refuse_key(value, key, status);
}

/* A tuple of the keys of a path, which is a key or a tuple of keys, and a list of them too where
 * `lists` says so. Each is a `str` or an `int`, so that no code runs while parts are taken out. */
static PyObject *keys_of(core_state *state, PyObject *path, bool lists) {
    bool several = PyTuple_Check(path) || (lists && PyList_Check(path));
    PyObject *given = several ? PySequence_Tuple(path) : PyTuple_Pack(1, path);
    Py_ssize_t count = given ? PyTuple_Size(given) : 0;
    PyObject *keys = given ? PyTuple_New(count) : NULL;
    for (Py_ssize_t at = 0; keys && at < count; at++) {
        PyObject *key = without_text(state, PyTuple_GetItem(given, at)), *exact = NULL;
        if (key && PyUnicode_Check(key)) {
            exact = PyUnicode_FromObject(key);
        } else if (key && PyIndex_Check(key)) {
            exact = PyNumber_Index(key);
        } else if (key) {
            PyErr_Format(PyExc_TypeError, "a key of a value is an index or a name, not %R",
                         Py_TYPE(key));
        }
        Py_XDECREF(key);
        if (!exact || PyTuple_SetItem(keys, at, exact) < 0) {
            Py_CLEAR(keys);
        }
    }
    Py_XDECREF(given);
    return keys;
}

/* Writes or takes the part at a path. Each part on the way is taken out while it is changed, so
 * that nobody shares it and a list isn't copied; then it is put in again, which asks for no memory,
 * because the value above it isn't shared either. */
static int change_at(ecow_value *value, PyObject *keys, Py_ssize_t from, act what,
                     ecow_value *item) {
    PyObject *key = PyTuple_GetItem(keys, from);
    if (from + 1 == PyTuple_Size(keys)) {
        return act_at(value, key, what, item);
    }
    ecow_value part = {{0}};
    int done = act_at(value, key, SWAP, &part);
    if (done == 0) {
        PyObject *type, *error, *trace;
        done = change_at(&part, keys, from + 1, what, item);
        PyErr_Fetch(&type, &error, &trace);
        int back = act_at(value, key, SWAP, &part);
        if (back == 0) {
            PyErr_Restore(type, error, trace);
        } else {
            Py_XDECREF(type);
            Py_XDECREF(error);
            Py_XDECREF(trace);
            done = back;
        }
    }
    ecow_value_drop(&part);
    return done;
}

/* Whether an object may be changed: not where a container has handed it out. */
static bool can_change(value_object *object) {
    return !value_is_lent((PyObject *)object) || refuse_change(NAME);
}

/* Makes `part` a clone of the part at the path of some keys, which are given up. */
static int get_at(value_object *object, PyObject *keys, ecow_value *part) {
    Py_ssize_t count = keys ? PyTuple_Size(keys) : 0;
    int done = keys ? check(ecow_value_clone(part, &object->value), NAME) : -1;
    for (Py_ssize_t at = 0; done == 0 && at < count; at++) {
        done = act_at(part, PyTuple_GetItem(keys, at), GET, part);
    }
    if (done < 0) {
        ecow_value_drop(part);
    }
    Py_XDECREF(keys);
    return done;
}

/* Takes the part at the path of some keys, which are given up, out. */
static int remove_at(value_object *object, PyObject *keys) {
    int done = keys && can_change(object) ? 0 : -1;
    if (done == 0 && PyTuple_Size(keys) == 0) {
        done = refuse_key(&object->value, keys, ECOW_KIND);
    }
    done = done < 0 ? done : change_at(&object->value, keys, 0, REMOVE, NULL);
    Py_XDECREF(keys);
    return done;
}

/* Puts what an object is at the path of some keys, which are given up. */
static int put_at(value_object *object, PyObject *keys, PyObject *given) {
    size_t level = keys ? (size_t)PyTuple_Size(keys) : 0;
    ecow_value item = {{0}};
    int done = keys ? read_value(object->state, given, &item) : -1;
    if (done == 0 && level + ecow_value_depth(&item) > ECOW_MAX_DEPTH) {
        done = check(ECOW_DEPTH, NAME);
    }
    done = done == 0 && !can_change(object) ? -1 : done;
    if (done == 0 && level == 0) {
        value_take_over(object, &item);
    } else if (done == 0) {
        done = change_at(&object->value, keys, 0, SET, &item);
    }
    ecow_value_drop(&item);
    Py_XDECREF(keys);
    return done;
}

/* ---- Methods ---- */

static int value_init(PyObject *self, PyObject *arguments, PyObject *named) {
    PyObject *given = Py_None;
    if (!read_source(NAME, arguments, named, &given)) {
        return -1;
    }
    return put_at(value_cast(self), PyTuple_New(0), given ? given : Py_None);
}

static PyObject *value_kind(PyObject *self, void *Py_UNUSED(closure)) {
    return PyUnicode_FromString(name_of(&value_cast(self)->value));
}

static PyObject *value_to_python(PyObject *self, PyObject *Py_UNUSED(none)) {
    return plain_object(value_cast(self), NULL, 0);
}

static PyObject *value_repr(PyObject *self) {
    return named_repr(self, value_to_python(self, NULL));
}

static Py_ssize_t value_length(PyObject *self) {
    const ecow_value *value = &value_cast(self)->value;
    if (!has_parts(value)) {
        PyErr_Format(PyExc_TypeError, "a value of the kind '%s' has no len()", name_of(value));
        return -1;
    }
    return (Py_ssize_t)ecow_value_len(value);
}

static int value_truth(PyObject *self) {
    const ecow_value *value = &value_cast(self)->value;
    if (has_parts(value)) {
        return ecow_value_len(value) > 0;
    }
    PyObject *plain = plain_scalar(value);
    int truth = plain ? PyObject_IsTrue(plain) : -1;
    Py_XDECREF(plain);
    return truth;
}

/* An item of a list, or a field's value. */
static PyObject *item_at(value_object *object, size_t index) {
    ecow_value part = {{0}};
    return check(ecow_value_get(&object->value, index, &part), NAME) < 0
               ? NULL
               : part_object(object->state, object->state->lent_value, &part);
}

static PyObject *value_item(PyObject *self, Py_ssize_t index) {
    if (ecow_value_kind(&value_cast(self)->value) != ECOW_KIND_LIST) {
        check(ECOW_KIND, NAME);
        return NULL;
    }
    return item_at(value_cast(self), (size_t)index);
}

/* A new value of every `step`th item of a list. */
static PyObject *sliced(value_object *object, PyObject *key) {
    const ecow_value *value = &object->value;
    Py_ssize_t start, stop, step;
    if (ecow_value_kind(value) != ECOW_KIND_LIST) {
        refuse_key(value, key, ECOW_KIND);
        return NULL;
    }
    if (PySlice_Unpack(key, &start, &stop, &step) < 0) {
        return NULL;
    }
    Py_ssize_t count =
        PySlice_AdjustIndices((Py_ssize_t)ecow_value_len(value), &start, &stop, step);
    ecow_value made = {{0}}, item = {{0}};
    ecow_status status = ecow_value_set_list(&made);
    for (Py_ssize_t at = 0; at < count && status == ECOW_OK; at++) {
        status = ecow_value_get(value, (size_t)(start + at * step), &item);
        if (status == ECOW_OK) {
            status = ecow_value_push(&made, &item);
        }
    }
    PyObject *part = check(status, NAME) < 0 ? NULL : value_own(object->state, object->state->value, &made);
    ecow_value_drop(&made);
    ecow_value_drop(&item);
    return part;
}

static PyObject *value_subscript(PyObject *self, PyObject *key) {
    value_object *object = value_cast(self);
    ecow_value part = {{0}};
    if (PySlice_Check(key)) {
        return sliced(object, key);
    }
    return get_at(object, keys_of(object->state, key, false), &part) < 0
               ? NULL
               : part_object(object->state, object->state->lent_value, &part);
}

static int value_set_subscript(PyObject *self, PyObject *key, PyObject *given) {
    value_object *object = value_cast(self);
    PyObject *keys = keys_of(object->state, key, false);
    return given ? put_at(object, keys, given) : remove_at(object, keys);
}

static PyObject *value_get_part(PyObject *self, PyObject *path) {
    value_object *object = value_cast(self);
    ecow_value part = {{0}};
    return get_at(object, keys_of(object->state, path, true), &part) < 0
               ? NULL
               : value_own(object->state, object->state->lent_value, &part);
}

/* What stands for a part that isn't there: `other`, unless another error was raised. */
static PyObject *instead(PyObject *other) {
    if (!other || !PyErr_ExceptionMatches(PyExc_LookupError)) {
        return NULL;
    }
    PyErr_Clear();
    return Py_NewRef(other);
}

static PyObject *value_get(PyObject *self, PyObject *const *arguments, Py_ssize_t count) {
    value_object *object = value_cast(self);
    ecow_value part = {{0}};
    if (!takes("get", count, 1, 2)) {
        return NULL;
    }
    return get_at(object, keys_of(object->state, arguments[0], true), &part) < 0
               ? instead(count == 2 ? arguments[1] : Py_None)
               : part_object(object->state, object->state->lent_value, &part);
}

static PyObject *value_set(PyObject *self, PyObject *const *arguments, Py_ssize_t count) {
    value_object *object = value_cast(self);
    return none_if(takes("set", count, 2, 2)
                       ? put_at(object, keys_of(object->state, arguments[0], true), arguments[1])
                       : -1);
}

/* Puts what an object is into a list before an index, which may pass the end or count from it: as one
 * item, or its items at the end, all or none. The list is at a path, or where that is null, `self`. */
static PyObject *put_in(PyObject *self, PyObject *path, Py_ssize_t index, PyObject *given, bool is_one) {
    value_object *object = value_cast(self);
    ecow_value added = {{0}}, item = {{0}}, part = {{0}}, *list;
    int done = read_value(object->state, given, &added);
    PyObject *keys = done < 0 ? NULL : path ? keys_of(object->state, path, true) : PyTuple_New(0);
    size_t level = keys ? (size_t)PyTuple_Size(keys) : 0, count = is_one ? 1 : ecow_value_len(&added);
    list = level ? &part : &object->value;
    done = keys && can_change(object) ? 0 : -1;
    if (done == 0 && level + is_one + ecow_value_depth(&added) > ECOW_MAX_DEPTH) {
        done = check(ECOW_DEPTH, NAME);
    }
    done = done < 0 || !level ? done : change_at(&object->value, keys, 0, SWAP, &part);
    Py_ssize_t len = (Py_ssize_t)ecow_value_len(list);
    index = index < 0 ? index + len : index;
    size_t to = (size_t)(index < 0 ? 0 : index > len ? len : index);
    ecow_status status = ecow_value_kind(list) == ECOW_KIND_LIST ? ECOW_OK : ECOW_KIND;
    for (size_t at = 0; done == 0 && at < count && status == ECOW_OK; at++) {
        status = is_one ? ECOW_OK : ecow_value_get(&added, at, &item);
        status = status ? status : ecow_value_insert(list, to + at, is_one ? &added : &item);
        if (status && at > 0) {
            /* Nobody shares the list any more, so this asks for no memory. */
            ecow_ignore(ecow_value_truncate(list, (size_t)len));
        }
    }
    /* Nor does it to put the list in again. */
    if (done == 0 && level) {
        done = change_at(&object->value, keys, 0, SWAP, &part);
    }
    Py_XDECREF(keys);
    ecow_value_drop(&added);
    ecow_value_drop(&item);
    ecow_value_drop(&part);
    return none_if(done < 0 ? done : check(status, NAME));
}

static PyObject *value_append(PyObject *self, PyObject *const *arguments, Py_ssize_t count) {
    return takes("append", count, 1, 2)
               ? put_in(self, count == 2 ? arguments[1] : NULL, PY_SSIZE_T_MAX, arguments[0], true)
               : NULL;
}

static PyObject *value_extend(PyObject *self, PyObject *const *arguments, Py_ssize_t count) {
    PyObject *items = takes("extend", count, 1, 2) ? PySequence_Tuple(arguments[0]) : NULL;
    PyObject *path = count == 2 ? arguments[1] : NULL;
    PyObject *none = items ? put_in(self, path, PY_SSIZE_T_MAX, items, false) : NULL;
    Py_XDECREF(items);
    return none;
}

static PyObject *value_insert(PyObject *self, PyObject *const *arguments, Py_ssize_t count) {
    if (!takes("insert", count, 2, 3)) {
        return NULL;
    }
    Py_ssize_t index = PyNumber_AsSsize_t(arguments[0], NULL);
    return index == -1 && PyErr_Occurred()
               ? NULL
               : put_in(self, count == 3 ? arguments[2] : NULL, index, arguments[1], true);
}

/* The object of the part is made first: where that is refused, the part stays. */
static PyObject *value_pop(PyObject *self, PyObject *const *arguments, Py_ssize_t count) {
    value_object *object = value_cast(self);
    ecow_value part = {{0}};
    if (!takes("pop", count, 0, 2) || !can_change(object)) {
        return NULL;
    }
    PyObject *keys = count ? keys_of(object->state, arguments[0], true) : Py_BuildValue("(i)", -1);
    bool is_there = get_at(object, Py_XNewRef(keys), &part) == 0;
    PyObject *taken = is_there ? part_object(object->state, object->state->value, &part) : NULL;
    if (taken && remove_at(object, Py_NewRef(keys)) < 0) {
        Py_CLEAR(taken);
    }
    Py_XDECREF(keys);
    return is_there ? taken : instead(count == 2 ? arguments[1] : NULL);
}

static PyObject *value_clear(PyObject *self, PyObject *Py_UNUSED(none)) {
    value_object *object = value_cast(self);
    ecow_kind kind = ecow_value_kind(&object->value);
    if (!can_change(object)) {
        return NULL;
    }
    ecow_status status = kind == ECOW_KIND_LIST     ? ecow_value_set_list(&object->value)
                         : kind == ECOW_KIND_FIELDS ? ecow_value_set_fields(&object->value)
                                                    : ECOW_KIND;
    return none_if(check(status, NAME));
}

/* A list of the names of fields, or of their values. */
static PyObject *cells(PyObject *self, bool of_names) {
    value_object *object = value_cast(self);
    size_t len = ecow_value_len(&object->value);
    if (ecow_value_kind(&object->value) != ECOW_KIND_FIELDS) {
        check(ECOW_KIND, NAME);
        return NULL;
    }
    PyObject *made = PyList_New((Py_ssize_t)len);
    for (size_t index = 0; made && index < len; index++) {
        PyObject *item = of_names ? name_at(&object->value, index) : item_at(object, index);
        if (!item || PyList_SetItem(made, (Py_ssize_t)index, item) < 0) {
            Py_CLEAR(made);
        }
    }
    return made;
}

PyObject *value_plain(PyObject *module, PyObject *const *arguments, Py_ssize_t count) {
    core_state *state = PyModule_GetState(module);
    size_t least = 0;
    if (count != 3 || !value_is(state, arguments[0]) || !read_size(arguments[2], &least)) {
        PyErr_SetString(PyExc_TypeError, "must be a Value, a function, and a depth");
        return NULL;
    }
    return plain_object(value_cast(arguments[0]), arguments[1], least);
}

static PyObject *value_keys(PyObject *self, PyObject *Py_UNUSED(none)) {
    return cells(self, true);
}

static PyObject *value_values(PyObject *self, PyObject *Py_UNUSED(none)) {
    return cells(self, false);
}

static PyObject *value_iter(PyObject *self) {
    const ecow_value *value = &value_cast(self)->value;
    if (ecow_value_kind(value) == ECOW_KIND_FIELDS) {
        PyObject *names = cells(self, true);
        PyObject *iterator = names ? PyObject_GetIter(names) : NULL;
        Py_XDECREF(names);
        return iterator;
    }
    if (ecow_value_kind(value) == ECOW_KIND_LIST) {
        return PySeqIter_New(self);
    }
    PyErr_Format(PyExc_TypeError, "a value of the kind '%s' is not iterable", name_of(value));
    return NULL;
}

static int value_contains(PyObject *self, PyObject *object) {
    value_object *own = value_cast(self);
    if (value_length(self) < 0) {
        return -1;
    }
    if (ecow_value_kind(&own->value) == ECOW_KIND_LIST) {
        Py_ssize_t found = seek_object(self, object, 0, PY_SSIZE_T_MAX);
        return found == -2 ? -1 : found >= 0;
    }
    ecow_value part = {{0}};
    if (!is_text(own->state, object)) {
        return 0;
    }
    int found = get_at(own, keys_of(own->state, object, false), &part) >= 0;
    ecow_value_drop(&part);
    if (!found
        && (PyErr_ExceptionMatches(PyExc_KeyError)
            || PyErr_ExceptionMatches(PyExc_UnicodeEncodeError))) {
        PyErr_Clear();
    }
    return PyErr_Occurred() ? -1 : found;
}

/* Whether a text equals an object: 1, 0, or -1 where that is no `str`, or one with lone surrogates. */
static int equals_str(const ecow_text *text, PyObject *other) {
    size_t size;
    Py_ssize_t length;
    const char *bytes = ecow_text_slice(text, &size);
    const char *right = PyUnicode_CheckExact(other) ? PyUnicode_AsUTF8AndSize(other, &length) : NULL;
    if (!right) {
        PyErr_Clear();
        return -1;
    }
    return size == (size_t)length && memcmp(bytes, right, size) == 0;
}

/* Whether a value equals an object as `equal` says: 1, 0, or -1 where only that knows: of other types,
 * of fields in another order, and of parts that nest deep or are shared. No code of Python's runs. */
static int equals_plain(const ecow_value *value, PyObject *other, int level) {
    bool truth = false, is_list = ecow_value_kind(value) == ECOW_KIND_LIST;
    int64_t number = 0;
    double real = 0;
    int overflow;
    if (ecow_value_kind(value) == ECOW_KIND_TEXT) {
        return equals_str(ecow_value_peek_text(value), other);
    }
    if (PyBool_Check(other)) {
        return ecow_value_truth(value, &truth) == ECOW_OK ? truth == (other == Py_True) : -1;
    }
    if (PyLong_CheckExact(other)) {
        return ecow_value_number(value, &number) == ECOW_OK
                   ? number == PyLong_AsLongLongAndOverflow(other, &overflow) && !overflow
                   : -1;
    }
    if (PyFloat_CheckExact(other)) {
        return ecow_value_real(value, &real) == ECOW_OK ? real == PyFloat_AsDouble(other) : -1;
    }
    if (!has_parts(value) || level == SHALLOW
        || !(is_list ? PyList_CheckExact(other) : PyDict_CheckExact(other))) {
        return other == Py_None && ecow_value_kind(value) == ECOW_KIND_NOTHING ? 1 : -1;
    }
    Py_ssize_t len = (Py_ssize_t)ecow_value_len(value), place = 0;
    int same = len == (is_list ? PyList_Size(other) : PyDict_Size(other));
    for (Py_ssize_t index = 0; index < len && same == 1; index++) {
        const ecow_value *item = ecow_value_peek(value, (size_t)index);
        PyObject *name, *part = is_list ? PyList_GetItem(other, index) : NULL;
        if (!is_list) {
            PyDict_Next(other, &place, &name, &part);
            same = equals_str(ecow_value_peek_name(value, (size_t)index), name) == 1 ? 1 : -1;
        }
        if (same == 1) {
            bool is_far = ecow_value_depth(item) >= RECORD && is_shared(item);
            same = is_far ? -1 : equals_plain(item, part, level + 1);
        }
    }
    return same;
}

static PyObject *value_compared(PyObject *self, PyObject *other, int operation) {
    core_state *state = value_cast(self)->state;
    const ecow_value *value = &value_cast(self)->value;
    const ecow_value *right = value_is(state, other) ? &value_cast(other)->value : NULL;
    bool has_items = PyList_Check(other) || PyDict_Check(other)
                     || PyObject_TypeCheck(other, state->list)
                     || PyObject_TypeCheck(other, state->array)
                     || PyObject_TypeCheck(other, state->texts);
    if ((operation != Py_EQ && operation != Py_NE) || (!right && !has_items && has_parts(value))) {
        Py_RETURN_NOTIMPLEMENTED;
    }
    /* The library tells numbers of two kinds apart. */
    if (right && ecow_value_equal(value, right)) {
        return PyBool_FromLong(operation == Py_EQ);
    }
    int known = right ? -1 : equals_plain(value, other, 0);
    if (known >= 0) {
        return PyBool_FromLong(known == (operation == Py_EQ));
    }
    PyObject *answer = call_helper(state->names.equal, self, other);
    int equal = answer ? PyObject_IsTrue(answer) : -1;
    Py_XDECREF(answer);
    return equal < 0 ? NULL : PyBool_FromLong(equal == (operation == Py_EQ));
}

static Py_hash_t value_hash(PyObject *self) {
    value_object *object = value_cast(self);
    PyObject *hash = call_helper(object->state->names.hashed, self, NULL);
    Py_hash_t number = hash ? PyLong_AsSsize_t(hash) : -1;
    Py_XDECREF(hash);
    return number;
}

/* clang-format off */
#define FAST(name, function, arguments, text)                                                  \
    {name, (PyCFunction)(void (*)(void))function, METH_FASTCALL,                               \
     PyDoc_STR(name "($self, " arguments ", /)\n--\n\n" text)},
#define PLAIN(name, function, text)                                                            \
    {name, function, METH_NOARGS, PyDoc_STR(name "($self, /)\n--\n\n" text)},
static PyMethodDef value_methods[] = {
    COPY_METHODS,
    PLAIN("to_python", value_to_python,
          "None, or a bool, int, float, str, list or dict of the contents.")
    {"part", value_get_part, METH_O,
     PyDoc_STR("part($self, path, /)\n--\n\n"
               "The part at a path, as a Value that shares the memory. A path is a key, or a list\n"
               "of keys; a key is an index or a name. KeyError, IndexError or TypeError where\n"
               "there is no such part.")},
    FAST("get", value_get, "path, default=None",
         "The part at a path, as `value[key]` gives it, or `default` where a name or an index on\n"
         "the way isn't there.")
    FAST("set", value_set, "path, part",
         "Puts a part in place of the one at a path, or appends a field of the last name.\n"
         "KeyError, IndexError or TypeError where the way isn't there.")
    FAST("append", value_append, "part, path=()",
         "Appends an item to a list: to that at a path, where one is given. Nothing is copied that\n"
         "no other value shares.")
    FAST("extend", value_extend, "parts, path=()",
         "Appends all items of an iterable to a list, or none where it raises an error.")
    FAST("insert", value_insert, "index, part, path=()", "Puts an item in before `index` of a list.")
    FAST("pop", value_pop, "key=-1, default=...",
         "Takes an item of a list or a field's value: `default`, or IndexError or KeyError,\n"
         "where there is none.")
    PLAIN("clear", value_clear, "Takes all items or fields.")
    PLAIN("keys", value_keys, "A list of the fields' names, in order.")
    PLAIN("values", value_values, "A list of the fields' values, in order.")
    {NULL, NULL, 0, NULL},
};
/* clang-format on */
#undef FAST
#undef PLAIN

static PyGetSetDef value_properties[] = {
    {"kind", value_kind, NULL, "'nothing', 'truth', 'number', 'real', 'text', 'list' or 'fields'.",
     NULL},
    {NULL, NULL, NULL, NULL, NULL},
};

static PyType_Slot value_slots[] = {
    {Py_tp_doc, "Value(contents=None, /)\n--\n\n"
                "A nested value, whose copies share memory part by part: None, a bool, an int of\n"
                "64 bits, a float, a text, a list of values, or fields by name in order."},
    {Py_tp_new, value_new},
    {Py_tp_init, value_init},
    {Py_tp_dealloc, value_dealloc},
    {Py_tp_members, value_members},
    {Py_tp_methods, value_methods},
    {Py_tp_getset, value_properties},
    {Py_tp_iter, value_iter},
    {Py_tp_hash, PyObject_HashNotImplemented},
    {Py_tp_repr, value_repr},
    {Py_tp_richcompare, value_compared},
    {Py_sq_item, value_item},
    {Py_sq_contains, value_contains},
    {Py_mp_length, value_length},
    {Py_sq_length, value_length},
    {Py_mp_subscript, value_subscript},
    {Py_mp_ass_subscript, value_set_subscript},
    {Py_nb_bool, value_truth},
    {0, NULL},
};

TYPE_SPEC(0);

static PyType_Slot lent_slots[] = {
    {Py_tp_doc, "A value that another one hands out. It can't be changed, and has a hash."},
    {Py_tp_dealloc, value_dealloc},
    {Py_tp_hash, value_hash},
    {Py_tp_richcompare, value_compared},
    {0, NULL},
};

LENT_SPEC(lent_value_spec, 0);
