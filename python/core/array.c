/* The type `Array`, over `ecow_array`. */
#include "core.h"

#define OBJECT array_object
#define VALUE typed_items
#define CALL(name) items_##name
#define OWN(name) array_##name
#define TYPE array
#define LENT array
#define NAME "Array"
#define NOTE(to, from)
#define FORGET(object)
#define SPARED(state, type) NULL
#define SPARE_IT(object) false
#include "kind.h"

/* Room for an item of any type. Items stand at any address, so they are copied as bytes. */
typedef struct any_item {
    char bytes[sizeof(int64_t)];
} any_item;

#define ITEM any_item
#define PASS(item) &item
#define EMPTY(from) ((typed_items){{{0}}, (from).type, 0})
#define WIDTH(object) item_size(&(object)->value)
#define FAMILY(object) ((object)->value.type ? (object)->value.type->family : 0)
#define AT(value, items, index) \
    ((any_item *)((char *)(items) + (size_t)(index) * item_size(value)))
#define GIVEN given_items
#define array_seek seek_object
#define BAD_CODE "bad typecode (must be b, B, h, H, i, I, l, L, q, Q, f or d)"

/* ---- The types of items ---- */

static unsigned long long as_unsigned(PyObject *given) {
    PyObject *index = PyNumber_Index(given);
    unsigned long long number = index ? PyLong_AsUnsignedLongLong(index) : -1ULL;
    Py_XDECREF(index);
    return number;
}

/* clang-format off */
#define SIGNED(X, code, type)                                                                  \
    X(code, type, 's', long long, PyLong_AsLongLong, PyLong_FromLongLong)
#define UNSIGNED(X, code, type)                                                                \
    X(code, type, 'u', unsigned long long, as_unsigned, PyLong_FromUnsignedLongLong)
#define REAL(X, code, type) X(code, type, 'r', double, PyFloat_AsDouble, PyFloat_FromDouble)
#define TYPES(X)                                                                               \
    SIGNED(X, b, signed char) UNSIGNED(X, B, unsigned char)                                    \
    SIGNED(X, h, short) UNSIGNED(X, H, unsigned short)                                         \
    SIGNED(X, i, int) UNSIGNED(X, I, unsigned int)                                             \
    SIGNED(X, l, long) UNSIGNED(X, L, unsigned long)                                           \
    SIGNED(X, q, long long) UNSIGNED(X, Q, unsigned long long)                                 \
    REAL(X, f, float) REAL(X, d, double)

#define FUNCTIONS(code, type, family, wide, from_object, to_object)                            \
    int read_##code(PyObject *given, void *item) {                                             \
        wide number = from_object(given);                                                      \
        if (number == (wide)-1 && PyErr_Occurred()) {                                          \
            return -1;                                                                         \
        }                                                                                      \
        type kept = (type)number;                                                              \
        if (family != 'r' && kept != number) {                                                 \
            PyErr_SetString(PyExc_OverflowError, "number outside the type '" #code "'");       \
            return -1;                                                                         \
        }                                                                                      \
        memcpy(item, &kept, sizeof kept);                                                      \
        return 0;                                                                              \
    }                                                                                          \
    static PyObject *object_##code(const void *item) {                                         \
        type kept;                                                                             \
        memcpy(&kept, item, sizeof kept);                                                      \
        return to_object(kept);                                                                \
    }
TYPES(FUNCTIONS)

#define ROW(code, type, family, wide, from_object, to_object)                                  \
    {#code, family, sizeof(type), read_##code, object_##code},
static const item_type types[] = {TYPES(ROW){0}};
/* clang-format on */

static const item_type *find_type(const char *code) {
    const item_type *type = types;
    while (type->code && strcmp(type->code, code) != 0) {
        type++;
    }
    return type->code ? type : NULL;
}

bool is_array(const Py_buffer *view, char family, size_t size) {
    const char *format = view->format ? view->format : "B";
    const item_type *type = find_type(format + (*format == '@' || *format == '='));
    return type && type->family == family && view->ndim == 1
           && view->itemsize == (Py_ssize_t)size;
}

/* ---- Items ---- */

static inline ecow_status items_get(const typed_items *items, size_t index, any_item *item) {
    const void *place = SIZED(at, items, index);
    if (place) {
        memcpy(item, place, item_size(items));
    }
    return place ? ECOW_OK : ECOW_INDEX;
}

static int array_read_item(array_object *object, PyObject *given, any_item *item) {
    const item_type *type = object->value.type;
    return type ? type->read(given, item) : check(ECOW_KIND, NAME);
}

static PyObject *array_item_object(array_object *object, any_item *item, bool Py_UNUSED(is_lent)) {
    return object->value.type->object_of(item);
}

#include "given_numbers.h"
#include "given_array.h"
#include "sequence.h"

/* An array gets its type once, by its code or with all of another array. What it is made of is read
 * as `array.array` does: bytes are those in memory, and items of another type are converted. */
static int array_init(PyObject *self, PyObject *arguments, PyObject *named) {
    static char *names[] = {"", "", NULL};
    array_object *object = array_cast(self);
    PyObject *first, *source = NULL;
    if (!PyArg_ParseTupleAndKeywords(arguments, named, "O|O:Array", names, &first, &source)) {
        return -1;
    }
    bool is_copy = !source && array_is(object->state, first);
    const char *code = is_copy ? "" : PyUnicode_AsUTF8AndSize(first, NULL);
    const item_type *type = is_copy ? array_cast(first)->value.type : code ? find_type(code) : NULL;
    if (code && (!type || object->value.type)) {
        PyErr_SetString(PyExc_ValueError, type ? "an Array keeps its typecode" : BAD_CODE);
        type = NULL;
    }
    if (!type) {
        return -1;
    }
    object->value.type = type;
    source = is_copy ? first : source;
    bool is_own = source && array_is(object->state, source);
    if (!source || (is_own && array_cast(source)->value.type == type)) {
        return source ? check(items_clone(&object->value, &array_cast(source)->value), NAME) : 0;
    }
    bool is_bytes = PyBytes_Check(source) || PyByteArray_Check(source);
    PyObject *items = is_own ? PySequence_List(source) : Py_NewRef(source);
    PyObject *type_object = (PyObject *)object->state->array;
    const char *call = is_bytes ? "frombytes" : "extend";
    PyObject *none = items ? PyObject_CallMethod(type_object, call, "OO", self, items) : NULL;
    Py_XDECREF(items);
    Py_XDECREF(none);
    return none ? 0 : -1;
}

/* Two arrays are compared as lists of their items, of which a NaN equals no other. */
static PyObject *array_compared_alike(PyObject *self, PyObject *other, int operation) {
    const typed_items *left = &array_cast(self)->value, *right = &array_cast(other)->value;
    if ((operation == Py_EQ || operation == Py_NE) && left->type == right->type && left->type) {
        size_t len = items_len(left);
        const void *one = items_slice(left, NULL), *another = items_slice(right, NULL);
        bool same = left->type->family == 'r' ? len == items_len(right)
                                              : ecow_array_equal(&left->array, &right->array);
        for (size_t at = 0; *left->type->code == 'd' && same && at < len; at++) {
            same = ((const double *)one)[at] == ((const double *)another)[at];
        }
        for (size_t at = 0; *left->type->code == 'f' && same && at < len; at++) {
            same = ((const float *)one)[at] == ((const float *)another)[at];
        }
        return PyBool_FromLong(same == (operation == Py_EQ));
    }
    PyObject *items = PySequence_List(other);
    PyObject *answer = items ? compare_with_list(self, items, operation) : NULL;
    Py_XDECREF(items);
    return answer;
}

/* ---- What `array.array` has too ---- */

static PyObject *array_typecode(PyObject *self, void *Py_UNUSED(closure)) {
    const item_type *type = array_cast(self)->value.type;
    return Py_BuildValue("s", type ? type->code : NULL);
}

static PyObject *array_itemsize(PyObject *self, void *Py_UNUSED(closure)) {
    return PyLong_FromSize_t(WIDTH(array_cast(self)));
}

static PyObject *array_tobytes(PyObject *self, PyObject *Py_UNUSED(none)) {
    return PyBytes_FromObject(self);
}

static PyObject *array_tolist(PyObject *self, PyObject *Py_UNUSED(none)) {
    return PySequence_List(self);
}

static PyObject *array_repr(PyObject *self) {
    PyObject *items = PySequence_List(self);
    return named_repr(self, Py_BuildValue("(NN)", array_typecode(self, NULL), items));
}

/* Items that another value shares are copied before a view writes to them. */
static int array_buffer(PyObject *self, Py_buffer *view, int flags) {
    array_object *object = array_cast(self);
    typed_items *items = &object->value;
    void *all;
    if (!object->lends) {
        return lend_array(object->state, items, view, flags);
    }
    object->lends = false;
    view->obj = NULL;
    if (check(ecow_array_edit(&items->array, item_size(items), &all, NULL), NAME) < 0) {
        return -1;
    }
    object->sizes[0] = array_length(self);
    object->sizes[1] = (Py_ssize_t)item_size(items);
    fill_view(Py_NewRef(self), object->sizes, all, items->type->code, view, flags);
    view->readonly = 0;
    items->views++;
    return 0;
}

static void array_release(PyObject *self, Py_buffer *Py_UNUSED(view)) {
    array_cast(self)->value.views--;
}

static PyObject *array_edit(PyObject *self, PyObject *Py_UNUSED(none)) {
    array_cast(self)->lends = true;
    PyObject *view = PyMemoryView_FromObject(self);
    array_cast(self)->lends = false;
    return view;
}

/* clang-format off */
#define MORE_METHODS                                                                           \
    {"tobytes", array_tobytes, METH_NOARGS,                                                    \
     PyDoc_STR("tobytes($self, /)\n--\n\nThe items' bytes, as they are in memory.")},          \
    {"tolist", array_tolist, METH_NOARGS,                                                      \
     PyDoc_STR("tolist($self, /)\n--\n\nA `list` of the items.")},                             \
    {"edit", array_edit, METH_NOARGS,                                                          \
     PyDoc_STR("edit($self, /)\n--\n\n"                                                        \
               "A `memoryview` that writes to the items in place, for a `with` statement.\n"       \
               "What another value shares is copied first: MemoryError where there is no\n"        \
               "memory. As long as the view or what was made of it is open, calls that would\n"    \
               "change the array otherwise, or copy it, raise a BufferError.")},
#include "list_like.h"
/* clang-format on */

static PyGetSetDef array_properties[] = {
    {"typecode", array_typecode, NULL, "The letter of `array.array` for an item's type.", NULL},
    {"itemsize", array_itemsize, NULL, "How many bytes an item takes.", NULL},
    {NULL, NULL, NULL, NULL, NULL},
};

static PyType_Slot array_slots[] = {
    {Py_tp_doc, "Array(typecode, items=(), /)\n--\n\n"
                "A list of numbers of one type of C's, as `array.array` has them, whose copies\n"
                "share memory. The type is one of b, B, h, H, i, I, l, L, q, Q, f and d."},
    LIST_LIKE_SLOTS,
    {Py_tp_repr, array_repr},
    {Py_tp_getset, array_properties},
    {Py_bf_getbuffer, array_buffer},
    {Py_bf_releasebuffer, array_release},
    {0, NULL},
};

TYPE_SPEC(0);
