/* What a buffer reads: a clone of a value, which no method changes. The value itself may change
 * meanwhile; the clone keeps the memory that the buffer was given. */
#include "core.h"

typedef struct snapshot_object {
    PyObject ob_base;
    ecow_list list;
    typed_items array;
    ecow_bytes bytes;
    Py_ssize_t sizes[2];
} snapshot_object;

static void snapshot_dealloc(PyObject *self) {
    snapshot_object *snapshot = (snapshot_object *)self;
    PyTypeObject *type = Py_TYPE(self);
    freefunc release = (freefunc)PyType_GetSlot(type, Py_tp_free);
    ecow_list_drop(&snapshot->list);
    items_drop(&snapshot->array);
    ecow_bytes_drop(&snapshot->bytes);
    release(self);
    Py_DECREF(type);
}

static PyType_Slot snapshot_slots[] = {
    {Py_tp_doc, "The contents that a `memoryview` of a value reads."},
    {Py_tp_dealloc, snapshot_dealloc},
    {0, NULL},
};

PyType_Spec snapshot_spec = {
    .name = "ecow._core.Snapshot",
    .basicsize = sizeof(snapshot_object),
    .flags = Py_TPFLAGS_DEFAULT | Py_TPFLAGS_DISALLOW_INSTANTIATION | Py_TPFLAGS_IMMUTABLETYPE,
    .slots = snapshot_slots,
};

static snapshot_object *make(core_state *state, Py_buffer *view, int flags) {
    view->obj = NULL;
    if (flags & PyBUF_WRITABLE) {
        PyErr_SetString(PyExc_BufferError, "values lend no memory to write to");
        return NULL;
    }
    return (snapshot_object *)PyType_GenericAlloc(state->snapshot, 0);
}

void release_buffer(PyObject *Py_UNUSED(self), Py_buffer *Py_UNUSED(view)) {}

void fill_view(PyObject *lender, Py_ssize_t sizes[2], const void *items, const char *format,
               Py_buffer *view, int flags) {
    view->obj = lender;
    view->buf = (void *)items;
    view->len = sizes[0] * sizes[1];
    view->itemsize = sizes[1];
    view->readonly = 1;
    view->ndim = 1;
    view->format = flags & PyBUF_FORMAT ? (char *)format : NULL;
    view->shape = flags & PyBUF_ND ? &sizes[0] : NULL;
    view->strides = (flags & PyBUF_STRIDES) == PyBUF_STRIDES ? &sizes[1] : NULL;
    view->suboffsets = NULL;
    view->internal = NULL;
}

#define LEND(kind, type, call, size, format)                                                   \
    int lend_##kind(core_state *state, const type *given, Py_buffer *view, int flags) {        \
        snapshot_object *made = make(state, view, flags);                                      \
        if (!made || check(call##_clone(&made->kind, given), "a buffer") < 0) {                \
            Py_XDECREF((PyObject *)made);                                                      \
            return -1;                                                                         \
        }                                                                                      \
        made->sizes[0] = (Py_ssize_t)call##_len(given);                                        \
        made->sizes[1] = (Py_ssize_t)(size);                                                   \
        const void *items = call##_slice(&made->kind, NULL);                                   \
        fill_view((PyObject *)made, made->sizes, items, format, view, flags);                  \
        return 0;                                                                              \
    }
LEND(list, ecow_list, ecow_list, sizeof(int64_t), "q")
LEND(array, typed_items, items, item_size(given), given->type ? given->type->code : "B")
LEND(bytes, ecow_bytes, ecow_bytes, sizeof(uint8_t), "B")
