/* The methods of `bytes` and `str` that `Bytes` and `Text` hand on to them. It is included behind
 * `kind.h`, with more:
 *     OWN(str)                 makes a `bytes` or `str` of an object
 *     OF, PLAIN_NAME           the state's field of their methods, and the name of their type
 *     WITHOUT_ARGUMENTS(X)     X of each method of no argument
 *     WITH_ARGUMENTS(X)        of the others
 *     AS_THEY_ARE(X)           of those whose results aren't made `Bytes` or `Text`
 *     FILL, CHARS, DELETED     what differs in their signatures */

/* clang-format off */
#define HANDED_METHOD(name) OWN(cast)(self)->state->OF.name
#define ALONE(name)                                                                            \
    static PyObject *OWN(name)(PyObject *self, PyObject *Py_UNUSED(none)) {                    \
        return wrapped(self, call_alone(OWN(str)(self), HANDED_METHOD(name)));                 \
    }
#define PLAIN(name)                                                                            \
    static PyObject *OWN(name)(PyObject *self, PyObject *arguments, PyObject *named) {         \
        return call_plain(self, OWN(str)(self), HANDED_METHOD(name), arguments, named);        \
    }
#define WRAPPED(name)                                                                          \
    static PyObject *OWN(name)(PyObject *self, PyObject *arguments, PyObject *named) {         \
        return wrapped(self, call_plain(self, OWN(str)(self), HANDED_METHOD(name), arguments,  \
                                        named));                                               \
    }
WITHOUT_ARGUMENTS(ALONE)
WITH_ARGUMENTS(WRAPPED)
AS_THEY_ARE(PLAIN)
#undef ALONE
#undef PLAIN
#undef WRAPPED

/* What stands behind a method's name in its text. Some have no signature in Python either. */
#define SIGNED(arguments) "($self, " arguments ")\n--\n\n"
#define SIGNED_center SIGNED("width, fillchar=" FILL ", /")
#define SIGNED_decode SIGNED("/, encoding='utf-8', errors='strict'")
#define SIGNED_encode SIGNED_decode
#define SIGNED_expandtabs SIGNED("/, tabsize=8")
#define SIGNED_format ": "
#define SIGNED_format_map SIGNED("mapping, /")
#define SIGNED_hex ": "
#define SIGNED_join SIGNED("parts, /")
#define SIGNED_ljust SIGNED_center
#define SIGNED_lstrip SIGNED(CHARS "=None, /")
#define SIGNED_partition SIGNED("sep, /")
#define SIGNED_removeprefix SIGNED("prefix, /")
#define SIGNED_removesuffix SIGNED("suffix, /")
#define SIGNED_replace SIGNED("old, new, count=-1, /")
#define SIGNED_rjust SIGNED_center
#define SIGNED_rpartition SIGNED_partition
#define SIGNED_rsplit SIGNED_split
#define SIGNED_rstrip SIGNED_lstrip
#define SIGNED_split SIGNED("/, sep=None, maxsplit=-1")
#define SIGNED_splitlines SIGNED("/, keepends=False")
#define SIGNED_strip SIGNED_lstrip
#define SIGNED_translate SIGNED("table, /" DELETED)
#define SIGNED_zfill SIGNED("width, /")
#define TOLD(name, flags, text)                                                                \
    {#name, (PyCFunction)(void (*)(void))OWN(name), flags,                                     \
     PyDoc_STR(#name "($self, /)\n--\n\nAs `" PLAIN_NAME "." #name "`" text ".")},
#define TOLD_ALONE(name) TOLD(name, METH_NOARGS, "; what it gives may be new")
#define TOLD_OF(name, text)                                                                    \
    {#name, (PyCFunction)(void (*)(void))OWN(name), METH_VARARGS | METH_KEYWORDS,              \
     PyDoc_STR(#name SIGNED_##name "As `" PLAIN_NAME "." #name "`" text ".")},
#define TOLD_WRAPPED(name) TOLD_OF(name, "; `" PLAIN_NAME "` that it gives are new `" NAME "`")
#define TOLD_PLAIN(name) TOLD_OF(name, "")
#define HANDED_ON_METHODS                                                                      \
    WITHOUT_ARGUMENTS(TOLD_ALONE) WITH_ARGUMENTS(TOLD_WRAPPED) AS_THEY_ARE(TOLD_PLAIN)
/* clang-format on */
