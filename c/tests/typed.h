/* An array of one type under the names that lists have, so that what tests a list tests it too:
 * TYPED(doubles, double) makes the type `doubles`, and `doubles_push`.. */
#ifndef ECOW_TYPED_H
#define ECOW_TYPED_H

#include "check.h"

/* It makes these calls:
 * ecow_array_drop, ecow_array_clone, ecow_array_clear, ecow_array_shrink_to_fit, ecow_array_shares,
 * ecow_array_equal, ecow_array_hash */
#define TYPED(name, type)                                                                \
    typedef ecow_array name;                                                             \
    ECOW_ARRAY(name, type)                                                               \
    TYPED_CALL(ecow_status, name, clone, (name * to, const name *from), (to, from))      \
    TYPED_CALL(ecow_status, name, clear, (name * array), (array))                        \
    TYPED_CALL(ecow_status, name, shrink_to_fit, (name * array), (array))                \
    TYPED_CALL(bool, name, shares, (const name *left, const name *right), (left, right)) \
    TYPED_CALL(bool, name, equal, (const name *left, const name *right), (left, right))  \
    TYPED_CALL(uint64_t, name, hash, (const name *array), (array))                       \
                                                                                         \
    ECOW_TYPED void name##_drop(name *array) {                                           \
        ecow_array_drop(array);                                                          \
    }                                                                                    \
                                                                                         \
    ECOW_TYPED ecow_status name##_get(const name *array, size_t index, type *item) {     \
        const type *found = name##_at(array, index);                                     \
        if (found && item) {                                                             \
            *item = *found;                                                              \
        }                                                                                \
        return found ? ECOW_OK : array ? ECOW_INDEX : ECOW_NULL;                         \
    }
#define TYPED_CALL(answer, name, call, parameters, arguments) \
    ECOW_TYPED answer name##_##call parameters {              \
        return ecow_array_##call arguments;                   \
    }

#endif
