/* A target of libFuzzer for one kind of value, KIND: the edits that an input decides, beside plain
 * arrays. tools/measure/c_fuzz.sh builds one for each kind. */
#define ECOW_FUZZ
#include "edits.c"

/* The numbers of the kinds. */
enum { LISTS, ARRAYS, BYTES, TEXTS, LISTS_OF_TEXTS, NESTED };

static ecow_list lists[VALUES];
static ecow_array arrays[VALUES];
static ecow_bytes bytes[VALUES];
static ecow_text texts[VALUES];
static ecow_texts lists_of_texts[VALUES];
static ecow_value nested[VALUES];
static array models[VALUES];
static strings models_of_texts[VALUES];
static tree models_of_nested[VALUES];

static void edit(void) {
    switch (KIND) {
    case LISTS:
        edit_list(lists, models, NULL);
        break;
    case ARRAYS:
        edit_array(arrays, models, NULL);
        break;
    case BYTES:
        edit_bytes(bytes, models, NULL);
        break;
    case TEXTS:
        edit_text(texts, models, NULL);
        break;
    case LISTS_OF_TEXTS:
        edit_texts(lists_of_texts, models_of_texts, NULL);
        break;
    default:
        edit_value(nested, models_of_nested, NULL);
    }
}

/* Whether a value is as it has to be; then it is given up. */
static void end(size_t at) {
    const int64_t *numbers = (const int64_t *)(const void *)models[at].bytes;
    switch (KIND) {
    case LISTS:
        CHECK(list_holds(&lists[at], numbers, models[at].size / sizeof *numbers));
        ecow_list_drop(&lists[at]);
        break;
    case ARRAYS:
        CHECK(holds_items(&arrays[at], &models[at]));
        ecow_array_drop(&arrays[at]);
        break;
    case BYTES:
        CHECK(bytes_hold(&bytes[at], models[at].bytes, models[at].size));
        ecow_bytes_drop(&bytes[at]);
        break;
    case TEXTS:
        CHECK(text_holds(&texts[at], models[at].bytes, models[at].size));
        ecow_text_drop(&texts[at]);
        break;
    case LISTS_OF_TEXTS:
        CHECK(holds(&lists_of_texts[at], &models_of_texts[at]));
        ecow_texts_drop(&lists_of_texts[at]);
        break;
    default:
        CHECK(holds_tree(&nested[at], &models_of_nested[at], 0));
        ecow_value_drop(&nested[at]);
    }
}

int LLVMFuzzerTestOneInput(const uint8_t *data, size_t size) {
    input = data;
    input_left = size;
    for (size_t at = 0; at < VALUES; at++) {
        models[at].size = 0;
        models_of_texts[at].len = 0;
        models_of_nested[at].parts[0] = part_of(ECOW_KIND_NOTHING, 0);
    }
    while (input_left) {
        edit();
    }
    for (size_t at = 0; at < VALUES; at++) {
        end(at);
    }
    return 0;
}
