#include "ecow.h"

#include <stdio.h>

int main(void) {
    ecow_list numbers = {0}, before = {0};
    for (int64_t number = 1; number <= 5; number++) {
        if (ecow_list_push(&numbers, number * number) != ECOW_OK) {
            return 1;
        }
    }
    if (ecow_list_clone(&before, &numbers) != ECOW_OK
        || ecow_list_set(&numbers, 0, 100) != ECOW_OK) {
        return 1;
    }
    size_t len;
    const int64_t *items = ecow_list_slice(&before, &len);
    for (size_t index = 0; index < len; index++) {
        printf("%lld ", (long long)items[index]);
    }
    int64_t first;
    ecow_status status = ecow_list_get(&numbers, 0, &first);
    printf("and now %lld begins (%s)\n", (long long)first, ecow_status_text(status));
    status = ecow_list_remove(&numbers, 5, NULL);
    printf("remove number 5: %s\n", ecow_status_text(status));
    ecow_list_drop(&numbers);
    ecow_list_drop(&before);
    return 0;
}
