/* An undo history: each version is a clone, and shares memory until it is edited. */
#include "ecow.h"

#include <stdio.h>
#include <string.h>

enum { VERSIONS = 16 };
static ecow_text versions[VERSIONS];
static size_t current;

/* Puts `added` in place of a range of a new version, behind the current one. */
static ecow_status edit(size_t start, size_t end, const char *added) {
    size_t next = (current + 1) % VERSIONS;
    ecow_status status = ecow_text_clone(&versions[next], &versions[current]);
    if (status == ECOW_OK) {
        status = ecow_text_splice(&versions[next], start, end, added, strlen(added));
    }
    current = status == ECOW_OK ? next : current;
    return status;
}

static void show(const char *what) {
    size_t len;
    const char *text = ecow_text_slice(&versions[current], &len);
    printf("%s, version %zu: %.*s\n", what, current, (int)len, text);
}

int main(void) {
    if (edit(0, 0, "The fox jumps.") || edit(4, 4, "quick brown ") || edit(4, 9, "slow")) {
        return 1;
    }
    show("edited");
    current--;
    show("undone");
    current++;
    show(ecow_status_text(edit(0, 99, "")));
    for (size_t index = 0; index < VERSIONS; index++) {
        ecow_text_drop(&versions[index]);
    }
}
