/* Threads whose values share blocks: threads [ROUNDS [handover]]. Eight threads have clones of the
 * same values each. They clone these, change the clones, compare and drop, ROUNDS times in all.
 * With `handover` one thread gives clones to another instead, and both change what they have. No
 * value is in two calls at once. First the deepest values go to a thread that has little stack. */
#include "check.h"

#include <pthread.h>
#include <sched.h>
#include <stdatomic.h>
#include <sys/resource.h>

enum { THREADS = 8, COUNT = 100, FEW = 7, LEAVES = 20 };

/* How many numbers a list has that is handed over, and how much memory the process may take more
 * meanwhile: one block in a hundred that isn't given back passes it in 100,000 rounds. */
enum { HANDED = 500, MOST_KIB = 3000 };

static long taken_kib(void) {
    struct rusage usage;
    return getrusage(RUSAGE_SELF, &usage) ? 0 : usage.ru_maxrss;
}

/* The sum of the numbers below COUNT, and of those below LEAVES. */
#define SUM ((int64_t)COUNT * (COUNT - 1) / 2)
#define LEAVES_SUM ((int64_t)LEAVES * (LEAVES - 1) / 2)

/* A list of the numbers below COUNT, bytes of the same, a long text of the letter a, a short one,
 * and two fields: "leaves" is a list of one list of the numbers below LEAVES, "text" the long text. */
typedef struct values {
    ecow_list list;
    ecow_bytes bytes;
    ecow_text text, few;
    ecow_value fields;
} values;

typedef struct worker {
    pthread_t thread;
    values all;
    long rounds, wrong;
    uint64_t seed;
} worker;

static ecow_status put(ecow_value *fields, const char *name, const ecow_value *item) {
    return ecow_value_set_field(fields, name, strlen(name), item);
}

/* Makes `item` a clone of the value of a field. */
static bool take(const ecow_value *fields, const char *name, ecow_value *item) {
    return !ecow_value_get_field(fields, name, strlen(name), item);
}

static ecow_value make_fields(const ecow_text *text) {
    ecow_value fields = {{0}}, outer = {{0}}, leaves = {{0}}, item = {{0}};
    CHECK(!ecow_value_set_fields(&fields) && !ecow_value_set_list(&outer));
    CHECK(!ecow_value_set_list(&leaves));
    for (int number = 0; number < LEAVES; number++) {
        CHECK(!ecow_value_set_number(&item, number) && !ecow_value_push(&leaves, &item));
    }
    CHECK(!ecow_value_push(&outer, &leaves) && !put(&fields, "leaves", &outer));
    CHECK(!ecow_value_set_text(&item, text) && !put(&fields, "text", &item));
    ecow_value_drop(&outer);
    ecow_value_drop(&leaves);
    ecow_value_drop(&item);
    return fields;
}

static values make_values(void) {
    values all = {{{0}}, {{0}}, {{0}}, {{0}}, {{0}}};
    for (int number = 0; number < COUNT; number++) {
        CHECK(!ecow_list_push(&all.list, number) && !ecow_bytes_push(&all.bytes, (uint8_t)number));
        CHECK(!ecow_text_push(&all.text, 'a') && (number >= FEW || !ecow_text_push(&all.few, 'a')));
    }
    all.fields = make_fields(&all.text);
    return all;
}

static bool clone_values(values *to, const values *from) {
    return !ecow_list_clone(&to->list, &from->list) && !ecow_bytes_clone(&to->bytes, &from->bytes)
           && !ecow_text_clone(&to->text, &from->text) && !ecow_text_clone(&to->few, &from->few)
           && !ecow_value_clone(&to->fields, &from->fields);
}

static void drop_values(values *all) {
    ecow_list_drop(&all->list);
    ecow_bytes_drop(&all->bytes);
    ecow_text_drop(&all->text);
    ecow_text_drop(&all->few);
    ecow_value_drop(&all->fields);
}

static bool list_has(const ecow_list *list, size_t count, int64_t sum) {
    size_t len;
    const int64_t *numbers = ecow_list_slice(list, &len);
    for (size_t at = 0; at < len; at++) {
        sum -= numbers[at];
    }
    return len == count && sum == 0;
}

static bool bytes_have(const ecow_bytes *bytes, size_t count, int64_t sum) {
    size_t len;
    const uint8_t *items = ecow_bytes_slice(bytes, &len);
    for (size_t at = 0; at < len; at++) {
        sum -= items[at];
    }
    return len == count && sum == 0;
}

/* As many letters a as `count`, but that `last` is the last one. */
static bool text_has(const ecow_text *text, size_t count, char last) {
    size_t len;
    const char *letters = ecow_text_slice(text, &len);
    for (size_t at = 0; at + 1 < len; at++) {
        if (letters[at] != 'a') {
            return false;
        }
    }
    return len == count && (!len || letters[len - 1] == last);
}

/* Whether there are that many leaves of that sum, and the text ends so. */
static bool fields_have(const ecow_value *fields, size_t count, int64_t sum, size_t len,
                        char last) {
    ecow_value leaves = {{0}}, item = {{0}};
    ecow_text text = {{0}};
    int64_t number = 0;
    bool right = take(fields, "leaves", &leaves) && ecow_value_len(&leaves) == 1
                 && !ecow_value_get(&leaves, 0, &leaves) && ecow_value_len(&leaves) == count;
    for (size_t at = 0; right && at < count; at++) {
        right = !ecow_value_get(&leaves, at, &item) && !ecow_value_number(&item, &number);
        sum -= number;
    }
    right = right && sum == 0 && ecow_value_len(fields) == 2 && take(fields, "text", &item)
            && !ecow_value_text(&item, &text) && text_has(&text, len, last);
    ecow_value_drop(&leaves);
    ecow_value_drop(&item);
    ecow_text_drop(&text);
    return right;
}

static bool are_untouched(const values *all) {
    return list_has(&all->list, COUNT, SUM) && bytes_have(&all->bytes, COUNT, SUM)
           && text_has(&all->text, COUNT, 'a') && text_has(&all->few, FEW, 'a')
           && fields_have(&all->fields, LEAVES, LEAVES_SUM, COUNT, 'a');
}

/* Changes a list that is as it was made. */
static bool list_changes(ecow_list *list, uint64_t *seed) {
    int64_t at = (int64_t)below(seed, COUNT), number = (int64_t)below(seed, 1000), out;
    switch (below(seed, 7)) {
    case 0:
        return !ecow_list_push(list, number) && list_has(list, COUNT + 1, SUM + number);
    case 1:
        return !ecow_list_set(list, (size_t)at, number) && list_has(list, COUNT, SUM - at + number);
    case 2:
        return !ecow_list_insert(list, (size_t)at, number)
               && list_has(list, COUNT + 1, SUM + number);
    case 3:
        return !ecow_list_remove(list, (size_t)at, &out) && out == at
               && list_has(list, COUNT - 1, SUM - at);
    case 4:
        return !ecow_list_truncate(list, (size_t)at)
               && list_has(list, (size_t)at, at * (at - 1) / 2);
    case 5:
        return !ecow_list_extend(list, ecow_list_slice(list, NULL), COUNT)
               && list_has(list, 2 * COUNT, 2 * SUM);
    default:
        return !ecow_list_clear(list) && list_has(list, 0, 0);
    }
}

/* Changes bytes and texts that are as they were made. */
static bool texts_change(values *all, uint64_t *seed) {
    uint8_t at = (uint8_t)below(seed, COUNT);
    char letter = (char)('b' + below(seed, 25));
    return !ecow_bytes_set(&all->bytes, at, 0) && bytes_have(&all->bytes, COUNT, SUM - at)
           && !ecow_text_push(&all->text, (uint32_t)letter)
           && text_has(&all->text, COUNT + 1, letter) && !ecow_text_truncate(&all->text, at)
           && text_has(&all->text, at, 'a') && !ecow_text_push(&all->few, (uint32_t)letter)
           && text_has(&all->few, FEW + 1, letter);
}

/* Changes fields that are as they were made: a leaf, or how many there are, and the text. */
static bool fields_change(ecow_value *fields, uint64_t *seed) {
    ecow_value outer = {{0}}, leaves = {{0}}, item = {{0}};
    ecow_text text = {{0}};
    int64_t number = (int64_t)below(seed, 1000), at = (int64_t)below(seed, LEAVES),
            sum = LEAVES_SUM;
    size_t count = LEAVES;
    bool right = take(fields, "leaves", &outer) && !ecow_value_get(&outer, 0, &leaves)
                 && !ecow_value_set_number(&item, number);
    switch (below(seed, 4)) {
    case 0:
        right = right && !ecow_value_set(&leaves, (size_t)at, &item);
        sum += number - at;
        break;
    case 1:
        right = right && !ecow_value_push(&leaves, &item);
        sum += number, count++;
        break;
    case 2:
        right = right && !ecow_value_remove(&leaves, (size_t)at, &item);
        sum -= at, count--;
        break;
    default:
        right = right && !ecow_value_truncate(&leaves, (size_t)at);
        sum = at * (at - 1) / 2, count = (size_t)at;
    }
    right = right && !ecow_value_set(&outer, 0, &leaves) && !put(fields, "leaves", &outer)
            && take(fields, "text", &item) && !ecow_value_text(&item, &text)
            && !ecow_text_push(&text, 'z') && !ecow_value_set_text(&item, &text)
            && !put(fields, "text", &item) && fields_have(fields, count, sum, COUNT + 1, 'z');
    ecow_value_drop(&outer);
    ecow_value_drop(&leaves);
    ecow_value_drop(&item);
    ecow_text_drop(&text);
    return right;
}

static void *churn(void *given) {
    worker *mine = given;
    for (long round = 0; round < mine->rounds; round++) {
        values copy = {{{0}}, {{0}}, {{0}}, {{0}}, {{0}}};
        bool right = clone_values(&copy, &mine->all) && ecow_list_equal(&copy.list, &mine->all.list)
                     && list_changes(&copy.list, &mine->seed) && texts_change(&copy, &mine->seed)
                     && ecow_value_equal(&copy.fields, &mine->all.fields)
                     && fields_change(&copy.fields, &mine->seed) && are_untouched(&mine->all);
        drop_values(&copy);
        mine->wrong += !right;
    }
    drop_values(&mine->all);
    return NULL;
}

static long churn_in_threads(long rounds) {
    static worker workers[THREADS];
    values all = make_values();
    for (uint64_t number = 0; number < THREADS; number++) {
        worker *each = &workers[number];
        each->rounds = rounds / THREADS;
        each->seed = number + 1;
        CHECK(clone_values(&each->all, &all));
        CHECK(!pthread_create(&each->thread, NULL, churn, each));
    }
    drop_values(&all);
    long wrong = 0;
    for (int number = 0; number < THREADS; number++) {
        pthread_join(workers[number].thread, NULL);
        wrong += workers[number].wrong;
    }
    return wrong;
}

/* A place through which one thread gives lists to another, each with the sum of its numbers. */
typedef struct slot {
    ecow_list list;
    int64_t sum;
    atomic_int full, over;
    long wrong;
} slot;

static void *take_lists(void *given) {
    slot *from = given;
    for (long round = 0;; round++) {
        while (!atomic_load(&from->full)) {
            if (atomic_load(&from->over)) {
                return NULL;
            }
            sched_yield();
        }
        ecow_list mine = from->list;
        int64_t sum = from->sum;
        atomic_store(&from->full, 0);
        /* Now and then it changes what it got; mostly it drops it while the other one changes its own. */
        if (round % 64 == 0) {
            from->wrong += !list_has(&mine, HANDED, sum) || ecow_list_push(&mine, 1)
                           || !list_has(&mine, HANDED + 1, sum + 1);
        }
        ecow_list_drop(&mine);
    }
}

static long hand_lists_over(long rounds) {
    static slot place;
    pthread_t other;
    CHECK(!pthread_create(&other, NULL, take_lists, &place));
    long before = taken_kib();
    ecow_list list = {{0}};
    int64_t sum = 0;
    for (int number = 0; number < HANDED; number++) {
        CHECK(!ecow_list_push(&list, 0));
    }
    for (long round = 0; round < rounds; round++) {
        while (atomic_load(&place.full)) {
            sched_yield();
        }
        /* The other thread has moved out what stood there. */
        place.list = ecow_list_new();
        CHECK(!ecow_list_clone(&place.list, &list));
        place.sum = sum;
        atomic_store(&place.full, 1);
        int64_t old;
        size_t at = (size_t)round % HANDED;
        CHECK(!ecow_list_get(&list, at, &old) && !ecow_list_set(&list, at, round));
        sum += round - old;
        CHECK(round % 64 || list_has(&list, HANDED, sum));
    }
    while (atomic_load(&place.full)) {
        sched_yield();
    }
    atomic_store(&place.over, 1);
    pthread_join(other, NULL);
    ecow_list_drop(&list);
    CHECK(rounds < 100000 || taken_kib() - before < MOST_KIB);
    return place.wrong;
}

#define LONG_NAME "a long name for it"

/* A value that nests as deep as any may: lists, or fields. */
static ecow_value deepest(bool is_list) {
    ecow_value made = {{0}};
    for (size_t depth = 0; depth < ECOW_MAX_DEPTH; depth++) {
        ecow_value outer = {{0}};
        CHECK(!(is_list ? ecow_value_set_list(&outer) : ecow_value_set_fields(&outer)));
        CHECK(!(is_list ? ecow_value_push(&outer, &made) : put(&outer, LONG_NAME, &made)));
        ecow_value_drop(&made);
        made = outer;
    }
    return made;
}

/* What recurs into two equal values. */
static void *recur(void *given) {
    ecow_value *twins = given, clone = {{0}}, way = {{0}}, step = {{0}};
    CHECK(ecow_value_equal(&twins[0], &twins[1]) && !ecow_value_clone(&clone, &twins[0]));
    CHECK(!ecow_value_set_list(&way) && !ecow_value_set_number(&step, 0));
    if (ecow_value_kind(&clone) == ECOW_KIND_FIELDS) {
        ecow_text name = {{0}};
        CHECK(!ecow_text_assign(&name, LONG_NAME, strlen(LONG_NAME)));
        CHECK(!ecow_value_set_text(&step, &name));
        ecow_text_drop(&name);
    }
    for (size_t depth = 0; depth < ECOW_MAX_DEPTH; depth++) {
        CHECK(!ecow_value_push(&way, &step));
    }
    CHECK(!ecow_value_set_at(&clone, &way, &step) && !ecow_value_equal(&clone, &twins[0]));
    CHECK(!ecow_value_swap_at(&clone, &way, &step) && !ecow_value_get_at(&clone, &way, &step));
    ecow_value_drop(&step);
    ecow_value_drop(&way);
    ecow_value_drop(&twins[0]);
    ecow_value_drop(&clone);
    ecow_value_drop(&twins[1]);
    return NULL;
}

static void recur_on_little_stack(void) {
    for (int is_list = 0; is_list < 2; is_list++) {
        ecow_value twins[2] = {deepest(is_list), deepest(is_list)};
        pthread_attr_t little;
        pthread_t thread;
        CHECK(!pthread_attr_init(&little) && !pthread_attr_setstacksize(&little, 128 << 10));
        CHECK(!pthread_create(&thread, &little, recur, twins) && !pthread_join(thread, NULL));
        pthread_attr_destroy(&little);
    }
}

int main(int count, char **words) {
    take_no_buffer();
    recur_on_little_stack();
    long rounds = count > 1 ? atol(words[1]) : 1000;
    long wrong = count > 2 ? hand_lists_over(rounds) : churn_in_threads(rounds);
    printf("%ld rounds, %ld wrong\n", rounds, wrong);
    return wrong != 0;
}
