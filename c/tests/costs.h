/* What the calls on one kind of value ask of memory. It is included once for each kind:
 *     VALUE, ITEM    the types of a value, and of the items of its arrays
 *     OUT            the type of what `get` writes
 *     CALL(name)     a call of the header
 *     NAME           the kind in what is printed
 * It makes these calls:
 * ecow_list_assign, ecow_bytes_assign, ecow_text_assign, ecow_list_clear, ecow_bytes_clear,
 * ecow_text_clear, ecow_list_clone, ecow_bytes_clone, ecow_text_clone, ecow_list_compare,
 * ecow_bytes_compare, ecow_text_compare, ecow_list_drop, ecow_bytes_drop, ecow_text_drop,
 * ecow_list_equal, ecow_bytes_equal, ecow_text_equal, ecow_list_extend, ecow_bytes_extend,
 * ecow_text_extend, ecow_list_get, ecow_bytes_get, ecow_text_get, ecow_list_hash, ecow_bytes_hash,
 * ecow_text_hash, ecow_list_len, ecow_bytes_len, ecow_text_len, ecow_list_pop, ecow_bytes_pop,
 * ecow_text_pop, ecow_list_push, ecow_bytes_push, ecow_text_push, ecow_list_remove,
 * ecow_bytes_remove, ecow_text_remove, ecow_list_reserve, ecow_bytes_reserve, ecow_text_reserve,
 * ecow_list_slice, ecow_bytes_slice, ecow_text_slice, ecow_list_splice, ecow_bytes_splice,
 * ecow_text_splice, ecow_list_truncate, ecow_bytes_truncate, ecow_text_truncate */

/* ecow_list_items, ecow_bytes_items, ecow_text_items */
static ITEM CALL(items)[MANY];

/* Appends items until there are `len`: in each round the same ones.
 * ecow_list_push_up_to, ecow_bytes_push_up_to, ecow_text_push_up_to */
static void CALL(push_up_to)(VALUE *value, size_t len) {
    for (size_t index = CALL(len)(value); index < len; index++) {
        CHECK(CALL(push)(value, CALL(items)[index % MANY]) == ECOW_OK);
    }
}

/* Whether there are `len` items, those that stand in the array in each round.
 * ecow_list_is_filled, ecow_bytes_is_filled, ecow_text_is_filled */
static bool CALL(is_filled)(const VALUE *value, size_t len) {
    size_t found;
    const ITEM *items = CALL(slice)(value, &found);
    for (size_t index = 0; index < len; index++) {
        OUT item = 0;
        if (CALL(get)(value, index, &item) != ECOW_OK || item != (OUT)CALL(items)[index % MANY]
            || items[index] != CALL(items)[index % MANY]) {
            return false;
        }
    }
    return found == len && CALL(len)(value) == len;
}

/* A long value and its clone: what reads asks for nothing, and the first change copies.
 * ecow_list_clones, ecow_bytes_clones, ecow_text_clones */
static void CALL(clones)(void) {
    VALUE value = {{0}}, clone = {{0}}, second = {{0}};
    const ITEM *items = CALL(items);
    OUT item = 0;
    uint64_t hash;
    COUNTED("assign 100000", CHECK(CALL(assign)(&value, items, MANY) == ECOW_OK));
    COUNTED("clone", CHECK(CALL(clone)(&clone, &value) == ECOW_OK));
    COUNTED("clone of a clone", CHECK(CALL(clone)(&second, &clone) == ECOW_OK));
    CHECK(CALL(slice)(&clone, NULL) == CALL(slice)(&value, NULL));
    CHECK(CALL(slice)(&second, NULL) == CALL(slice)(&value, NULL));
    begin();
    hash = CALL(hash)(&value);
    CHECK(CALL(is_filled)(&clone, MANY) && CALL(get)(&value, MANY, &item) == ECOW_INDEX);
    CHECK(CALL(equal)(&value, &clone) && CALL(compare)(&value, &clone) == 0);
    CHECK(CALL(hash)(&clone) == hash);
    end(NAME ": reads");
    COUNTED("drop of a clone", CALL(drop)(&second));
    COUNTED("push to a shared one", CALL(push_up_to)(&value, MANY + 1));
    CHECK(CALL(slice)(&clone, NULL) != CALL(slice)(&value, NULL));
    COUNTED("99999 pushes", CALL(push_up_to)(&value, 2 * MANY));
    COUNTED("push past the room", CALL(push_up_to)(&value, 2 * MANY + 1));
    CHECK(CALL(is_filled)(&value, 2 * MANY + 1) && CALL(is_filled)(&clone, MANY));
    CHECK(!CALL(equal)(&value, &clone) && CALL(hash)(&value) != hash);
    CHECK(CALL(compare)(&value, &clone) > 0 && CALL(compare)(&clone, &value) < 0);
    COUNTED("drop", CALL(drop)(&value));
    CHECK(CALL(is_filled)(&value, 0) && CALL(is_filled)(&clone, MANY));
    CHECK(CALL(clone)(&value, &clone) == ECOW_OK);
    COUNTED("pop of a shared one", CHECK(CALL(pop)(&value, &item) == ECOW_OK));
    CHECK(CALL(clone)(&value, &clone) == ECOW_OK);
    COUNTED("truncate of a shared one", CHECK(CALL(truncate)(&value, 1000) == ECOW_OK));
    CHECK(CALL(is_filled)(&value, 1000) && CALL(clone)(&value, &clone) == ECOW_OK);
    COUNTED("clear of a shared one", CHECK(CALL(clear)(&value) == ECOW_OK));
    CHECK(CALL(is_filled)(&value, 0) && CALL(is_filled)(&clone, MANY));
    CALL(drop)(&value);
    CALL(drop)(&clone);
}

/* Room that is reserved, of an empty, a full and a shared value, and pushes into it.
 * ecow_list_rooms, ecow_bytes_rooms, ecow_text_rooms */
static void CALL(rooms)(void) {
    VALUE value = {{0}}, clone = {{0}};
    COUNTED("reserve 1000 for none", CHECK(CALL(reserve)(&value, 1000) == ECOW_OK));
    COUNTED("1000 pushes", CALL(push_up_to)(&value, 1000));
    COUNTED("one more", CALL(push_up_to)(&value, 1001));
    COUNTED("clear", CHECK(CALL(clear)(&value) == ECOW_OK));
    COUNTED("reserve 1000 again", CHECK(CALL(reserve)(&value, 1000) == ECOW_OK));
    CHECK(CALL(assign)(&value, CALL(items), 1000) == ECOW_OK);
    COUNTED("reserve 1000 for 1000", CHECK(CALL(reserve)(&value, 1000) == ECOW_OK));
    COUNTED("1000 pushes", CALL(push_up_to)(&value, 2000));
    CHECK(CALL(clone)(&clone, &value) == ECOW_OK);
    COUNTED("reserve 1000 for 2000 shared", CHECK(CALL(reserve)(&value, 1000) == ECOW_OK));
    COUNTED("1000 pushes", CALL(push_up_to)(&value, 3000));
    CHECK(CALL(is_filled)(&value, 3000) && CALL(is_filled)(&clone, 2000));
    CALL(drop)(&value);
    COUNTED("assign 15", CHECK(CALL(assign)(&value, CALL(items), 15) == ECOW_OK));
    COUNTED("clone", CHECK(CALL(clone)(&clone, &value) == ECOW_OK));
    CALL(drop)(&clone);
    COUNTED("one more", CALL(push_up_to)(&value, 16));
    CHECK(CALL(is_filled)(&value, 16));
    COUNTED("assign 16", CHECK(CALL(assign)(&value, CALL(items), 16) == ECOW_OK));
    CALL(drop)(&value);
}

/* Growth to 100000 items, and changes of a sole value.
 * ecow_list_growth, ecow_bytes_growth, ecow_text_growth */
static void CALL(growth)(void) {
    VALUE value = {{0}};
    OUT item = 0;
    COUNTED("100000 pushes", CALL(push_up_to)(&value, MANY));
    CHECK(CALL(is_filled)(&value, MANY));
    begin();
    while (CALL(len)(&value)) {
        CHECK(CALL(pop)(&value, &item) == ECOW_OK);
        CHECK(item == (OUT)CALL(items)[CALL(len)(&value)]);
    }
    end(NAME ": 100000 pops");
    COUNTED("100000 pushes again", CALL(push_up_to)(&value, MANY));
    COUNTED("clear", CHECK(CALL(clear)(&value) == ECOW_OK));
    COUNTED("100000 pushes after it", CALL(push_up_to)(&value, MANY));
    COUNTED("truncate to none", CHECK(CALL(truncate)(&value, 0) == ECOW_OK));
    COUNTED("100000 pushes after it", CALL(push_up_to)(&value, MANY));
    COUNTED("remove", CHECK(CALL(remove)(&value, MANY - 1, &item) == ECOW_OK));
    COUNTED("truncate", CHECK(CALL(truncate)(&value, 1000) == ECOW_OK));
    COUNTED("99000 pushes", CALL(push_up_to)(&value, MANY));
    COUNTED("extend by 100000", CHECK(CALL(extend)(&value, CALL(items), MANY) == ECOW_OK));
    COUNTED("extend by 50000 more", CHECK(CALL(extend)(&value, CALL(items), 50000) == ECOW_OK));
    CHECK(CALL(is_filled)(&value, 250000) && CALL(truncate)(&value, 2 * MANY) == ECOW_OK);
    const ITEM *own = CALL(slice)(&value, NULL);
    COUNTED("extend by itself", CHECK(CALL(extend)(&value, own, 2 * MANY) == ECOW_OK));
    CHECK(CALL(is_filled)(&value, 4 * MANY) && CALL(truncate)(&value, MANY) == ECOW_OK);
    own = CALL(slice)(&value, NULL);
    COUNTED("extend by its first 10", CHECK(CALL(extend)(&value, own, 10) == ECOW_OK));
    CHECK(CALL(len)(&value) == MANY + 10 && CALL(slice)(&value, NULL) == own);
    CHECK(memcmp(own + MANY, own, 10 * sizeof *own) == 0);
    COUNTED("splice by its own", CHECK(CALL(splice)(&value, 20, MANY, own, 10) == ECOW_OK));
    CHECK(CALL(len)(&value) == 40 && CALL(slice)(&value, NULL) == own);
    CHECK(memcmp(own + 20, own, 10 * sizeof *own) == 0);
    CHECK(CALL(assign)(&value, CALL(items), MANY) == ECOW_OK);
    COUNTED("splice", CHECK(CALL(splice)(&value, 10, 20, CALL(items) + 30, 10) == ECOW_OK));
    CHECK(CALL(len)(&value) == MANY && CALL(get)(&value, 19, &item) == ECOW_OK);
    CHECK(item == (OUT)CALL(items)[39] && CALL(get)(&value, 20, &item) == ECOW_OK);
    CHECK(item == (OUT)CALL(items)[20]);
    CHECK(CALL(splice)(&value, 10, MANY, CALL(items) + 10, MANY - 10) == ECOW_OK);
    CHECK(CALL(is_filled)(&value, MANY));
    CALL(drop)(&value);
}

/* ecow_list_costs, ecow_bytes_costs, ecow_text_costs */
static void CALL(costs)(void) {
    for (size_t index = 0; index < MANY; index++) {
        CALL(items)[index] = (ITEM)('!' + index % 89);
    }
    CALL(clones)();
    CALL(rooms)();
    CALL(growth)();
}
