/* Times calls of the library beside std's containers: peers ROUNDS [threads]. It prints the rows of
 * a table in nanoseconds, of each call the least of ROUNDS runs, which take turns. The columns are C,
 * C++, std's containers, and a `std::shared_ptr` to one that nobody changes, which a change copies.
 * That pointer counts its owners atomically once there was a thread, which `threads` starts. */
#include "check.hpp"
#include "ecow.hpp"

#include <chrono>
#include <cmath>
#include <cstdlib>
#include <cstring>
#include <memory>
#include <thread>
#include <unordered_map>

namespace {

constexpr std::size_t many = 1000000;
constexpr std::size_t few = 1000;
constexpr char ten[] = "ten bytes.";

using numbers = std::vector<std::int64_t>;
using shared_numbers = std::shared_ptr<const numbers>;
using shared_string = std::shared_ptr<const std::string>;

/* Has the compiler take the value as read and written. */
template <typename Value> void keep(Value &value) {
    __asm__ volatile("" : : "g"(&value) : "memory");
}

/* A value of C that is dropped at the end. */
template <typename Value, void (*Drop)(Value *)> struct held {
    Value value{};
    held() = default;
    held(const held &) = delete;
    held &operator=(const held &) = delete;
    ~held() {
        Drop(&value);
    }
};
using c_list = held<ecow_list, ecow_list_drop>;
using c_text = held<ecow_text, ecow_text_drop>;

/* The least of several runs of a call, in nanoseconds. */
class timing {
public:
    template <typename Call> void run(std::size_t repeats, std::size_t steps, const Call &call) {
        auto start = std::chrono::steady_clock::now();
        for (std::size_t repeat = 0; repeat < repeats; repeat++) {
            call();
        }
        std::chrono::duration<double, std::nano> taken = std::chrono::steady_clock::now() - start;
        least = std::fmin(least, taken.count() / static_cast<double>(repeats * steps));
    }

    double least = HUGE_VAL;
};

/* A row of the table: C, C++, std, std shared. */
struct row {
    const char *what;
    timing cells[4];
};

void print(const row &each) {
    std::printf("| %s |", each.what);
    for (const timing &cell : each.cells) {
        if (cell.least < 10) {
            std::printf(" %.1f |", cell.least);
        } else {
            std::string digits = std::to_string(std::llround(cell.least));
            for (std::size_t at = digits.size(); at > 3; at -= 3) {
                digits.insert(at - 3, ",");
            }
            std::printf(" %s |", digits.c_str());
        }
    }
    std::printf("\n");
}

/* A list of so many sevens, of each kind. */
struct sevens {
    numbers own;
    shared_numbers shared;
    c_list list;
    ecow::list cpp;

    explicit sevens(std::size_t len)
        : own(len, 7), shared(std::make_shared<const numbers>(own)), cpp(own) {
        CHECK(ecow_list_assign(&list.value, own.data(), len) == ECOW_OK);
    }
};

/* Clones of a value of each type, made and dropped. */
template <typename Item, typename Held, typename Cpp, typename Std, typename Clone>
void clones(row &to, std::size_t repeats, const Held &from, const Cpp &cpp, const Std &own,
            const std::shared_ptr<const Std> &shared, Clone clone) {
    to.cells[0].run(repeats, 1, [&] {
        Held copy;
        CHECK(clone(&copy.value, &from.value) == ECOW_OK);
        keep(copy);
    });
    to.cells[1].run(repeats, 1, [&] {
        Cpp copy(cpp);
        keep(copy);
    });
    to.cells[2].run(sizeof(Item) * own.size() > few ? 3 : repeats, 1, [&] {
        Std copy(own);
        keep(copy);
    });
    to.cells[3].run(repeats, 1, [&] {
        std::shared_ptr<const Std> copy(shared);
        keep(copy);
    });
}

void clone_lists(row &to, std::size_t len) {
    sevens of(len);
    clones<std::int64_t>(to, 1000, of.list, of.cpp, of.own, of.shared, ecow_list_clone);
}

void clone_texts(row &to, std::size_t len) {
    std::string own(len, 'a');
    auto shared = std::make_shared<const std::string>(own);
    c_text text;
    CHECK(ecow_text_assign(&text.value, own.data(), len) == ECOW_OK);
    ecow::text cpp(own);
    clones<char>(to, 1000, text, cpp, own, shared, ecow_text_clone);
}

/* A push, on average of a thousand into an empty list. A shared vector is copied for each. */
void pushes(row &to) {
    to.cells[0].run(10, few, [] {
        c_list list;
        for (std::int64_t number = 0; number < static_cast<std::int64_t>(few); number++) {
            CHECK(ecow_list_push(&list.value, number) == ECOW_OK);
        }
        keep(list);
    });
    to.cells[1].run(10, few, [] {
        ecow::list list;
        for (std::int64_t number = 0; number < static_cast<std::int64_t>(few); number++) {
            list.push_back(number);
        }
        keep(list);
    });
    to.cells[2].run(10, few, [] {
        numbers list;
        for (std::int64_t number = 0; number < static_cast<std::int64_t>(few); number++) {
            list.push_back(number);
            keep(list);
        }
    });
    to.cells[3].run(1, few, [] {
        auto list = std::make_shared<const numbers>();
        for (std::int64_t number = 0; number < static_cast<std::int64_t>(few); number++) {
            auto next = std::make_shared<numbers>(*list);
            next->push_back(number);
            list = std::move(next);
        }
        keep(list);
    });
}

void short_texts(row &to) {
    const char *bytes = ten;
    keep(bytes);
    to.cells[0].run(1000, 1, [&] {
        c_text text;
        CHECK(ecow_text_assign(&text.value, bytes, sizeof ten - 1) == ECOW_OK);
        keep(text);
    });
    to.cells[1].run(1000, 1, [&] {
        ecow::text text(bytes, sizeof ten - 1);
        keep(text);
    });
    to.cells[2].run(1000, 1, [&] {
        std::string text(bytes, sizeof ten - 1);
        keep(text);
    });
    to.cells[3].run(1000, 1, [&] {
        auto text = std::make_shared<const std::string>(bytes, sizeof ten - 1);
        keep(text);
    });
}

/* A sum by index, a number. */
void sums(row &to) {
    sevens of(few);
    auto sum = [](timing &time, const auto &items) {
        time.run(100, few, [&] {
            std::int64_t all = 0;
            keep(items);
            for (std::size_t index = 0; index < items.size(); index++) {
                all += items[index];
            }
            CHECK(all == 7 * static_cast<std::int64_t>(few));
        });
    };
    to.cells[0].run(100, few, [&] {
        std::int64_t all = 0;
        keep(of.list);
        for (std::size_t index = 0; index < ecow_list_len(&of.list.value); index++) {
            all += ecow_list_slice(&of.list.value, nullptr)[index];
        }
        CHECK(all == 7 * static_cast<std::int64_t>(few));
    });
    sum(to.cells[1], of.cpp);
    sum(to.cells[2], of.own);
    sum(to.cells[3], *of.shared);
}

/* The lengths of texts of 0 to 20 bytes, a text. */
void lengths(row &to) {
    std::vector<std::string> own;
    ecow::texts cpp;
    for (std::size_t number = 0; number < few; number++) {
        own.emplace_back(number % 20, 'a');
        cpp.push_back(own.back());
    }
    auto shared = std::make_shared<const std::vector<std::string>>(own);
    auto add = [](timing &time, const auto &items) {
        time.run(100, few, [&] {
            std::size_t all = 0;
            keep(items);
            for (std::size_t index = 0; index < items.size(); index++) {
                all += items[index].size();
            }
            CHECK(all == few * 19 / 2);
        });
    };
    to.cells[0].run(100, few, [&] {
        std::size_t all = 0, len = 0;
        keep(cpp);
        for (std::size_t index = 0; index < ecow_texts_len(cpp.c()); index++) {
            (void)ecow_texts_at(cpp.c(), index, &len);
            all += len;
        }
        CHECK(all == few * 19 / 2);
    });
    add(to.cells[1], cpp);
    add(to.cells[2], own);
    add(to.cells[3], *shared);
}

/* Two clones compared. Whoever shares a vector compares pointers first. */
void equal(row &to) {
    numbers own(many, 7), copy(own);
    auto shared = std::make_shared<const numbers>(own);
    auto clone = shared;
    c_list list, other;
    CHECK(ecow_list_assign(&list.value, own.data(), many) == ECOW_OK);
    CHECK(ecow_list_clone(&other.value, &list.value) == ECOW_OK);
    ecow::list cpp(own), cpp_clone(cpp);
    to.cells[0].run(1000, 1, [&] {
        keep(list);
        CHECK(ecow_list_equal(&list.value, &other.value));
    });
    to.cells[1].run(1000, 1, [&] {
        keep(cpp);
        CHECK(cpp == cpp_clone);
    });
    to.cells[2].run(3, 1, [&] {
        keep(own);
        CHECK(own == copy);
    });
    to.cells[3].run(1000, 1, [&] {
        keep(shared);
        CHECK(shared == clone || *shared == *clone);
    });
}

/* A clone of a list of a thousand, in which one number is changed then. */
void changes(row &to) {
    sevens of(few);
    to.cells[0].run(100, 1, [&] {
        c_list copy;
        CHECK(ecow_list_clone(&copy.value, &of.list.value) == ECOW_OK);
        CHECK(ecow_list_set(&copy.value, 3, 1) == ECOW_OK);
        keep(copy);
    });
    to.cells[1].run(100, 1, [&] {
        ecow::list copy(of.cpp);
        copy.set(3, 1);
        keep(copy);
    });
    to.cells[2].run(100, 1, [&] {
        numbers copy(of.own);
        copy[3] = 1;
        keep(copy);
    });
    to.cells[3].run(100, 1, [&] {
        auto copy = std::make_shared<numbers>(*of.shared);
        (*copy)[3] = 1;
        shared_numbers changed(std::move(copy));
        keep(changed);
    });
}

struct hash_c {
    std::size_t operator()(const ecow_text *text) const {
        return static_cast<std::size_t>(ecow_text_hash(text));
    }
};

struct equal_c {
    bool operator()(const ecow_text *left, const ecow_text *right) const {
        return ecow_text_equal(left, right);
    }
};

struct hash_shared {
    std::size_t operator()(const shared_string &string) const {
        return std::hash<std::string>()(*string);
    }
};

struct equal_shared {
    bool operator()(const shared_string &left, const shared_string &right) const {
        return left == right || *left == *right;
    }
};

/* Looks each of a thousand texts of twenty bytes up, by another object than that in the table. */
template <typename Table, typename Keys>
void look_up(timing &to, const Table &table, const Keys &keys) {
    to.run(3, few, [&] {
        std::size_t found = 0;
        for (const auto &key : keys) {
            found += table.find(key)->second;
        }
        CHECK(found == few * (few - 1) / 2);
    });
}

void lookups(row &to) {
    std::unordered_map<const ecow_text *, std::size_t, hash_c, equal_c> c_table;
    std::unordered_map<ecow::text, std::size_t> table;
    std::unordered_map<std::string, std::size_t> std_table;
    std::unordered_map<shared_string, std::size_t, hash_shared, equal_shared> shared_table;
    std::vector<c_text> in_table(few), c_texts(few);
    std::vector<const ecow_text *> c_keys;
    std::vector<ecow::text> keys;
    std::vector<std::string> std_keys;
    std::vector<shared_string> shared_keys;
    for (std::size_t number = 0; number < few; number++) {
        std::string key = std::to_string(number);
        key.insert(0, 20 - key.size(), '-');
        for (c_text *text : {&in_table[number], &c_texts[number]}) {
            CHECK(ecow_text_assign(&text->value, key.data(), key.size()) == ECOW_OK);
        }
        c_table.emplace(&in_table[number].value, number);
        c_keys.push_back(&c_texts[number].value);
        table.emplace(key, number);
        keys.emplace_back(key);
        std_table.emplace(key, number);
        std_keys.push_back(key);
        shared_table.emplace(std::make_shared<const std::string>(key), number);
        shared_keys.push_back(std::make_shared<const std::string>(key));
    }
    look_up(to.cells[0], c_table, c_keys);
    look_up(to.cells[1], table, keys);
    look_up(to.cells[2], std_table, std_keys);
    look_up(to.cells[3], shared_table, shared_keys);
}

} // namespace

int main(int count, char **words) {
    CHECK(count > 1);
    long rounds = std::atol(words[1]);
    if (count > 2) {
        std::thread([] {}).join();
    }
    row rows[] = {
        {"a clone of a list of 10^6 numbers, made and dropped", {}},
        {"a clone of a text of 10^6 bytes", {}},
        {"a clone of a text of 10 bytes", {}},
        {"two clones of 10^6 numbers compared", {}},
        {"a list of 1,000 cloned, and one number changed", {}},
        {"a push to a list, on average of 1,000", {}},
        {"a text of 10 bytes made and dropped", {}},
        {"a text of 20 bytes looked up in a table of 1,000", {}},
        {"a number of 1,000 read by its index", {}},
        {"the length of a text of 1,000 read by its index", {}},
    };
    for (long round = 0; round < rounds; round++) {
        clone_lists(rows[0], many);
        clone_texts(rows[1], many);
        clone_texts(rows[2], 10);
        equal(rows[3]);
        changes(rows[4]);
        pushes(rows[5]);
        short_texts(rows[6]);
        lookups(rows[7]);
        sums(rows[8]);
        lengths(rows[9]);
    }
    for (const row &each : rows) {
        print(each);
    }
}
