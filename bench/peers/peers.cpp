/* Times tasks of the library beside std's types, Qt's and GLib's: peers [ROUNDS].
 *
 * It prints a table. A cell is the least of ROUNDS runs, which take turns after a warm one, in
 * nanoseconds where the row names no other unit; the least of a row is bold. Memory is what malloc
 * has given, with what it keeps beside that. With HAS_QT and HAS_GLIB their types have columns. */
#include "check.hpp"
#include "ecow.hpp"

#ifdef HAS_QT
#include <QByteArray>
#include <QList>
#include <QString>
#endif
#ifdef HAS_GLIB
#include <glib.h>
#endif

#include <algorithm>
#include <chrono>
#include <cmath>
#include <functional>
#include <malloc.h>
#include <memory>
#include <thread>

namespace {

constexpr std::size_t len = 100000;
constexpr std::size_t edits = 1000;
constexpr std::size_t clones = 1000;
constexpr std::size_t appends = 100;
const std::string ten = "ten letter";
const std::string alphabets = "abcdefghijklmnopqrstuvwxyzabcdefghijklmnopqrstuvwxyz";

/* Has the compiler take the value as read and written. */
template <typename Value> void keep(Value &value) {
    __asm__ volatile("" : : "g"(&value) : "memory");
}

/* Nanoseconds of each of the steps that a call makes. */
template <typename Call> double timed(std::size_t steps, const Call &call) {
    auto start = std::chrono::steady_clock::now();
    call();
    std::chrono::duration<double, std::nano> taken = std::chrono::steady_clock::now() - start;
    return taken.count() / static_cast<double>(steps);
}

/* Nanoseconds of a call that is made often. */
template <typename Call> double repeated(std::size_t times, const Call &call) {
    return timed(times, [&] {
        for (std::size_t time = 0; time < times; time++) {
            call();
        }
    });
}

/* The bytes that malloc has given. */
std::size_t held() {
    struct mallinfo2 all = mallinfo2();
    return all.uordblks + all.hblkhd;
}

/* A number with a tenth below ten, and with its thousands apart. */
std::string digits(double number) {
    char text[32];
    std::snprintf(text, sizeof text, number < 9.95 ? "%.1f" : "%.0f", number);
    std::string apart = text;
    if (number >= 9.95) {
        for (std::size_t at = apart.size(); at > 3; at -= 3) {
            apart.insert(at - 3, ",");
        }
    }
    return apart;
}

/* What a column does in a row, and the least that came of it. */
struct cell {
    std::size_t column;
    std::function<double()> run;
    double least = HUGE_VAL;
};

struct row {
    std::string task;
    std::vector<cell> cells;
};

class table {
public:
    table &column(const char *name) {
        columns.push_back(name);
        return *this;
    }

    /* Adds a cell of the last column. The first column has a cell in each row. */
    void add(const std::string &task, std::function<double()> run) {
        auto place = std::find_if(rows.begin(), rows.end(),
                                  [&](const row &each) { return each.task == task; });
        if (place == rows.end()) {
            place = rows.insert(place, {task, {}});
        }
        place->cells.push_back({columns.size() - 1, std::move(run)});
    }

    void run(long rounds) {
        for (long round = 0; round <= rounds; round++) {
            for (row &each : rows) {
                for (cell &part : each.cells) {
                    double taken = part.run();
                    part.least = round ? std::fmin(part.least, taken) : HUGE_VAL;
                }
            }
        }
    }

    void print() const {
        std::printf("| Task (lists have 100,000 numbers) |");
        for (const std::string &name : columns) {
            std::printf(" %s |", name.c_str());
        }
        std::printf("\n|---|");
        for (std::size_t column = 0; column < columns.size(); column++) {
            std::printf("--:|");
        }
        for (const row &each : rows) {
            double least = HUGE_VAL;
            std::vector<std::string> texts(columns.size(), "–");
            for (const cell &part : each.cells) {
                least = std::fmin(least, part.least);
                texts[part.column] = digits(part.least);
            }
            std::printf("\n| %s |", each.task.c_str());
            for (const std::string &text : texts) {
                std::printf(text == digits(least) ? " **%s** |" : " %s |", text.c_str());
            }
        }
        std::printf("\n");
    }

private:
    std::vector<std::string> columns;
    std::vector<row> rows;
};

/* ---- Types that are given the calls of the others ---- */

/* A container of std that owners share, and that a change copies where there are others. */
template <typename Inner> class shared {
public:
    shared() = default;
    shared(const char *start, std::size_t count) : inner(std::make_shared<Inner>(start, count)) {}

    void push_back(const typename Inner::value_type &item) {
        own().push_back(item);
    }

    void append(const char *start, std::size_t count) {
        own().append(start, count);
    }

    typename Inner::value_type &operator[](std::size_t index) {
        return own()[index];
    }

    std::size_t size() const {
        return inner->size();
    }

    auto begin() const {
        return std::as_const(*inner).begin();
    }

    auto end() const {
        return std::as_const(*inner).end();
    }

    friend bool operator==(const shared &left, const shared &right) {
        return left.inner == right.inner || *left.inner == *right.inner;
    }

private:
    Inner &own() {
        if (inner.use_count() > 1) {
            inner = std::make_shared<Inner>(*inner);
        }
        return *inner;
    }

    std::shared_ptr<Inner> inner = std::make_shared<Inner>();
};

#ifdef HAS_GLIB
/* What GLib hands out, which a copy clones. */
template <typename Type, Type *(*Clone)(Type *), void (*Free)(Type *)> class glib {
public:
    explicit glib(Type *start) : pointer(start) {}
    glib(const glib &other) : pointer(Clone(other.pointer)) {}
    glib(glib &&other) noexcept : pointer(std::exchange(other.pointer, nullptr)) {}
    glib &operator=(const glib &) = delete;
    ~glib() {
        if (pointer) {
            Free(pointer);
        }
    }

protected:
    Type *pointer;
};

class glib_list : public glib<GArray, g_array_copy, g_array_unref> {
public:
    glib_list() : glib(g_array_new(FALSE, FALSE, sizeof(std::int64_t))) {}

    void push_back(std::int64_t number) {
        g_array_append_val(pointer, number);
    }

    std::int64_t &operator[](std::size_t index) {
        return g_array_index(pointer, std::int64_t, index);
    }

    const std::int64_t *begin() const {
        return &g_array_index(pointer, std::int64_t, 0);
    }

    const std::int64_t *end() const {
        return begin() + pointer->len;
    }
};

GString *clone_string(GString *string) {
    return g_string_new_len(string->str, static_cast<gssize>(string->len));
}

void free_string(GString *string) {
    g_string_free(string, TRUE);
}

class glib_string : public glib<GString, clone_string, free_string> {
public:
    glib_string() : glib_string("", 0) {}
    glib_string(const char *start, std::size_t count)
        : glib(g_string_new_len(start, static_cast<gssize>(count))) {}

    void append(const char *start, std::size_t count) {
        g_string_append_len(pointer, start, static_cast<gssize>(count));
    }

    std::size_t size() const {
        return pointer->len;
    }

    const char *begin() const {
        return pointer->str;
    }

    const char *end() const {
        return begin() + size();
    }
};

class glib_shared : public glib<char, g_ref_string_acquire, g_ref_string_release> {
public:
    glib_shared(const char *start, std::size_t count)
        : glib(g_ref_string_new_len(start, static_cast<gssize>(count))) {}

    std::size_t size() const {
        return g_ref_string_length(pointer);
    }

    const char *begin() const {
        return pointer;
    }

    const char *end() const {
        return begin() + size();
    }
};
#endif

/* ---- The tasks ---- */

struct point {
    double x, y;
};

/* An item of a list that stands for a number, and that number. */
template <typename Item> Item item(std::size_t number) {
    return static_cast<Item>(number);
}

template <> point item(std::size_t number) {
    return {static_cast<double>(number), 0.5};
}

template <typename Item> Item number(const Item &item) {
    return item;
}

double number(const point &item) {
    return item.x;
}

template <typename List>
using item_of = std::decay_t<decltype(*std::declval<const List &>().begin())>;

template <typename List> void set(List &list, std::size_t index, const item_of<List> &item) {
    list[index] = item;
}

template <typename Item> void set(ecow::vector<Item> &list, std::size_t index, const Item &item) {
    list.set(index, item);
}

template <typename List> void fill(List &list) {
    for (std::size_t at = 0; at < len; at++) {
        list.push_back(item<item_of<List>>(at));
    }
}

/* The numbers of a list are whole, and so is their sum. */
template <typename List> std::int64_t sum(const List &list) {
    decltype(number(*list.begin())) all = 0;
    for (const auto &each : list) {
        all += number(each);
    }
    return static_cast<std::int64_t>(all);
}

/* Where edits go, one after another: all over a list, and never twice to a place. */
std::vector<std::size_t> places(std::size_t count) {
    std::vector<std::size_t> all(count);
    for (std::size_t edit = 0; edit < count; edit++) {
        all[edit] = edit * 61803 % len;
    }
    return all;
}

/* The sum of the numbers from 0, of which edits have set some to the length. */
std::int64_t sum_after(std::size_t count) {
    std::size_t all = len * (len - 1) / 2;
    for (std::size_t place : places(count)) {
        all += len - place;
    }
    return static_cast<std::int64_t>(all);
}

/* Leaves a version before each edit and the last one, and gives the time of an edit. */
template <typename List>
double edit(std::vector<List> &versions, const std::vector<std::size_t> &places) {
    versions.reserve(places.size() + 1);
    fill(versions.emplace_back());
    /* What is kept takes new memory, not what malloc keeps of what was freed. */
    malloc_trim(0);
    return timed(places.size(), [&] {
        for (std::size_t place : places) {
            set(versions.emplace_back(versions.back()), place, item<item_of<List>>(len));
        }
    });
}

/* The tasks of a list, whose name says of what it is. */
template <typename List> void lists(table &to, const std::string &name = "a list") {
    to.add("1,000 edits of " + name + ", each kept as a version: an edit", [] {
        std::vector<List> versions;
        double time = edit(versions, places(edits));
        CHECK(sum(versions.front()) == sum_after(0) && sum(versions.back()) == sum_after(edits));
        return time;
    });
    if (name == "a list") {
        to.add("the same: memory of all versions, MiB", [] {
            std::vector<std::size_t> all = places(edits);
            std::size_t before = held();
            std::vector<List> versions;
            edit(versions, all);
            return static_cast<double>(held() - before) / (1 << 20);
        });
    }
    to.add("edits in place, of " + name + " that nobody shares: an edit", [] {
        List list;
        fill(list);
        std::vector<std::size_t> all = places(len);
        double time = timed(len, [&] {
            for (std::size_t place : all) {
                set(list, place, item<item_of<List>>(len));
            }
        });
        CHECK(sum(list) == sum_after(len));
        return time;
    });
    to.add(name + " cloned, the clone dropped", [] {
        List list;
        fill(list);
        return repeated(clones, [&] {
            List clone(list);
            keep(clone);
        });
    });
    to.add(name + " made by pushes: a push", [] {
        List list;
        double time = timed(len, [&] { fill(list); });
        CHECK(sum(list) == sum_after(0));
        return time;
    });
    to.add("the sum of " + name + " by iteration: a number", [] {
        List list;
        fill(list);
        return repeated(10,
                        [&] {
                            keep(list);
                            CHECK(sum(list) == sum_after(0));
                        })
               / len;
    });
}

template <typename List> void equality(table &to) {
    to.add("a list compared with its clone", [] {
        List list;
        fill(list);
        List clone(list);
        return repeated(clones, [&] {
            keep(list);
            CHECK(list == clone);
        });
    });
}

/* The slices of ten letters, one after another. */
const char *slice(std::size_t number) {
    return alphabets.data() + number % 26;
}

template <typename Text> Text make(const char *start, std::size_t count) {
    return Text(start, count);
}

template <typename Text> bool same(const Text &text, const char *letters) {
    return std::equal(text.begin(), text.end(), letters, letters + ten.size());
}

#ifdef HAS_QT
template <> QString make(const char *start, std::size_t count) {
    return QString::fromUtf8(start, static_cast<qsizetype>(count));
}
#endif

template <typename Text> void fill_texts(std::vector<Text> &texts) {
    texts.reserve(len);
    for (std::size_t number = 0; number < len; number++) {
        texts.push_back(make<Text>(slice(number), ten.size()));
    }
}

template <typename Text> double clone_text(std::size_t count) {
    std::string letters(count, 'a');
    Text text = make<Text>(letters.data(), count);
    CHECK(static_cast<std::size_t>(text.size()) == count);
    return repeated(clones, [&] {
        Text clone(text);
        keep(clone);
    });
}

template <typename Text> void texts(table &to) {
    to.add("100,000 texts of ten letters made of slices: a text", [] {
        std::vector<Text> all;
        double time = timed(len, [&] { fill_texts(all); });
        for (std::size_t number = 0; number < len; number++) {
            CHECK(same(all[number], slice(number)));
        }
        return time;
    });
    to.add("the same: memory of a text, bytes", [] {
        std::size_t before = held();
        std::vector<Text> all;
        fill_texts(all);
        return static_cast<double>(held() - before) / len;
    });
    to.add("a text of ten letters cloned, the clone dropped", [] { return clone_text<Text>(10); });
    to.add("the same with a text of 1,000 letters", [] { return clone_text<Text>(1000); });
}

template <typename Text> void append(Text &text, const char *start, std::size_t count) {
    text.append(start, count);
}

#ifdef HAS_QT
void append(QString &text, const char *start, std::size_t count) {
    text.append(QLatin1String(start, static_cast<qsizetype>(count)));
}
#endif

template <typename Text> void growth(table &to) {
    to.add("a text made by 100 appends of ten letters: an append", [] {
        return repeated(clones,
                        [] {
                            Text text;
                            for (std::size_t time = 0; time < appends; time++) {
                                append(text, ten.data(), ten.size());
                            }
                            CHECK(static_cast<std::size_t>(text.size()) == appends * ten.size());
                            keep(text);
                        })
               / appends;
    });
}

template <typename List, typename Text> void all_tasks(table &to) {
    lists<List>(to);
    equality<List>(to);
    texts<Text>(to);
    growth<Text>(to);
}

template <typename Doubles, typename Points> void typed_tasks(table &to) {
    lists<Doubles>(to, "a list of doubles");
    lists<Points>(to, "a list of points");
}

} // namespace

int main(int count, char **words) {
    long rounds = count > 1 ? std::atol(words[1]) : 15;
    /* A `std::shared_ptr` counts its owners atomically once there was a second thread. */
    std::thread([] {}).join();
    using numbers = std::vector<std::int64_t>;
    using doubles = std::vector<double>;
    using points = std::vector<point>;
    table all;
    all_tasks<ecow::list, ecow::text>(all.column("This library"));
    typed_tasks<ecow::vector<double>, ecow::vector<point>>(all);
    all_tasks<numbers, std::string>(all.column("`std::vector`, `std::string`"));
    typed_tasks<doubles, points>(all);
    all_tasks<shared<numbers>, shared<std::string>>(all.column("`std::shared_ptr` to these"));
    typed_tasks<shared<doubles>, shared<points>>(all);
#ifdef HAS_QT
    all_tasks<QList<qint64>, QString>(all.column("`QList`, `QString`"));
    texts<QByteArray>(all.column("`QByteArray`"));
    growth<QByteArray>(all);
#endif
#ifdef HAS_GLIB
    lists<glib_list>(all.column("`GArray`, `GString`"));
    texts<glib_string>(all);
    growth<glib_string>(all);
    texts<glib_shared>(all.column("`GRefString`"));
#endif
    all.run(rounds);
    all.print();
}
