/* Values of ecow.hpp in eight threads, each with copies of the same ones: threads [ROUNDS]. No
 * thread sees what another wrote, and moved values go from one to the next. Last the deepest values
 * go to a thread that has little stack. */
#include "ecow.hpp"

#include <cstdio>
#include <cstdlib>
#include <functional>
#include <map>
#include <numeric>
#include <pthread.h>
#include <sstream>
#include <string>
#include <thread>
#include <utility>
#include <vector>

struct point {
    double x, y;
};

struct values {
    ecow::list list{1, 2, 3, 4, 5, 6, 7};
    ecow::vector<point> points{{1, 2}, {3, 4}};
    ecow::bytes bytes{200, 100};
    ecow::text text{std::string_view("longer than fifteen bytes")};
};

static bool are_untouched(const values &all) {
    return std::accumulate(all.list.begin(), all.list.end(), std::int64_t{0}) == 28
           && all.points.size() == 2 && all.points[1].y == 4 && all.bytes.size() == 2 && all.text == std::string_view("longer than fifteen bytes");
}

/* Counts the rounds that went wrong, and gives the copies on in `given`. */
static void churn(values given, long rounds, std::int64_t number, values &left, long &wrong) {
    for (long round = 0; round < rounds; round++) {
        values copy(given);
        copy.list.push_back(number);
        copy.list.set(0, round);
        copy.points.push_back({0.5, 7});
        copy.points.set(1, {0.5, static_cast<double>(round)});
        copy.bytes.append({1, 2, 3, 4, 5, 6, 7, 8, 9, 10, 11, 12, 13, 14});
        copy.text += "!";
        bool right = copy.list.size() == 8 && copy.list[7] == number && copy.list[0] == round
                     && copy.points.size() == 3 && copy.points[2].y == 7
                     && copy.points[1].y == static_cast<double>(round)
                     && copy.bytes.size() == 16 && copy.text.size() == 26 && are_untouched(given);
        std::swap(copy.list, left.list);
        wrong += !right;
    }
    left = std::move(given);
}

/* A value that nests as deep as any may: lists, or fields. */
static ecow::value deepest(bool is_list) {
    ecow::value made(7);
    for (std::size_t depth = 0; depth < ECOW_MAX_DEPTH; ++depth) {
        made = is_list
                   ? ecow::value(std::vector<ecow::value>(1, made))
                   : ecow::value(std::map<std::string, ecow::value>{{"a long name for it", made}});
    }
    return made;
}

/* What recurs into two equal values. */
static void *recur(void *given) {
    auto &[left, right] = *static_cast<std::pair<ecow::value, ecow::value> *>(given);
    std::ostringstream written;
    written << left;
    bool is_right = left == right && !(left < right) && written.str().size() > ECOW_MAX_DEPTH
                    && std::hash<ecow::value>()(left) == std::hash<ecow::value>()(right);
    const bool is_list = left.kind() == ecow::kind::list;
    const std::vector<ecow::value::step> path(
        ECOW_MAX_DEPTH, is_list ? ecow::value::step(0) : ecow::value::step("a long name for it"));
    left.update(path, [](ecow::value &part) { part = 8; });
    is_right = is_right && left.at(path) == 8 && right.at(path) == 7;
    left = right = ecow::value();
    return is_right ? given : nullptr;
}

/* Sanitizers have larger frames. GCC defines a name for each, and clang has a test. */
#if defined(__SANITIZE_ADDRESS__) || defined(__SANITIZE_THREAD__)
#define SANITIZED
#elif defined(__has_feature)
#if __has_feature(address_sanitizer) || __has_feature(thread_sanitizer)
#define SANITIZED
#endif
#endif
#ifdef SANITIZED
constexpr std::size_t little = 8 << 20;
#else
constexpr std::size_t little = 128 << 10;
#endif

static bool recurs_on_little_stack(bool is_list) {
    std::pair<ecow::value, ecow::value> twins(deepest(is_list), deepest(is_list));
    pthread_attr_t attributes;
    pthread_t thread;
    void *answered = nullptr;
    bool is_right = pthread_attr_init(&attributes) == 0
                    && pthread_attr_setstacksize(&attributes, little) == 0
                    && pthread_create(&thread, &attributes, recur, &twins) == 0
                    && pthread_join(thread, &answered) == 0;
    pthread_attr_destroy(&attributes);
    return is_right && answered == &twins;
}

int main(int argc, char **argv) {
    constexpr std::size_t threads = 8;
    long rounds = argc > 1 ? std::atol(argv[1]) : 1000, all_wrong = 0;
    std::vector<values> left(threads);
    std::vector<long> wrong(threads);
    {
        values all;
        std::vector<std::thread> running;
        for (std::size_t at = 0; at < threads; at++) {
            running.emplace_back([&, at, mine = all]() mutable {
                churn(std::move(mine), rounds / long{threads}, std::int64_t(at), left[at],
                      wrong[at]);
            });
        }
        for (auto &each : running) {
            each.join();
        }
    }
    for (std::size_t at = 0; at < threads; at++) {
        all_wrong += wrong[at] + !are_untouched(left[at]);
    }
    all_wrong += !recurs_on_little_stack(true) + !recurs_on_little_stack(false);
    std::printf("c++: %ld rounds in threads, %ld wrong\n", rounds, all_wrong);
    return all_wrong != 0;
}
