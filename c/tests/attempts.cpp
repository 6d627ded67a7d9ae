/* What a programmer writes first who knows std's containers: it compiles, and does what it does
 * there. At the end stands what doesn't compile, and c/CPP.md says why. */
#include "check.hpp"

#include <algorithm>
#include <cstring>
#include <map>
#include <set>
#include <unordered_map>

#ifdef __cpp_lib_span
#include <span>
#endif

/* What `*place = item` and std::sort need. */
template <typename Value>
constexpr bool writes_through_iterators =
    std::is_assignable_v<decltype(*std::declval<Value &>().begin()), typename Value::value_type>;

/* What `value[0] = item` needs. */
template <typename Value>
constexpr bool writes_by_index =
    std::is_assignable_v<decltype(std::declval<Value &>()[0]), typename Value::value_type>;

/* What `value.push_back(1)` needs, so that `value.get("a").push_back(1)` isn't lost. */
template <typename Value, typename = void> constexpr bool can_push = false;
template <typename Value>
constexpr bool can_push<Value, std::void_t<decltype(std::declval<Value>().push_back(1))>> = true;

static void texts() {
    ecow::text greeting = "hello", name("Ada");
    greeting = "Hello";
    CHECK(greeting == "Hello" && greeting != name && name < greeting);
    std::string copied(greeting);
    std::string_view seen = greeting;
    CHECK(copied == "Hello" && seen.size() == 5 && std::strcmp(greeting.c_str(), "Hello") == 0);
    auto line = greeting + ", ";
    line += name;
    line += std::string(" and ");
    line += "Bob";
    line += '!';
    CHECK(line == "Hello, Ada and Bob!");
    CHECK(line.find("Ada") == 7 && line.rfind('o') == 16 && line.find("Eve") == line.npos);
    CHECK(line.substr(7, 3) == name && line.starts_with("Hello") && line.ends_with("Bob!"));
    CHECK(line.contains("and") && line.front() == 'H' && line.back() == '!');
    line.insert(0, ">> ").erase(3, 7).replace(3, 3, "Eve");
    CHECK(line == ">> Eve and Bob!");
    line.erase(line.begin());
    line.insert(line.begin(), '<');
    line.resize(6);
    CHECK(line == "<> Eve" && !line.empty());
    ecow::text word(copied.begin(), copied.begin() + 4), stars(3, '*');
    CHECK(word == copied.substr(0, 4) && stars == "***");
}

static void tables_of_texts() {
    std::unordered_map<ecow::text, int> counts;
    counts["one"] = 1;
    counts[std::string("two")] = 2;
    CHECK(counts["one"] == 1 && counts.find("two") != counts.end() && counts.size() == 2);
    std::map<ecow::text, int> sorted(counts.begin(), counts.end());
    CHECK(sorted.begin()->first == "one" && sorted["two"] == 2);
    std::set<ecow::text, std::less<>> words{"one", "two"};
    CHECK(words.find(std::string_view("two")) != words.end() && words.count("three") == 0);
}

static void lists() {
    const std::vector<std::int64_t> numbers{3, 1, 2};
    const std::vector<int> small{3, 1, 2};
    ecow::list list(numbers), same(numbers.begin(), numbers.end()), converted(small);
    CHECK(list == same && list == converted && list == numbers && numbers == list);
    ecow::list zeros(10, 0), ten(10), none;
    CHECK(zeros == ten && zeros.size() == 10 && none.empty() && zeros[9] == 0);
    none.resize(10);
    CHECK(none == zeros);
    list.set(0, 4);
    list.set(1, list[1] + 5);
    CHECK(list == ecow::list{4, 6, 2} && same[0] == 3 && list.front() == 4 && list.back() == 2);
    list.insert(list.begin(), 7);
    list.erase(list.begin() + 1);
    list.push_back(7);
    list.emplace_back(8);
    CHECK(list == ecow::list{7, 6, 2, 7, 8} && erase(list, 7) == 2 && list.at(2) == 8);
    CHECK(erase_if(list, [](auto number) { return number > 7; }) == 1 && list.size() == 2);
    std::int64_t sum = 0;
    for (auto number : list) {
        sum += number;
    }
    for (auto place = list.rbegin(); place != list.rend(); ++place) {
        sum -= *place;
    }
    CHECK(sum == 0 && *list.cbegin() == 6 && *(list.cend() - 1) == 2);
    list.reserve(100);
    CHECK(list.capacity() >= 100);
    list.shrink_to_fit();
    CHECK(list.capacity() == 2);
    list.swap(same);
    std::swap(list, converted);
    CHECK(same == ecow::list{6, 2} && list == numbers && list.pop_back() == 2);
    std::vector<std::int64_t> sorted(list);
    std::sort(sorted.begin(), sorted.end());
    list = sorted;
    CHECK(list == ecow::list{1, 3});
}

static void bytes() {
    ecow::bytes word("abc"), made{1, 2, 255};
    CHECK(word.size() == 3 && word == "abc" && made.back() == 255);
#ifdef __cpp_lib_span
    const int numbers[] = {1, 2};
    ecow::bytes raw(std::as_bytes(std::span<const int>(numbers)));
    std::span<const std::uint8_t> lent = raw;
    CHECK(lent.size() == sizeof numbers);
#endif
}

struct point {
    double x, y;
};

static void vectors() {
    ecow::vector<double> reals{1.5, 0.5}, more = reals;
    ecow::vector<point> points{{1, 2}, {3, 4}};
    std::ptrdiff_t right = 0;
    more.push_back(2);
    points.push_back({5, 6});
    points.emplace_back(point{7, 8});
    for (const auto &[x, y] : points) {
        right += x < y;
    }
    for (double &each : more.edit()) {
        each *= 2;
    }
    std::vector<double> copied(more);
    std::sort(copied.begin(), copied.end());
    CHECK(right == 4 && points.size() == 4 && points.front().x == 1 && more[2] == 4);
    CHECK(reals == ecow::vector<double>{1.5, 0.5} && more == std::vector<double>{3, 1, 4});
    CHECK(reals < more && copied.front() == 1 && std::is_sorted(copied.begin(), copied.end()));
    auto items = reals.edit();
    std::sort(items.begin(), items.end());
    CHECK(reals == ecow::vector<double>{0.5, 1.5});
    std::set<ecow::vector<int>> sets{{1, 2}, {1}, {1, 2}};
    std::unordered_map<ecow::vector<int>, int> counts;
    counts[{1, 2}]++;
    CHECK(sets.size() == 2 && counts[ecow::vector<int>{1, 2}] == 1);
}

static void lists_of_texts() {
    const std::vector<std::string> names{"one", "two"};
    ecow::texts words(names), made{"one", std::string("two")};
    CHECK(words == made && words == names && names == words && words[1] == "two");
    words.push_back("three");
    words.insert(words.begin(), ecow::text("zero"));
    words.erase(words.begin() + 1);
    words.set(0, words[0].substr(0, 2));
    CHECK(words == ecow::texts{"ze", "two", "three"} && words.front().size() == 2);
    std::string all;
    for (const auto &word : words) {
        all += word;
    }
    CHECK(all == "zetwothree" && words.pop_back() == "three" && erase(words, "two") == 1);
    std::vector<std::string> sorted(made.rbegin(), made.rend());
    std::sort(sorted.begin(), sorted.end());
    CHECK(sorted == names && std::find(made.begin(), made.end(), "two") == made.end() - 1);
}

static void nested_values() {
    using ecow::value;
    value numbers = {1, 2, 3}, mixed = {1, 2.5, "three", true, nullptr, numbers};
    value ages = std::map<std::string, int>{{"Ada", 36}, {"Bob", 40}};
    CHECK(numbers.size() == 3 && mixed.get(2) == "three" && mixed.get(5) == numbers);
    CHECK(ages.get("Ada") == 36 && ages.contains("Bob") && !ages.find("Eve"));
    ages.set("Eve", {1, 2});
    numbers.push_back(std::vector<std::string>{"a"});
    std::int64_t sum = 0;
    for (const auto &[name, age] : ages.fields()) {
        sum += age.kind() == ecow::kind::number ? age.number() : 0;
    }
    for (const auto &item : numbers.items()) {
        sum += item.kind() == ecow::kind::list ? 1 : 0;
    }
    CHECK(sum == 77 && ages.take("Eve").size() == 2 && ages.size() == 2);
    value copy(ages), other{ages};
    other = copy;
    CHECK(copy == ages && other.shares(ages));
}

static void values_of_c() {
    ecow_list made = ecow_list_new();
    CHECK(ecow_list_push(&made, 5) == ECOW_OK);
    ecow_list *place = &made;
    ecow::list list(place);
    ecow_list *lent = list.c();
    CHECK(ecow_list_push(lent, 6) == ECOW_OK && list == ecow::list{5, 6});
    made = list.release();
    ecow_list_drop(&made);
    CHECK(list.empty());
}

static_assert(!std::is_convertible_v<ecow::text, std::string>);
static_assert(
    !writes_through_iterators<ecow::list> && writes_through_iterators<std::vector<std::int64_t>>);
static_assert(
    !writes_by_index<
        ecow::list> && !writes_by_index<ecow::text> && writes_by_index<std::vector<std::int64_t>>);
static_assert(!std::is_invocable_v<decltype(&ecow::list::take), ecow::list, ecow::list::iterator>);

static_assert(!writes_through_iterators<ecow::texts> && !writes_by_index<ecow::texts>);
static_assert(can_push<ecow::value &> && !can_push<ecow::value>);
static_assert(!std::is_assignable_v<decltype(ecow::value().get(0)), int>);
static_assert(!std::is_constructible_v<ecow::value, std::size_t>);
static_assert(!std::is_constructible_v<ecow::value, char>);
static_assert(!std::is_convertible_v<ecow::value, std::int64_t>);

int main() {
    try {
        texts();
        tables_of_texts();
        lists();
        bytes();
        vectors();
        lists_of_texts();
        nested_values();
        values_of_c();
    } catch (const std::bad_alloc &) {
        std::puts("no memory");
    }
    std::printf("c++: %ld checks of first attempts\n", checks);
}
