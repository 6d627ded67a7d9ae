/* Every member of ecow.hpp, and each exception. Where memory is refused it ends well too, if the
 * refusal came as std::bad_alloc. */
#include "check.hpp"

#include <algorithm>
#include <array>
#include <deque>
#include <functional>
#include <iterator>
#include <limits>
#include <list>
#include <map>
#include <numeric>
#include <set>
#include <sstream>
#include <unordered_map>
#include <unordered_set>

#ifdef __cpp_lib_span
#include <span>
#endif

using namespace std::string_view_literals;
using ecow::invalid_text;
using std::invalid_argument;
using std::length_error;
using std::out_of_range;

constexpr std::size_t most = std::numeric_limits<std::size_t>::max();

template <typename Value, typename Model>
static bool holds(const Value &value, const Model &model) {
    return value.size() == model.size() && value.empty() == model.empty()
           && std::equal(value.begin(), value.end(), model.begin(), model.end())
           && std::equal(value.cbegin(), value.cend(), model.begin(), model.end())
           && std::equal(value.rbegin(), value.rend(), model.rbegin(), model.rend())
           && std::equal(value.crbegin(), value.crend(), model.rbegin(), model.rend())
           && value.data() + value.size() == &*value.begin() + (value.end() - value.begin());
}

/* Where an iterator that a call returned stands. */
template <typename Value>
static std::ptrdiff_t index_of(const Value &value, typename Value::iterator place) {
    return place - value.begin();
}

/* ---- What lists, bytes and texts have in common ---- */

template <typename Value> static void traits() {
    static_assert(std::is_nothrow_default_constructible_v<Value>);
    static_assert(std::is_nothrow_move_constructible_v<Value>);
    static_assert(std::is_nothrow_move_assignable_v<Value>);
    static_assert(std::is_nothrow_swappable_v<Value>);
    static_assert(
        std::is_same_v<typename std::iterator_traits<typename Value::iterator>::iterator_category,
                       std::random_access_iterator_tag>);
    static_assert(noexcept(std::declval<Value &>().clear()));
    static_assert(noexcept(std::declval<Value &>().release()));
    static_assert(noexcept(std::declval<const Value &>() == std::declval<const Value &>()));
    static_assert(noexcept(std::declval<const Value &>() < std::declval<const Value &>()));
    static_assert(!std::is_assignable_v<decltype(*std::declval<Value &>().begin()), char>);
    static_assert(!std::is_assignable_v<decltype(std::declval<Value &>()[0]), char>);
    /* Nothing but the other kinds of array is a value by chance. */
    static_assert(!std::is_constructible_v<Value, std::nullptr_t>);
    static_assert(!std::is_constructible_v<Value, std::vector<double>>);
    static_assert(!std::is_constructible_v<Value, std::vector<Value>>);
    static_assert(!std::is_convertible_v<std::vector<typename Value::value_type>, Value>);
    static_assert(!std::is_convertible_v<int, Value>);
#ifdef __cpp_lib_ranges
    static_assert(std::contiguous_iterator<typename Value::iterator>);
    static_assert(std::ranges::contiguous_range<Value> && std::ranges::sized_range<Value>);
    static_assert(std::regular<Value> && std::totally_ordered<Value>);
#endif
}

/* `long_enough` takes memory of its own. */
template <typename Value, typename Model> static void copies(const Model &long_enough) {
    const Model few(long_enough.begin(), long_enough.begin() + 3), none;
    Value value(long_enough), copy(value), other;
    CHECK(holds(value, long_enough) && copy == value && copy.data() == value.data());
    CHECK(holds(other, none) && other != value && other < value && other <= value);
    CHECK(value > other && value >= other && value >= copy && value <= copy && !(value < copy));
    CHECK(!(value <= other) && !(other >= value) && !(other > value));
    CHECK(value.shares(copy) && !value.shares(other) && !other.shares(Value()));
    CHECK(!value.shares(Value(long_enough)) && value.capacity() >= value.size());
    CHECK(value.hash() == copy.hash() && std::hash<Value>()(value) == std::hash<Value>()(copy));
    other = copy;
    CHECK(other.data() == value.data());
    other.append(few);
    CHECK(other.data() != value.data() && holds(copy, long_enough) && other > copy
          && other != copy);
    const Value &same = other;
    other = same;
    CHECK(other.size() == long_enough.size() + 3);
    Value moved(std::move(other));
    CHECK(holds(other, none) && moved.size() == long_enough.size() + 3);
    other.append(few);
    CHECK(holds(other, few));
    other = std::move(moved);
    CHECK(holds(moved, none) && other.size() == long_enough.size() + 3);
    std::swap(other, moved);
    CHECK(holds(other, none) && moved.size() == long_enough.size() + 3);
    moved.swap(other);
    CHECK(holds(moved, none) && other.size() == long_enough.size() + 3);
    swap(moved, other);
    other.swap(other);
    CHECK(holds(other, none) && moved.size() == long_enough.size() + 3);
    CHECK(moved.max_size() > moved.size());
}

template <typename Value, typename Model> static void values(const Model &long_enough) {
    const Model few(long_enough.begin(), long_enough.begin() + 3), none;
    Value value(few);
    CHECK(value.front() == few[0] && value.back() == few[2] && value.at(1) == few[1]);
    value.splice(1, 2, long_enough);
    CHECK(value.size() == long_enough.size() + 2 && value[1] == long_enough[0]);
    CHECK(throws<out_of_range>(ECOW_INDEX, [&] { value.splice(2, 1, few); }));
    CHECK(throws<out_of_range>(ECOW_INDEX, [&] { value.splice(0, 999, few); }));
    CHECK(throws<out_of_range>(ECOW_INDEX, [&] { (void)value.at(value.size()); }));
    CHECK(throws<length_error>(ECOW_CAPACITY, [&] { value.reserve(most); }));
    value.truncate(1);
    value.append(value);
    value.reserve(100);
    auto start = value.data();
    value.append(few);
    CHECK(value.size() == 5 && value.data() == start && value[0] == value[1]);
    value.assign(value);
    value.assign(value.begin() + 2, value.end());
    CHECK(holds(value, few));
    value.insert(value.end(), value.begin(), value.begin() + 1);
    value.insert(value.begin(), value);
    CHECK(value.size() == 8 && value[0] == few[0] && value[3] == few[0] && value[7] == few[0]);
    value.reserve(100);
    CHECK(value.capacity() >= 100);
    value.shrink_to_fit();
    CHECK(value.size() == 8 && value.capacity() <= 15);
    value.clear();
    CHECK(holds(value, none));
}

/* Each way to give items: all give 1, 2, 3. */
template <typename Value, typename Three> static void given(const Three &three) {
    using item = typename Value::value_type;
    const std::array<item, 3> wanted{item(1), item(2), item(3)};
    Value made(three), assigned, appended, inserted, between(three.begin(), three.end());
    assigned = three;
    CHECK(holds(made, wanted) && holds(assigned, wanted) && holds(between, wanted));
    assigned.clear();
    assigned.assign(three);
    appended.append(three);
    CHECK(index_of(inserted, inserted.insert(inserted.begin(), three)) == 0);
    CHECK(holds(assigned, wanted) && holds(appended, wanted) && holds(inserted, wanted));
    assigned.assign(three.begin(), three.end());
    appended.append(three.begin(), three.end());
    auto last = inserted.insert(inserted.end(), three.begin(), three.end());
    CHECK(index_of(inserted, last) == 3);
    CHECK(holds(assigned, wanted) && appended.size() == 6 && inserted.size() == 6);
    CHECK(appended == inserted && appended[5] == item(3) && inserted[3] == item(1));
}

template <typename Value> static void ways() {
    using item = typename Value::value_type;
    given<Value>(std::vector<item>{1, 2, 3});
    given<Value>(std::array<item, 3>{1, 2, 3});
    given<Value>(std::initializer_list<item>{1, 2, 3});
    given<Value>(std::list<item>{1, 2, 3});
    given<Value>(std::deque<item>{1, 2, 3});
    given<Value>(std::set<item>{1, 2, 3});
    given<Value>(Value{1, 2, 3});
    std::istringstream numbers("1\n2\n3\n");
    Value read{std::istream_iterator<char>(numbers), std::istream_iterator<char>()};
    CHECK(read.size() == 3 && read[2] == '3');
#ifdef __cpp_lib_span
    const item some[] = {1, 2, 3};
    given<Value>(std::span<const item>(some));
    given<Value>(std::span(some));
    Value three(some);
    std::span<const item> lent = three;
    CHECK(lent.data() == three.data() && lent.size() == 3);
#endif
    Value value = {1, 2, 3};
    value = {4, 5};
    CHECK(value == Value{4, 5});
    value.assign({6});
    value.append({7, 8}).append(2, 9);
    CHECK(value == Value{6, 7, 8, 9, 9} && value != Value{6, 7, 8, 9});
    CHECK(index_of(value, value.insert(value.begin() + 1, {1, 2})) == 1);
    CHECK(index_of(value, value.insert(value.end(), 2, 3)) == 7);
    CHECK(index_of(value, value.insert(value.begin(), 5)) == 0);
    CHECK(value == Value{5, 6, 1, 2, 7, 8, 9, 9, 3, 3});
    CHECK(index_of(value, value.erase(value.begin() + 1)) == 1);
    CHECK(index_of(value, value.erase(value.begin() + 1, value.begin() + 3)) == 1);
    CHECK(index_of(value, value.erase(value.end(), value.end())) == 7);
    CHECK(value == Value{5, 7, 8, 9, 9, 3, 3});
    CHECK(throws<out_of_range>(ECOW_INDEX, [&] { value.erase(value.end()); }));
    CHECK(throws<out_of_range>(ECOW_INDEX, [&] { value.insert(value.end() + 1, 1); }));
    CHECK(erase(value, item(9)) == 2 && erase(value, item(100)) == 0);
    CHECK(erase_if(value, [](auto each) { return each > 6; }) == 2);
    CHECK(value == Value{5, 3, 3});
    value.resize(5);
    value.resize(6, 1);
    CHECK(value == Value{5, 3, 3, 0, 0, 1});
    value.resize(2, 7);
    value.resize(1);
    CHECK(value == Value{5} && value.assign(3, 2) == Value(3, 2));
    /* More than one part of a filling. */
    value.assign(129, 7);
    value.append(64, 6).append(1, 5);
    CHECK(value.size() == 194 && std::count(value.begin(), value.end(), 7) == 129);
    CHECK(value[128] == 7 && value[129] == 6 && value[192] == 6 && value[193] == 5);
    auto start = value.data();
    value.reserve(value.size());
    value.reserve(3);
    CHECK(value.data() == start && value.size() == 194);
    value.assign({});
    CHECK(value.empty() && Value(std::size_t{0}, 1).empty() && Value{}.empty());
    value = {};
    CHECK(value.empty());
    CHECK(throws<invalid_argument>(ECOW_NULL, [] {
        typename Value::c_type *nowhere = nullptr;
        Value made(nowhere);
    }));
}

template <typename Value> static void iterators() {
    const Value value{1, 2, 3, 4};
    auto first = value.begin(), place = first;
    CHECK(*place++ == 1 && *place == 2 && *++place == 3 && *place-- == 3 && *--place == 1);
    place += 3;
    CHECK(*place == 4 && place[-2] == 2 && *(place - 1) == 3 && *(first + 1) == *(1 + first));
    place -= 2;
    CHECK(*place == 2 && place - first == 1 && first - place == -1
          && place.operator->() == &*place);
    CHECK(first < place && !(place < first) && !(first < first) && first <= first);
    CHECK(place > first && !(first > place) && !(first > first) && first >= first);
    CHECK(place >= first && !(first >= place) && first <= place && !(place <= first));
    CHECK(first == value.cbegin() && first != place && !(first == place) && !(first != first));
    CHECK(value.end() - value.begin() == 4 && value.rbegin()[0] == 4 && value.crend()[-1] == 1);
    typename Value::iterator none;
    CHECK(none == typename Value::const_iterator() && none != first);
}

/* Values that are handed to C and come back. */
template <typename Value, typename Model> static void of_c(const Model &long_enough) {
    Value value(long_enough), copy(value);
    typename Value::c_type owned = value.release();
    CHECK(value.empty() && *copy.c()->word == *owned.word);
    Value back(&owned);
    CHECK(holds(back, long_enough) && *owned.word == *Value().c()->word);
    value = Value(back.release());
    owned = value.release();
    Value again(std::move(owned));
    const Value &read = again;
    CHECK(holds(read, long_enough) && *owned.word == *Value().c()->word && read.c() == again.c());
}

/* ---- Lists and bytes ---- */

template <typename Value> static void items() {
    using item = typename Value::value_type;
    Value value{3, 1, 2};
    const Value kept(value);
    value.push_back(7);
    CHECK(value.emplace_back(4) == 4 && value.emplace_back() == 0);
    CHECK(index_of(value, value.emplace(value.begin() + 1, 6)) == 1 && value[1] == 6);
    CHECK(index_of(value, value.erase(value.begin() + 1)) == 1);
    value.set(1, 9);
    CHECK(value == Value{3, 9, 2, 7, 4, 0} && value.pop_back() == 0 && value.take(1) == 9);
    CHECK(value == Value{3, 2, 7, 4} && kept == Value{3, 1, 2});
    value.splice(0, 1, {8, 8});
    CHECK(holds(value, std::array{8, 8, 2, 7, 4}));
    CHECK(throws<out_of_range>(ECOW_INDEX, [&] { value.take(5); }));
    CHECK(throws<out_of_range>(ECOW_INDEX, [&] { value.set(5, 1); }));
    CHECK(throws<out_of_range>(ECOW_INDEX, [] { Value().pop_back(); }));
    CHECK(Value(2) == Value{0, 0} && Value(0).empty());
    given<Value>(std::vector<signed char>{1, 2, 3});
    given<Value>(std::set<char>{1, 2, 3});
    if constexpr (sizeof(item) > 1) {
        given<Value>(std::vector<int>{1, 2, 3});
        given<Value>(std::array<unsigned short, 3>{1, 2, 3});
    }
    if constexpr (sizeof(item) > 4) {
        given<Value>(std::set<long long>{1, 2, 3});
        given<Value>(std::deque<unsigned>{1, 2, 3});
    }
    std::vector<item> copied(value);
    CHECK(copied == std::vector<item>{8, 8, 2, 7, 4} && value == copied && copied == value);
    CHECK(static_cast<std::vector<item>>(kept).size() == 3);
    copied.push_back(1);
    CHECK(value != copied && value < copied && copied > value && value <= copied);
    CHECK(value == std::array<item, 5>{8, 8, 2, 7, 4} && value < std::initializer_list<item>{9}
          && !(value >= std::array<item, 1>{9}));
    const item some[] = {8, 8, 2, 7, 3};
    CHECK(value != some && value > some && some < value && Value(some) == some);
#ifdef __cpp_lib_span
    CHECK(value != std::span(some) && std::span(some) < value);
#endif
#ifdef __cpp_impl_three_way_comparison
    CHECK((value <=> kept) > 0 && (kept <=> value) < 0 && (value <=> value) == 0);
    CHECK((value <=> copied) < 0 && (copied <=> value) > 0 && (some <=> value) < 0);
#endif
    CHECK(std::accumulate(value.begin(), value.end(), 0) == 29);
    CHECK(std::find(value.begin(), value.end(), 7) - value.begin() == 3);
    std::map<Value, int> sorted{{value, 1}, {kept, 2}};
    std::unordered_map<Value, int> hashed{{value, 1}, {kept, 2}};
    std::set<Value, std::less<>> found{value, kept};
    CHECK(sorted.begin()->second == 2 && hashed[Value{3, 1, 2}] == 2 && hashed.size() == 2);
    CHECK(found.count(std::vector<item>{3, 1, 2}) == 1 && found.count(copied) == 0);
}

/* No number is cut: another type's numbers are taken where all of them fit. */
template <typename Value, typename Item>
constexpr bool takes = std::is_constructible_v<Value, std::vector<Item>> &&std::is_constructible_v<
    Value, Item *, Item *> &&std::is_assignable_v<Value &, std::deque<Item>>;
template <typename Value, typename Item>
constexpr bool refuses =
    !std::is_constructible_v<
        Value,
        std::vector<
            Item>> && !std::is_constructible_v<Value, Item *, Item *> && !std::is_assignable_v<Value &, std::deque<Item>>;
static_assert(takes<ecow::list, short> && takes<ecow::list, unsigned> && takes<ecow::list, long>);
static_assert(takes<ecow::list, bool> && takes<ecow::list, unsigned char>);
static_assert(refuses<ecow::list, unsigned long> && refuses<ecow::list, unsigned long long>);
static_assert(refuses<ecow::list, double> && refuses<ecow::bytes, float>);
static_assert(takes<ecow::bytes, unsigned char> && takes<ecow::bytes, char>);
static_assert(refuses<ecow::bytes, int> && refuses<ecow::bytes, short>);
static_assert(refuses<ecow::bytes, unsigned> && refuses<ecow::bytes, char16_t>);

/* What is written through `edit()` is the value's own: its copies keep their items, and a sole value
 * keeps its memory. */
template <typename Value>
static void edits_in_place(const std::vector<typename Value::value_type> &numbers) {
    static_assert(std::is_nothrow_copy_constructible_v<Value>);
    static_assert(std::is_nothrow_copy_assignable_v<Value>);
    Value value(numbers.begin(), numbers.end()), none;
    CHECK(none.edit().empty() && none.edit().size() == 0);
    const auto *before = value.data();
    CHECK(value.edit().data() == before && value.edit().size() == numbers.size());
    const Value copy = value;
    before = copy.data();
    auto items = value.edit();
    CHECK(items.data() == value.data() && copy.data() == before && items.data() != before);
    std::sort(items.begin(), items.end());
    CHECK(std::is_sorted(value.begin(), value.end()) && holds(copy, numbers));
    items[0] = 7;
    CHECK(value[0] == 7 && !value.shares(copy));
#ifdef __cpp_lib_ranges
    std::ranges::sort(value.edit(), std::greater<>());
    CHECK(std::is_sorted(value.begin(), value.end(), std::greater<>()) && holds(copy, numbers));
#endif
#ifdef __cpp_lib_span
    std::span<typename Value::value_type> spanned = value.edit();
    spanned[1] = 9;
    CHECK(value[1] == 9 && spanned.data() == value.data());
#endif
}

static void only_bytes() {
    using ecow::bytes;
    const bytes abc("abc"), mixed{200, 'a', 0};
    CHECK(abc.size() == 3 && abc == "abc" && "abc" == abc && abc == "abc"sv && abc < "abd");
    CHECK(abc == std::string("abc") && abc == ecow::text("abc") && ecow::text("abc") == abc);
    CHECK(bytes("abc"sv) == abc && bytes(std::string("abc")) == abc && mixed > abc);
    CHECK(bytes(ecow::text("abc")) == abc && bytes(mixed.begin() + 1, mixed.end()) == "a\0"sv);
    const std::byte raw[] = {std::byte{200}, std::byte{'a'}, std::byte{0}};
    CHECK(bytes(raw) == mixed && mixed == raw && bytes(std::begin(raw), std::end(raw)) == mixed);
    const signed char negative[] = {-56, 97, 0};
    CHECK(bytes(negative) == mixed && bytes(std::vector<char>{'a', 'b', 'c'}) == abc);
    bytes grown("ab");
    grown = "xyz";
    grown.append("!").insert(grown.begin(), "<"sv);
    CHECK(grown == "<xyz!");
#ifdef __cpp_lib_span
    const int numbers[] = {1, 2};
    CHECK(bytes(std::as_bytes(std::span(numbers))).size() == 2 * sizeof(int));
#endif
    static_assert(!std::is_constructible_v<ecow::list, const char *>);
    static_assert(!std::is_constructible_v<ecow::list, std::string_view>);
}

/* ---- Vectors of any items ---- */

/* A struct of the program's, with operators and a hash of its own: the name doesn't count. */
struct point {
    double x, y;
    char name;

    friend bool operator==(const point &left, const point &right) {
        return left.x == right.x && left.y == right.y;
    }

    friend bool operator<(const point &left, const point &right) {
        return left.x < right.x || (left.x == right.x && left.y < right.y);
    }

#ifdef __cpp_impl_three_way_comparison
    friend std::partial_ordering operator<=>(const point &left, const point &right) {
        return left.x == right.x ? left.y <=> right.y : left.x <=> right.x;
    }
#endif
};

template <> struct std::hash<point> {
    std::size_t operator()(const point &hashed) const noexcept {
        return std::hash<double>()(hashed.x + hashed.y);
    }
};

/* One without an operator, without a hash, and that isn't made of nothing. */
struct alignas(16) plain {
    explicit plain(int given) : number(given) {}

    int number;
};

template <typename Value, typename = void> constexpr bool has_equal = false;
template <typename Value>
constexpr bool has_equal<
    Value, std::void_t<decltype(std::declval<const Value &>() == std::declval<const Value &>())>> =
    true;

template <typename Value, typename = void> constexpr bool has_less = false;
template <typename Value>
constexpr bool has_less<
    Value, std::void_t<decltype(std::declval<const Value &>() < std::declval<const Value &>())>> =
    true;

static void vectors_of_structs() {
    using points = ecow::vector<point>;
    points some{{3, 4, 'a'}, {1, 2, 'b'}, {1, 0, 'c'}};
    const points copy = some;
    CHECK(some.shares(copy) && some.size() == 3 && some[1].name == 'b' && some.at(2).y == 0);
    auto items = some.edit();
    std::sort(items.begin(), items.end());
    CHECK(some[0].name == 'c' && some[2].name == 'a' && copy[0].name == 'a' && !some.shares(copy));
    CHECK(some != copy && some < copy && copy > some && some <= copy && !(some >= copy));
    some.set(0, {1, 0, 'd'});
    some.push_back({5, 5, 'e'});
    CHECK(some.emplace_back().x == 0 && some.pop_back().y == 0 && some.back().name == 'e');
    some.push_back(some.front());
    some.insert(some.begin(), some[3]);
    CHECK(some.size() == 6 && some.front().name == 'e' && some.back().name == 'd');
    CHECK(some.take(0).name == 'e' && erase(some, point{5, 5, 'x'}) == 1 && some.size() == 4);
    CHECK(erase_if(some, [](const point &each) { return each.x > 1; }) == 1);
    /* Equal ones differ in their names, and so in their bytes. */
    points alike{{1, 0, 'x'}, {1, 2, 'y'}, {1, 0, 'z'}};
    CHECK(some == alike && some.hash() == alike.hash() && !some.shares(alike));
    CHECK(some == std::vector<point>(alike) && std::vector<point>(alike) == some);
    std::unordered_map<points, int> hashed{{some, 1}};
    std::map<points, int> sorted{{some, 1}, {copy, 2}};
    CHECK(hashed[alike] == 1 && hashed.size() == 1 && sorted[alike] == 1 && sorted.size() == 2);
    some.assign(200, {7, 7, 'w'});
    CHECK(some.size() == 200 && some[199].name == 'w' && some.max_size() == PTRDIFF_MAX / sizeof(point));
    some.resize(2);
    some.resize(3);
    CHECK(some[1].x == 7 && some[2].x == 0 && some[2].name == 0);
    const points between(copy.begin() + 1, copy.end());
    CHECK(between.size() == 2 && between[0].name == 'b' && points(3)[2].y == 0);
#ifdef __cpp_lib_ranges
    std::ranges::sort(some.edit(), std::greater<>(), &point::x);
    CHECK(some[0].x == 7 && some[2].x == 0 && (some <=> copy) > 0 && (some <=> some) == 0);
    static_assert(std::is_same_v<decltype(some <=> some), std::partial_ordering>);
#endif
}

static void vectors_of_others() {
    const double nan = std::numeric_limits<double>::quiet_NaN();
    ecow::vector<double> reals{0.5, -0.0, nan}, copy = reals;
    CHECK(reals.shares(copy) && reals != copy && !(reals < copy) && !(copy < reals));
    reals.pop_back();
    copy = {0.5, 0.0};
    CHECK(reals == copy && reals.hash() == copy.hash() && reals <= copy);
    CHECK(ecow::vector<double>(std::vector<float>{1.5f})[0] == 1.5
          && ecow::vector<double>(std::vector<int>{7})[0] == 7);
    const ecow::vector<float> floats{2, 1.5f};
    CHECK(floats == std::array<float, 2>{2, 1.5f} && floats[1] == 1.5f);
    ecow::vector<std::array<char, 3>> words{{'o', 'n', 'e'}, {'t', 'w', 'o'}};
    words.push_back({'t', 'e', 'n'});
    auto three = words.edit();
    std::sort(three.begin(), three.end());
    CHECK(words[1] == std::array{'t', 'e', 'n'} && words.size() == 3 && words.data()[2][0] == 't');
    ecow::vector<plain> plains;
    plains.push_back(plain(1));
    plains.append(70, plain(2)).insert(plains.begin(), plain(3));
    CHECK(plains.pop_back().number == 2 && plains.take(0).number == 3 && plains.size() == 70);
    CHECK(plains[0].number == 1 && reinterpret_cast<std::uintptr_t>(plains.data()) % 16 == 0);
    const ecow::vector<plain> empty;
    CHECK(reinterpret_cast<std::uintptr_t>(empty.data()) % 16 == 0 && empty.empty());
    ecow::vector<bool> flags(std::vector<bool>{true, false});
    flags.push_back(true);
    CHECK(flags == ecow::vector<bool>{true, false, true} && erase(flags, true) == 2);
    CHECK(!flags[0] && flags.size() == 1 && std::vector<bool>(flags).size() == 1);
    ecow::vector<int *> pointers(2, nullptr);
    int number = 5;
    pointers.set(1, &number);
    CHECK(*pointers[1] == 5 && pointers[0] == nullptr);
    ecow::vector<char> letters("abc");
    CHECK(letters == "abc" && letters > "ab" && letters < std::string("abd"));
    static_assert(std::is_same_v<ecow::vector<std::int64_t>, ecow::list>);
    static_assert(std::is_same_v<ecow::vector<std::uint8_t>, ecow::bytes>);
    static_assert(std::is_same_v<ecow::vector<ecow::text>, ecow::texts>);
    static_assert(std::is_same_v<ecow::vector<double>::c_type, ecow_array>);
    static_assert(has_equal<ecow::vector<double>> && !has_equal<ecow::vector<plain>>);
    static_assert(has_less<ecow::vector<int *>> && !has_less<ecow::vector<plain>>);
    static_assert(std::is_default_constructible_v<std::hash<ecow::vector<float>>>);
    static_assert(!std::is_default_constructible_v<std::hash<ecow::vector<plain>>>);
    static_assert(noexcept(floats == floats) && !noexcept(words == words));
    /* Another array of items of another size. */
    ecow_array made = ecow_array_new();
    if (ecow_array_assign(&made, 3, "abc", 1) != ECOW_OK) {
        throw std::bad_alloc();
    }
    ecow::vector<std::int32_t> wrong(&made);
    CHECK(throws<ecow::wrong_kind>(ECOW_KIND, [&] { wrong.push_back(1); }));
}

static_assert(takes<ecow::vector<double>, float> && takes<ecow::vector<double>, int>);
static_assert(refuses<ecow::vector<double>, long> && refuses<ecow::vector<double>, long double>);
static_assert(takes<ecow::vector<float>, short> && refuses<ecow::vector<float>, int>);
static_assert(refuses<ecow::vector<float>, double> && refuses<ecow::vector<int>, float>);
static_assert(takes<ecow::vector<int>, char16_t> && refuses<ecow::vector<int>, unsigned>);
static_assert(refuses<ecow::vector<bool>, char> && refuses<ecow::vector<point>, char>);
static_assert(refuses<ecow::vector<int *>, char> && refuses<ecow::vector<int *>, long>);

/* ---- Texts ---- */

static void texts_are_made() {
    using ecow::text;
    const std::string string = "caf\u00e9";
    const std::string_view view = string;
    const text cafe = "caf\u00e9", from_string = string, from_list = {'a', 'b'};
    CHECK(cafe == view && from_string == view && from_list == "ab" && text(view) == view);
    CHECK(text("abcdef", 2) == "ab" && text(3, 'x') == "xxx" && text(cafe) == view);
    CHECK(text(string.begin(), string.end()) == view && text(view.begin(), view.end()) == view);
    CHECK(text(cafe.begin(), cafe.begin() + 3) == "caf" && text(ecow::bytes("abc")) == "abc");
    CHECK(text(std::vector<char>{'a', 'b'}) == "ab" && text(std::array{'a', 'b'}) == "ab");
    CHECK(text(std::list<char>{'a', 'b'}) == "ab" && text(std::vector<std::byte>()).empty());
    static_assert(std::is_convertible_v<const char *, text>);
    static_assert(std::is_convertible_v<std::string, text>);
    static_assert(!std::is_convertible_v<std::string_view, text>);
    static_assert(std::is_convertible_v<const text &, std::string_view>);
    static_assert(!std::is_convertible_v<text, std::string_view>);
    static_assert(!std::is_convertible_v<text, std::string>);
    static_assert(!std::is_constructible_v<text, std::u32string>);
    static_assert(!std::is_constructible_v<text, std::vector<int>>);
    static_assert(!std::is_constructible_v<text, int>);
    text assigned;
    assigned = "def";
    CHECK(assigned == "def");
    assigned = string;
    CHECK(assigned == view);
    assigned = view.substr(3);
    CHECK(assigned == "\u00e9");
    assigned = std::vector<char>{'x'};
    CHECK(assigned == "x" && assigned.assign("abcd", 3) == "abc"
          && assigned.assign(2, 'y') == "yy");
    assigned = {'a', 'b'};
    CHECK(assigned == "ab" && assigned.assign(view.begin(), view.begin() + 2) == "ca");
    assigned = cafe;
    CHECK(assigned.data() == cafe.data() || assigned.size() <= 15);
    std::string_view seen = assigned;
    std::string copied(assigned);
    CHECK(copied == view);
    copied += assigned;
    CHECK(assigned + "x" == "caf\u00e9x" && copied.append(assigned).size() == 15);
    copied.resize(10);
    CHECK(seen == view && seen.data() == assigned.data() && copied == "caf\u00e9caf\u00e9");
    std::ostringstream out;
    out << assigned << '.';
    CHECK(out.str() == "caf\u00e9.");
}

static void texts_are_compared() {
    const ecow::text text = "m\u00e9";
    const std::string same = "m\u00e9", more = "n";
    CHECK(text == same && same == text && text == std::string_view(same) && text == same.c_str());
    CHECK(text != more && more != text && text < more && more > text && text <= more);
    CHECK(text != "m" && "m" != text && text > "m" && "m" < text && text >= "m" && "m" <= text);
    CHECK(text > "mz" && text < "m\u00ea" && text == std::vector<char>(same.begin(), same.end()));
    CHECK(text.compare(same) == 0 && text.compare("n") < 0 && text.compare("m") > 0);
#ifdef __cpp_impl_three_way_comparison
    CHECK((text <=> same) == 0 && (text <=> "n") < 0 && ("n" <=> text) > 0);
    static_assert(std::is_same_v<decltype(text <=> text), std::strong_ordering>);
#endif
}

static void texts_grow() {
    const ecow::text abc = "abc";
    const std::string def = "def";
    CHECK(abc + "x" == "abcx" && abc + def == "abcdef" && abc + "d"sv == "abcd");
    CHECK("x" + abc == "xabc" && def + abc == "defabc" && "d"sv + abc == "dabc");
    CHECK(abc + 'd' == "abcd" && 'd' + abc == "dabc" && abc + abc == "abcabc");
    CHECK(abc + U'\u00e9' + abc == "abc\u00e9abc" && abc == "abc");
    ecow::text text = "b";
    text += "x";
    text += std::string("y");
    text += 'c';
    text += U'\u00e9';
    text += {'!', '?'};
    CHECK(text == "bxyc\u00e9!?");
    text += text;
    CHECK(text.size() == 16 && text == "bxyc\u00e9!?bxyc\u00e9!?");
    CHECK(text.append("xyz", 2).append("z").append(2, '.').size() == 21);
    CHECK(text.append(abc.begin(), abc.end()).append(def).substr(16) == "xyz..abcdef");
    text = "ad";
    CHECK(text.insert(1, "bc") == "abcd" && text.insert(4, std::string("e")) == "abcde");
    CHECK(text.insert(0, 2, '.') == "..abcde" && *text.insert(text.begin(), 'x') == 'x');
    CHECK(index_of(text, text.insert(text.end(), 2, 'y')) == 8);
    CHECK(text == "x..abcdeyy" && text.erase(0, 3) == "abcdeyy" && text.erase(5) == "abcde");
    CHECK(*text.erase(text.begin()) == 'b');
    CHECK(index_of(text, text.erase(text.begin() + 2, text.end())) == 2);
    CHECK(text == "bc" && text.replace(0, 1, "aaa") == "aaac" && text.replace(3, 99, "") == "aaa");
    CHECK(text.replace(text.begin() + 1, text.begin() + 2, "\u00e9") == "a\u00e9a");
    CHECK(text.replace(text.begin() + 3, text.end(), "") == "a\u00e9");
    text.insert(1, text);
    CHECK(text == "aa\u00e9\u00e9" && text.erase().empty() && text.erase(0).empty());
    text = "one two";
    text.splice(0, 3, "three"sv);
    text.truncate(6);
    CHECK(text == "three " && erase(text, 'e') == 2 && text == "thr ");
    text.resize(6, '.');
    CHECK(text == "thr .." && erase_if(text, [](char each) { return each == '.'; }) == 2);
    text.resize(5);
    CHECK(text == "thr \0"sv);
}

static void texts_are_searched() {
    const ecow::text text = "one two one";
    constexpr auto npos = ecow::text::npos;
    CHECK(text.find("one") == 0 && text.find("one", 1) == 8 && text.find("no") == npos);
    CHECK(text.find('t') == 4 && text.find('t', 5) == npos && text.find("") == 0);
    CHECK(text.rfind("one") == 8 && text.rfind("one", 7) == 0 && text.rfind("no") == npos);
    CHECK(text.rfind('o') == 8 && text.rfind('t', 3) == npos && text.find(std::string("two")) == 4);
    CHECK(text.contains("two") && !text.contains("three") && text.contains('w'));
    CHECK(text.starts_with("one") && !text.starts_with("two") && text.starts_with('o'));
    CHECK(text.ends_with(" one") && !text.ends_with("two") && text.ends_with('e'));
    CHECK(!text.ends_with("one two one two") && !text.starts_with("one two one two"));
    CHECK(!ecow::text().starts_with('o') && !ecow::text().ends_with('o') && text.contains(text));
    CHECK(text.substr(4, 3) == "two" && text.substr(8) == "one" && text.substr() == text);
    CHECK(text.substr(11).empty() && text.substr(9, 99) == "ne" && text.length() == 11);
}

static void texts_are_looked_up() {
    std::unordered_map<ecow::text, int> counts;
    counts["abc"]++;
    counts[std::string("abc")]++;
    CHECK(counts.find("abc")->second == 2 && counts.count("x") == 0);
    CHECK(std::hash<ecow::text>()("abc") == std::hash<std::string_view>()("abc"));
    CHECK(ecow::text_hash()("abc"sv) == ecow::text_hash()(ecow::text("abc")));
    std::set<ecow::text, std::less<>> words{"one", "two"};
    std::map<ecow::text, int, std::less<>> ranks{{"one", 1}, {"two", 2}};
    CHECK(words.find("one"sv) != words.end() && words.find("three"sv) == words.end());
    CHECK(ranks.find(std::string("two"))->second == 2 && ranks.find("x") == ranks.end());
    std::unordered_map<ecow::text, int, ecow::text_hash, std::equal_to<>> table{{"one", 1}};
    std::unordered_set<ecow::text, ecow::text_hash, std::equal_to<>> set{"one"};
    CHECK(table.count("one") == 1 && set.count("one") == 1);
#ifdef __cpp_lib_generic_unordered_lookup
    CHECK(table.find("one"sv)->second == 1 && table.find("two"sv) == table.end());
    CHECK(table.contains(std::string("one")) && set.contains("one"sv) && !set.contains("two"));
#endif
}

static void texts_have_characters() {
    ecow::text text = "caf\u00e9";
    CHECK(text.get(3) == U'\u00e9' && text.at(3) == '\xc3' && text.back() == '\xa9');
    CHECK(text.is_boundary(3) && !text.is_boundary(4) && text.is_boundary(5));
    text.push_back(U'\u20ac');
    text.push_back('!');
    CHECK(text.pop_back() == U'!' && text.pop_back() == U'\u20ac');
    CHECK(text.take(2) == U'f' && text.take(2) == U'\u00e9' && text == "ca");
    text = "uncaf\u00e9!uncaf\u00e9!";
    text.replace("un", "ein ");
    text.to_uppercase();
    CHECK(text == "EIN CAF\u00c9!EIN CAF\u00c9!");
    text.to_lowercase();
    text.truncate(3);
    text.repeat(2);
    CHECK(text == "einein" && std::string_view(text.c_str()) == "einein");
    text.push_back(char32_t(0));
    CHECK(throws<invalid_text>(ECOW_INNER_NUL, [&] { (void)text.c_str(); }));
}

static void texts_refuse() {
    ecow::text text = "\u00e9\u00e9";
    const ecow::text kept(text);
    CHECK(throws<invalid_text>(ECOW_BOUNDARY, [&] { text.truncate(1); }));
    CHECK(throws<invalid_text>(ECOW_BOUNDARY, [&] { text.resize(3); }));
    CHECK(throws<invalid_text>(ECOW_BOUNDARY, [&] { text.insert(1, "x"); }));
    CHECK(throws<invalid_text>(ECOW_BOUNDARY, [&] { text.insert(text.begin() + 1, 'x'); }));
    CHECK(throws<invalid_text>(ECOW_BOUNDARY, [&] { text.splice(0, 1, ""); }));
    CHECK(throws<invalid_text>(ECOW_BOUNDARY, [&] { text.replace(1, 1, ""); }));
    CHECK(throws<invalid_text>(ECOW_BOUNDARY, [&] { text.erase(1); }));
    CHECK(throws<invalid_text>(ECOW_BOUNDARY, [&] { text.erase(text.begin()); }));
    CHECK(throws<invalid_text>(ECOW_BOUNDARY, [&] { text.take(1); }));
    CHECK(throws<invalid_text>(ECOW_BOUNDARY, [&] { (void)text.get(3); }));
    CHECK(throws<invalid_text>(ECOW_BOUNDARY, [&] { (void)text.substr(1); }));
    CHECK(throws<invalid_text>(ECOW_BOUNDARY, [&] { (void)text.substr(0, 3); }));
    CHECK(throws<invalid_text>(ECOW_UTF8, [&] { text.append("\xff"); }));
    CHECK(throws<invalid_text>(ECOW_UTF8, [&] { text.append(2, '\xe9'); }));
    CHECK(throws<invalid_text>(ECOW_UTF8, [&] { text = "\xff"; }));
    CHECK(throws<invalid_text>(ECOW_UTF8, [&] { text.push_back(char32_t(0xd800)); }));
    CHECK(throws<invalid_text>(ECOW_UTF8, [&] { text.push_back('\xe9'); }));
    CHECK(throws<invalid_text>(ECOW_UTF8, [&] { text += '\xe9'; }));
    CHECK(throws<invalid_text>(ECOW_UTF8, [&] { text.insert(text.begin(), '\xe9'); }));
    CHECK(throws<invalid_text>(ECOW_UTF8, [&] { erase(text, '\xc3'); }));
    CHECK(throws<invalid_argument>(ECOW_UTF8, [] { ecow::text made("\xc3"); }));
    CHECK(throws<out_of_range>(ECOW_INDEX, [&] { (void)text.get(4); }));
    CHECK(throws<out_of_range>(ECOW_INDEX, [&] { (void)text.substr(5); }));
    CHECK(throws<out_of_range>(ECOW_INDEX, [&] { text.erase(5); }));
    CHECK(throws<out_of_range>(ECOW_INDEX, [&] { text.insert(5, "x"); }));
    CHECK(throws<out_of_range>(ECOW_INDEX, [&] { text.replace(5, 0, "x"); }));
    CHECK(throws<out_of_range>(ECOW_INDEX, [&] { text.take(4); }));
    CHECK(throws<out_of_range>(ECOW_INDEX, [] { ecow::text().pop_back(); }));
    CHECK(throws<length_error>(ECOW_CAPACITY, [&] { text.repeat(most); }));
    CHECK(text == kept && ecow::text::is_utf8(text) && !ecow::text::is_utf8("\xc3"));
    try {
        text.truncate(1);
    } catch (const invalid_text &error) {
        CHECK(error.status() == ECOW_BOUNDARY);
    }
}

int main() {
    traits<ecow::list>();
    traits<ecow::bytes>();
    traits<ecow::text>();
    traits<ecow::vector<std::int32_t>>();
    try {
        const std::vector<std::int64_t> numbers{5, -1, 3, 4, 2, 6, 7};
        const std::vector<std::uint8_t> bytes(20, 200);
        const std::string letters = "sixteen letters.";
        const std::vector<std::int32_t> small{5, -1, 3, 4, 2, 6, 7};
        const std::vector<float> reals{5, -1.5, 3, 4, 2, 6, 7};
        using smalls = ecow::vector<std::int32_t>;
        copies<smalls>(small);
        values<smalls>(small);
        of_c<smalls>(small);
        ways<smalls>();
        iterators<smalls>();
        items<smalls>();
        edits_in_place<smalls>({5, 1, 3, 4, 2});
        copies<ecow::vector<float>>(reals);
        values<ecow::vector<float>>(reals);
        of_c<ecow::vector<float>>(reals);
        ways<ecow::vector<float>>();
        edits_in_place<ecow::vector<float>>({5, 1.5, 3, 4, 2});
        vectors_of_structs();
        vectors_of_others();
        copies<ecow::list>(numbers);
        copies<ecow::bytes>(bytes);
        copies<ecow::text>(letters);
        values<ecow::list>(numbers);
        values<ecow::bytes>(bytes);
        values<ecow::text>(letters);
        of_c<ecow::list>(numbers);
        of_c<ecow::bytes>(bytes);
        of_c<ecow::text>(letters);
        ways<ecow::list>();
        ways<ecow::bytes>();
        ways<ecow::text>();
        iterators<ecow::list>();
        iterators<ecow::bytes>();
        iterators<ecow::text>();
        items<ecow::list>();
        items<ecow::bytes>();
        edits_in_place<ecow::list>({5, 1, 3, 4, 2});
        edits_in_place<ecow::bytes>({5, 1, 3, 4, 2});
        edits_in_place<ecow::bytes>(std::vector<std::uint8_t>(20, 200));
        only_bytes();
        texts_are_made();
        texts_are_compared();
        texts_grow();
        texts_are_searched();
        texts_are_looked_up();
        texts_have_characters();
        texts_refuse();
    } catch (const std::bad_alloc &) {
        std::puts("no memory");
    }
    std::printf("c++: %ld checks\n", checks);
}
