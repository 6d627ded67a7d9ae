/* Every member of `ecow::texts` and `ecow::value`, and each exception. Where memory is refused it
 * ends well too, if the refusal came as std::bad_alloc. */
#include "check.hpp"

#include <algorithm>
#include <array>
#include <cmath>
#include <deque>
#include <filesystem>
#include <functional>
#include <limits>
#include <list>
#include <map>
#include <set>
#include <sstream>
#include <unordered_map>
#include <unordered_set>

#ifdef __cpp_lib_span
#include <span>
#endif

using namespace std::string_view_literals;
using ecow::invalid_text;
using ecow::text;
using ecow::texts;
using ecow::value;
using ecow::wrong_kind;
using std::invalid_argument;
using std::length_error;
using std::out_of_range;

constexpr std::size_t most = std::numeric_limits<std::size_t>::max();

/* Of 15 bytes, which take no memory, and of 16, which do. */
static const char *const fifteen = "fifteen letters", *const sixteen = "sixteen letters.";

using words = std::vector<std::string>;

static bool holds(const texts &value, const words &model) {
    bool same = value.size() == model.size() && value.empty() == model.empty() && value == model
                && std::equal(value.rbegin(), value.rend(), model.rbegin(), model.rend())
                && std::equal(value.crbegin(), value.crend(), model.rbegin(), model.rend())
                && std::equal(value.cbegin(), value.cend(), model.begin(), model.end());
    for (std::size_t index = 0; same && index < model.size(); index++) {
        same = value[index] == model[index] && value.at(index) == model[index]
               && value.get(index) == model[index];
    }
    return same;
}

/* The address of a text's bytes, also of a temporary one. */
static const char *where_is(const text &lies) {
    return lies.data();
}

/* Whether a call says that there is no field of that name. */
template <typename Call> static bool no_field(const std::string &name, Call call) {
    try {
        call();
    } catch (const out_of_range &error) {
        return error.what() == "no field \"" + name + '"';
    }
    return false;
}

/* ---- Lists of texts ---- */

static void traits() {
    using iterator = texts::iterator;
    using given = std::iterator_traits<iterator>;
    static_assert(std::is_nothrow_default_constructible_v<texts>);
    static_assert(std::is_nothrow_move_constructible_v<texts>);
    static_assert(std::is_nothrow_move_assignable_v<texts>);
    static_assert(std::is_nothrow_swappable_v<texts> && sizeof(texts) == sizeof(ecow_texts));
    static_assert(std::is_same_v<given::iterator_category, std::input_iterator_tag>);
    static_assert(std::is_same_v<given::reference, const std::string_view>);
    static_assert(std::is_same_v<decltype(texts()[0]), const std::string_view>);
    using gathered = ecow::detail::array<std::string_view>;
    static_assert(!std::is_copy_constructible_v<gathered>);
    static_assert(!std::is_copy_assignable_v<gathered>);
    static_assert(!std::is_constructible_v<texts, std::nullptr_t>);
    static_assert(!std::is_constructible_v<texts, const char *>);
    static_assert(!std::is_constructible_v<texts, std::string>);
    static_assert(!std::is_constructible_v<texts, text>);
    static_assert(!std::is_constructible_v<texts, std::vector<int>>);
    static_assert(!std::is_constructible_v<texts, std::vector<texts>>);
    static_assert(!std::is_constructible_v<texts, std::vector<std::nullptr_t>>);
    static_assert(!std::is_constructible_v<ecow::bytes, std::vector<std::string>>);
    static_assert(!std::is_constructible_v<ecow::list, texts>);
    static_assert(!std::is_convertible_v<words, texts> && !std::is_convertible_v<int, texts>);
#ifdef __cpp_lib_ranges
    static_assert(std::random_access_iterator<iterator> && !std::contiguous_iterator<iterator>);
    static_assert(std::ranges::random_access_range<texts> && std::ranges::sized_range<texts>);
    static_assert(std::regular<texts> && std::totally_ordered<texts>);
#endif
}

static void texts_are_made() {
    const words wanted{"a", "", fifteen, sixteen, "caf\u00e9"};
    const text shared(sixteen);
    const std::string copied("caf\u00e9");
    const texts made{"a", ""sv, fifteen, shared, copied}, none;
    CHECK(holds(made, wanted) && holds(none, {}) && holds(texts{}, {}));
    CHECK(where_is(made.get(3)) == shared.data() && made[3].data() == shared.data());
    CHECK(texts(made.begin(), made.end())[3].data() == shared.data());
    CHECK(texts(std::vector<text>{"a", shared})[1].data() == shared.data());
    CHECK(holds(texts(wanted), wanted) && texts(wanted)[3].data() != wanted[3].data());
    CHECK(holds(texts(std::deque<std::string>(wanted.begin(), wanted.end())), wanted));
    CHECK(holds(texts(std::list<std::string_view>(wanted.begin(), wanted.end())), wanted));
    CHECK(holds(texts(std::set<text>{"b", "a"}), {"a", "b"}));
    CHECK(holds(texts(std::array<const char *, 2>{"b", "a"}), {"b", "a"}));
    const char *const some[] = {"x", "y"};
    CHECK(holds(texts(some), {"x", "y"}) && holds(texts(some, some + 1), {"x"}));
    CHECK(holds(texts(std::initializer_list<const char *>{"x"}), {"x"}));
#ifdef __cpp_lib_span
    CHECK(holds(texts(std::span(wanted).first(2)), {"a", ""}));
#endif
#ifdef __cpp_lib_ranges
    CHECK(std::ranges::find(made, sixteen) - made.begin() == 3);
#endif
    const texts same(3, shared), empties(2);
    CHECK(holds(same, {sixteen, sixteen, sixteen}) && holds(empties, {"", ""}));
    CHECK(same[0].data() == shared.data() && same[2].data() == shared.data());
    CHECK(holds(texts(2, "x"), {"x", "x"}) && texts(0, "x").empty() && texts(0).empty());
    CHECK(words(made.begin(), made.end()) == wanted);
    texts changed;
    changed = wanted;
    CHECK(holds(changed, wanted));
    changed = {"x", copied};
    CHECK(holds(changed, {"x", copied}) && holds(changed.assign(some), {"x", "y"}));
    CHECK(holds(changed.assign(some + 1, some + 2), {"y"}));
    CHECK(holds(changed.assign(2, shared), {sixteen, sixteen}) && holds(changed.assign({}), {}));
    CHECK(changed.assign(made).shares(made) && holds(changed, wanted));
    changed.assign(changed);
    changed.assign(changed.begin() + 2, changed.end());
    CHECK(holds(changed, {fifteen, sixteen, "caf\u00e9"}) && changed[1].data() == shared.data());
    changed = {};
    CHECK(holds(changed, {}) && holds(made, wanted));
    ecow_texts *nowhere = nullptr;
    CHECK(throws<invalid_argument>(ECOW_NULL, [&] { texts taken(nowhere); }));
    CHECK(throws<invalid_text>(ECOW_UTF8, [] { texts refused{"a", "\xff"}; }));
    CHECK(throws<invalid_text>(ECOW_UTF8, [] { texts refused(words{"\xc3"}); }));
    CHECK(throws<length_error>(ECOW_CAPACITY, [] { texts refused(most, "x"); }));
}

static void texts_are_copied() {
    const words wanted{"a", sixteen, "b"};
    texts value(wanted), copy(value), other;
    CHECK(copy.shares(value) && copy == value && !other.shares(texts()) && other < value);
    CHECK(value.hash() == copy.hash() && std::hash<texts>()(copy) == std::hash<texts>()(value));
    CHECK(std::hash<texts>()(value) == value.hash());
    CHECK(value.hash() == texts(wanted).hash() && !value.shares(texts(wanted)));
    other = copy;
    other.set(0, "changed");
    CHECK(holds(copy, wanted) && holds(other, {"changed", sixteen, "b"}) && !other.shares(copy));
    CHECK(other[1].data() == copy[1].data());
    const texts &same = other;
    other = same;
    texts moved(std::move(other));
    CHECK(holds(other, {}) && holds(moved, {"changed", sixteen, "b"}));
    other = std::move(moved);
    std::swap(other, moved);
    CHECK(holds(other, {}) && moved.size() == 3);
    other.swap(moved);
    swap(other, moved);
    other.swap(other);
    CHECK(holds(other, {}) && moved.size() == 3 && moved.max_size() > 3);
    ecow_texts owned = moved.release();
    CHECK(moved.empty() && ecow_texts_len(&owned) == 3);
    texts back(&owned);
    CHECK(ecow_texts_len(&owned) == 0 && back.size() == 3 && ecow_texts_len(back.c()) == 3);
    owned = back.release();
    const texts again(std::move(owned));
    CHECK(again.size() == 3 && ecow_texts_len(again.c()) == 3 && *owned.word == *texts().c()->word);
}

static void texts_are_changed() {
    const text shared(sixteen);
    const char *where = shared.data();
    texts value{"b", "c"};
    const texts kept(value);
    value.push_back(shared);
    value.push_back("d");
    value.push_back(std::string(fifteen));
    const std::size_t two = 2;
    CHECK(value.emplace_back("xyz", two) == "xy" && value.emplace_back(two, 'z') == "zz");
    CHECK(value.emplace_back() == "" && value[2].data() == where);
    CHECK(holds(value, {"b", "c", sixteen, "d", fifteen, "xy", "zz", ""}));
    CHECK(value.pop_back() == "" && value.pop_back() == "zz" && value.take(3) == "d");
    CHECK(where_is(value.take(2)) == where && holds(value, {"b", "c", fifteen, "xy"}));
    value.set(0, shared);
    value.set(1, fifteen);
    CHECK(value[0].data() == where && holds(value, {sixteen, fifteen, fifteen, "xy"}));
    CHECK(value.front() == sixteen && value.back() == "xy");
    CHECK(value.insert(value.begin() + 1, shared) - value.begin() == 1);
    CHECK(value.insert(value.end(), "e") - value.begin() == 5 && value[1].data() == where);
    CHECK(value.emplace(value.begin(), "fgh", two) == value.begin());
    CHECK(holds(value, {"fg", sixteen, sixteen, fifteen, fifteen, "xy", "e"}));
    CHECK(value.erase(value.begin() + 1) - value.begin() == 1);
    CHECK(value.erase(value.begin() + 2, value.begin() + 5) - value.begin() == 2);
    CHECK(holds(value, {"fg", sixteen, "e"}) && holds(kept, {"b", "c"}));
    CHECK(value.insert(value.begin() + 1, {"g", "h"}) - value.begin() == 1);
    CHECK(value.insert(value.begin(), {"g"}) == value.begin());
    CHECK(value.insert(value.end(), 2, shared) - value.begin() == 6);
    CHECK(value.insert(value.begin() + 1, kept) - value.begin() == 1);
    CHECK(value.insert(value.end(), kept.begin() + 1, kept.end()) - value.begin() == 10);
    CHECK(holds(value, {"g", "b", "c", "fg", "g", "h", sixteen, "e", sixteen, sixteen, "c"}));
    CHECK(value[6].data() == where && value[9].data() == where);
    value.truncate(4);
    value.truncate(9);
    CHECK(holds(value, {"g", "b", "c", "fg"}));
    value.splice(1, 3, {shared});
    value.splice(3, 3, words{"i"});
    CHECK(holds(value, {"g", sixteen, "fg", "i"}) && value[1].data() == where);
    value.splice(1, 2, value);
    CHECK(holds(value, {"g", "g", sixteen, "fg", "i", "fg", "i"}) && value[2].data() == where);
    value.insert(value.begin() + 1, value);
    CHECK(value.size() == 14 && value[1] == "g" && value[8] == "g" && value[13] == "i");
    value.resize(1);
    value.resize(2);
    value.resize(3, shared);
    value.append(value).append({"j"}).append(2, "k").append(kept);
    CHECK(holds(value, {"g", "", sixteen, "g", "", sixteen, "j", "k", "k", "b", "c"}));
    CHECK(value.append(kept.begin(), kept.begin() + 1).size() == 12 && value[5].data() == where);
    CHECK(erase(value, "") == 2 && erase(value, "none") == 0 && erase(value, shared) == 2);
    CHECK(erase_if(value, [](std::string_view each) { return each > "h"; }) == 3);
    CHECK(holds(value, {"g", "g", "b", "c", "b"}) && holds(kept, {"b", "c"}));
    texts thinned{"x", shared, shared};
    CHECK(thinned.emplace(thinned.begin() + 2, "x") - thinned.begin() == 2);
    CHECK(erase(thinned, "x") == 2 && thinned[0].data() == where && thinned[1].data() == where);
    /* A view into the list that changes. */
    value.push_back(value[2]);
    value.set(0, value[3]);
    value.insert(value.begin(), value.back());
    CHECK(holds(value, {"b", "c", "g", "b", "c", "b", "b"}));
    value.reserve(100);
    CHECK(value.capacity() >= 100);
    value.shrink_to_fit();
    CHECK(value.capacity() == 7 && value.size() == 7);
    value.reserve(3);
    value.clear();
    CHECK(holds(value, {}));
    value.append(1500, "many").set(1400, shared);
    texts many(value);
    many.erase(many.begin());
    CHECK(many.size() == 1499 && many[1399].data() == where && value[1400].data() == where);
}

/* Each refusal leaves the list as it was. */
static void texts_refuse() {
    texts value{"a", sixteen};
    const texts kept(value);
    CHECK(throws<out_of_range>(ECOW_INDEX, [&] { (void)value.at(2); }));
    CHECK(throws<out_of_range>(ECOW_INDEX, [&] { (void)value.get(2); }));
    CHECK(throws<out_of_range>(ECOW_INDEX, [&] { value.set(2, "x"); }));
    CHECK(throws<out_of_range>(ECOW_INDEX, [&] { value.take(2); }));
    CHECK(throws<out_of_range>(ECOW_INDEX, [&] { value.erase(value.end()); }));
    CHECK(throws<out_of_range>(ECOW_INDEX, [&] { value.insert(value.end() + 1, "x"); }));
    CHECK(throws<out_of_range>(ECOW_INDEX, [&] { value.insert(value.end() + 1, {"x"}); }));
    CHECK(throws<out_of_range>(ECOW_INDEX, [&] { value.splice(2, 1, {}); }));
    CHECK(throws<out_of_range>(ECOW_INDEX, [&] { value.splice(0, 3, {}); }));
    CHECK(throws<out_of_range>(ECOW_INDEX, [] { texts().pop_back(); }));
    CHECK(throws<invalid_text>(ECOW_UTF8, [&] { value.set(0, "\xff"); }));
    CHECK(throws<invalid_text>(ECOW_UTF8, [&] { value.push_back("\xe9"sv); }));
    CHECK(throws<invalid_text>(ECOW_UTF8, [&] { value.emplace_back("\xff"); }));
    CHECK(throws<invalid_text>(ECOW_UTF8, [&] { value.insert(value.begin(), "\xff"); }));
    CHECK(throws<invalid_text>(ECOW_UTF8, [&] { value.append({"x", "\xff"}); }));
    CHECK(throws<invalid_text>(ECOW_UTF8, [&] { value.append(words{"x", "\xff"}); }));
    CHECK(throws<invalid_text>(ECOW_UTF8, [&] { value.splice(0, 1, {"x", "\xff"}); }));
    CHECK(throws<invalid_text>(ECOW_UTF8, [&] { value = words{"x", "\xff"}; }));
    CHECK(throws<invalid_text>(ECOW_UTF8, [&] { value.resize(3, "\xff"); }));
    CHECK(throws<length_error>(ECOW_CAPACITY, [&] { value.append(most, "x"); }));
    CHECK(throws<length_error>(ECOW_CAPACITY, [&] { value.reserve(most); }));
    CHECK(value.shares(kept) && holds(value, {"a", sixteen}));
}

static void texts_are_compared() {
    const texts value{"b", sixteen};
    const words same{"b", sixteen}, more{"b", sixteen, ""}, high{"\u00e9"};
    CHECK(value == same && same == value && value != more && more != value);
    CHECK(value < more && more > value && value <= more && more >= value && !(value >= more));
    CHECK(value < high && value > words{"b"} && value > words{} && value <= same && value >= same);
    CHECK(value == std::vector<text>{"b", sixteen} && value < std::array<const char *, 1>{"c"});
    CHECK(value == std::list<std::string_view>{"b", sixteen} && value != texts{"b"});
    CHECK(value < texts{"c"} && texts{"b", "a"} < value && texts{"b"} < value && value >= value);
    const char *const some[] = {"b", "t"};
    CHECK(value < some && some > value && value != some);
#ifdef __cpp_impl_three_way_comparison
    CHECK((value <=> more) < 0 && (more <=> value) > 0 && (value <=> same) == 0);
    CHECK((value <=> texts{"a"}) > 0);
#endif
    std::map<texts, int, std::less<>> sorted{{value, 1}, {texts{"a"}, 2}};
    std::unordered_map<texts, int> hashed{{value, 1}, {texts{"a"}, 2}};
    CHECK(sorted.begin()->second == 2 && sorted.count(same) == 1 && sorted.count(more) == 0);
    CHECK(hashed[texts(same)] == 1 && hashed.size() == 2);
}

static void texts_have_iterators() {
    const texts value{"a", "bc", "d", "e"};
    auto first = value.begin(), place = first;
    CHECK(*place++ == "a" && *place == "bc" && *++place == "d" && *place-- == "d"
          && *--place == "a");
    place += 3;
    CHECK(*place == "e" && place[-2] == "bc" && *(place - 1) == "d" && *(1 + first) == "bc");
    place -= 2;
    CHECK(place->size() == 2 && place - first == 1 && first - place == -1 && place.get() == "bc");
    CHECK(first < place && !(place < first) && first <= first && place > first && place >= first);
    CHECK(first == value.cbegin() && first != place && !(place <= first) && !(first != first));
    CHECK(value.end() - value.begin() == 4 && value.rbegin()[0] == "e"
          && *value.crend().base() == "a");
    CHECK(value.rbegin()->size() == 1 && texts::iterator() == texts::const_iterator());
    CHECK(throws<out_of_range>(ECOW_INDEX, [&] { (void)value.end().get(); }));
    std::string all;
    for (std::string_view each : value) {
        all += each;
    }
    CHECK(all == "abcde" && std::find(value.begin(), value.end(), "d") - first == 2);
}

/* ---- Nested values ---- */

enum class colour { red };

static void value_traits() {
    static_assert(std::is_nothrow_default_constructible_v<value>);
    static_assert(std::is_nothrow_move_constructible_v<value>);
    static_assert(std::is_nothrow_move_assignable_v<value>);
    static_assert(std::is_nothrow_swappable_v<value> && sizeof(value) == sizeof(ecow_value));
    static_assert(noexcept(std::declval<const value &>() == std::declval<const value &>()));
    static_assert(std::is_base_of_v<invalid_argument, wrong_kind>);
    /* What would lose digits, or isn't what it seems. */
    static_assert(!std::is_constructible_v<value, unsigned long>);
    static_assert(!std::is_constructible_v<value, unsigned long long>);
    static_assert(!std::is_constructible_v<value, long double>);
    static_assert(
        !std::is_constructible_v<value, char> && !std::is_constructible_v<value, wchar_t>);
    static_assert(!std::is_constructible_v<value, char32_t>);
    static_assert(!std::is_constructible_v<value, const void *>);
    static_assert(!std::is_constructible_v<value, const int *>);
    static_assert(!std::is_constructible_v<value, colour>);
    static_assert(!std::is_constructible_v<value, ecow::kind>);
    static_assert(!std::is_constructible_v<value, std::filesystem::path>);
    static_assert(!std::is_constructible_v<value, std::vector<char>>);
    static_assert(!std::is_constructible_v<value, std::map<int, int>>);
    static_assert(!std::is_constructible_v<value, std::vector<std::pair<std::string, int>>>);
    static_assert(
        !std::is_convertible_v<value, bool> && !std::is_convertible_v<value, std::int64_t>);
    static_assert(!std::is_convertible_v<value, text>);
    static_assert(std::is_convertible_v<std::string_view, value>);
#ifdef __cpp_lib_concepts
    static_assert(std::regular<value>);
    static_assert(std::ranges::random_access_range<value::parts<value>>);
    static_assert(std::ranges::random_access_range<value::parts<value::field>>);
#endif
}

static void values_are_made() {
    const text shared(sixteen);
    const std::int64_t least = std::numeric_limits<std::int64_t>::min();
    const value nothing, null = nullptr, braces = {};
    CHECK(nothing.kind() == ecow::kind::nothing && nothing == null);
    CHECK(braces == nothing && nothing.size() == 0 && nothing != value::list());
    const value yes = true, no = false;
    CHECK(yes.kind() == ecow::kind::truth && yes.truth() && !no.truth() && yes != no);
    CHECK(value(1).number() == 1 && value(least).number() == least && value(-1).number() == -1);
    CHECK(value(4294967295u).number() == 4294967295 && value(short{-5}).number() == -5);
    CHECK(value(std::int8_t{-5}) == -5 && value(std::uint8_t{200}) == 200 && value(5ll) == 5);
    CHECK(value(1).kind() == ecow::kind::number && value(1) != true && value(1) != 1.0);
    CHECK(value(2.5).real() == value(2.5f).real() && value(2.5).kind() == ecow::kind::real);
    CHECK(value(std::nan("")) == value(std::nan("")) && std::isnan(value(std::nan("")).real()));
    const std::string string(fifteen);
    const char *const pointer = fifteen;
    CHECK(value("x").kind() == ecow::kind::text && value("x").text() == "x" && value("x") == "x");
    CHECK(value(string).text() == fifteen && value(pointer) == string
          && value("x\0y"sv) == "x\0y"sv);
    CHECK(where_is(value(shared).text()) == shared.data() && value(shared) == sixteen);
    CHECK(value(pointer).kind() == ecow::kind::text && value("") != nothing
          && value("").text().empty());
    const value list = {1, 2.5, "x", true, nullptr, {}, shared, {1, {2}}};
    CHECK(list.kind() == ecow::kind::list && list.size() == 8 && list.get(0) == 1);
    CHECK(list.get(1) == 2.5 && list.get(2) == "x" && list.get(3) == true
          && list.get(4) == nullptr);
    CHECK(list.get(5) == nothing && where_is(list.get(6).text()) == shared.data());
    CHECK(list.get(7).size() == 2 && list.get(7).get(1).get(0) == 2);
    const value copy{list}, one = value::list({list}), empty = value::list();
    CHECK(one.size() == 1 && one.get(0).shares(list) && copy.shares(list));
    CHECK((value{1, {list}}).get(1).shares(list) && (value{1, {list, 2}}).get(1).size() == 2);
    CHECK(value{5}.get(0) == 5 && value{{5}}.get(0) == value{5} && value({5}) == value{5});
    CHECK(value{value(5)} == 5 && value::list({value(5)}) == value{5}
          && value{{}} == value{nullptr});
    CHECK(empty.kind() == ecow::kind::list && empty.size() == 0 && value::list({1}) == value{1});
    const bool flags[] = {true, false};
    CHECK(value(std::vector<int>{1, 2}) == (value{1, 2}) && value(flags) == (value{true, false}));
    CHECK(value(std::vector<bool>{true, false}) == value(flags));
    CHECK(value(std::list<std::string>{"a", "b"}) == (value{"a", "b"}));
    CHECK(value(std::vector<value>{1, "a"}) == (value{1, "a"}));
    CHECK(value(std::vector<std::vector<int>>{{1}, {}}) == (value{{1}, value::list()}));
    CHECK(value(ecow::list{1, 2}) == (value{1, 2}) && value(ecow::bytes("a")) == value{97});
    CHECK(where_is(value(texts{"a", shared}).get(1).text()) == shared.data());
    CHECK(value(std::vector<int>()) == empty);
    const value fields = value::fields({{"b", 1}, {string, {2, 3}}, {"", "x"}, {"b", true}});
    CHECK(fields.kind() == ecow::kind::fields && fields.size() == 3 && fields.get("b") == true);
    CHECK(fields.name(0) == "b" && fields.name(1) == fifteen && fields.name(2) == "");
    CHECK(fields.get(1) == (value{2, 3}) && fields.get("") == "x"
          && fields.get(string).size() == 2);
    CHECK(value::fields({}).kind() == ecow::kind::fields && value::fields({}) != empty);
    const std::map<std::string, int> map{{"z", 1}, {"a", 2}};
    CHECK(value(map) == value::fields({{"a", 2}, {"z", 1}}) && value(map) == value::fields(map));
    const std::vector<std::pair<text, value>> pairs{{"z", 1}, {"a", {2}}};
    CHECK(value::fields(pairs) == value::fields({{"z", 1}, {"a", {2}}})
          && value(map) != value::fields(pairs));
    CHECK(value(std::map<text, std::map<text, texts>>{{"a", {{"b", {"c"}}}}}).at({"a", "b", 0})
          == "c");
    CHECK(throws<invalid_text>(ECOW_UTF8, [] { value refused("\xff"); }));
    CHECK(throws<invalid_text>(ECOW_UTF8, [] { value refused{1, "\xff"}; }));
    CHECK(throws<invalid_text>(ECOW_UTF8, [] { (void)value::fields({{"\xff", 1}}); }));
    ecow_value *nowhere = nullptr;
    CHECK(throws<invalid_argument>(ECOW_NULL, [&] { value taken(nowhere); }));
}

static void values_are_copied() {
    value list{1, sixteen}, copy(list), other;
    CHECK(copy.shares(list) && copy == list && !other.shares(value())
          && !value(1).shares(value(1)));
    CHECK(!copy.shares(value{1, sixteen}) && copy == (value{1, sixteen}) && copy != (value{1}));
    other = copy;
    other.push_back(2);
    CHECK(!other.shares(list) && list == copy && list.size() == 2 && other.size() == 3);
    const value &same = other;
    other = same;
    value moved(std::move(other));
    CHECK(other == nullptr && moved.size() == 3);
    other = std::move(moved);
    swap(other, moved);
    CHECK(other == nullptr && moved.size() == 3);
    other.swap(moved);
    std::swap(other, moved);
    other.swap(other);
    CHECK(other == nullptr && moved.size() == 3);
    ecow_value owned = moved.release();
    CHECK(moved == nullptr && ecow_value_len(&owned) == 3);
    value back(&owned);
    CHECK(ecow_value_kind(&owned) == ECOW_KIND_NOTHING && ecow_value_len(back.c()) == 3);
    owned = back.release();
    const value again(std::move(owned));
    CHECK(again.size() == 3 && ecow_value_len(again.c()) == 3);
    other = 5;
    CHECK(other == 5);
    other = "five";
    CHECK(other == "five");
    other = {5, "five"};
    CHECK(other.size() == 2);
    other = value::fields({{"a", 5}});
    CHECK(other.get("a") == 5);
    other = {};
    CHECK(other == nullptr);
}

static void lists_are_changed() {
    const text shared(sixteen);
    value list{1, 2};
    const value kept(list);
    list.push_back(3);
    list.push_back(shared);
    list.push_back({4, 5});
    list.push_back(list);
    CHECK(list.size() == 6 && list.get(5).size() == 5
          && where_is(list.get(3).text()) == shared.data());
    CHECK(list.pop_back() == (value{1, 2, 3, sixteen, {4, 5}})
          && where_is(list.take(3).text()) == shared.data());
    list.set(0, "x");
    list.insert(1, nullptr);
    list.insert(5, true);
    CHECK(list == (value{"x", nullptr, 2, 3, {4, 5}, true}) && kept == (value{1, 2}));
    list.truncate(9);
    list.truncate(2);
    list.set(1, list);
    list.insert(0, list);
    CHECK(list == (value{{"x", {"x", nullptr}}, "x", {"x", nullptr}}));
    value many = value::list();
    for (int number = 0; number < 1500; number++) {
        many.push_back(number);
    }
    value changed(many);
    changed.set(1400, shared);
    CHECK(many.get(1400) == 1400 && changed.get(1400) == sixteen && changed.take(0) == 0);
    CHECK(many.size() == 1500 && changed.size() == 1499
          && where_is(changed.get(1399).text()) == shared.data());
}

static void fields_are_changed() {
    const std::string name(sixteen);
    value fields = value::fields({{"a", 1}});
    const value kept(fields);
    fields.set(name, {2});
    fields.set("a", "x");
    fields.set("self", fields);
    fields.set(text("b"), 2.5);
    CHECK(fields.size() == 4 && fields.name(1) == name && fields.name(3) == "b");
    CHECK(fields.get("self") == value::fields({{"a", "x"}, {name, {2}}}) && fields.get(0) == "x");
    CHECK(fields.contains(name) && !fields.contains("c") && fields.find(name) == value{2});
    CHECK(!fields.find("c") && *fields.find("a") == "x" && !fields.contains(""));
    CHECK(fields.take(name) == value{2} && fields.take("self").size() == 2 && fields.size() == 2);
    CHECK(fields == value::fields({{"a", "x"}, {"b", 2.5}}) && kept == value::fields({{"a", 1}}));
    CHECK(fields != value::fields({{"b", 2.5}, {"a", "x"}}));
    fields.push_field("b", 7);
    CHECK(fields.size() == 3 && fields.get("b") == 2.5 && fields.get(2) == 7);
}

static void values_have_parts() {
    const text shared(sixteen);
    value list{1, shared, 3};
    std::int64_t index = 0;
    for (const value &item : list.items()) {
        CHECK(index == 1 ? where_is(item.text()) == shared.data() : item == index + 1);
        list.set(static_cast<std::size_t>(index++), "changed meanwhile");
        list.push_back(0);
    }
    CHECK(index == 3 && list.size() == 6);
    value fields = value::fields({{"a", 1}, {"b", 2}});
    std::string names;
    std::int64_t sum = 0;
    for (const auto &[name, item] : fields.fields()) {
        names += name;
        sum += item.number();
        fields.take(name);
    }
    CHECK(names == "ab" && sum == 3 && fields.size() == 0);
    for (const auto &each : value::fields({{"a", {7}}}).items()) {
        CHECK(each == value{7});
    }
    const value numbers{1, 2, 3};
    auto items = numbers.items();
    CHECK(items.size() == 3 && items.begin()[2] == 3 && items.end() - items.begin() == 3);
    CHECK(items.begin()->number() == 1 && value(items) == numbers && *(items.end() - 1) == 3);
    CHECK(std::vector<value>(items.begin(), items.end()).size() == 3);
    CHECK(value(value::list().items()) == value::list());
    CHECK(value::fields(value::fields({{"a", 1}}).fields()) == value::fields({{"a", 1}}));
}

static void values_have_paths() {
    const value before =
        value::fields({{"window", value::fields({{"size", {800, 600}}, {"on", true}})},
                       {"names", {"a", sixteen}}});
    value settings(before);
    CHECK(settings.at({"window", "size", 1}) == 600 && settings.at({}) == settings);
    CHECK(settings.at({0, 0, 0}) == 800 && settings.at({std::string("names"), 1u}) == sixteen);
    settings.update({"window", "size", 0}, [](value &part) { part = part.number() + 200; });
    settings.update({"window"}, [](value &part) { part.set("title", "copies"); });
    CHECK(settings.at({"window", "size"}) == (value{1000, 600}));
    CHECK(settings.at({"window", "title"}) == "copies" && before.at({"window", "size", 0}) == 800);
    CHECK(settings.get("names").shares(before.get("names")));
    settings.update({}, [](value &part) { part.take("names"); });
    CHECK(settings.size() == 1);
    /* Where nobody shares what is on the way, it stays where it is. */
    const std::vector<value::step> path{"window", "size"};
    const auto block = [](const value &part) { return part.c()->word[1]; };
    const auto window = block(settings.get("window")), size = block(settings.at(path));
    settings.update({"window", "size", 1}, [](value &part) { part = 7; });
    CHECK(block(settings.get("window")) == window && block(settings.at(path)) == size);
    CHECK(settings.at(path) == (value{1000, 7}) && before.at(path) == (value{800, 600}));
    settings.update(path, [](value &part) { part.pop_back(); });
    CHECK(settings.at(path) == value{1000});
    const auto shorter = block(settings.at(path));
    settings.set_at({"window", "size", 0}, sixteen);
    CHECK(settings.at(path) == value{sixteen} && block(settings.at(path)) == shorter);
    settings.set_at(path, settings.at({}));
    CHECK(settings.at({"window", "size", "window", "size", 0}) == sixteen);
    settings.set_at(path, value{1000});
    settings.set_at({}, value(settings));
    /* What is refused or throws leaves the value, whatever the function did before. */
    const value kept(settings);
    CHECK(throws<out_of_range>(ECOW_INDEX, [&] { (void)settings.at({"window", "size", 1}); }));
    CHECK(no_field("none", [&] { (void)settings.at({"none"}); }));
    CHECK(throws<out_of_range>(ECOW_INDEX, [&] { (void)settings.at({"window", "size", -1}); }));
    CHECK(throws<wrong_kind>(ECOW_KIND, [&] { (void)settings.at({"window", 1, 1}); }));
    CHECK(no_field("none", [&] { settings.update({"none"}, [](value &) {}); }));
    CHECK(throws<wrong_kind>(ECOW_KIND, [&] { settings.update({0}, [](value &) {}); }));
    CHECK(throws<wrong_kind>(ECOW_KIND, [&] { settings.update({0, 0, 0}, [](value &) {}); }));
    CHECK(throws<out_of_range>(ECOW_INDEX, [&] { settings.set_at({0}, 1); }));
    CHECK(throws<out_of_range>(ECOW_INDEX, [&] { settings.set_at({"window", "none"}, 1); }));
    CHECK(throws<out_of_range>(ECOW_INDEX, [&] { settings.set_at({"window", "size", -1}, 1); }));
    CHECK(throws<out_of_range>(ECOW_INDEX, [&] {
        settings.update({"window", "size"}, [](value &part) {
            part.push_back(1);
            part.take(5);
        });
    }));
    CHECK(throws<wrong_kind>(ECOW_KIND, [&] {
        settings.update({}, [](value &part) {
            part.set("a", 1);
            part.pop_back();
        });
    }));
    CHECK(settings.shares(kept) && settings == kept);
}

/* Each member for another kind, and each index past the end, leaves the value as it was. */
/* A list, or fields, each the one part of the next, so deep. */
static value nested(std::size_t levels, bool is_list) {
    value made(7);
    for (std::size_t level = 0; level < levels; ++level) {
        CHECK(made.depth() == level);
        made = is_list ? value(std::vector<value>(1, made))
                       : value(std::map<std::string, value>{{sixteen, made}});
    }
    return made;
}

/* A list between braces is a path wherever one part is named. */
static void paths_between_braces() {
    value settings =
        value::fields({{"items", value::list({10, value::list({20, "x"})})}, {"it", "another"}});
    settings.set({"items", 0}, 7);
    CHECK(settings.size() == 2 && settings.get({"items", 0}) == 7);
    settings.set({"items", 1, 1}, "y");
    CHECK(settings.get({"items", 1}) == value::list({20, "y"})
          && settings.get({"it"}) == "another");
    CHECK(settings.get({}) == settings && settings.find({"items", 1, 0}) == value(20));
    CHECK(!settings.find({"items", 2}) && !settings.find({"none", 0}) && !settings.find({"none"}));
    CHECK(settings.contains({"items", 1, 1}) && !settings.contains({"items", 64}));
    CHECK(throws<wrong_kind>(ECOW_KIND, [&] { (void)settings.find({"items", "0"}); }));
    CHECK(no_field("none", [&] { (void)settings.get({"none", 1}); }));
    const value before = settings;
    CHECK(throws<out_of_range>(ECOW_INDEX, [&] { settings.set({"items", 2}, 1); }));
    CHECK(throws<out_of_range>(ECOW_INDEX, [&] { settings.set({"none", 0}, 1); }));
    CHECK(settings == before);
}

/* The type that a visitor gets, and what is read from it. */
struct printer {
    std::string operator()(std::nullptr_t) const {
        return "nothing";
    }

    std::string operator()(bool truth) const {
        return truth ? "yes" : "no";
    }

    std::string operator()(std::int64_t number) const {
        return std::to_string(number);
    }

    std::string operator()(double real) const {
        return real == 0.5 ? "half" : "real";
    }

    std::string operator()(const text &read) const {
        return std::string(read);
    }

    std::string operator()(const value::parts<value> &items) const {
        return "list of " + std::to_string(items.size());
    }

    std::string operator()(const value::parts<value::field> &fields) const {
        return "fields, the first " + std::string((*fields.begin()).first);
    }
};

static void values_are_visited() {
    const value all[] = {{}, true, 5, 0.5, "text", value::list({1, 2}), value::fields({{"a", 1}})};
    const std::string seen[] = {
        "nothing", "yes", "5", "half", "text", "list of 2", "fields, the first a"};
    for (std::size_t at = 0; at < std::size(all); ++at) {
        CHECK(all[at].visit(printer()) == seen[at]);
        CHECK(all[at].get_if<bool>().has_value() == (at == 1));
        CHECK(all[at].get_if<std::int64_t>().has_value() == (at == 2));
        CHECK(all[at].get_if<double>().has_value() == (at == 3));
        CHECK(all[at].get_if<text>().has_value() == (at == 4));
    }
    CHECK(all[1].get_if<bool>() == true && all[2].get_if<std::int64_t>() == 5);
    CHECK(all[3].get_if<double>() == 0.5 && *all[4].get_if<text>() == "text");
#ifdef __cpp_impl_three_way_comparison
    static_assert(std::is_same_v<decltype(all[0] <=> all[1]), std::weak_ordering>);
    CHECK((all[2] <=> all[3]) < 0 && (value(0.0) <=> value(-0.0)) == 0);
#endif
}

/* Parts are read where they stand: as long as a value isn't changed, it lends the same ones. */
static void parts_are_lent() {
    const std::string spilled(20, 'x');
    value settings = value::fields({{"items", {{10, 11}, spilled}}, {"title", "few"}});
    const value kept(settings);
    const value *items = settings.peek("items");
    CHECK(items && *items == settings.get("items") && items == settings.peek(0));
    CHECK(items == kept.peek({"items"}) && settings.peek({"items", 0, 1})->number() == 11);
    CHECK(settings.peek({}) == &settings && kept.peek({"items", 1})->shares(items->get(1)));
    CHECK(*settings.peek({"items", 1})->peek_text() == spilled && !items->peek_text());
    CHECK(*settings.peek_name(1) == "title" && !settings.peek_name(2) && !items->peek_name(0));
    for (const value *none : {settings.peek(2), items->peek(2), settings.peek("none"), items->peek("a"),
                              settings.peek({"items", 2}), settings.peek({"title", 0}),
                              settings.peek({"none", 0, 0}), settings.peek("\xff")}) {
        CHECK(!none);
    }
    settings.set({"items", 0}, value(*settings.peek("items")));
    CHECK(*settings.peek({"items", 0, 1})->peek_text() == spilled);
    CHECK(kept.peek({"items", 0, 0})->number() == 10 && *kept.peek("title")->peek_text() == "few");
}

static void values_have_a_depth() {
    for (bool is_list : {true, false}) {
        const value deepest = nested(ECOW_MAX_DEPTH, is_list);
        value settings{{1, 2}, 3};
        const value kept(settings);
        CHECK(throws<length_error>(ECOW_DEPTH, [&] { value(std::vector<value>(1, deepest)); }));
        CHECK(throws<length_error>(ECOW_DEPTH, [&] { settings.push_back(deepest); }));
        CHECK(throws<length_error>(ECOW_DEPTH, [&] {
            settings.update({0, 1}, [&](value &part) { part = nested(511, is_list); });
        }));
        CHECK(throws<length_error>(ECOW_DEPTH, [&] {
            settings.set_at({0, 1}, nested(511, is_list));
        }));
        CHECK(settings.shares(kept) && settings == kept && settings.depth() == 2);
        settings.update({0, 1}, [&](value &part) { part = nested(510, is_list); });
        CHECK(settings.depth() == 512 && settings.get(0).depth() == 511 && kept.depth() == 2);
    }
}

static void values_refuse() {
    value some[] = {nullptr, true, 1, 2.5, "x", {1, sixteen}, value::fields({{"a", 1}})};
    for (value &each : some) {
        const value kept(each);
        const auto kind = each.kind();
        const bool is_list = kind == ecow::kind::list, is_fields = kind == ecow::kind::fields;
        CHECK((kind == ecow::kind::truth) != throws<wrong_kind>(ECOW_KIND, [&] { each.truth(); }));
        CHECK((kind == ecow::kind::number)
              != throws<wrong_kind>(ECOW_KIND, [&] { each.number(); }));
        CHECK((kind == ecow::kind::real) != throws<wrong_kind>(ECOW_KIND, [&] { each.real(); }));
        CHECK((kind == ecow::kind::text) != throws<wrong_kind>(ECOW_KIND, [&] { each.text(); }));
        if (!is_list) {
            CHECK(throws<wrong_kind>(ECOW_KIND, [&] { each.set(0, 1); }));
            CHECK(throws<wrong_kind>(ECOW_KIND, [&] { each.push_back(1); }));
            CHECK(throws<wrong_kind>(ECOW_KIND, [&] { each.pop_back(); }));
            CHECK(throws<wrong_kind>(ECOW_KIND, [&] { each.insert(0, 1); }));
            CHECK(throws<wrong_kind>(ECOW_KIND, [&] { each.take(0); }));
            CHECK(throws<wrong_kind>(ECOW_KIND, [&] { each.truncate(0); }));
        }
        if (!is_fields) {
            CHECK(throws<wrong_kind>(ECOW_KIND, [&] { (void)each.get("a"); }));
            CHECK(throws<wrong_kind>(ECOW_KIND, [&] { (void)each.find("a"); }));
            CHECK(throws<wrong_kind>(ECOW_KIND, [&] { (void)each.contains("a"); }));
            CHECK(throws<wrong_kind>(ECOW_KIND, [&] { (void)each.name(0); }));
            CHECK(throws<wrong_kind>(ECOW_KIND, [&] { each.set("a", 1); }));
            CHECK(throws<wrong_kind>(ECOW_KIND, [&] { each.take("a"); }));
            CHECK(throws<wrong_kind>(ECOW_KIND, [&] { (void)each.fields(); }));
        }
        if (!is_list && !is_fields) {
            CHECK(throws<wrong_kind>(ECOW_KIND, [&] { (void)each.get(0); }));
            CHECK(throws<wrong_kind>(ECOW_KIND, [&] { (void)each.items(); }) && each.size() == 0);
        } else {
            CHECK(throws<out_of_range>(ECOW_INDEX, [&] { (void)each.get(2); }));
            CHECK(each.shares(kept));
        }
        CHECK(each == kept);
    }
    value &list = some[5], &fields = some[6];
    CHECK(throws<out_of_range>(ECOW_INDEX, [&] { list.set(2, 1); }));
    CHECK(throws<out_of_range>(ECOW_INDEX, [&] { list.insert(3, 1); }));
    CHECK(throws<out_of_range>(ECOW_INDEX, [&] { list.take(2); }));
    CHECK(throws<out_of_range>(ECOW_INDEX, [] { value::list().pop_back(); }));
    CHECK(no_field("b", [&] { (void)fields.get("b"); }));
    CHECK(throws<out_of_range>(ECOW_INDEX, [&] { (void)fields.name(1); }));
    CHECK(no_field("b", [&] { fields.take("b"); }));
    CHECK(throws<invalid_text>(ECOW_UTF8, [&] { (void)fields.get("\xff"); }));
    CHECK(throws<invalid_text>(ECOW_UTF8, [&] { (void)fields.find("\xff"); }));
    CHECK(throws<invalid_text>(ECOW_UTF8, [&] { fields.set("\xff", 1); }));
    CHECK(throws<invalid_text>(ECOW_UTF8, [&] { fields.push_field("\xff", 1); }));
    CHECK(throws<invalid_text>(ECOW_UTF8, [&] { fields.take("\xff"); }));
    CHECK(list == (value{1, sixteen}) && fields == value::fields({{"a", 1}}));
    try {
        fields.truncate(0);
    } catch (const wrong_kind &error) {
        CHECK(error.status() == ECOW_KIND);
    }
}

/* Each comes before those behind it, and equals itself alone. */
static void values_have_an_order() {
    const double nan = std::nan(""), infinity = std::numeric_limits<double>::infinity();
    const std::vector<value> sorted{nullptr,
                                    false,
                                    true,
                                    std::numeric_limits<std::int64_t>::min(),
                                    -1,
                                    7,
                                    nan,
                                    -infinity,
                                    -1.5,
                                    0.0,
                                    infinity,
                                    "",
                                    "a",
                                    "aa",
                                    "b",
                                    value::list(),
                                    {1},
                                    {1, 2},
                                    {2},
                                    {"a"},
                                    value::list({value::list()}),
                                    value::fields({}),
                                    value::fields({{"a", 1}}),
                                    value::fields({{"a", 1}, {"b", 0}}),
                                    value::fields({{"a", 2}}),
                                    value::fields({{"b", 0}})};
    std::unordered_set<value> all;
    for (std::size_t at = 0; at < sorted.size(); at++) {
        for (std::size_t other = 0; other < sorted.size(); other++) {
            const value &one = sorted[at], &two = sorted[other];
            CHECK((one < two) == (at < other) && (one <= two) == (at <= other));
            CHECK((one > two) == (at > other) && (one >= two) == (at >= other));
            CHECK((one == two) == (at == other) && (one != two) == (at != other));
        }
        CHECK(all.insert(sorted[at]).second && !all.insert(value(sorted[at])).second);
    }
    CHECK(!(value(0.0) < value(-0.0)) && !(value(-0.0) < value(0.0)));
    CHECK((value(0.0) == value(-0.0)) <= (value(0.0).hash() == value(-0.0).hash()));
    CHECK(value(nan).hash() == value(-nan).hash() && value{nan} == value{-nan});
    std::map<value, int> table{{"b", 2}, {1, 1}, {value{1, 2}, 3}};
    CHECK(table.begin()->second == 1 && table[value{1, 2}] == 3);
    CHECK(value::fields({{"a", 1}, {"b", 2}}).hash() != value::fields({{"b", 2}, {"a", 1}}).hash());
}

static void values_are_written() {
    std::ostringstream out;
    /* A stream that lacks memory says so. */
    out.exceptions(std::ios::badbit);
    out << value::fields({{"size", {800, 1.5}}, {"full", false}, {"title", nullptr}}) << value()
        << value("a \"b\"\\\n\u00e9") << value::list() << value::fields({}) << value{{-1}, "x"};
    CHECK(out.str()
          == "{\"size\": [800, 1.5], \"full\": false, \"title\": null}null"
             "\"a \\\"b\\\"\\\\\\n\u00e9\"[]{}[[-1], \"x\"]");
}

/* A path holds its names, so it may be made of temporary ones. */
static void paths_hold_names() {
    std::vector<value::step> path;
    for (const std::string name : {"a name that is too long for a struct", "b"}) {
        path.push_back(name + "!");
        path.push_back(0);
    }
    value inner = value::fields({{"b!", {5}}});
    value outer = value::fields({{"a name that is too long for a struct!", value::list({inner})}});
    CHECK(outer.at(path) == value(5));
    outer.update(path, [](value &part) { part = 6; });
    CHECK(outer.at(path) == value(6));
    CHECK(throws<invalid_text>(ECOW_UTF8, [] { (void)value::step("\xff"); }));
}

int main() {
    traits();
    value_traits();
    try {
        texts_are_made();
        texts_are_copied();
        texts_are_changed();
        texts_refuse();
        texts_are_compared();
        texts_have_iterators();
        values_are_made();
        values_are_copied();
        lists_are_changed();
        fields_are_changed();
        values_have_parts();
        values_have_paths();
        paths_between_braces();
        values_are_visited();
        parts_are_lent();
    values_have_a_depth();
        values_have_an_order();
        values_are_written();
        paths_hold_names();
        values_refuse();
    } catch (const std::bad_alloc &) {
        std::puts("no memory");
    }
    std::printf("c++: %ld checks of texts and nested values\n", checks);
}
