/* ecow.h for C++17 and later: the containers `ecow::vector<T>` and `ecow::text`, and the nested
 * `ecow::value`. `ecow::list`, `ecow::bytes` and `ecow::texts` are vectors of std::int64_t, of
 * std::uint8_t and of `ecow::text`. Copies share memory until one of them is changed.
 *
 * Names. A member that std's containers have is called as there, any other as in ecow.h. The
 * exceptions are `take`, which is `remove` there, and `c` and `release`, which lend and give up the
 * value of C.
 *
 * Copies. A copy takes the same time however long the value is, and asks for no memory. A value
 * that was moved from is empty; a nested one is nothing then.
 *
 * Items are read where they lie, through iterators, pointers and `operator[]`. They are written by
 * calls such as `set`, or in place through `edit()`, since a write has to copy what others share
 * first. The texts of `ecow::texts` are read as std::string_view.
 *
 * Arrays. An argument of type `array` is one of these, and may lie in the value that changes:
 *     a std::vector, std::array, std::span or C array of the items, which is read where it lies
 *     for bytes and texts an array of other bytes, a literal, std::string or std::string_view: too
 *     for numbers and bytes a container of numbers that all fit, which is copied first
 *     any other container of the items, which is copied first
 *     for lists of texts a container of texts, std::string, std::string_view or literals: texts and
 *     those of another list go in as clones, which share memory, and all others are copied
 *
 * Errors. A call that is refused throws, and leaves each value as it was (the strong guarantee):
 *     std::bad_alloc          ECOW_MEMORY
 *     std::length_error       ECOW_CAPACITY, ECOW_DEPTH
 *     std::out_of_range       ECOW_INDEX
 *     ecow::invalid_text      ECOW_BOUNDARY, ECOW_UTF8, ECOW_INNER_NUL
 *     ecow::wrong_kind        ECOW_KIND
 *     std::invalid_argument   ECOW_NULL
 * `what` says the words of `ecow_status_text`, or which field isn't there, unless std itself refused
 * to copy an array.
 *
 * Lifetimes. Iterators, pointers, references and views into a value stay valid until it is changed,
 * moved, swapped or destroyed, and what `edit()` lends until it is copied, too. `data()`, `c_str()`,
 * `begin()`, `end()`, `edit()` and a std::string_view of a temporary value aren't compiled.
 *
 * Threads. A value is in one call at a time, whichever thread makes it, and members that read count
 * too. Its copies are values of their own, which other threads may use meanwhile. Over a library of
 * `make lib COUNT=plain` a value and its copies stay on one thread. */
#ifndef ECOW_HPP
#define ECOW_HPP

#if !defined __cpp_if_constexpr
#error "ecow.hpp needs C++17"
#elif !defined __cpp_exceptions
#error "ecow.hpp needs exceptions: with -fno-exceptions, use ecow.h"
#else

#include "ecow.h"

#include <algorithm>
#include <cstddef>
#include <cstdint>
#include <cstring>
#include <initializer_list>
#include <iosfwd>
#include <limits>
#include <new>
#include <optional>
#include <stdexcept>
#include <string>
#include <string_view>
#include <type_traits>
#include <utility>
#include <vector>

#ifdef __cpp_impl_three_way_comparison
#include <compare>
#endif
#if __has_include(<format>)
#include <format>
#endif
/* Whether std::format takes texts and values. LLVM's library has it before it says so. */
#if defined __cpp_lib_format
#define ECOW_FORMATS
#elif defined _LIBCPP_VERSION && !defined _LIBCPP_HAS_NO_INCOMPLETE_FORMAT
#if _LIBCPP_VERSION >= 160000 && __cplusplus >= 202002L
#define ECOW_FORMATS
#endif
#endif
#ifdef ECOW_FORMATS
#include <locale>
#include <sstream>
#endif

/* Stands behind a member whose result refers into the value. */
#if defined __has_cpp_attribute && __has_cpp_attribute(clang::lifetimebound)
#define ECOW_LENDS [[clang::lifetimebound]]
#else
#define ECOW_LENDS
#endif

namespace ecow {

class text;
class value;
template <typename Item> class vector;
template <> class vector<text>;

/* Texts, as a list. */
using texts = vector<text>;

/* What a nested value is. */
enum class kind {
    nothing = ECOW_KIND_NOTHING,
    truth = ECOW_KIND_TRUTH,
    number = ECOW_KIND_NUMBER,
    real = ECOW_KIND_REAL,
    text = ECOW_KIND_TEXT,
    list = ECOW_KIND_LIST,
    fields = ECOW_KIND_FIELDS
};

/* Bytes that aren't UTF-8, an index inside a character, or a 0 in a string of C. */
class invalid_text : public std::invalid_argument {
public:
    explicit invalid_text(ecow_status why)
        : std::invalid_argument(ecow_status_text(why)), reason(why) {}

    /* ECOW_UTF8, ECOW_BOUNDARY or ECOW_INNER_NUL. */
    ecow_status status() const noexcept {
        return reason;
    }

private:
    ecow_status reason;
};

/* A call for another kind of nested value. */
class wrong_kind : public std::invalid_argument {
public:
    wrong_kind() : std::invalid_argument(ecow_status_text(ECOW_KIND)) {}

    ecow_status status() const noexcept {
        return ECOW_KIND;
    }
};

/* Items to write in place, as `edit()` lends them. */
template <typename Item> class span {
public:
    using element_type = Item;
    using value_type = Item;
    using size_type = std::size_t;
    using difference_type = std::ptrdiff_t;
    using pointer = Item *;
    using reference = Item &;
    using iterator = Item *;

    span(Item *start, size_type count) noexcept : first(start), length(count) {}

    [[nodiscard]] Item *data() const noexcept {
        return first;
    }

    [[nodiscard]] size_type size() const noexcept {
        return length;
    }

    [[nodiscard]] bool empty() const noexcept {
        return length == 0;
    }

    [[nodiscard]] Item *begin() const noexcept {
        return first;
    }

    [[nodiscard]] Item *end() const noexcept {
        return first + length;
    }

    /* `index` has to be below the size: nothing checks it. */
    Item &operator[](size_type index) const noexcept {
        return first[index];
    }

private:
    Item *first;
    size_type length;
};

namespace detail {

template <typename Type, typename... Types>
constexpr bool is_one_of = std::disjunction_v<std::is_same<Type, Types>...>;

class no_memory : public std::bad_alloc {
public:
    const char *what() const noexcept override {
        return ecow_status_text(ECOW_MEMORY);
    }
};

/* Throws what the status stands for. */
inline void check(ecow_status status) {
    switch (status) {
    case ECOW_OK:
        return;
    case ECOW_MEMORY:
        throw no_memory();
    case ECOW_CAPACITY:
    case ECOW_DEPTH:
        throw std::length_error(ecow_status_text(status));
    case ECOW_INDEX:
        throw std::out_of_range(ecow_status_text(status));
    case ECOW_BOUNDARY:
    case ECOW_UTF8:
    case ECOW_INNER_NUL:
        throw invalid_text(status);
    case ECOW_KIND:
        throw wrong_kind();
    case ECOW_NULL:
        break;
    }
    throw std::invalid_argument(ecow_status_text(status));
}

/* ---- The calls on one kind of value, under names that templates can use ---- */

/* Beside them stand `item`, which iterators pass over, and `given`, as which one item is taken. */

#define ECOW_CALLS(kind, Item, Given)                                  \
    using type = ecow_##kind;                                          \
    using item = Item;                                                 \
    using given = Given;                                               \
    static constexpr auto drop = ecow_##kind##_drop;                   \
    static constexpr auto clone = ecow_##kind##_clone;                 \
    static constexpr auto len = ecow_##kind##_len;                     \
    static constexpr auto shares = ecow_##kind##_shares;               \
    static constexpr auto truncate = ecow_##kind##_truncate;           \
    static constexpr auto clear = ecow_##kind##_clear;                 \
    static constexpr auto reserve = ecow_##kind##_reserve;             \
    static constexpr auto capacity = ecow_##kind##_capacity;           \
    static constexpr auto shrink_to_fit = ecow_##kind##_shrink_to_fit; \
    static constexpr auto extend = ecow_##kind##_extend;               \
    static constexpr auto splice = ecow_##kind##_splice;               \
    static constexpr auto equal = ecow_##kind##_equal;                 \
    static constexpr auto compare = ecow_##kind##_compare;             \
    static constexpr auto hash = ecow_##kind##_hash
#define ECOW_ARRAY_CALLS(kind, Item)                     \
    ECOW_CALLS(kind, Item, Item);                        \
    static constexpr auto assign = ecow_##kind##_assign; \
    static constexpr auto slice = ecow_##kind##_slice
#define ECOW_LIST_CALLS(kind, Item)                      \
    ECOW_ARRAY_CALLS(kind, Item);                        \
    static constexpr auto set = ecow_##kind##_set;       \
    static constexpr auto edit = ecow_##kind##_edit;     \
    static constexpr auto push = ecow_##kind##_push;     \
    static constexpr auto pop = ecow_##kind##_pop;       \
    static constexpr auto insert = ecow_##kind##_insert; \
    static constexpr auto remove = ecow_##kind##_remove

/* Whether items are compared as whole numbers are. Others have operators of their own. */
template <typename Item>
constexpr bool is_whole = std::is_integral_v<Item> || std::is_same_v<Item, std::byte>
                          || std::is_same_v<Item, std::string_view>;

/* Those on lists of items of any type, as an array. */
template <typename Item> struct list_calls {
    /* A call of ecow.h that is given the size of an item. */
    template <auto call>
    static constexpr auto sized = [](auto *array, auto... rest) noexcept {
        return call(array, sizeof(Item), rest...);
    };

    using type = ecow_array;
    using item = Item;
    using given = Item;
    static constexpr auto drop = ecow_array_drop;
    static constexpr auto clone = ecow_array_clone;
    static constexpr auto len = sized<ecow_array_len>;
    static constexpr auto shares = ecow_array_shares;
    static constexpr auto truncate = sized<ecow_array_truncate>;
    static constexpr auto clear = ecow_array_clear;
    static constexpr auto reserve = sized<ecow_array_reserve>;
    static constexpr auto capacity = sized<ecow_array_capacity>;
    static constexpr auto shrink_to_fit = ecow_array_shrink_to_fit;
    static constexpr auto extend = sized<ecow_array_extend>;
    static constexpr auto splice = sized<ecow_array_splice>;
    static constexpr auto assign = sized<ecow_array_assign>;
    static constexpr auto pop = sized<ecow_array_pop>;
    static constexpr auto remove = sized<ecow_array_remove>;
    static constexpr auto equal = ecow_array_equal;

    static const Item *slice(const ecow_array *array, std::size_t *count) noexcept {
        return static_cast<const Item *>(ecow_array_slice(array, sizeof(Item), count));
    }

    static ecow_status edit(ecow_array *array, Item **start, std::size_t *count) noexcept {
        void *all = nullptr;
        const ecow_status status = ecow_array_edit(array, sizeof(Item), &all, count);
        *start = static_cast<Item *>(all);
        return status;
    }

    static ecow_status set(ecow_array *array, std::size_t index, const Item &one) noexcept {
        return ecow_array_set(array, sizeof(Item), index, std::addressof(one));
    }

    static ecow_status push(ecow_array *array, const Item &one) noexcept {
        return ecow_array_push(array, sizeof(Item), std::addressof(one));
    }

    static ecow_status insert(ecow_array *array, std::size_t index, const Item &one) noexcept {
        return ecow_array_insert(array, sizeof(Item), index, std::addressof(one));
    }

    /* By the hashes of the items, since equal items may differ in their bytes. */
    static std::uint64_t hash(const ecow_array *array) {
        std::size_t count = 0;
        const Item *start = slice(array, &count);
        std::uint64_t sum = count;
        for (const Item *place = start; place != start + count; ++place) {
            sum = (sum ^ std::hash<Item>()(*place)) * 0x9E3779B97F4A7C15;
            sum ^= sum >> 32;
        }
        return sum;
    }
};

template <> struct list_calls<std::int64_t> { ECOW_LIST_CALLS(list, std::int64_t); };

template <> struct list_calls<std::uint8_t> { ECOW_LIST_CALLS(bytes, std::uint8_t); };

struct text_calls {
    ECOW_ARRAY_CALLS(text, char);
};

class text_item;

struct texts_calls {
    ECOW_CALLS(texts, std::string_view, text_item);
    static constexpr auto assign = ecow_texts_clone;
};

#undef ECOW_LIST_CALLS
#undef ECOW_ARRAY_CALLS
#undef ECOW_CALLS

struct value_calls {
    using type = ecow_value;
    static constexpr auto drop = ecow_value_drop;
    static constexpr auto clone = ecow_value_clone;
    static constexpr auto len = ecow_value_len;
    static constexpr auto shares = ecow_value_shares;
};

/* A value of C that stands in another one, as the class that holds nothing else. */
template <typename Self, typename Raw> const Self *in_place(const Raw *raw) noexcept {
    static_assert(std::is_standard_layout_v<Self> && sizeof(Self) == sizeof(Raw));
    return reinterpret_cast<const Self *>(raw);
}

/* ---- Iterators ---- */

/* The operators that follow from `==` and from a function `compare`, which is below 0 where `left`
 * comes first. */
template <typename Self> class ordered {
    friend bool operator!=(const Self &left, const Self &right) noexcept {
        return !(left == right);
    }

    friend bool operator<(const Self &left, const Self &right) {
        return compare(left, right) < 0;
    }

    friend bool operator<=(const Self &left, const Self &right) {
        return compare(left, right) <= 0;
    }

    friend bool operator>(const Self &left, const Self &right) {
        return compare(left, right) > 0;
    }

    friend bool operator>=(const Self &left, const Self &right) {
        return compare(left, right) >= 0;
    }
};

/* Where an iterator is, and how it moves. `Place` is a pointer or an index. */
template <typename Self, typename Place> class position : ordered<Self> {
public:
    using difference_type = std::ptrdiff_t;

    position() = default;

    explicit position(Place start) noexcept : place(start) {}

    Self &operator++() noexcept {
        ++place;
        return self();
    }

    Self operator++(int) noexcept {
        Self before(self());
        ++place;
        return before;
    }

    Self &operator--() noexcept {
        --place;
        return self();
    }

    Self operator--(int) noexcept {
        Self before(self());
        --place;
        return before;
    }

    Self &operator+=(difference_type distance) noexcept {
        place += distance;
        return self();
    }

    Self &operator-=(difference_type distance) noexcept {
        place -= distance;
        return self();
    }

    friend Self operator+(Self from, difference_type distance) noexcept {
        return from += distance;
    }

    friend Self operator+(difference_type distance, Self from) noexcept {
        return from += distance;
    }

    friend Self operator-(Self from, difference_type distance) noexcept {
        return from -= distance;
    }

    friend difference_type operator-(const Self &left, const Self &right) noexcept {
        return left.place - right.place;
    }

    friend bool operator==(const Self &left, const Self &right) noexcept {
        return left.place == right.place;
    }

    friend difference_type compare(const Self &left, const Self &right) noexcept {
        return left.place - right.place;
    }

protected:
    Place place{};

private:
    Self &self() noexcept {
        return static_cast<Self &>(*this);
    }
};

/* A place in a value, to read from: contiguous in C++20. It is a class, so that 0 is an index and
 * never a place. */
template <typename Item> class iterator : public position<iterator<Item>, const Item *> {
public:
    using iterator_category = std::random_access_iterator_tag;
#ifdef __cpp_lib_concepts
    using iterator_concept = std::contiguous_iterator_tag;
#endif
    using value_type = Item;
    using difference_type = std::ptrdiff_t;
    using pointer = const Item *;
    using reference = const Item &;

    using position<iterator, pointer>::position;

    reference operator*() const noexcept {
        return *this->place;
    }

    pointer operator->() const noexcept {
        return this->place;
    }

    reference operator[](difference_type distance) const noexcept {
        return this->place[distance];
    }
};

/* An item that is read by value, for as long as `->` needs it. */
template <typename Item> class arrow {
public:
    explicit arrow(Item item) : held(std::move(item)) {}

    const Item *operator->() const noexcept {
        return &held;
    }

private:
    Item held;
};

/* An index into an owner of items that `Self` reads by value. C++17 calls that an input iterator,
 * which gives no reference, and C++20 one of random access. What is read is const, so that no
 * assignment to it compiles. */
template <typename Self, typename Owner, typename Item>
class indexed : public position<Self, std::ptrdiff_t> {
public:
    using iterator_category = std::input_iterator_tag;
    using iterator_concept = std::random_access_iterator_tag;
    using value_type = Item;
    using difference_type = std::ptrdiff_t;
    using pointer = arrow<Item>;
    using reference = const Item;

    indexed() = default;

    indexed(const Owner *of, std::size_t start) noexcept
        : position<Self, std::ptrdiff_t>(static_cast<std::ptrdiff_t>(start)), owner(of) {}

    pointer operator->() const {
        return pointer(*static_cast<const Self &>(*this));
    }

    reference operator[](difference_type distance) const {
        return *(static_cast<const Self &>(*this) + distance);
    }

protected:
    std::size_t index() const noexcept {
        return static_cast<std::size_t>(this->place);
    }

    const Owner *owner = nullptr;
};

/* ---- What arguments have for items ---- */

template <typename Item>
constexpr bool is_byte =
    std::disjunction_v<std::is_same<Item, char>, std::is_same<Item, signed char>,
                       std::is_same<Item, unsigned char>, std::is_same<Item, std::byte>>;

template <typename From> constexpr bool is_view() {
    return std::is_convertible_v<std::add_lvalue_reference_t<const From>,
                                 std::string_view> && !std::is_null_pointer_v<From>;
}

/* Whether the items are texts, which are read as views. */
template <typename Item> constexpr bool are_texts = std::is_same_v<Item, std::string_view>;

/* Whether items of one type are those of the other where they lie, as all bytes are. */
template <typename Item, typename Other> constexpr bool are_alike() {
    return std::is_same_v<Item, Other> || (is_byte<Item> && is_byte<Other>);
}

/* Whether such an item may be a copy of the other: no number of its type is cut. */
template <typename Item, typename Other> constexpr bool copies() {
    if constexpr (are_texts<Item>) {
        return is_view<Other>();
    } else if constexpr (are_alike<Item, Other>() || is_one_of<Item, char, bool>) {
        return are_alike<Item, Other>();
    } else if constexpr (std::is_floating_point_v<Item> && std::is_arithmetic_v<Other>) {
        return std::numeric_limits<Other>::digits <= std::numeric_limits<Item>::digits;
    } else if constexpr (std::is_integral_v<Item> && std::is_integral_v<Other>) {
        return sizeof(Other) < sizeof(Item)
               || (sizeof(Other) == sizeof(Item)
                   && std::is_signed_v<Other> == std::is_signed_v<Item>);
    } else {
        return false;
    }
}

/* The type of what lies in the array of a container, or void where it has none. */
template <typename From, typename = void> struct array_item { using type = void; };

template <typename From>
struct array_item<From, std::void_t<decltype(std::data(std::declval<const From &>())),
                                    decltype(std::size(std::declval<const From &>()))>> {
    using pointer = decltype(std::data(std::declval<const From &>()));
    using type = std::remove_cv_t<std::remove_pointer_t<pointer>>;
};

/* The type of what an iterator passes over, or void where it is none. */
template <typename Iterator, typename = void> struct passed_item { using type = void; };

template <typename Iterator>
struct passed_item<Iterator, std::void_t<typename std::iterator_traits<Iterator>::value_type>> {
    using type = typename std::iterator_traits<Iterator>::value_type;
};

/* The type of what the iterators of a container pass over, or void where it has none. */
template <typename From, typename = void> struct held_item { using type = void; };

template <typename From>
struct held_item<From, std::void_t<decltype(std::begin(std::declval<const From &>()))>>
    : passed_item<decltype(std::begin(std::declval<const From &>()))> {};

/* Whether such items are read where they lie in an argument: numbers and bytes in one array. */
template <typename Item, typename From> constexpr bool lends() {
    if constexpr (are_texts<Item>) {
        return is_view<typename held_item<From>::type>();
    } else {
        return (is_byte<Item> && is_view<From>())
               || are_alike<Item, typename array_item<From>::type>();
    }
}

/* Whether such items are read from an argument. A list takes none from a text. */
template <typename Item, typename From> constexpr bool reads() {
    return lends<Item, From>()
           || (copies<Item, typename held_item<From>::type>() && !is_view<From>());
}

/* Whether such items are read between two iterators. */
template <typename Item, typename Iterator> constexpr bool passes() {
    return copies<Item, typename passed_item<Iterator>::type>();
}

#ifdef __cpp_lib_concepts
template <typename Iterator> constexpr bool is_contiguous = std::contiguous_iterator<Iterator>;
#else
/* C++17 can't tell of others whether they pass over an array. */
template <typename Iterator> constexpr bool is_contiguous = std::is_pointer_v<Iterator>;
template <typename Item> constexpr bool is_contiguous<iterator<Item>> = true;
#endif

/* Items in one array of another's. */
template <typename Item> struct slice {
    const Item *start;
    std::size_t count;
};

template <typename Item, typename From> slice<Item> lend(const From &from) noexcept {
    if constexpr (is_byte<Item> && is_view<From>()) {
        std::string_view view = from;
        return {reinterpret_cast<const Item *>(view.data()), view.size()};
    } else {
        return {reinterpret_cast<const Item *>(std::data(from)),
                static_cast<std::size_t>(std::size(from))};
    }
}

/* The items of an argument as one array: lent where they lie in one, and else copied to one. */
template <typename Item> class array {
public:
    template <typename From, std::enable_if_t<reads<Item, From>(), int> = 0>
    array(const From &from) {
        if constexpr (lends<Item, From>()) {
            lent = lend<Item>(from);
        } else {
            copy(std::begin(from), std::end(from));
        }
    }

    array(std::initializer_list<Item> from) : array(from.begin(), from.end()) {}

    template <typename Iterator, std::enable_if_t<passes<Item, Iterator>(), int> = 0>
    array(Iterator first, Iterator last) {
        using other = typename passed_item<Iterator>::type;
        if constexpr (is_contiguous<Iterator> && are_alike<Item, other>()) {
            if (first != last) {
                lent = {reinterpret_cast<const Item *>(std::addressof(*first)),
                        static_cast<std::size_t>(last - first)};
            }
        } else {
            copy(first, last);
        }
    }

    array(const array &) = delete;
    array &operator=(const array &) = delete;

    const Item *data() const noexcept {
        return lent.start;
    }

    std::size_t size() const noexcept {
        return lent.count;
    }

    /* Makes a call of ecow.h, whose last arguments are the items. */
    template <typename Call, typename... Arguments>
    ecow_status give_to(Call call, Arguments... arguments) const noexcept {
        return call(arguments..., lent.start, lent.count);
    }

private:
    template <typename Iterator> void copy(Iterator first, Iterator last) {
        for (; first != last; ++first) {
            copied.push_back(static_cast<Item>(*first));
        }
        lent = {reinterpret_cast<const Item *>(copied.data()), copied.size()};
    }

    /* Those of std::vector<bool> aren't in one array. */
    std::vector<std::conditional_t<std::is_same_v<Item, bool>, unsigned char, Item>> copied;
    slice<Item> lent{nullptr, 0};
};

/* ---- Comparisons ---- */

template <typename Type> struct type_of { using type = Type; };

/* What all containers of this header are derived from. */
class container {};

template <typename Type> constexpr bool is_container = std::is_base_of_v<container, Type>;

/* The type of the items that are compared, where one is a container of this header, and the other lends
 * such items; else there is none. */
template <typename Left, typename Right> constexpr auto compared() {
    if constexpr (is_container<Left>) {
        if constexpr (lends<typename Left::value_type, Right>()) {
            return type_of<typename Left::value_type>();
        }
    } else if constexpr (is_container<Right>) {
        if constexpr (lends<typename Right::value_type, Left>()) {
            return type_of<typename Right::value_type>();
        }
    }
}

template <typename Left, typename Right>
using compared_item = typename decltype(compared<Left, Right>())::type;

/* What an operator on two items answers. */
template <typename Item>
using item_equal = decltype(std::declval<const Item &>() == std::declval<const Item &>());
template <typename Item>
using item_less = decltype(std::declval<const Item &>() < std::declval<const Item &>());

#ifdef __cpp_impl_three_way_comparison
template <typename Item>
using item_order = decltype(std::declval<const Item &>() <=> std::declval<const Item &>());
#endif

/* What a comparison answers, where the items have the operator. */
template <typename Left, typename Right, template <typename> typename Operator>
using comparison =
    std::enable_if_t<std::is_convertible_v<Operator<compared_item<Left, Right>>, bool>, bool>;

/* Whether no operator on the items throws. */
template <typename Left, typename Right>
constexpr bool compares_safely = is_whole<compared_item<Left, Right>>
                                 || std::is_scalar_v<compared_item<Left, Right>>;

/* Bytes are unsigned, those of texts too. */
template <typename Item> int compare_slices(slice<Item> left, slice<Item> right) noexcept {
    if constexpr (is_byte<Item>) {
        return std::string_view(reinterpret_cast<const char *>(left.start), left.count)
            .compare(std::string_view(reinterpret_cast<const char *>(right.start), right.count));
    } else {
        for (std::size_t at = 0; at < left.count && at < right.count; ++at) {
            if (left.start[at] != right.start[at]) {
                return left.start[at] < right.start[at] ? -1 : 1;
            }
        }
        return (left.count > right.count) - (left.count < right.count);
    }
}

/* Texts one by one, as any container has them. */
template <typename Left, typename Right>
int compare_texts(const Left &left, const Right &right) noexcept {
    auto place = std::begin(left), left_end = std::end(left);
    auto other = std::begin(right), right_end = std::end(right);
    int order = 0;
    while (order == 0 && place != left_end && other != right_end) {
        order = std::string_view(*place).compare(*other);
        ++place;
        ++other;
    }
    return order ? order : (place != left_end) - (other != right_end);
}

template <typename Left, typename Right>
bool are_equal(const Left &left, const Right &right) noexcept(compares_safely<Left, Right>) {
    using item = compared_item<Left, Right>;
    if constexpr (is_whole<item> && std::is_same_v<Left, Right>) {
        return Left::calls::equal(left.c(), right.c());
    } else if constexpr (are_texts<item>) {
        return compare_texts(left, right) == 0;
    } else {
        const auto all = lend<item>(left), other = lend<item>(right);
        if constexpr (is_whole<item>) {
            return all.count == other.count && compare_slices(all, other) == 0;
        } else {
            return std::equal(all.start, all.start + all.count, other.start,
                              other.start + other.count);
        }
    }
}

/* Whether ecow.h compares them: it has no order of arrays. */
template <typename Left, typename Right> constexpr bool have_order = false;
template <typename Value>
constexpr bool have_order<Value, Value> = !std::is_same_v<typename Value::c_type, ecow_array>;

/* Below 0 where `left` comes first, 0 where they are equal. The items are whole. */
template <typename Left, typename Right>
int compare(const Left &left, const Right &right) noexcept {
    using item = compared_item<Left, Right>;
    if constexpr (have_order<Left, Right>) {
        return Left::calls::compare(left.c(), right.c());
    } else if constexpr (are_texts<item>) {
        return compare_texts(left, right);
    } else {
        return compare_slices(lend<item>(left), lend<item>(right));
    }
}

/* Whether `left` comes first, by the items' own `<`. */
template <typename Left, typename Right>
bool is_less(const Left &left, const Right &right) noexcept(compares_safely<Left, Right>) {
    using item = compared_item<Left, Right>;
    if constexpr (is_whole<item>) {
        return compare(left, right) < 0;
    } else {
        const auto all = lend<item>(left), other = lend<item>(right);
        return std::lexicographical_compare(all.start, all.start + all.count, other.start,
                                            other.start + other.count);
    }
}

/* ---- What all kinds of value have in common ---- */

/* A value of C. `Self` is the class of this header. */
template <typename Self, typename Calls> class owned {
public:
    using calls = Calls;
    using c_type = typename Calls::type;
    using size_type = std::size_t;

    owned() = default;

    /* Takes a value of C over, and leaves that empty. */
    explicit owned(c_type &&taken) noexcept : raw(std::exchange(taken, {})) {}

    /* Takes the value over at which the pointer points, and leaves that empty. Throws
     * std::invalid_argument at a null pointer. It is a template, so that 0 is no pointer. */
    template <typename Raw, std::enable_if_t<std::is_same_v<Raw, c_type>, int> = 0>
    explicit owned(Raw *taken) {
        check(taken ? ECOW_OK : ECOW_NULL);
        raw = std::exchange(*taken, {});
    }

    /* A copy is refused past 2^63 owners, which no memory holds. */
    owned(const owned &other) noexcept {
        check(Calls::clone(&raw, &other.raw));
    }

    owned(owned &&other) noexcept : raw(other.release()) {}

    owned &operator=(const owned &other) noexcept {
        check(Calls::clone(&raw, &other.raw));
        return *this;
    }

    owned &operator=(owned &&other) noexcept {
        owned taken(std::move(other));
        std::swap(raw, taken.raw);
        return *this;
    }

    ~owned() {
        Calls::drop(&raw);
    }

    void swap(owned &other) noexcept {
        std::swap(raw, other.raw);
    }

    friend void swap(Self &left, Self &right) noexcept {
        left.swap(right);
    }

    /* The value of C, for calls of ecow.h. It stays this value's: drop it nowhere else. */
    c_type *c() noexcept {
        return &raw;
    }

    const c_type *c() const noexcept {
        return &raw;
    }

    /* Gives the value of C up to the caller, who drops it, and is empty afterwards. */
    c_type release() noexcept {
        return std::exchange(raw, {});
    }

    size_type size() const noexcept {
        return Calls::len(&raw);
    }

    /* Whether both stand in the same memory, and so are equal: not so where they take none. */
    bool shares(const Self &other) const noexcept {
        return Calls::shares(&raw, other.c());
    }

protected:
    c_type raw{};
};

/* ---- What the containers have in common ---- */

/* `Self` has `begin` and `end`, is made of `(count, item)`, and appends so. Sizes and indices count
 * items. */
template <typename Self, typename Calls>
class sequence : public owned<Self, Calls>, public container {
    using base = owned<Self, Calls>;

public:
    using array = detail::array<typename Calls::item>;
    using value_type = typename Calls::item;
    using typename base::size_type;
    using difference_type = std::ptrdiff_t;
    using iterator = detail::iterator<value_type>;
    using const_iterator = iterator;
    using reference = typename iterator::reference;
    using const_reference = reference;
    using pointer = typename iterator::pointer;
    using const_pointer = pointer;
    using reverse_iterator = std::reverse_iterator<iterator>;
    using const_reverse_iterator = reverse_iterator;

    using base::base;
    using base::size;

    sequence() = default;

    explicit sequence(const array &items) {
        check(items.give_to(Calls::assign, &raw));
    }

    sequence(std::initializer_list<typename Calls::given> items) : sequence(array(items)) {}

    template <typename Iterator, std::enable_if_t<passes<value_type, Iterator>(), int> = 0>
    sequence(Iterator first, Iterator last) : sequence(array(first, last)) {}

    template <typename From,
              std::enable_if_t<std::is_constructible_v<array, const From &>, int> = 0>
    Self &operator=(const From &items) {
        return assign(items);
    }

    Self &operator=(std::initializer_list<typename Calls::given> items) {
        return assign(items);
    }

    Self &assign(const array &items) {
        check(items.give_to(Calls::assign, &raw));
        return self();
    }

    template <typename Iterator, std::enable_if_t<passes<value_type, Iterator>(), int> = 0>
    Self &assign(Iterator first, Iterator last) {
        return assign(array(first, last));
    }

    Self &assign(size_type count, typename Calls::given item) {
        Self made(count, item);
        this->swap(made);
        return self();
    }

    size_type max_size() const noexcept {
        return PTRDIFF_MAX / sizeof(value_type);
    }

    bool empty() const noexcept {
        return size() == 0;
    }

    const_iterator cbegin() const noexcept {
        return self().begin();
    }

    const_iterator cend() const noexcept {
        return self().end();
    }

    const_reverse_iterator rbegin() const noexcept {
        return const_reverse_iterator(cend());
    }

    const_reverse_iterator rend() const noexcept {
        return const_reverse_iterator(cbegin());
    }

    const_reverse_iterator crbegin() const noexcept {
        return rbegin();
    }

    const_reverse_iterator crend() const noexcept {
        return rend();
    }

    /* `index` has to be below the size: nothing checks it. */
    const_reference operator[](size_type index) const noexcept ECOW_LENDS {
        if (index >= size()) {
            /* So GCC doesn't warn of an index past the bytes that fit into the value itself. */
            __builtin_unreachable();
        }
        return *place_of(index);
    }

    /* Throws std::out_of_range from the size on. */
    const_reference at(size_type index) const ECOW_LENDS {
        check(index < size() ? ECOW_OK : ECOW_INDEX);
        return *place_of(index);
    }

    /* The value may not be empty: nothing checks it. */
    const_reference front() const noexcept ECOW_LENDS {
        return *cbegin();
    }

    /* The value may not be empty: nothing checks it. */
    const_reference back() const noexcept ECOW_LENDS {
        return *(cend() - 1);
    }

    /* How many items there is room for. */
    size_type capacity() const noexcept {
        return Calls::capacity(&raw);
    }

    /* Makes room for `count` items in all, as in std. The C call counts those to come. */
    void reserve(size_type count) {
        size_type present = size();
        check(Calls::reserve(&raw, count > present ? count - present : 0));
    }

    /* Lists give up room that isn't used, unless a copy shares it. At most 15 bytes come back into
     * the value. */
    void shrink_to_fit() {
        check(Calls::shrink_to_fit(&raw));
    }

    /* Memory that no copy shares is kept for what comes. */
    void clear() noexcept {
        (void)Calls::clear(&raw);
    }

    /* Keeps the first `count` items, or all where there are fewer. */
    void truncate(size_type count) {
        check(Calls::truncate(&raw, count));
    }

    /* Cuts items off, or appends zeros; to a list of texts, empty ones. */
    void resize(size_type count) {
        resize(count, value_type());
    }

    void resize(size_type count, typename Calls::given item) {
        size_type present = size();
        if (count < present) {
            truncate(count);
        } else {
            self().append(count - present, item);
        }
    }

    Self &append(const array &items) {
        check(items.give_to(Calls::extend, &raw));
        return self();
    }

    template <typename Iterator, std::enable_if_t<passes<value_type, Iterator>(), int> = 0>
    Self &append(Iterator first, Iterator last) {
        return append(array(first, last));
    }

    /* Puts items in before `position`, and returns where they begin. */
    iterator insert(const_iterator position, const array &items) {
        size_type index = index_of(position);
        splice(index, index, items);
        return place_of(index);
    }

    iterator insert(const_iterator position, size_type count, typename Calls::given item) {
        return insert(position, Self(count, item));
    }

    template <typename Iterator, std::enable_if_t<passes<value_type, Iterator>(), int> = 0>
    iterator insert(const_iterator position, Iterator first, Iterator last) {
        return insert(position, array(first, last));
    }

    /* Takes the items from `first` up to `last`, and returns where the next one is. */
    iterator erase(const_iterator first, const_iterator last) {
        size_type index = index_of(first);
        splice(index, index_of(last), {});
        return place_of(index);
    }

    /* Puts `items` in place of those from `start` up to `end`, which isn't included. Throws
     * std::out_of_range where `start` passes `end`, or `end` the size. */
    void splice(size_type start, size_type end, const array &items) {
        check(items.give_to(Calls::splice, &raw, start, end));
    }

    /* SipHash-1-3, with keys of 0; of a vector of other items by their own hashes. Equal values have
     * the same. */
    std::uint64_t hash() const noexcept {
        return Calls::hash(&raw);
    }

protected:
    using base::raw;

    size_type index_of(const_iterator position) const noexcept {
        return static_cast<size_type>(position - cbegin());
    }

    iterator place_of(size_type index) const noexcept {
        return cbegin() + static_cast<difference_type>(index);
    }

private:
    Self &self() noexcept {
        return static_cast<Self &>(*this);
    }

    const Self &self() const noexcept {
        return static_cast<const Self &>(*this);
    }
};

/* What containers have whose items stand in one array. */
template <typename Self, typename Calls> class contiguous : public sequence<Self, Calls> {
    using base = sequence<Self, Calls>;

public:
    using base::append;
    using base::base;
    using base::operator=;
    using typename base::const_iterator;
    using typename base::const_pointer;
    using typename base::size_type;
    using typename base::value_type;

    contiguous() = default;

    contiguous(size_type count, value_type item) {
        append(count, item);
    }

    /* Never null, even where the value is empty. */
    const_pointer data() const &noexcept ECOW_LENDS {
        return Calls::slice(&raw, nullptr);
    }

    const_pointer data() const && = delete;

    const_iterator begin() const &noexcept ECOW_LENDS {
        return const_iterator(data());
    }

    const_iterator begin() const && = delete;

    const_iterator end() const && = delete;

    const_iterator end() const &noexcept ECOW_LENDS {
        size_type count = 0;
        const_pointer start = Calls::slice(&raw, &count);
        return const_iterator(start + count);
    }

    /* Room for all comes first, so that no later part is refused. */
    Self &append(size_type count, value_type item) {
        check(Calls::reserve(&raw, count));
        constexpr size_type most = sizeof(item) < 512 ? 512 / sizeof(item) : 1;
        alignas(value_type) unsigned char part[most * sizeof(item)];
        for (size_type at = 0; at < count && at < most; ++at) {
            std::memcpy(part + at * sizeof(item), std::addressof(item), sizeof(item));
        }
        while (count > 0) {
            size_type added = count < most ? count : most;
            check(Calls::extend(&raw, reinterpret_cast<const value_type *>(part), added));
            count -= added;
        }
        return static_cast<Self &>(*this);
    }

protected:
    using base::raw;
};

} // namespace detail

/* A list of items of any type that is trivially copyable, and aligned to 16 bytes at most. Items are
 * compared and hashed by operators and std::hash of their own, where they have them. */
template <typename Item>
class vector : public detail::contiguous<vector<Item>, detail::list_calls<Item>> {
    static_assert(!std::is_same_v<Item, std::string_view>,
                  "ecow::vector doesn't take std::string_view: ecow::texts copies what it sees");
    static_assert(std::is_trivially_copyable_v<Item> && !std::is_const_v<Item>,
                  "ecow::vector takes ecow::text, and types that are trivially copyable");
    static_assert(alignof(Item) <= 16, "ecow::vector takes types that are aligned to 16 at most");

    using own = detail::list_calls<Item>;
    using base = detail::contiguous<vector<Item>, own>;

public:
    using base::base;
    using base::erase;
    using base::insert;
    using base::operator=;
    using typename base::const_iterator;
    using typename base::const_reference;
    using typename base::iterator;
    using typename base::size_type;

    vector() = default;

    /* `count` zeros. */
    explicit vector(size_type count) : base(count, Item()) {}

    explicit operator std::vector<Item>() const {
        return std::vector<Item>(this->begin(), this->end());
    }

    /* The items, to write in place: `auto items = v.edit(); std::sort(items.begin(), items.end());`.
     * Memory that a copy shares is copied first, so that the copy doesn't change. */
    [[nodiscard]] span<Item> edit() & ECOW_LENDS {
        Item *start = nullptr;
        std::size_t count = 0;
        detail::check(own::edit(&this->raw, &start, &count));
        return span<Item>(start, count);
    }

    /* Writes the item at `index`. Throws std::out_of_range from the size on. */
    void set(size_type index, Item item) {
        detail::check(own::set(&this->raw, index, item));
    }

    void push_back(Item item) {
        detail::check(own::push(&this->raw, item));
    }

    const_reference emplace_back(Item item = Item()) {
        push_back(item);
        return this->back();
    }

    iterator emplace(const_iterator position, Item item = Item()) {
        return insert(position, item);
    }

    iterator insert(const_iterator position, Item item) {
        size_type index = this->index_of(position);
        detail::check(own::insert(&this->raw, index, item));
        return this->place_of(index);
    }

    iterator erase(const_iterator position) {
        size_type index = this->index_of(position);
        take(index);
        return this->place_of(index);
    }

    /* Takes the last item and returns it. Throws std::out_of_range where there is none. */
    Item pop_back() {
        const Item item = this->at(this->size() - 1);
        detail::check(own::pop(&this->raw, nullptr));
        return item;
    }

    /* Takes the item at `index` and returns it. Throws std::out_of_range from the size on. */
    Item take(size_type index) {
        const Item item = this->at(index);
        detail::check(own::remove(&this->raw, index, nullptr));
        return item;
    }
};

using list = vector<std::int64_t>;

/* At most 15 bytes take no memory beside the value. */
using bytes = vector<std::uint8_t>;

/* UTF-8, always: at most 15 bytes take no memory beside the value. Items are bytes. An index is a
 * boundary where a character begins or the text ends. A character is a Unicode scalar value.
 * Bytes that aren't UTF-8, and an index inside a character, are refused with `invalid_text`. */
class text : public detail::contiguous<text, detail::text_calls> {
    using base = detail::contiguous<text, detail::text_calls>;

public:
    using base::append;
    using base::assign;
    using base::base;
    using base::erase;
    using base::insert;
    using base::operator=;

    static constexpr size_type npos = std::string_view::npos;

    text() = default;

    /* The bytes before the first 0. */
    text(const char *start) : base(std::string_view(start)) {}

    text(std::nullptr_t) = delete;

    text(const std::string &copied) : base(copied) {}

    text(const char *start, size_type count) : base(std::string_view(start, count)) {}

    text &assign(const char *start, size_type count) {
        return assign(std::string_view(start, count));
    }

    text &append(const char *start, size_type count) {
        return append(std::string_view(start, count));
    }

    size_type length() const noexcept {
        return size();
    }

    static bool is_utf8(std::string_view tested) noexcept {
        return ecow_is_utf8(tested.data(), tested.size());
    }

    /* Puts a 0 behind the bytes, which copies what is shared. Throws `invalid_text` where one
     * stands among them. */
    const char *c_str() & ECOW_LENDS {
        const char *start = nullptr;
        detail::check(ecow_text_c_str(&raw, &start));
        return start;
    }

    /* No 0 need stand behind the bytes. */
    operator std::string_view() const &noexcept ECOW_LENDS {
        size_type count = 0;
        const char *start = ecow_text_slice(&raw, &count);
        return std::string_view(start, count);
    }

    operator std::string_view() const && = delete;

    bool is_boundary(size_type index) const noexcept {
        return ecow_text_is_boundary(&raw, index);
    }

    /* The character that begins at `index`; `at` gives one byte of it. Throws std::out_of_range
     * from the size on. */
    char32_t get(size_type index) const {
        std::uint32_t character = 0;
        detail::check(ecow_text_get(&raw, index, &character));
        return static_cast<char32_t>(character);
    }

    /* Appends a character. */
    void push_back(char32_t character) {
        detail::check(ecow_text_push(&raw, static_cast<std::uint32_t>(character)));
    }

    /* Appends an ASCII character: a byte above 127 is refused, whether `char` is signed or not. */
    void push_back(char character) {
        push_back(static_cast<char32_t>(static_cast<signed char>(character)));
    }

    /* Takes the last character and returns it. Throws std::out_of_range where there is none. */
    char32_t pop_back() {
        std::uint32_t character = 0;
        detail::check(ecow_text_pop(&raw, &character));
        return static_cast<char32_t>(character);
    }

    /* Takes the character at `index` and returns it. Throws std::out_of_range from the size on. */
    char32_t take(size_type index) {
        std::uint32_t character = 0;
        detail::check(ecow_text_remove(&raw, index, &character));
        return static_cast<char32_t>(character);
    }

    text &operator+=(const array &added) {
        return append(added);
    }

    text &operator+=(char character) {
        push_back(character);
        return *this;
    }

    text &operator+=(char32_t character) {
        push_back(character);
        return *this;
    }

    /* Throws std::out_of_range past the size, as each call below with an index. */
    text &insert(size_type index, const array &added) {
        splice(index, index, added);
        return *this;
    }

    text &insert(size_type index, size_type count, char character) {
        return insert(index, text(count, character));
    }

    /* An ASCII character. */
    iterator insert(const_iterator position, char character) {
        return insert(position, std::string_view(&character, 1));
    }

    /* Takes `count` bytes, or those that there are. */
    text &erase(size_type index = 0, size_type count = npos) {
        return replace(index, count, "");
    }

    iterator erase(const_iterator position) {
        return erase(position, position + 1);
    }

    text &replace(size_type index, size_type count, const array &added) {
        splice(index, end_of(index, count), added);
        return *this;
    }

    text &replace(const_iterator first, const_iterator last, const array &added) {
        splice(index_of(first), index_of(last), added);
        return *this;
    }

    /* Puts `replacement` in place of each `pattern`, from the left and without overlap. An empty
     * pattern is found at each boundary. */
    void replace(const array &pattern, const array &replacement) {
        detail::check(ecow_text_replace(&raw, pattern.data(), pattern.size(), replacement.data(),
                                        replacement.size()));
    }

    text substr(size_type index = 0, size_type count = npos) const {
        size_type end = end_of(index, count);
        detail::check(index > end ? ECOW_INDEX : ECOW_OK);
        detail::check(is_boundary(index) && is_boundary(end) ? ECOW_OK : ECOW_BOUNDARY);
        return text(data() + index, end - index);
    }

    /* A pattern is a text, in any form, or a character. */
    template <typename Pattern>
    size_type find(const Pattern &pattern, size_type start = 0) const noexcept {
        return view().find(pattern, start);
    }

    template <typename Pattern>
    size_type rfind(const Pattern &pattern, size_type start = npos) const noexcept {
        return view().rfind(pattern, start);
    }

    template <typename Pattern> bool contains(const Pattern &pattern) const noexcept {
        return find(pattern) != npos;
    }

    template <typename Pattern> bool starts_with(const Pattern &pattern) const noexcept {
        return rfind(pattern, 0) == 0;
    }

    template <typename Pattern> bool ends_with(const Pattern &pattern) const noexcept {
        if constexpr (std::is_same_v<Pattern, char>) {
            return ends_with(std::string_view(&pattern, 1));
        } else {
            const std::string_view last(pattern);
            return size() >= last.size() && view().substr(size() - last.size()) == last;
        }
    }

    template <typename Other> int compare(const Other &other) const noexcept {
        return view().compare(std::string_view(other));
    }

    /* Puts it in lower case, by Unicode. */
    void to_lowercase() {
        detail::check(ecow_text_to_lowercase(&raw));
    }

    /* Puts it in upper case, by Unicode. */
    void to_uppercase() {
        detail::check(ecow_text_to_uppercase(&raw));
    }

    /* Makes it `count` times as long: itself, that often. */
    void repeat(size_type count) {
        detail::check(ecow_text_repeat(&raw, count));
    }

private:
    std::string_view view() const noexcept {
        return *this;
    }

    /* Where `count` bytes from `index` on end, or the text. */
    size_type end_of(size_type index, size_type count) const noexcept {
        size_type all = size();
        return index < all && count < all - index ? index + count : all;
    }
};

namespace detail {

/* A text that is put in. It refers to what was given, and owns nothing, until the call ends. */
class text_item {
public:
    template <typename From, std::enable_if_t<is_view<From>(), int> = 0>
    text_item(const From &from) {
        if constexpr (std::is_same_v<From, text>) {
            shared = std::addressof(from);
        } else {
            view = from;
        }
    }

    /* A clone of a text, or a copy of what is read as a view. */
    text get() const {
        return shared ? *shared : text(view);
    }

private:
    const text *shared = nullptr;
    std::string_view view;
};

/* A place in a list of texts, to read from. */
template <>
class iterator<std::string_view>
    : public indexed<iterator<std::string_view>, ecow_texts, std::string_view> {
public:
    using indexed::indexed;

    reference operator*() const noexcept {
        std::size_t count = 0;
        const char *start = ecow_texts_at(owner, index(), &count);
        return std::string_view(start, count);
    }

    /* A clone of the text, which shares its memory. */
    text get() const {
        text made;
        check(ecow_texts_get(owner, index(), made.c()));
        return made;
    }
};

/* The item at a place: a text of a list of texts as a clone. */
template <typename Iterator> decltype(auto) item_at(const Iterator &place) {
    if constexpr (std::is_same_v<Iterator, iterator<std::string_view>>) {
        return place.get();
    } else {
        return *place;
    }
}

/* The texts of an argument as one list: another list as it is, and else one that is made. */
template <> class array<std::string_view> {
public:
    template <typename From, std::enable_if_t<reads<std::string_view, From>(), int> = 0>
    array(const From &from) {
        if constexpr (std::is_same_v<From, texts>) {
            lent = from.c();
        } else {
            copy(std::begin(from), std::end(from));
        }
    }

    array(std::initializer_list<text_item> from) {
        for (text_item item : from) {
            push(item);
        }
    }

    template <typename Iterator, std::enable_if_t<passes<std::string_view, Iterator>(), int> = 0>
    array(Iterator first, Iterator last) {
        copy(first, last);
    }

    array(const array &) = delete;
    array &operator=(const array &) = delete;

    /* Makes a call of ecow.h, whose last argument is the list. */
    template <typename Call, typename... Arguments>
    ecow_status give_to(Call call, Arguments... arguments) const noexcept {
        return call(arguments..., lent);
    }

private:
    class list : public owned<list, texts_calls> {};

    template <typename Iterator> void copy(Iterator first, Iterator last) {
        for (; first != last; ++first) {
            push(item_at(first));
        }
    }

    void push(text_item item) {
        check(ecow_texts_push(made.c(), item.get().c()));
    }

    list made;
    const ecow_texts *lent = made.c();
};

} // namespace detail

/* Texts, which are read as std::string_view. A text goes in and out as a clone, which shares its
 * memory; what is given as std::string, std::string_view or a literal is copied, and refused with
 * `invalid_text` where it isn't UTF-8. */
template <> class vector<text> : public detail::sequence<texts, detail::texts_calls> {
    using base = detail::sequence<texts, detail::texts_calls>;
    using item = detail::text_item;

public:
    using base::append;
    using base::base;
    using base::erase;
    using base::insert;
    using base::operator=;

    vector() = default;

    /* `count` empty texts. */
    explicit vector(size_type count) : vector(count, "") {}

    /* The same text `count` times, in the same memory. */
    vector(size_type count, item repeated) {
        text shared = repeated.get();
        detail::check(ecow_texts_reserve(&raw, count));
        while (count-- > 0) {
            push_back(shared);
        }
    }

    const_iterator begin() const &noexcept ECOW_LENDS {
        return const_iterator(&raw, 0);
    }

    const_iterator begin() const && = delete;

    const_iterator end() const && = delete;

    const_iterator end() const &noexcept ECOW_LENDS {
        return const_iterator(&raw, size());
    }

    /* A clone of the text at `index`. Throws std::out_of_range from the size on. */
    text get(size_type index) const {
        return place_of(index).get();
    }

    /* Puts a text in place of the one at `index`. Throws std::out_of_range from the size on. */
    void set(size_type index, item replacement) {
        detail::check(ecow_texts_set(&raw, index, replacement.get().c()));
    }

    void push_back(item added) {
        detail::check(ecow_texts_push(&raw, added.get().c()));
    }

    /* Appends a text that is made of the arguments. */
    template <typename... Arguments> const_reference emplace_back(Arguments &&...arguments) {
        push_back(text(std::forward<Arguments>(arguments)...));
        return back();
    }

    template <typename... Arguments>
    iterator emplace(const_iterator position, Arguments &&...arguments) {
        return insert(position, text(std::forward<Arguments>(arguments)...));
    }

    /* Takes the last text and returns it. Throws std::out_of_range where there is none. */
    text pop_back() {
        text taken;
        detail::check(ecow_texts_pop(&raw, taken.c()));
        return taken;
    }

    /* Takes the text at `index` and returns it. Throws std::out_of_range from the size on. */
    text take(size_type index) {
        text taken;
        detail::check(ecow_texts_remove(&raw, index, taken.c()));
        return taken;
    }

    /* The same text `count` times, in the same memory. */
    texts &append(size_type count, item repeated) {
        return append(texts(count, repeated));
    }

    /* Puts a text in before `position`, and returns where it is. It is a template, so that
     * `{"a"}` is a list. */
    template <typename Text, std::enable_if_t<detail::is_view<Text>(), int> = 0>
    iterator insert(const_iterator position, const Text &added) {
        size_type index = index_of(position);
        detail::check(ecow_texts_insert(&raw, index, item(added).get().c()));
        return place_of(index);
    }

    iterator erase(const_iterator position) {
        size_type index = index_of(position);
        detail::check(ecow_texts_remove(&raw, index, nullptr));
        return place_of(index);
    }
};

/* `text + added`, of what `+=` takes. */
template <typename Added, typename = decltype(std::declval<text &>() += std::declval<Added>())>
text operator+(text left, const Added &added) {
    left += added;
    return left;
}

template <typename Left, typename = decltype(std::declval<text &>() += std::declval<Left>()),
          std::enable_if_t<!std::is_same_v<Left, text>, int> = 0>
text operator+(const Left &left, const text &right) {
    text sum;
    sum += left;
    sum += right;
    return sum;
}

/* A template, so that only who writes texts needs <ostream>. */
template <typename Traits>
std::basic_ostream<char, Traits> &operator<<(std::basic_ostream<char, Traits> &out,
                                             const text &written) {
    return out << std::basic_string_view<char, Traits>(written.data(), written.size());
}

/* The order of the items, one by one, by their own operators; bytes are unsigned. */
template <typename Left, typename Right>
detail::comparison<Left, Right, detail::item_equal>
operator==(const Left &left, const Right &right) noexcept(detail::compares_safely<Left, Right>) {
    return detail::are_equal(left, right);
}

#ifdef __cpp_impl_three_way_comparison
template <typename Left, typename Right>
detail::item_order<detail::compared_item<Left, Right>>
operator<=>(const Left &left, const Right &right) noexcept(detail::compares_safely<Left, Right>) {
    using item = detail::compared_item<Left, Right>;
    if constexpr (detail::is_whole<item>) {
        return detail::compare(left, right) <=> 0;
    } else {
        const auto all = detail::lend<item>(left), other = detail::lend<item>(right);
        for (std::size_t at = 0; at < all.count && at < other.count; ++at) {
            if (const auto order = all.start[at] <=> other.start[at]; order != 0) {
                return order;
            }
        }
        return all.count <=> other.count;
    }
}
#else
template <typename Left, typename Right>
detail::comparison<Left, Right, detail::item_equal>
operator!=(const Left &left, const Right &right) noexcept(detail::compares_safely<Left, Right>) {
    return !detail::are_equal(left, right);
}

template <typename Left, typename Right>
detail::comparison<Left, Right, detail::item_less>
operator<(const Left &left, const Right &right) noexcept(detail::compares_safely<Left, Right>) {
    return detail::is_less(left, right);
}

template <typename Left, typename Right>
detail::comparison<Left, Right, detail::item_less>
operator<=(const Left &left, const Right &right) noexcept(detail::compares_safely<Left, Right>) {
    return !detail::is_less(right, left);
}

template <typename Left, typename Right>
detail::comparison<Left, Right, detail::item_less>
operator>(const Left &left, const Right &right) noexcept(detail::compares_safely<Left, Right>) {
    return detail::is_less(right, left);
}

template <typename Left, typename Right>
detail::comparison<Left, Right, detail::item_less>
operator>=(const Left &left, const Right &right) noexcept(detail::compares_safely<Left, Right>) {
    return !detail::is_less(left, right);
}
#endif

/* Takes the items of which `is_erased` is true, and returns how many they were. Texts of a list that
 * are kept share their memory. */
template <typename Value, typename Predicate,
          std::enable_if_t<detail::is_container<Value>, int> = 0>
typename Value::size_type erase_if(Value &value, Predicate is_erased) {
    std::conditional_t<std::is_same_v<Value, texts>, texts, std::vector<typename Value::value_type>>
        kept;
    for (auto place = value.begin(); place != value.end(); ++place) {
        if (!is_erased(*place)) {
            kept.push_back(detail::item_at(place));
        }
    }
    typename Value::size_type erased = value.size() - kept.size();
    if (erased) {
        value.assign(kept);
    }
    return erased;
}

/* Takes the items that equal `item`, and returns how many they were. */
template <typename Value, typename Item, std::enable_if_t<detail::is_container<Value>, int> = 0>
typename Value::size_type erase(Value &value, const Item &item) {
    return erase_if(value, [&](const auto &each) { return each == item; });
}

/* ---- Nested values ---- */

namespace detail {

/* Whole numbers of which each is an std::int64_t. Characters are none. */
template <typename Type>
constexpr bool is_number = is_one_of<Type, signed char, short, int, long, long long, unsigned char,
                                     unsigned short, unsigned int>;

template <typename Type> constexpr bool is_real = is_one_of<Type, float, double>;

template <typename Type>
constexpr bool is_scalar = is_number<Type> || is_real<Type> || std::is_same_v<Type, bool>;

/* Whether a container has pairs of a name and what a value is made of. */
template <typename Item, typename = void> constexpr bool is_field = false;

template <typename Item>
constexpr bool is_field<Item, std::void_t<typename Item::first_type, typename Item::second_type>> =
    is_view<std::remove_cv_t<typename Item::first_type>>()
    && std::is_convertible_v<const typename Item::second_type &, value>;

template <typename From, typename = void> constexpr bool is_map = false;

template <typename From>
constexpr bool is_map<From, std::void_t<typename From::mapped_type>> =
    is_field<typename held_item<From>::type>;

/* Whether a container has what values are made of. One of its own kind hasn't. */
template <typename From> constexpr bool is_list() {
    using item = typename held_item<From>::type;
    if constexpr (std::is_same_v<item, From> || is_view<From>()) {
        return false;
    } else {
        return std::is_convertible_v<item, value>;
    }
}

/* What stands between braces. It refers to that, and owns nothing, until the expression ends. */
class value_item {
public:
    /* Nothing. */
    value_item() noexcept;

    template <typename From, std::enable_if_t<std::is_convertible_v<const From &, value>, int> = 0>
    value_item(const From &from) noexcept;

    value_item(std::initializer_list<value_item> items) noexcept;

    value get() const;

    /* Whether it is a value already. */
    bool is_value() const noexcept {
        return is_made;
    }

private:
    const void *source = nullptr;
    std::size_t count = 0;
    bool is_made = false;
    value (*make)(const value_item &item);
};

/* The name of a field, for as long as a call lasts: a text in any form, also a temporary one. */
class name {
public:
    template <typename From, std::enable_if_t<is_view<From>(), int> = 0>
    name(const From &from) noexcept : view(from) {}

    const char *data() const noexcept {
        return view.data();
    }

    std::size_t size() const noexcept {
        return view.size();
    }

    explicit operator std::string() const {
        return std::string(view);
    }

private:
    std::string_view view;
};

/* A field between braces. */
struct field_item {
    detail::name name;
    value_item item;
};

} // namespace detail

/* A nested value: nothing, a truth value, a number, a floating-point number, a text, a list of
 * values, or fields by name in order. Names are UTF-8.
 *
 * A part goes in and out as a clone, which shares its memory, so a change of a part leaves the
 * value that it came from: put it in again, or use `update`.
 *
 * `{1, "a"}` is a list, and so is `{1}`. Of one `ecow::value`, `{other}` is a copy, and
 * `value::list({other})` a list. `{}` is nothing.
 *
 * A member for another kind of value throws `wrong_kind`. */
class value : public detail::owned<value, detail::value_calls>, detail::ordered<value> {
    using base = detail::owned<value, detail::value_calls>;

public:
    /* A step into a value: an index of a list, or the name of a field, which it holds. */
    class step {
    public:
        template <
            typename Index,
            std::enable_if_t<std::is_integral_v<Index> && !std::is_same_v<Index, bool>, int> = 0>
        step(Index number) noexcept : index(static_cast<size_type>(number)) {}

        template <typename Name, std::enable_if_t<detail::is_view<Name>(), int> = 0>
        step(const Name &key) : name(detail::text_item(key).get()) {}

    private:
        friend value;

        size_type index = 0;
        std::optional<ecow::text> name;
    };

    /* A field as it is read. */
    using field = std::pair<ecow::text, value>;

    template <typename Part> class parts;

    using base::base;

    /* Nothing. */
    value() = default;

    value(const value &) = default;
    value(value &&) = default;

    /* As what changes a value, not for one that a call returned: that would be lost. */
    value &operator=(const value &) & = default;
    value &operator=(value &&) & = default;

    value(std::nullptr_t) noexcept {}

    /* A bool is a truth value, a whole number a number, a float or double a floating-point
     * number. A pointer is none of these, nor is a type of whom some numbers wouldn't fit. */
    template <typename Scalar, std::enable_if_t<detail::is_scalar<Scalar>, int> = 0>
    value(Scalar scalar) {
        if constexpr (std::is_same_v<Scalar, bool>) {
            detail::check(ecow_value_set_truth(&raw, scalar));
        } else if constexpr (detail::is_number<Scalar>) {
            detail::check(ecow_value_set_number(&raw, scalar));
        } else {
            detail::check(ecow_value_set_real(&raw, static_cast<double>(scalar)));
        }
    }

    /* A text. One of `ecow::text` shares its memory. */
    template <typename Text, std::enable_if_t<detail::is_view<Text>(), int> = 0>
    value(const Text &from) {
        detail::check(ecow_value_set_text(&raw, detail::text_item(from).get().c()));
    }

    /* A list, but of one `ecow::value` a copy. Some compilers copy that whatever stands here. */
    value(std::initializer_list<detail::value_item> items)
        : value(std::data(items), items.size()) {}

    /* A list of what a container holds; a map's are fields, in its order. */
    template <typename From,
              std::enable_if_t<detail::is_list<From>() || detail::is_map<From>, int> = 0>
    value(const From &from) {
        if constexpr (detail::is_map<From>) {
            set_all(from);
        } else {
            push_all(from);
        }
    }

    /* A list, also of none. */
    [[nodiscard]] static value list(std::initializer_list<detail::value_item> items = {}) {
        value made;
        made.push_items(std::data(items), items.size());
        return made;
    }

    /* Fields in this order: `ecow::value::fields({{"a", 1}, {"b", {2, 3}}})`. Of a name that occurs
     * twice the last value stays, in the first place. */
    [[nodiscard]] static value fields(std::initializer_list<detail::field_item> named) {
        value made;
        detail::check(ecow_value_set_fields(&made.raw));
        for (const auto &[key, item] : named) {
            made.set(key, item.get());
        }
        return made;
    }

    /* The same of a container of pairs. */
    template <typename From,
              std::enable_if_t<detail::is_field<typename detail::held_item<From>::type>, int> = 0>
    [[nodiscard]] static value fields(const From &named) {
        value made;
        made.set_all(named);
        return made;
    }

    ecow::kind kind() const noexcept {
        return static_cast<ecow::kind>(ecow_value_kind(&raw));
    }

    bool truth() const {
        bool read = false;
        detail::check(ecow_value_truth(&raw, &read));
        return read;
    }

    std::int64_t number() const {
        std::int64_t read = 0;
        detail::check(ecow_value_number(&raw, &read));
        return read;
    }

    double real() const {
        double read = 0;
        detail::check(ecow_value_real(&raw, &read));
        return read;
    }

    ecow::text text() const {
        ecow::text read;
        detail::check(ecow_value_text(&raw, read.c()));
        return read;
    }

    /* The item of a list, or a field's value, at `index`. Throws std::out_of_range from the size
     * on. The size counts items or fields, and is 0 of another kind. */
    value get(size_type index) const {
        value item;
        detail::check(ecow_value_get(&raw, index, &item.raw));
        return item;
    }

    /* The value of the field of that name. Throws std::out_of_range where there is none. */
    value get(detail::name name) const {
        value item;
        check_field(ecow_value_get_field(&raw, name.data(), name.size(), &item.raw), name);
        return item;
    }

    /* The same, or nothing where there is none. */
    std::optional<value> find(detail::name name) const {
        value item;
        ecow_status status = ecow_value_get_field(&raw, name.data(), name.size(), &item.raw);
        if (status == ECOW_INDEX) {
            return std::nullopt;
        }
        detail::check(status);
        return std::optional<value>(std::move(item));
    }

    bool contains(detail::name name) const {
        return find(name).has_value();
    }

    /* A list between braces is a path, as `at` takes one: `settings.get({"window", "size", 0})`. */
    value get(std::initializer_list<step> path) const {
        return at(path);
    }

    /* As `get` by a path, or nothing where a step leads nowhere. */
    std::optional<value> find(std::initializer_list<step> path) const {
        std::optional<value> part(*this);
        for (auto each = path.begin(); part && each != path.end(); ++each) {
            if (each->name) {
                part = part->find(*each->name);
            } else {
                part = each->index < part->size() ? std::optional<value>(part->get(each->index))
                                                  : std::nullopt;
            }
        }
        return part;
    }

    bool contains(std::initializer_list<step> path) const {
        return find(path).has_value();
    }

    /* The part at `index`, of that name, or to which the steps lead, where it stands: nothing is
     * copied. nullptr where there is none. The pointer is valid until the value is changed,
     * assigned to or destroyed, so a call that changes the value takes a copy of the part. */
    const value *peek(size_type index) const & noexcept {
        return detail::in_place<value>(ecow_value_peek(&raw, index));
    }

    const value *peek(detail::name name) const & noexcept {
        return detail::in_place<value>(ecow_value_peek_field(&raw, name.data(), name.size()));
    }

    const value *peek(std::initializer_list<step> path) const & noexcept {
        const value *part = this;
        for (auto each = path.begin(); part && each != path.end(); ++each) {
            part = each->name ? part->peek(*each->name) : part->peek(each->index);
        }
        return part;
    }

    /* The name of the field at `index`, likewise. */
    const ecow::text *peek_name(size_type index) const & noexcept {
        return detail::in_place<ecow::text>(ecow_value_peek_name(&raw, index));
    }

    /* The text, likewise: nullptr where the value is none. */
    const ecow::text *peek_text() const & noexcept {
        return detail::in_place<ecow::text>(ecow_value_peek_text(&raw));
    }

    /* Of a value that a call returned, the part would be gone. */
    const value *peek(size_type index) && = delete;
    const value *peek(detail::name name) && = delete;
    const value *peek(std::initializer_list<step> path) && = delete;
    const ecow::text *peek_name(size_type index) && = delete;
    const ecow::text *peek_text() && = delete;

    /* What the value holds, where that is of this type, and else nothing. `Type` is bool,
     * std::int64_t, double or `ecow::text`. */
    template <typename Type> std::optional<Type> get_if() const {
        constexpr bool is_text = std::is_same_v<Type, ecow::text>;
        static_assert(is_text || detail::is_one_of<Type, bool, std::int64_t, double>,
                      "get_if takes bool, std::int64_t, double or ecow::text");
        if constexpr (std::is_same_v<Type, bool>) {
            return kind() == ecow::kind::truth ? std::optional<Type>(truth()) : std::nullopt;
        } else if constexpr (std::is_same_v<Type, std::int64_t>) {
            return kind() == ecow::kind::number ? std::optional<Type>(number()) : std::nullopt;
        } else if constexpr (std::is_same_v<Type, double>) {
            return kind() == ecow::kind::real ? std::optional<Type>(real()) : std::nullopt;
        } else if constexpr (is_text) {
            return kind() == ecow::kind::text ? std::optional<Type>(text()) : std::nullopt;
        }
    }

    /* Calls `visitor` with what the value holds, and returns its answer: nullptr, a bool, an
     * std::int64_t, a double, an `ecow::text`, the items of a list as `parts<value>`, or the fields
     * as `parts<field>`. */
    template <typename Visitor> decltype(auto) visit(Visitor &&visitor) const;

    /* How deep the value nests, as ecow_value_depth says it. */
    size_type depth() const noexcept {
        return ecow_value_depth(&raw);
    }

    /* The name of the field at `index`. Throws std::out_of_range from the size on. */
    ecow::text name(size_type index) const {
        ecow::text read;
        detail::check(ecow_value_field_name(&raw, index, read.c()));
        return read;
    }

    /* The part to which the steps lead: `settings.at({"window", "size", 0})`. Throws
     * std::out_of_range where there is none. */
    value at(const std::vector<step> &path) const {
        value part(*this);
        for (const step &each : path) {
            part = each.name ? part.get(*each.name) : part.get(each.index);
        }
        return part;
    }

    /* Calls `change` with a copy of the part to which the steps lead, and puts that in its place. If
     * it throws, the value is as it was. Of the lists and fields on the way only shared ones are
     * copied. */
    template <typename Change> void update(const std::vector<step> &path, Change change) & {
        /* A function that takes a `value` or a `const value &` takes a temporary one too. */
        constexpr bool changes_it =
            std::is_invocable_v<Change &, value &> && !std::is_invocable_v<Change &, value>;
        static_assert(changes_it, "update takes a function that changes a `value &`");
        if constexpr (changes_it) {
            static_assert(std::is_void_v<std::invoke_result_t<Change &, value &>>,
                          "update takes a function that returns nothing: it changes its argument");
            value part(at(path));
            change(part);
            /* By its index a field is read, but not changed. */
            const ecow_status status = put(path, part);
            detail::check(status == ECOW_INDEX ? ECOW_KIND : status);
        }
    }

    /* Puts an item in place of the part to which the steps lead, as `update` does. An index leads
     * to an item of a list. Throws std::out_of_range where there is none. */
    void set_at(const std::vector<step> &path, const value &item) & {
        detail::check(put(path, item));
    }

    /* Replaces the item at `index` of a list. Throws std::out_of_range from the size on. */
    void set(size_type index, const value &item) & {
        detail::check(ecow_value_set(&raw, index, &item.raw));
    }

    /* Puts a value in place of that of the field of that name, or appends a field. */
    void set(detail::name name, const value &item) & {
        detail::check(ecow_value_set_field(&raw, name.data(), name.size(), &item.raw));
    }

    /* As `set_at`. */
    void set(std::initializer_list<step> path, const value &item) & {
        set_at(path, item);
    }

    /* Appends a field, and looks for none of that name. Of a name that stands twice, calls by the
     * name mean the first. */
    void push_field(detail::name name, const value &item) & {
        detail::check(ecow_value_push_field(&raw, name.data(), name.size(), &item.raw));
    }

    /* Neither this nor `take` has a path. */
    void push_field(std::initializer_list<step> path, const value &item) = delete;

    /* Appends an item to a list. */
    void push_back(const value &item) & {
        detail::check(ecow_value_push(&raw, &item.raw));
    }

    /* Takes the last item of a list and returns it. Throws std::out_of_range if there is none. */
    value pop_back() {
        value item;
        detail::check(ecow_value_pop(&raw, &item.raw));
        return item;
    }

    /* Puts an item in before that at `index` of a list. Throws std::out_of_range past the size. */
    void insert(size_type index, const value &item) & {
        detail::check(ecow_value_insert(&raw, index, &item.raw));
    }

    /* Takes the item at `index` and returns it. Throws std::out_of_range from the size on. */
    value take(size_type index) {
        value item;
        detail::check(ecow_value_remove(&raw, index, &item.raw));
        return item;
    }

    /* Takes the field of that name and returns its value. Throws std::out_of_range where there is
     * none. */
    value take(detail::name name) {
        value item;
        check_field(ecow_value_remove_field(&raw, name.data(), name.size(), &item.raw), name);
        return item;
    }

    value take(std::initializer_list<step> path) = delete;

    /* Keeps the first `count` items of a list, or all where there are fewer. */
    void truncate(size_type count) & {
        detail::check(ecow_value_truncate(&raw, count));
    }

    /* The items of a list, or the fields' values, for a `for`. They are those that are there now,
     * whatever is changed meanwhile. */
    parts<value> items() const;

    /* The fields, likewise: `for (const auto &[name, item] : settings.fields())`. */
    parts<field> fields() const;

    /* Whether both are of one kind and hold the same, items and fields in order. A NaN equals each
     * NaN, so that a value equals its copies. */
    friend bool operator==(const value &left, const value &right) noexcept {
        return ecow_value_equal(&left.raw, &right.raw);
    }

    /* Below 0 where `left` comes first: by kinds, then by contents, a NaN before other numbers. 0
     * where they are equal. */
    friend int compare(const value &left, const value &right) noexcept {
        return ecow_value_compare(&left.raw, &right.raw);
    }

#ifdef __cpp_impl_three_way_comparison
    /* Values may be equal without being the same, as 0.0 and -0.0 are. */
    friend std::weak_ordering operator<=>(const value &left, const value &right) {
        return compare(left, right) <=> 0;
    }
#endif

    /* A line for people: `{"size": [800, 1.5], "full": false, "title": null}`. */
    template <typename Traits>
    friend std::basic_ostream<char, Traits> &operator<<(std::basic_ostream<char, Traits> &out,
                                                        const value &written) {
        const auto quote = [&out](const ecow::text &quoted) -> auto & {
            out << '"';
            for (char each : quoted) {
                const bool is_plain = each != '"' && each != '\\' && (each < 0 || each >= ' ');
                is_plain ? out << each : out << '\\' << (each == '\n' ? 'n' : each);
            }
            return out << '"';
        };
        switch (written.kind()) {
        case ecow::kind::nothing:
            return out << "null";
        case ecow::kind::truth:
            return out << (written.truth() ? "true" : "false");
        case ecow::kind::number:
            return out << written.number();
        case ecow::kind::real:
            return out << written.real();
        case ecow::kind::text:
            return quote(written.text());
        default:
            break;
        }
        const bool named = written.kind() == ecow::kind::fields;
        out << (named ? '{' : '[');
        for (size_type at = 0; at < written.size(); ++at) {
            out << (at ? ", " : "");
            if (named) {
                quote(written.name(at)) << ": ";
            }
            out << written.get(at);
        }
        return out << (named ? '}' : ']');
    }

    /* Equal values have the same. */
    std::size_t hash() const noexcept {
        return static_cast<std::size_t>(ecow_value_hash(&raw));
    }

private:
    friend detail::value_item;

    /* As `detail::check`, but names the field that isn't there. */
    static void check_field(ecow_status status, detail::name name) {
        if (status == ECOW_INDEX) {
            throw std::out_of_range("no field \"" + std::string(name) + '"');
        }
        detail::check(status);
    }

    value(const detail::value_item *items, size_type count) {
        if (count == 1 && items->is_value()) {
            *this = items->get();
        } else {
            push_items(items, count);
        }
    }

    void push_items(const detail::value_item *items, size_type count) {
        detail::check(ecow_value_set_list(&raw));
        for (const auto *item = items; item != items + count; ++item) {
            push_back(item->get());
        }
    }

    template <typename From> void push_all(const From &from) {
        detail::check(ecow_value_set_list(&raw));
        for (auto place = std::begin(from), end = std::end(from); place != end; ++place) {
            push_back(detail::item_at(place));
        }
    }

    template <typename From> void set_all(const From &from) {
        detail::check(ecow_value_set_fields(&raw));
        for (const auto &[key, item] : from) {
            set(key, item);
        }
    }

    /* Puts an item in place of the part to which the steps lead; ECOW_INDEX where there is none. */
    ecow_status put(const std::vector<step> &path, const value &item) {
        if (path.size() == 1) {
            value other(item);
            const auto &name = path[0].name;
            const ecow_status status =
                name ? ecow_value_swap_field(&raw, name->data(), name->size(), &other.raw)
                     : ecow_value_swap(&raw, path[0].index, &other.raw);
            return status == ECOW_KIND ? ECOW_INDEX : status;
        }
        value way = list();
        for (const step &each : path) {
            way.push_back(each.name ? value(*each.name)
                                    : value(static_cast<std::int64_t>(each.index)));
        }
        return ecow_value_set_at(&raw, &way.raw, &item.raw);
    }
};

/* The parts of a value as they were, read as clones. Its iterators are valid while it is there. */
template <typename Part> class value::parts {
public:
    class iterator : public detail::indexed<iterator, value, Part> {
    public:
        using detail::indexed<iterator, value, Part>::indexed;

        const Part operator*() const {
            if constexpr (std::is_same_v<Part, field>) {
                return {this->owner->name(this->index()), this->owner->get(this->index())};
            } else {
                return this->owner->get(this->index());
            }
        }
    };

    iterator begin() const noexcept {
        return iterator(&held, 0);
    }

    iterator end() const noexcept {
        return iterator(&held, held.size());
    }

    size_type size() const noexcept {
        return held.size();
    }

private:
    friend value;

    explicit parts(const value &of) : held(of) {}

    value held;
};

namespace detail {

inline value_item::value_item() noexcept : make([](const value_item &) { return value(); }) {}

template <typename From, std::enable_if_t<std::is_convertible_v<const From &, value>, int>>
value_item::value_item(const From &from) noexcept
    : source(std::addressof(from)), is_made(std::is_same_v<From, value>),
      make([](const value_item &item) { return value(*static_cast<const From *>(item.source)); }) {}

inline value_item::value_item(std::initializer_list<value_item> items) noexcept
    : source(std::data(items)), count(items.size()), make([](const value_item &item) {
          return value(static_cast<const value_item *>(item.source), item.count);
      }) {}

inline value value_item::get() const {
    return make(*this);
}

} // namespace detail

inline value::parts<value> value::items() const {
    detail::check(kind() == ecow::kind::list || kind() == ecow::kind::fields ? ECOW_OK : ECOW_KIND);
    return parts<value>(*this);
}

inline value::parts<value::field> value::fields() const {
    detail::check(kind() == ecow::kind::fields ? ECOW_OK : ECOW_KIND);
    return parts<field>(*this);
}

template <typename Visitor> decltype(auto) value::visit(Visitor &&visitor) const {
    switch (kind()) {
    case ecow::kind::truth:
        return visitor(truth());
    case ecow::kind::number:
        return visitor(number());
    case ecow::kind::real:
        return visitor(real());
    case ecow::kind::text:
        return visitor(text());
    case ecow::kind::list:
        return visitor(items());
    case ecow::kind::fields:
        return visitor(fields());
    case ecow::kind::nothing:
        break;
    }
    return visitor(nullptr);
}

namespace detail {

struct hashes {
    template <typename Value> std::size_t operator()(const Value &hashed) const noexcept {
        return static_cast<std::size_t>(hashed.hash());
    }
};

} // namespace detail

/* The hash of std::string_view, so that a table of texts is searched by views and literals too:
 * std::unordered_map<ecow::text, T, ecow::text_hash, std::equal_to<>>, in C++20. */
struct text_hash {
    using is_transparent = void;

    template <typename Text> std::size_t operator()(const Text &hashed) const noexcept {
        return std::hash<std::string_view>()(hashed);
    }
};

} // namespace ecow

#ifdef __cpp_lib_ranges
template <typename Item> constexpr bool std::ranges::enable_borrowed_range<ecow::span<Item>> = true;
#endif

#ifdef ECOW_FORMATS
/* A text is written as std::string_view is, with the same width and precision. */
template <> struct std::formatter<ecow::text> : std::formatter<std::string_view> {
    template <typename Context> auto format(const ecow::text &written, Context &context) const {
        return std::formatter<std::string_view>::format(written, context);
    }
};

/* A value is written as `<<` writes it where no locale is set, with the width and precision of a
 * std::string_view. */
template <> struct std::formatter<ecow::value> : std::formatter<std::string_view> {
    template <typename Context> auto format(const ecow::value &written, Context &context) const {
        std::ostringstream line;
        line.imbue(std::locale::classic());
        line << written;
        return std::formatter<std::string_view>::format(line.str(), context);
    }
};
#endif

/* Items have to have a hash of their own. */
template <typename Item>
struct std::hash<ecow::vector<Item>>
    : std::conditional_t<std::is_default_constructible_v<std::hash<Item>>, ecow::detail::hashes,
                         std::hash<Item>> {};

template <> struct std::hash<ecow::text> : ecow::text_hash {};

template <> struct std::hash<ecow::value> {
    std::size_t operator()(const ecow::value &hashed) const {
        return hashed.hash();
    }
};

#undef ECOW_LENDS

#endif
#endif
