/* Edits by a seed, of each kind of value, beside std's containers: edits [COUNT].
 * Some values are kept, copied from others, and none may change with another. An edit that is
 * refused leaves its value as it was, also where memory is refused. */
#include "check.hpp"

#include <algorithm>
#include <array>
#include <functional>
#include <random>
#include <string>
#include <utility>
#include <variant>
#include <vector>

enum outcome { done, no_memory, invalid, past_end, wrong };

template <typename Call> static outcome outcome_of(Call call) {
    try {
        call();
    } catch (const std::bad_alloc &) {
        return no_memory;
    } catch (const ecow::invalid_text &) {
        return invalid;
    } catch (const ecow::wrong_kind &) {
        return wrong;
    } catch (const std::out_of_range &) {
        return past_end;
    }
    return done;
}

/* A value, and what it has to hold. The model has its room from the start. */
template <typename Value, typename Model> struct both {
    Value value;
    Model model;
};

using numbers = std::mt19937_64;

static std::size_t below(numbers &seed, std::size_t end) {
    return seed() % end;
}

/* Whether a text may be cut there; a list may everywhere. */
template <typename Model> static bool is_boundary(const Model &model, std::size_t index) {
    if constexpr (std::is_same_v<Model, std::string>) {
        return index >= model.size() || (static_cast<unsigned char>(model[index]) & 0xc0) != 0x80;
    } else {
        return true;
    }
}

template <typename Value, typename Model> class editor {
    using item = typename Model::value_type;
    static constexpr bool is_text = std::is_same_v<Model, std::string>;
    static constexpr bool is_texts = std::is_same_v<item, std::string_view>;
    /* How many values there are, and how many items each has at most. */
    static constexpr std::size_t values = 6, most = 200;

public:
    editor() {
        for (auto &one : all) {
            one.model.reserve(most);
        }
        scratch.reserve(most);
    }

    void edit() {
        auto &one = all[below(seed, values)];
        const auto &other = all[below(seed, values)];
        Value &value = one.value;
        Model &model = one.model;
        const std::size_t size = model.size(), start = below(seed, size + 1);
        const std::size_t count = below(seed, size - start + 1), end = start + count;
        const std::size_t from = below(seed, other.model.size() + 1);
        const std::size_t taken = below(seed, other.model.size() - from + 1);
        const auto lent = lent_from(other.value, from);
        const auto lent_end = lent_from(other.value, from + taken);
        const item one_item = make_item();
        const std::size_t times = below(seed, 4) * 33;
        /* Items of the other value, and where they are put. */
        scratch.assign(other.model, from, taken);
        scratch.is_whole =
            taken == 0
            || (is_boundary(other.model, from) && is_boundary(other.model, from + taken));
        switch (below(seed, 19)) {
        case 0:
            put(one, start, start, scratch.repeat(1, one_item),
                [&] { is_at(value, start, value.insert(place(value, start), one_item)); });
            break;
        case 1:
            put(one, start, start, scratch.repeat(times, one_item),
                [&] { is_at(value, start, value.insert(place(value, start), times, one_item)); });
            break;
        case 2:
            put(one, start, start, scratch,
                [&] { is_at(value, start, value.insert(place(value, start), lent, lent_end)); });
            break;
        case 3:
            put(one, start, start, scratch.assign(other.model, 0, other.model.size()),
                [&] { is_at(value, start, value.insert(place(value, start), other.value)); });
            break;
        case 4:
            if (start < size) {
                put(one, start, start + 1, scratch.repeat(0, one_item),
                    [&] { is_at(value, start, value.erase(place(value, start))); });
            }
            break;
        case 5:
            put(one, start, end, scratch.repeat(0, one_item),
                [&] { is_at(value, start, value.erase(place(value, start), place(value, end))); });
            break;
        case 6:
            put(one, start, end, scratch,
                [&] { value.splice(start, end, typename Value::array(lent, lent_end)); });
            break;
        case 7:
            put(one, size, size, scratch, [&] { value.append(lent, lent_end); });
            break;
        case 8:
            put(one, 0, size, scratch, [&] { value.assign(lent, lent_end); });
            break;
        case 9:
            put(one, 0, size, scratch.repeat(times, one_item),
                [&] { value.assign(times, one_item); });
            break;
        case 10:
            put(one, start, size, scratch.repeat(0, one_item), [&] { value.resize(start); });
            break;
        case 11:
            put(one, size, size, scratch.repeat(times, one_item),
                [&] { value.resize(size + times, one_item); });
            break;
        case 12:
            put(one, size, size, scratch.repeat(1, one_item), [&] { value.push_back(one_item); });
            break;
        case 13:
        case 14:
            put(one, 0, size, scratch.assign(other.model, 0, other.model.size()),
                [&] { value = other.value; });
            break;
        case 15: {
            auto &swapped = all[below(seed, values)];
            swap(value, swapped.value);
            std::swap(model, swapped.model);
            break;
        }
        case 16:
            CHECK(outcome_of([&] { value.splice(size + 1, size + 1, {}); }) != done);
            CHECK(outcome_of([&] { (void)value.at(size + times); }) != done);
            CHECK((value == other.value) == (model == other.model)
                  && (value < other.value) == (model < other.model)
                  && (value < other.model) == (model < other.model)
                  && (model >= other.value) == (model >= other.model));
            break;
        case 17:
            if (below(seed, 8) == 0) {
                value.clear();
                model.clear();
            }
            break;
        default:
            if constexpr (is_text) {
                edit_text(one, other, start, end);
            } else {
                edit_items(one, one_item, start);
            }
        }
        for (const auto &each : all) {
            CHECK(each.value == each.model && each.value.size() == each.model.size()
                  && std::equal(each.value.rbegin(), each.value.rend(), each.model.rbegin(),
                                each.model.rend()));
        }
    }

private:
    /* Items that are put in; those of texts may be no whole characters. */
    struct items : Model {
        bool is_whole = true;

        template <typename From>
        items &assign(const From &other, std::size_t start, std::size_t count) {
            auto first = other.begin() + static_cast<std::ptrdiff_t>(start);
            Model::assign(first, first + static_cast<std::ptrdiff_t>(count));
            is_whole = true;
            return *this;
        }

        items &repeat(std::size_t count, item repeated) {
            Model::assign(count, repeated);
            is_whole = true;
            return *this;
        }
    };

    /* Texts that a list holds, of 0 to 40 bytes; their models ask for no memory. */
    static constexpr std::string_view words[] = {"",
                                                 "a",
                                                 "\u00e9",
                                                 "fifteen letters",
                                                 "sixteen letters.",
                                                 "more letters than fit in the value alone"};

    item make_item() {
        if constexpr (is_texts) {
            return words[below(seed, std::size(words))];
        } else {
            return is_text ? item('a' + below(seed, 26)) : item(seed());
        }
    }

    static auto lent_from(const Value &value, std::size_t index) {
        if constexpr (is_texts) {
            return place(value, index);
        } else {
            return value.data() + index;
        }
    }

    static typename Value::iterator place(const Value &value, std::size_t index) {
        return value.begin() + static_cast<std::ptrdiff_t>(index);
    }

    static void is_at(const Value &value, std::size_t index, typename Value::iterator place) {
        CHECK(place - value.begin() == static_cast<std::ptrdiff_t>(index));
    }

    static void put(Model &model, std::size_t start, std::size_t end, const Model &added) {
        auto first = model.begin() + static_cast<std::ptrdiff_t>(start);
        model.erase(first, model.begin() + static_cast<std::ptrdiff_t>(end));
        model.insert(model.begin() + static_cast<std::ptrdiff_t>(start), added.begin(),
                     added.end());
    }

    /* Makes a call that puts `added` in place of a range, unless it would grow too long. */
    template <typename Call>
    void put(both<Value, Model> &one, std::size_t start, std::size_t end, const items &added,
             Call call) {
        if (one.model.size() - (end - start) + added.size() > most) {
            return;
        }
        bool is_done =
            is_boundary(one.model, start) && is_boundary(one.model, end) && added.is_whole;
        outcome was = outcome_of(call);
        CHECK(was == no_memory || was == (is_done ? done : invalid));
        if (was == done) {
            put(one.model, start, end, added);
        }
    }

    void edit_items(both<Value, Model> &one, item number, std::size_t index) {
        Value &value = one.value;
        Model &model = one.model;
        if (index == model.size()) {
            CHECK(outcome_of([&] { value.set(index, number); }) != done);
            CHECK(outcome_of([&] { value.take(index); }) != done);
            return;
        }
        decltype(value.pop_back()) taken{};
        switch (below(seed, 4)) {
        case 0:
            if (outcome_of([&] { value.set(index, number); }) == done) {
                model[index] = number;
            }
            break;
        case 1:
            if (outcome_of([&] { taken = value.take(index); }) == done) {
                CHECK(taken == model[index]);
                put(model, index, index + 1, {});
            }
            break;
        case 2:
            if (outcome_of([&] { taken = value.pop_back(); }) == done) {
                CHECK(taken == model.back());
                model.pop_back();
            }
            break;
        default:
            std::size_t erased = 0, before = model.size();
            if (outcome_of([&] { erased = erase(value, model[index]); }) == done) {
                number = model[index];
                model.erase(std::remove(model.begin(), model.end(), number), model.end());
                CHECK(model.size() + erased == before);
            }
        }
    }

    void edit_text(both<Value, Model> &one, const both<Value, Model> &other, std::size_t start,
                   std::size_t end) {
        static constexpr struct {
            char32_t number;
            std::string_view bytes;
        } characters[] = {{U'a', "a"},
                          {U'z', "z"},
                          {U'\u00e9', "\u00e9"},
                          {U'\u20ac', "\u20ac"},
                          {U'\U0001f331', "\U0001f331"}};
        const auto &character = characters[below(seed, 5)];
        Value &value = one.value;
        Model &model = one.model;
        const std::size_t size = model.size();
        const std::string_view pattern = std::string_view(other.model).substr(0, below(seed, 4));
        scratch.assign(character.bytes, 0, character.bytes.size());
        switch (below(seed, 6)) {
        case 0:
            put(one, size, size, scratch, [&] { value += character.number; });
            break;
        case 1:
            put(one, start, end, scratch, [&] { value.replace(start, end - start, scratch); });
            break;
        case 2:
            put(one, start, start, scratch, [&] { value.insert(start, scratch); });
            break;
        case 3: {
            char32_t taken = 0;
            std::size_t last = size;
            while (last > 0 && !is_boundary(model, --last)) {
            }
            outcome was = outcome_of([&] { taken = value.pop_back(); });
            CHECK(was == no_memory || was == (size ? done : past_end));
            if (was == done) {
                CHECK(taken < 0x80 ? model.substr(last) == std::string(1, char(taken))
                                   : last + 1 < size);
                model.resize(last);
            }
            break;
        }
        case 4: {
            ecow::text cut;
            outcome was = outcome_of([&] { cut = value.substr(start, end - start); });
            bool is_done = is_boundary(model, start) && is_boundary(model, end);
            CHECK(was == no_memory || was == (is_done ? done : invalid));
            CHECK(was != done || cut == std::string_view(model).substr(start, end - start));
            break;
        }
        default:
            CHECK(value.find(pattern, start) == model.find(pattern, start));
            CHECK(value.rfind(pattern, start) == model.rfind(pattern, start));
            CHECK(value.starts_with(pattern) == (model.compare(0, pattern.size(), pattern) == 0));
            CHECK(value.contains(pattern) == (model.find(pattern) != model.npos));
            CHECK(value.compare(pattern) == model.compare(pattern));
        }
    }

    numbers seed{20260915};
    std::array<both<Value, Model>, values> all;
    items scratch;
};

/* ---- Nested values ---- */

struct tree;
struct named;

/* A type of its own, since libstdc++ takes a variant of vectors for one that always has a value,
 * and destroys one whose copy was refused. */
struct named_parts : std::vector<named> {
    using std::vector<named>::vector;
};

/* What a nested value has to hold. */
using tree_variant = std::variant<std::monostate, bool, std::int64_t, double, std::string_view,
                                  std::vector<tree>, named_parts>;

struct tree {
    tree_variant held;
};

struct named {
    std::string_view name;
    tree part;
};

static bool holds(const ecow::value &value, const tree &model) {
    if (static_cast<std::size_t>(value.kind()) != model.held.index()) {
        return false;
    }
    std::size_t index = 0;
    switch (value.kind()) {
    case ecow::kind::nothing:
        return value.size() == 0;
    case ecow::kind::truth:
        return value.truth() == std::get<bool>(model.held);
    case ecow::kind::number:
        return value.number() == std::get<std::int64_t>(model.held);
    case ecow::kind::real:
        return !(value.real() < std::get<double>(model.held))
               && !(value.real() > std::get<double>(model.held));
    case ecow::kind::text:
        return value.text() == std::get<std::string_view>(model.held);
    case ecow::kind::list:
        for (const ecow::value &item : value.items()) {
            const auto &items = std::get<std::vector<tree>>(model.held);
            if (index == items.size() || !holds(item, items[index++])) {
                return false;
            }
        }
        return index == std::get<std::vector<tree>>(model.held).size() && index == value.size();
    case ecow::kind::fields:
        for (const auto &[name, item] : value.fields()) {
            const auto &fields = std::get<named_parts>(model.held);
            if (index == fields.size() || name != fields[index].name || value.get(name) != item
                || !holds(item, fields[index++].part)) {
                return false;
            }
        }
        return index == std::get<named_parts>(model.held).size() && index == value.size();
    }
    return false;
}

/* How many parts there are, itself included. */
static std::size_t parts_of(const tree &model) {
    std::size_t count = 1;
    if (const auto *items = std::get_if<std::vector<tree>>(&model.held)) {
        for (const tree &item : *items) {
            count += parts_of(item);
        }
    } else if (const auto *fields = std::get_if<named_parts>(&model.held)) {
        for (const named &field : *fields) {
            count += parts_of(field.part);
        }
    }
    return count;
}

/* An edit of a part, and what it takes out. */
struct part_edit {
    std::size_t call, index;
    std::string_view name;
    const tree *given;
    const ecow::value *given_value;
    tree taken{};
    ecow::value taken_value{};
    bool takes = false;

    /* The edit of a model; one that is refused leaves what will do, since it is thrown away. */
    outcome make(tree &part) {
        auto *items = std::get_if<std::vector<tree>>(&part.held);
        auto *fields = std::get_if<named_parts>(&part.held);
        auto at = static_cast<std::ptrdiff_t>(index);
        if (call >= 9) {
            part = *given;
            return done;
        }
        if (call >= 7) {
            if (!fields) {
                return wrong;
            }
            auto place = std::find_if(fields->begin(), fields->end(),
                                      [&](const named &each) { return each.name == name; });
            bool is_there = place != fields->end();
            if (call == 7 && is_there) {
                place->part = *given;
            } else if (call == 7) {
                fields->push_back({name, *given});
            } else if (is_there) {
                take(place->part);
                fields->erase(place);
            } else {
                return past_end;
            }
            return done;
        }
        if (call == 6 && fields && index < fields->size()) {
            take((*fields)[index].part);
            return done;
        }
        if (!items) {
            return call == 6 && fields ? past_end : wrong;
        }
        if (call == 5) {
            items->resize(std::min(items->size(), index));
            return done;
        }
        if (call == 4 && !items->empty()) {
            take(items->back());
            items->pop_back();
            return done;
        }
        if (call == 0) {
            items->push_back(*given);
            return done;
        }
        if (call == 4 || index > items->size() || (index == items->size() && call != 1)) {
            return past_end;
        }
        switch (call) {
        case 1:
            items->insert(items->begin() + at, *given);
            break;
        case 2:
            (*items)[index] = *given;
            break;
        default:
            take((*items)[index]);
            if (call == 3) {
                items->erase(items->begin() + at);
            }
        }
        return done;
    }

    void take(const tree &part) {
        taken = part;
        takes = true;
    }

    void make(ecow::value &part) {
        switch (call) {
        case 0:
            return part.push_back(*given_value);
        case 1:
            return part.insert(index, *given_value);
        case 2:
            return part.set(index, *given_value);
        case 3:
            taken_value = part.take(index);
            break;
        case 4:
            taken_value = part.pop_back();
            break;
        case 5:
            return part.truncate(index);
        case 6:
            taken_value = part.at({index});
            break;
        case 7:
            return part.set(name, *given_value);
        case 8:
            taken_value = part.contains(name) ? *part.find(name) : ecow::value();
            part.take(name);
            break;
        default:
            part = *given_value;
        }
    }
};

class value_editor {
    static constexpr std::size_t values = 6, most = 60;

public:
    value_editor() {
        path.reserve(4);
    }

    void edit() {
        auto &one = all[below(seed, values)];
        const auto &other = all[below(seed, values)];
        if (parts_of(one.model) + parts_of(other.model) > most) {
            one.value = nullptr;
            one.model.held = std::monostate();
        }
        bool is_whole = below(seed, 3) == 0;
        outcome wanted = done, was = done;
        both<ecow::value, tree> made;
        tree changed;
        part_edit edit{below(seed, 11), below(seed, 4), names[below(seed, std::size(names))],
                       is_whole ? &other.model : &made.model,
                       is_whole ? &other.value : &made.value};
        /* What the model asks for may be refused too, and then nothing is edited. */
        if (outcome_of([&] {
                make(made);
                changed = one.model;
                path.clear();
                wanted = edit.make(walk(changed));
            })
            != done) {
            return;
        }
        was = outcome_of([&] {
            if (path.empty()) {
                edit.make(one.value);
            } else {
                one.value.update(path, [&](ecow::value &part) { edit.make(part); });
            }
        });
        CHECK(was == wanted || was == no_memory);
        if (was == done) {
            CHECK(!edit.takes || holds(edit.taken_value, edit.taken));
            std::swap(one.model.held, changed.held);
        }
        for (const auto &each : all) {
            CHECK(holds(each.value, each.model));
        }
    }

private:
    static constexpr std::string_view names[] = {"", "a", "b", "a name of more than 15 bytes"};

    /* A value of a kind that the seed decides, of which lists and fields hold one part or none. */
    void make(both<ecow::value, tree> &made) {
        auto number = static_cast<std::int64_t>(seed());
        std::string_view name = names[below(seed, std::size(names))];
        switch (below(seed, 8)) {
        case 0:
            return;
        case 1:
            made = {number > 0, {number > 0}};
            return;
        case 2:
            made = {number, {number}};
            return;
        case 3:
            made = {static_cast<double>(number) / 8, {static_cast<double>(number) / 8}};
            return;
        case 4:
            made = {name, {name}};
            return;
        case 5:
            made = {{number}, {std::vector<tree>{{number}}}};
            return;
        case 6:
            made = {ecow::value::fields({{name, number}}), {named_parts{{name, {number}}}}};
            return;
        default:
            made = {ecow::value::list(), {std::vector<tree>()}};
        }
    }

    /* Goes into a model by steps that the seed decides. */
    tree &walk(tree &start) {
        tree *part = &start;
        while (path.size() < 3 && below(seed, 3)) {
            if (auto *items = std::get_if<std::vector<tree>>(&part->held)) {
                if (items->empty()) {
                    break;
                }
                std::size_t index = below(seed, items->size());
                path.push_back(index);
                part = &(*items)[index];
            } else if (auto *fields = std::get_if<named_parts>(&part->held)) {
                if (fields->empty()) {
                    break;
                }
                named &field = (*fields)[below(seed, fields->size())];
                path.push_back(field.name);
                part = &field.part;
            } else {
                break;
            }
        }
        return *part;
    }

    numbers seed{20260915};
    std::array<both<ecow::value, tree>, values> all;
    std::vector<ecow::value::step> path;
};

using plain_fields = std::vector<std::pair<std::string, std::int64_t>>;

/* Whether fields have these names and numbers in order, and each name means its first field. */
static bool holds(const ecow::value &fields, const plain_fields &model) {
    bool same = fields.size() == model.size() && !fields.contains("no such name");
    for (std::size_t index = 0; same && index < model.size(); index++) {
        const auto &[name, number] = model[index];
        const auto first = std::find_if(model.begin(), model.end(), [&name = name](const auto &field) {
            return field.first == name;
        });
        same = fields.name(index) == name && fields.get(index) == number
               && fields.get(name) == first->second;
    }
    return same;
}

/* Fields that come and go by their names, about so many at a time, beside a plain list of them. Of
 * `twins`, several have one name. A copy that is kept meanwhile doesn't change. */
static void names_come_and_go(std::size_t most, bool twins, std::size_t edits) {
    numbers seed{most};
    ecow::value fields = ecow::value::fields({}), kept = fields;
    plain_fields model, kept_model;
    model.reserve(edits);
    for (std::size_t edit = 0; edit < edits; edit++) {
        const std::string name = "name " + std::to_string(below(seed, 2 * most));
        const auto number = static_cast<std::int64_t>(edit);
        const auto first_of = [&model](const std::string &wanted) {
            return std::find_if(model.begin(), model.end(),
                                [&wanted](const auto &field) { return field.first == wanted; });
        };
        /* First more and more, and then fewer and fewer, again and again. */
        const bool fewer = edit / (2 * most) % 2 == 1;
        outcome was;
        if (!model.empty() && below(seed, 8) < (fewer ? 7u : 1u)) {
            /* The oldest, the newest, or any. */
            const std::size_t places[] = {0, model.size() - 1, below(seed, model.size())};
            const std::string gone = model[places[below(seed, 3)]].first;
            was = outcome_of([&] { CHECK(fields.take(gone) == first_of(gone)->second); });
            if (was == done) {
                model.erase(first_of(gone));
            }
        } else if (twins && below(seed, 4) == 0) {
            was = outcome_of([&] { fields.push_field(name, number); });
            if (was == done) {
                model.emplace_back(name, number);
            }
        } else {
            was = outcome_of([&] { fields.set(name, number); });
            if (was == done && first_of(name) == model.end()) {
                model.emplace_back(name, number);
            } else if (was == done) {
                first_of(name)->second = number;
            }
        }
        CHECK(was == done || was == no_memory);
        if (below(seed, most) == 0) {
            CHECK(holds(fields, model) && holds(kept, kept_model));
            kept_model = model;
            kept = fields;
        }
        const std::size_t index = below(seed, model.size() + 1);
        CHECK(index == model.size()
              || (fields.name(index) == model[index].first
                  && fields.get(index) == model[index].second));
    }
    ecow::value again = ecow::value::fields({});
    for (const auto &[name, number] : model) {
        again.push_field(name, number);
    }
    CHECK(holds(fields, model) && fields == again && again == fields);
}

int main(int argc, char **argv) {
    long edits = argc > 1 ? std::atol(argv[1]) : 100000;
    try {
        editor<ecow::list, std::vector<std::int64_t>> lists;
        editor<ecow::vector<std::int32_t>, std::vector<std::int32_t>> small;
        editor<ecow::vector<double>, std::vector<double>> reals;
        editor<ecow::bytes, std::vector<std::uint8_t>> bytes;
        editor<ecow::text, std::string> texts;
        editor<ecow::texts, std::vector<std::string_view>> lists_of_texts;
        value_editor nested;
        for (long edit = 0; edit < edits; edit++) {
            lists.edit();
            small.edit();
            reals.edit();
            bytes.edit();
            texts.edit();
            lists_of_texts.edit();
            nested.edit();
        }
        /* Around the number of fields from which on there is an index, and far from it. */
        for (const std::size_t most : {5, 15, 16, 17, 24, 200, 2000}) {
            const std::size_t few = std::min(static_cast<std::size_t>(edits) / 4, 12 * most);
            names_come_and_go(most, false, few);
            names_come_and_go(most, true, few);
        }
    } catch (const std::bad_alloc &) {
        std::puts("no memory");
    }
    std::printf("c++: %ld edits of each kind, %ld checks\n", edits, checks);
}
