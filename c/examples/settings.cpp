/* Nested settings: a version is a copy, and shares what isn't changed. */
#include "ecow.hpp"

#include <iostream>

using ecow::value;

int main() {
    value settings = value::fields({
        {"window", value::fields({{"size", {800, 600}}, {"full", false}})},
        {"recent", ecow::texts{"first.txt", "second.txt"}},
    });
    const value before = settings;
    settings.update({"window", "size", 0}, [](value &width) { width = width.number() + 224; });
    settings.update({"recent"}, [](value &names) { names.push_back("third.txt"); });
    for (const value &version : {before, settings}) {
        std::cout << version.at({"window", "size", 0}).number() << " wide, recent:";
        for (const value &name : version.get("recent").items()) {
            std::cout << ' ' << name.text();
        }
        std::cout << '\n';
    }
    try {
        (void)settings.at({"window", "size"}).text();
    } catch (const ecow::wrong_kind &error) {
        std::cout << "the size as a text: " << error.what() << '\n';
    }
}
