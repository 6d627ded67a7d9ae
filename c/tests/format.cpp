/* Tests std::format of the types of ecow.hpp, where the library of C++ has it. */
#include "check.hpp"

#ifdef ECOW_FORMATS

/* Groups digits, as the locale of no machine has to be there for. */
struct grouping : std::numpunct<char> {
    char do_thousands_sep() const override {
        return '.';
    }
    std::string do_grouping() const override {
        return "\3";
    }
};

static void texts() {
    for (const char *letters : {"", "short", "a text that spills", "\u20ac\u20ac", "{}"}) {
        const ecow::text text(letters);
        const std::string plain(letters);
        CHECK(std::format("{}", text) == plain);
        CHECK(std::format("[{:>24}] {:.3}", text, text)
              == std::format("[{:>24}] {:.3}", plain, plain));
        CHECK(std::format("{:*^{}}{}", text, 30, 1) == std::format("{:*^{}}{}", plain, 30, 1));
        CHECK(std::format("{1} {0}", text, ecow::text(text)) == plain + " " + plain);
        /* A text is written as it stands, and a text in a value in quotes. */
        CHECK(std::format("{}", ecow::value(text)) == "\"" + plain + "\"");
    }
    CHECK(std::format("{}", ecow::texts{"a", "b"}[1]) == "b");
}

static void values() {
    const ecow::value value = ecow::value::fields({{"size", {800, 1.5, -7}},
                                                   {"full", false},
                                                   {"title", nullptr},
                                                   {"a \"b\"\n", "x\\"},
                                                   {"large", 1234567}});
    const std::string line = "{\"size\": [800, 1.5, -7], \"full\": false, \"title\": null, "
                             "\"a \\\"b\\\"\\n\": \"x\\\\\", \"large\": 1234567}";
    CHECK(std::format("{}", value) == line);
    CHECK(std::format("<{:>200}>", value)
          == "<" + std::string(200 - line.size(), ' ') + line + ">");
    CHECK(std::format("{:.5}", value) == line.substr(0, 5));
    CHECK(std::format("{} {} {}", ecow::value(7), ecow::value(true), ecow::value())
          == "7 true null");
    CHECK(std::format("{}{}", ecow::value::list(), ecow::value::fields({})) == "[]{}");
    /* It doesn't depend on the locale of the process. */
    const std::locale before = std::locale::global(std::locale(std::locale(), new grouping));
    CHECK(std::format("{}", value) == line);
    std::locale::global(before);
}

int main() {
    texts();
    values();
#ifdef __cpp_lib_format_ranges
    CHECK(std::format("{}", ecow::list{1, 2, 3}) == "[1, 2, 3]");
    CHECK(std::format("{::.1f}", ecow::vector<double>{1, 2.5}) == "[1.0, 2.5]");
#endif
    std::printf("c++: %ld checks of std::format\n", checks);
}
#else
#error "the library of C++ has no std::format"
#endif
