/* What the tests in C++ share: a check that counts. */
#ifndef ECOW_CHECK_HPP
#define ECOW_CHECK_HPP

#include "ecow.hpp"

#include <cstdio>
#include <cstdlib>

static long checks;

#define CHECK(...)                                                                 \
    do {                                                                           \
        checks++;                                                                  \
        if (!(__VA_ARGS__)) {                                                      \
            std::fprintf(stderr, "%s:%d: %s\n", __FILE__, __LINE__, #__VA_ARGS__); \
            std::exit(1);                                                          \
        }                                                                          \
    } while (0)

/* Whether a call throws such an error, with the words of the status. */
template <typename Error, typename Call> static bool throws(ecow_status status, Call call) {
    try {
        call();
    } catch (const Error &error) {
        return std::string_view(error.what()) == ecow_status_text(status);
    }
    return false;
}

#endif
