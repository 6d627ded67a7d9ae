/* A table of interned words: it reads words, and says which are the most frequent. A word that
 * occurs often is kept once, and its occurrences share memory. */
#include "ecow.hpp"

#include <algorithm>
#include <iostream>
#include <string>
#include <unordered_map>
#include <utility>
#include <vector>

/* Each distinct word, and how often it occurs. */
static std::unordered_map<ecow::text, std::size_t> counts;

static ecow::text intern(const std::string &word) {
    auto entry = counts.try_emplace(word).first;
    entry->second++;
    return entry->first;
}

using ranked = std::pair<ecow::text, std::size_t>;

static bool comes_first(const ranked &left, const ranked &right) {
    return left.second != right.second ? left.second > right.second : left.first < right.first;
}

int main() {
    std::vector<ecow::text> occurrences;
    try {
        for (std::string word; std::cin >> word;) {
            occurrences.push_back(intern(word));
        }
    } catch (const std::exception &error) {
        std::cerr << "word " << occurrences.size() + 1 << ": " << error.what() << '\n';
        return 1;
    }
    std::cout << occurrences.size() << " words, " << counts.size() << " distinct\n";
    std::vector<ranked> words(counts.begin(), counts.end());
    std::sort(words.begin(), words.end(), comes_first);
    words.resize(std::min(words.size(), std::size_t(5)));
    for (const auto &[word, count] : words) {
        std::cout << count << ' ' << word << '\n';
    }
}
