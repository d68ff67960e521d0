// A column of u64, a number on each line of standard input, read by the C call and by a loop of std::from_chars.
//
//     columns ROUNDS
#include <charconv>

#include "jadvolni.hpp"
#include "turns.hpp"

namespace {

// The numbers of the lines, by a loop around std::from_chars. A line that is none stops it.
std::size_t by_from_chars(const std::string &text, Columns<std::uint64_t> &columns) {
    auto &values = columns[0].numbers;
    const char *at = text.data(), *last = at + text.size();
    std::size_t count = 0;
    while (at != last && count < values.size()) {
        auto [stop, fault] = std::from_chars(at, last, values[count]);
        if (fault != std::errc() || (stop != last && *stop != '\n')) break;
        count++;
        at = stop == last ? last : stop + 1;
    }
    return count;
}

std::size_t by_column(const std::string &text, Columns<std::uint64_t> &columns) {
    return jadvolni::parse_column(text, '\n', columns[0].numbers).count();
}

}  // namespace

int main(int count, char **words) {
    if (count != 2) return 2;
    return take_turns<std::uint64_t>({{"C call", by_column}, {"from_chars", by_from_chars}}, words[1]);
}
