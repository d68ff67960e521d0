// Readers of one text that take turns, so that the ratio of their times holds on a busy machine too.
#include <algorithm>
#include <chrono>
#include <cstdint>
#include <iostream>
#include <iterator>
#include <string>
#include <vector>

// The number of bytes before all code: a loop's alignment changes its time.
asm(".text\n.p2align 4\n.skip " SKIPPED ", 0xcc");

// What is read of a column: its numbers, and a bit for each row that says whether it has one, where some may be missing.
template <class T>
struct Column {
    std::vector<T> numbers;
    std::vector<std::uint8_t> present;
    bool operator==(const Column &) const = default;
};

template <class T>
using Columns = std::vector<Column<T>>;

// What reads columns that have room for all rows, and answers how many rows it has read. One may give no numbers.
template <class T>
struct Peer {
    const char *name;
    std::size_t (*read)(const std::string &, Columns<T> &);
    bool gives_numbers = true;
    double least = 1e300;
};

// Takes away what was read, so that no reader is believed for the numbers of the one before it.
template <class T>
void clear(Columns<T> &columns) {
    for (auto &[numbers, present] : columns) {
        std::fill(numbers.begin(), numbers.end(), T(-1));
        std::fill(present.begin(), present.end(), 0);
    }
}

// Reads standard input by all peers in each round. Prints of each the least time, in nanoseconds a cell, and
// the sum of the numbers. Answers 1 where two read other numbers. The first cells of a row, `unread`, aren't read.
template <class T>
int take_turns(std::vector<Peer<T>> peers, const char *rounds, std::size_t unread = 0) {
    std::string text{std::istreambuf_iterator<char>(std::cin), {}};
    std::size_t rows = std::count(text.begin(), text.end(), '\n');
    std::size_t cells = rows + std::count(text.begin(), text.end(), ',');
    Column<T> room{std::vector<T>(rows), std::vector<std::uint8_t>(rows / 8 + 1)};
    Columns<T> wanted(cells / rows - unread, room), columns = wanted;
    clear(wanted);
    if (peers[0].read(text, wanted) != rows) return 1;
    std::uint64_t sum = 0;
    for (auto &column : wanted)
        for (T number : column.numbers) sum += static_cast<std::uint64_t>(number);
    for (int round = std::stoi(rounds); round > 0; round--) {
        for (auto &peer : peers) {
            clear(columns);
            auto start = std::chrono::steady_clock::now();
            if (peer.read(text, columns) != rows) return 1;
            std::chrono::duration<double, std::nano> taken = std::chrono::steady_clock::now() - start;
            peer.least = std::min(peer.least, taken.count() / static_cast<double>(cells));
            if (peer.gives_numbers && columns != wanted) return 1;
        }
    }
    for (auto &peer : peers) std::cout << peer.name << '\t' << peer.least << '\t' << sum << '\n';
    return 0;
}
