// What the programs share that add up a column of comma-separated values by its name: their input, and their answer.
#pragma once
#include "../c/command.h"
#include <jadvolni_columns.hpp>
#include <unistd.h>

inline ssize_t read_input(char *to, std::size_t room)
{
    auto count = ::read(STDIN_FILENO, to, room);
    if (count < 0) err(2, "standard input");
    return count;
}

// Adds a number, unless the sum would leave the type.
inline bool add(std::int64_t &sum, std::int64_t number)
{
    if (number > 0 ? sum > INT64_MAX - number : sum < INT64_MIN - number) return false;
    sum += number;
    return true;
}

// Finds the column of a name in standard input, and hands over the blocks, the columns, and where the numbers go.
template <class Read>
void read_named(const char *name, Read read)
{
    jadvolni::table how{};
    how.separator = ',';
    how.has_quotes = 1;
    std::vector<char> bytes(1 << 20); // a row has to fit
    std::int64_t numbers[1000];
    jadvolni::table_blocks blocks(read_input, bytes, how, std::size(numbers));
    auto header = blocks.header();
    if (!header) errx(1, "byte %zu: %s", header.place(), header.message());
    jadvolni::columns_by_header columns(*header, how, {{name, jadvolni::column_into(numbers)}});
    if (!columns) errx(1, "%s", columns.message().c_str());
    blocks.read_into(columns);
    read(blocks, columns, numbers);
}

// The sum of a column, and how many bad rows were skipped for it.
struct column_sum {
    std::int64_t sum;
    std::size_t bad_rows;
};

// Prints the sum of the column that the command line of a program names. The status is 1 if rows were skipped.
inline int print_sum(const char *page, int count, char **arguments, column_sum (*sum_of)(const char *name))
try {
    check_arguments(count == 2, count, arguments, page);
    auto [sum, bad_rows] = sum_of(arguments[1]);
    if (std::printf("%lld\n", static_cast<long long>(sum)) < 0 || std::fflush(stdout) != 0) err(2, "standard output");
    return bad_rows > 0;
} catch (const std::bad_alloc &refused) {
    errx(2, "%s", refused.what());
}
