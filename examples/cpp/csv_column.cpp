// Adds up a column of comma-separated values, in as many threads as there are cores: csv_column COLUMN < FILE
// Columns count from 1. There is no header and no quote, and each line has as many cells as the first.
#include "../c/command.h"
#include "table_threads.hpp"
#include <string>
#include <thread>

static std::string whole_input()
{
    static char bytes[1 << 16];
    std::string text;
    while (auto count = std::fread(bytes, 1, sizeof bytes, stdin)) text.append(bytes, count);
    if (std::ferror(stdin)) err(2, "standard input");
    return text;
}

struct block {
    std::vector<std::int64_t> numbers;
    jadvolni::table_result answer;
};

// Reads the numbers of one of the columns.
static block read_part(std::string_view part, const jadvolni::table &how, std::size_t column, std::size_t count)
{
    std::vector<std::int64_t> numbers(static_cast<std::size_t>(std::count(part.begin(), part.end(), '\n')) + 1);
    std::vector<jadvolni::table_column> columns(count);
    columns[column] = jadvolni::column_into(numbers);
    auto answer = jadvolni::parse_table(part, how, numbers.size(), columns);
    return {std::move(numbers), answer};
}

// The sum of all numbers that were read. Where it leaves the type, the row is reported.
static std::int64_t sum_of(const std::vector<block> &blocks)
{
    std::int64_t sum = 0;
    std::size_t row = 0;
    for (const block &one : blocks) {
        for (std::size_t k = 0; k < one.answer.rows(); ++k) {
            auto number = one.numbers[k];
            ++row;
            if (number > 0 ? sum > INT64_MAX - number : sum < INT64_MIN - number)
                errx(1, "row %zu: the sum leaves the type", row);
            sum += number;
        }
        if (!one.answer) break;
    }
    return sum;
}

constexpr char page[] = "usage: csv_column COLUMN < FILE\n"
    "Adds up that column, counted from 1."
    " Exit status 1: a wrong row, or too large a sum; 2: reading or writing failed.\n";

int main(int count, char **arguments)
try {
    auto column = jadvolni::parse<std::size_t>(count == 2 ? arguments[1] : "");
    check_arguments(column && *column > 0, count, arguments, page);
    auto text = whole_input();
    auto cells = static_cast<std::size_t>(std::count(text.begin(), std::find(text.begin(), text.end(), '\n'), ',')) + 1;
    // Where the first line has no such cell, it has one too few.
    if (*column > cells) ++cells;
    auto index = std::min(*column, cells) - 1;
    jadvolni::table how{};
    how.separator = ',';
    how.has_quotes = 1;
    auto parts = table_parts(text, how, std::thread::hardware_concurrency());
    auto blocks = in_threads(parts, [&](std::string_view part) { return read_part(part, how, index, cells); });
    auto sum = sum_of(blocks);
    auto whole = table_answer(parts, blocks);
    if (!whole)
        errx(1, "row %zu, cell %zu, byte %zu: %s", whole.rows() + 1, whole.column() + 1, whole.place(), whole.message());
    if (std::printf("%lld\n", static_cast<long long>(sum)) < 0 || std::fflush(stdout) != 0) err(2, "standard output");
} catch (const std::exception &refused) { // memory, or a thread
    errx(2, "%s", refused.what());
}
