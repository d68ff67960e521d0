// Adds up a column of comma-separated values by its name, whatever their size: named_column NAME < FILE
// The first row has the names. A cell may stand within quotes, and a byte order mark in front of all.
#include "named_sum.hpp"

static column_sum sum_of(const char *name)
{
    std::int64_t sum = 0;
    read_named(name, [&sum](auto &blocks, auto &columns, auto &numbers) {
        for (const jadvolni::table_block &block : blocks) {
            for (std::size_t row = 0; row < block.rows(); ++row)
                if (!add(sum, numbers[row])) errx(1, "row %zu: the sum leaves the type", block.first_row() + row + 1);
            if (!block) errx(1, "%s", columns.named(block.fault()).what());
        }
    });
    return {sum, 0};
}

constexpr char page[] = "usage: named_column NAME < FILE\n"
    "Adds up the column of that name."
    " Exit status 1: a wrong row, or too large a sum; 2: reading or writing failed.\n";

int main(int count, char **arguments) { return print_sum(page, count, arguments, sum_of); }
