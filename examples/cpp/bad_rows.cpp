// Adds up a column of comma-separated values by its name, and reports bad rows: bad_rows NAME < FILE
// The file may have any size. The first row has the names. A cell may stand within quotes. After a bad row the exit
// status is 1.
#include "named_sum.hpp"
#include <array>

constexpr std::size_t most = 10; // the most bad rows that are shown

static column_sum sum_of(const char *name)
{
    std::int64_t sum = 0;
    std::size_t bad_rows = 0;
    std::array<jadvolni::bad_row, most> bad;
    read_named(name, [&](auto &blocks, auto &columns, auto &numbers) {
        blocks.skip_bad_rows(bad);
        for (const jadvolni::table_block &block : blocks) {
            if (!block) errx(1, "%s", columns.named(block.fault()).what());
            for (std::size_t row = 0; row < block.rows(); ++row)
                if (!add(sum, numbers[row])) errx(1, "the sum leaves the type");
            auto before = blocks.bad_rows() - block.bad_rows();
            for (std::size_t k = 0; k < block.bad_rows() && before + k < most; ++k)
                warnx("%s", columns.named(block.fault(bad[k])).what());
        }
        bad_rows = blocks.bad_rows();
    });
    if (bad_rows > 0) warnx("bad rows: %zu", bad_rows);
    return {sum, bad_rows};
}

constexpr char page[] = "usage: bad_rows NAME < FILE\n"
    "Adds up the column of that name, without bad rows."
    " Exit status 1: a bad row, or too large a sum; 2: reading or writing failed.\n";

int main(int count, char **arguments) { return print_sum(page, count, arguments, sum_of); }
