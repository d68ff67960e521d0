// Calls that break what jadvolni.hpp asks of a caller, as misuse.c has them of jadvolni.h: behind a number stands what
// compilers have to say.
#include "jadvolni.hpp"

#include <array>
#include <vector>

// What a function hands over that has a view of numbers which it doesn't own.
struct view {
    int *numbers;
    std::size_t count;
    int *data() const { return numbers; }
    std::size_t size() const { return count; }
};

// What looks as a view, and owns what it gives.
struct owner {
    std::vector<int> numbers;
    int *data() const { return nullptr; }
    std::size_t size() const { return 0; }
};

void misuse();
void misuse()
{
    std::vector<int> values(2);
    int kept[2] = {0, 0};
    const std::vector<int> constant(2);
    (void)values, (void)constant, (void)kept;
#if MISUSE == 0
    std::array<long long, 2> many{};
    (void)jadvolni::column_into(values), (void)jadvolni::column_into(many), (void)jadvolni::column_into(kept);
    (void)jadvolni::column_into(view{values.data(), values.size()});
    jadvolni::cell_text texts[2]{};
    (void)jadvolni::column_into(texts), (void)jadvolni::column_into(values, jadvolni::fixed{});
    (void)jadvolni::parse_column("1,2", ',', values), (void)jadvolni::parse<char>("1");
    std::vector<char> bytes(9);
    jadvolni::table_blocks blocks([](char *, std::size_t) { return 0; }, bytes, {}, 1);
    auto moved = std::move(blocks);
    (void)moved;
#elif MISUSE == 1 /* both: have to outlive the column */
    (void)jadvolni::column_into(std::vector<int>(2));
#elif MISUSE == 2 /* both: may be written */
    (void)jadvolni::parse_column("1,2", ',', constant);
#elif MISUSE == 3 /* both: may be written */
    (void)jadvolni::column_into(constant);
#elif MISUSE == 4 /* both: no bool */
    (void)jadvolni::parse<bool>("1");
#elif MISUSE == 5 /* both: up to 64 bits */
    (void)jadvolni::column_into(static_cast<jadvolni_native_int128 *>(nullptr), 0);
#elif MISUSE == 6 /* both: unused-result */
    jadvolni::parse<int>("1");
#elif MISUSE == 7 /* both: have to outlive the column */
    (void)jadvolni::column_into(std::array<std::int64_t, 4>{});
#elif MISUSE == 8 /* both: have to outlive the column */
    (void)jadvolni::column_into(std::move(kept));
#elif MISUSE == 9 /* both: have to outlive the column */
    (void)jadvolni::column_into(owner());
#elif MISUSE == 10 /* both: texts have to outlive the column */
    (void)jadvolni::column_into(std::vector<jadvolni::cell_text>(2));
#elif MISUSE == 11 /* both: numbers have to outlive the column */
    (void)jadvolni::column_into(std::vector<int>(2), jadvolni::fixed{});
#elif MISUSE == 12 /* both: may be written */
    (void)jadvolni::column_into(constant, jadvolni::fixed{});
#elif MISUSE == 13 /* both: deleted */
    std::vector<char> bytes(9);
    jadvolni::table_blocks blocks([](char *, std::size_t) { return 0; }, bytes, {}, 1);
    auto copy = blocks;
    (void)copy;
#endif
}
