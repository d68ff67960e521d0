// Tables in threads beside one thread: the numbers, the bits and the first wrong cell of random and of worked tables.
#include "../../examples/cpp/table_threads.hpp"
#include "check.h"
#include "tables.hpp"

#include <random>
#include <string>

struct block {
    std::vector<std::int16_t> left;
    std::vector<std::uint8_t> present, right;
    jadvolni::table_result answer;
};

// The rows of a text of an int16_t that may be missing, a cell that isn't read, and a uint8_t.
static block rows_of(std::string_view text, const jadvolni::table &how)
{
    auto room = static_cast<std::size_t>(std::count(text.begin(), text.end(), '\n')) + 1;
    std::vector<std::int16_t> left(room, 77);
    std::vector<std::uint8_t> present(room / 8 + 1), right(room, 99);
    jadvolni::table_column columns[] = {jadvolni::column_into(left), {}, jadvolni::column_into(right)};
    columns[0].present = {present.data(), present.size()};
    auto answer = jadvolni::parse_table(text, how, room, columns);
    return {std::move(left), std::move(present), std::move(right), answer};
}

// The numbers of each row, up to the first wrong cell, and the answer of the whole table.
static std::string shown(const std::vector<block> &blocks, const jadvolni::table_result &whole)
{
    std::string text;
    for (const block &one : blocks) {
        for (std::size_t row = 0; row < one.left.size() && row <= one.answer.rows(); ++row)
            if (row < one.answer.rows() || !one.answer)
                text += std::to_string(one.left[row]) + "?!"[jadvolni::is_present(one.present, row)]
                    + std::to_string(one.right[row]) + ' ';
        if (!one.answer) break;
    }
    return text + whole.name() + ' ' + std::to_string(whole.column()) + ' ' + std::to_string(whole.rows()) + ' '
        + std::to_string(whole.place());
}

static std::string in_one_thread(std::string_view text, const jadvolni::table &how)
{
    std::vector<block> blocks{rows_of(text, how)};
    return shown(blocks, blocks[0].answer);
}

static std::string in_several(std::size_t threads, std::string_view text, const jadvolni::table &how)
{
    auto parts = table_parts(text, how, threads);
    std::size_t size = 0;
    for (auto part : parts) size += part.size();
    CHECK(size == text.size() && parts.size() <= std::max<std::size_t>(threads, 1));
    auto blocks = in_threads(parts, [&how](std::string_view part) { return rows_of(part, how); });
    return shown(blocks, table_answer(parts, blocks));
}

static void worked_tables()
{
    auto how = commas(true);
    std::string_view right = "1,\"a\n,\",2\n,\"\"\"\n\",3\n-4,b,\"5\"\n", wrong = "1,\"\n\",2\n3,c\"d,4\nx,,5\n6,\",7\n";
    for (std::size_t threads = 0; threads <= right.size() + 2; ++threads) {
        CHECK(in_several(threads, right, how) == "1!2 0?3 -4!5 Ok 0 3 28");
        CHECK(in_several(threads, wrong, how) == "1!2 3!99 MisplacedQuote 1 1 11");
        CHECK(in_several(threads, "", how) == "Ok 0 0 0");
        CHECK(in_several(threads, "\n\n\n", how) == "0?99 TooFewCells 1 0 0");
    }
    // Where quotes have no meaning they keep no text in one part.
    std::string quoted;
    while (quoted.size() < 1000) quoted += "1,\",2\n";
    auto plain = how;
    plain.has_quotes = 0;
    CHECK(table_parts(quoted, plain, 4).size() == 4 && table_parts(quoted + "1,\",2\n", how, 4).size() == 4);
    CHECK(table_parts("1,\",2\n", how, 4).size() == 1 && table_parts(std::string_view(), how, 4).size() == 1);
    // What is wrong with a table comes before its text.
    how.reserved[0] = 1;
    for (std::size_t threads : {1u, 3u, 64u}) CHECK(in_several(threads, right, how) == "77?99 InvalidTable 0 0 0");
}

// A text of rows, of which some are wrong in some way or other, for a table that is written somehow.
static std::string random_text(std::mt19937_64 &random, const jadvolni::table &how)
{
    auto one_of = [&random](std::initializer_list<const char *> these) { return these.begin()[random() % these.size()]; };
    std::string text;
    auto wrong = random() % 40 + 1;
    for (auto rows = random() % 60; rows > 0; --rows) {
        bool is_wrong = random() % (4 * wrong) == 0;
        if (how.skips_empty_rows && random() % 4 == 0) {
            text += how.has_returns ? "\r\n" : "\n";
            continue;
        }
        text += one_of({"1", "-32768", "32767", "NA", "007", "-0"});
        text += ',';
        if (how.has_quotes) text += one_of({"", "\"\"", "\"a,\n\n\"", "\"\"\"\n\"\"\"", "\"\r\n,,\""});
        else text += one_of({"", "a", "\"", " \r"});
        text += ',';
        text += how.has_quotes && random() % 3 == 0 ? "\"255\"" : how.allows_blanks ? " 7\t" : "0";
        if (is_wrong) text += one_of({"\"", ",", "x", "\n", "\r", "\"\n", "9999"});
        text += how.has_returns ? "\r\n" : "\n";
    }
    if (random() % 3 == 0 && !text.empty()) text.resize(text.size() - random() % 8 % text.size());
    return text;
}

static void random_tables()
{
    std::mt19937_64 random(1);
    int right = 0;
    for (int k = 0; k < 100; ++k) {
        auto how = commas();
        how.has_returns = random() % 2;
        how.has_quotes = random() % 4 != 0;
        how.allows_blanks = random() % 2;
        how.skips_empty_rows = random() % 2;
        how.missing = "NA";
        how.missing_len = 2;
        auto text = random_text(random, how);
        auto *bytes = static_cast<char *>(exactly(text.data(), text.size()));
        std::string_view exact(bytes, text.size());
        auto wanted = in_one_thread(exact, how);
        right += wanted.find("Ok") != wanted.npos;
        for (std::size_t threads : {2ul, 5ul, random() % 64 + 1}) CHECK(in_several(threads, exact, how) == wanted);
        free(bytes);
    }
    // There are enough right ones, and enough wrong ones.
    CHECK(right > 20 && right < 80);
}

// What a thread throws is thrown, once all have ended.
static void failing_threads()
{
    auto fails = [](std::string_view text) { return text == "b" ? throw std::string(text) : 0; };
    std::string thrown;
    try {
        in_threads({"a", "b", "c", "b"}, fails);
    } catch (const std::string &text) {
        thrown = text;
    }
    CHECK(thrown == "b" && in_threads({"a"}, fails) == std::vector<int>{0} && in_threads({}, fails).empty());
}

int main()
{
    worked_tables();
    random_tables();
    failing_threads();
    return checked();
}
