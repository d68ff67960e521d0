// Reads a bank statement: texts, amounts such as -1.234,50, lines that end with or without a return, and a bad row.
#include <jadvolni.hpp>
#include <err.h>
#include <array>
#include <iostream>

int main()
{
    constexpr std::string_view text = "29.02.;Rent;-1.234,50\r\n1.3.;Food;12,5o\n2.3.;Books;7,00\n";
    std::array<jadvolni::cell_text, 10> purposes;
    std::array<std::int64_t, 10> cents;
    std::array<jadvolni::bad_row, 10> bad;
    jadvolni::table statement{};
    statement.separator = ';';
    statement.allows_returns = 1;
    jadvolni::fixed amount{};
    amount.integer.digit_separator = '.';
    amount.integer.integer_internal_digit_separator = 1;
    amount.point = ',';
    amount.places = 2;
    std::array columns{jadvolni::table_column{}, jadvolni::column_into(purposes), jadvolni::column_into(cents, amount)};
    auto read = jadvolni::parse_table_skipping(text, statement, 10, columns, bad);
    for (std::size_t row = 0; row < read.rows(); ++row)
        std::cout << jadvolni::text_of(text, purposes[row]) << ": " << cents[row] << '\n';
    for (std::size_t k = 0; k < read.bad_rows(); ++k)
        std::cout << jadvolni::table_fault(bad[k], text, statement).what() << '\n';
    if (!std::cout.flush()) err(2, "standard output");
}
