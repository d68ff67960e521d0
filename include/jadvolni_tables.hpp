// jadvolni_tables.hpp - tables, each column into an array of its own. It is a part of jadvolni.hpp.
#include "jadvolni.hpp"

#ifndef JADVOLNI_TABLES_HPP_
#define JADVOLNI_TABLES_HPP_

namespace jadvolni {

// How a table is written. Begin with table{}, and set what differs. Its widths must outlive it.
using table = jadvolni_table;

// A column of a table: how its cells are read, and where their numbers or texts are stored. table_column{} isn't read.
using table_column = jadvolni_table_column;

// Where the text of a cell is: text_of returns its bytes.
using cell_text = jadvolni_cell_text;

namespace detail {

// Whether a column may be read into what is passed, which must outlive it.
template <class Values>
inline constexpr bool outlives = std::is_lvalue_reference_v<Values> || is_view<Values>;

// A column that stores where its texts are in an array.
inline table_column column_of_texts(cell_text *texts, std::size_t capacity) noexcept
{
    table_column column{};
    column.text = {texts, capacity};
    return column;
}

} // namespace detail

// A column that stores its numbers in an array. If the array has no room, like a std::vector that was only reserved,
// and rows are asked for, the result is status::invalid_table.
template <class T, class = std::enable_if_t<!std::is_same_v<T, cell_text>>>
[[nodiscard]] table_column column_into(T *numbers, std::size_t capacity,
                                       const format &under = standard) noexcept
{
    using kept = typename detail::kept_as<T>::type;
    static_assert(sizeof(T) <= 8, "a column has numbers of up to 64 bits");
    table_column column{};
    column.format = under;
    auto &array = column.*detail::column_call<kept>::array;
    array.numbers = reinterpret_cast<kept *>(numbers);
    array.capacity = capacity;
    return column;
}

// A column that stores its fixed-point numbers, such as amounts, in an array, in units of the last place: "12.50" with
// two places is 1250. With 0 places they are integers in the format of the integer part, whose radix must then not be
// 0.
template <class T, class = std::enable_if_t<!std::is_same_v<T, cell_text>>>
[[nodiscard]] table_column column_into(T *numbers, std::size_t capacity, const fixed &under) noexcept
{
    auto column = column_into(numbers, capacity, under.integer);
    column.point = under.point;
    column.places = under.places;
    column.takes_fewer = under.takes_fewer;
    std::copy(std::begin(under.reserved), std::end(under.reserved), std::begin(column.reserved));
    return column;
}

// A column of texts, which stores in an array where each is. A text may contain any bytes but what ends its cell. If
// the table has quotes, one with a quote must be enclosed in them, and its own are doubled.
[[nodiscard]] inline table_column column_into(cell_text *texts, std::size_t capacity) noexcept
{
    return detail::column_of_texts(texts, capacity);
}

// A column that is stored in contiguous numbers: a std::vector, a std::array, a std::span, an array.
template <class Values>
[[nodiscard]] auto column_into(Values &&values, const format &under = standard) noexcept
    -> decltype(column_into(std::data(values), std::size(values), under))
{
    static_assert(detail::outlives<Values>, "the numbers have to outlive the column");
    return column_into(std::data(values), std::size(values), under);
}

// A column of fixed-point numbers that is stored so.
template <class Values>
[[nodiscard]] auto column_into(Values &&values, const fixed &under) noexcept
    -> decltype(column_into(std::data(values), std::size(values), under))
{
    static_assert(detail::outlives<Values>, "the numbers have to outlive the column");
    return column_into(std::data(values), std::size(values), under);
}

// A column of texts that is stored so.
template <class Texts>
[[nodiscard]] auto column_into(Texts &&texts) noexcept
    -> decltype(detail::column_of_texts(std::data(texts), std::size(texts)))
{
    static_assert(detail::outlives<Texts>, "the texts have to outlive the column");
    return column_into(std::data(texts), std::size(texts));
}

// The bytes of a cell's text, in which quotes are still doubled. `text` is what the table was read from; if it doesn't
// have the place, the result is empty.
[[nodiscard]] inline std::string_view text_of(std::string_view text, const cell_text &cell) noexcept
{
    const bool is_there = cell.start <= text.size() && cell.size <= text.size() - cell.start;
    return is_there ? text.substr(cell.start, cell.size) : std::string_view();
}

// A cell's text with each doubled quote as one. If there are none, the result is that of text_of; otherwise it is written
// to the beginning of `room`, where as many bytes as the text has are enough. If there are too few, the result is
// std::nullopt, and nothing is written. The `folded` of jadvolni_columns.hpp makes a std::string.
template <class Room>
[[nodiscard]] std::optional<std::string_view> fold_into(std::string_view text, const cell_text &cell,
                                                        Room &room) noexcept
{
    auto held = text_of(text, cell);
    if (!cell.has_doubled_quotes) return held;
    auto size = jadvolni_fold_quotes(held.data(), held.size(), std::data(room), std::size(room));
    if (size > std::size(room)) return std::nullopt;
    return std::string_view(std::data(room), size);
}

// Whether a column has a number or a text in a row, by the bits in its `present`: `present = {data, size}`.
template <class Bits>
[[nodiscard]] bool is_present(const Bits &bits, std::size_t row) noexcept
{
    assert(row / 8 < std::size(bits));
    return (std::data(bits)[row / 8] >> (row % 8) & 1) != 0;
}

namespace detail {

// Whether a fault is one of the text, which has a place.
inline bool has_place(status of) noexcept
{
    auto code = static_cast<std::uint32_t>(of);
    return (code >= JADVOLNI_OVERFLOW && code <= JADVOLNI_INVALID_LEADING_ZEROS)
        || (code >= JADVOLNI_TOO_FEW_CELLS && code <= JADVOLNI_MISSING_RETURN) || code == JADVOLNI_MISPLACED_QUOTE;
}

} // namespace detail

// What was read of a table: how many rows, and where reading stopped; or the fault.
class table_result : public outcome {
public:
    explicit table_result(jadvolni_table_result answer, const char *message = nullptr) noexcept
        : outcome(answer.status, answer.place), rows_(answer.rows), column_(answer.column), message_(message)
    {
    }

    // What is wrong. If the table or a column was refused, it says what that has to be.
    const char *message() const noexcept { return message_ ? message_ : outcome::message(); }

    // The same result if the text starts `bytes` bytes further on.
    table_result moved(std::size_t bytes) const noexcept
    {
        auto place = *this || detail::has_place(status()) ? this->place() + bytes : this->place();
        return table_result({static_cast<std::uint32_t>(status()), column_, rows_, place}, message_);
    }

    // How many rows were read. At a fault of the text, this is the number of its row, from 0.
    std::size_t rows() const noexcept { return rows_; }

    // The column of a fault, from 0: as many cells of the row were read.
    std::size_t column() const noexcept { return column_; }

private:
    std::size_t rows_, column_;
    const char *message_;
};

namespace detail {

// The bytes from one address up to another.
struct byte_span {
    std::uintptr_t start = 0, stop = 0;

    bool is_empty() const noexcept { return start == stop; }
    bool meets(byte_span other) const noexcept
    {
        return !is_empty() && !other.is_empty() && start < other.stop && other.start < stop;
    }
};

// The bytes that a column writes for `rows` rows: its numbers or texts, and its bits. A column that isn't read writes
// none.
struct written {
    byte_span items, bits;

    written(const table_column &column, std::size_t rows) noexcept
    {
        auto take_items = [&](const auto *first, std::size_t capacity) noexcept {
            if (capacity == 0 || !items.is_empty()) return;
            items.start = reinterpret_cast<std::uintptr_t>(first);
            items.stop = items.start + std::min<std::size_t>(rows, capacity) * sizeof *first;
        };
        auto take = [&](const auto &array) noexcept { take_items(array.numbers, array.capacity); };
        take(column.i64), take(column.u64), take(column.i32), take(column.u32);
        take(column.i16), take(column.u16), take(column.i8), take(column.u8);
        take_items(column.text.texts, column.text.capacity);
        if (items.is_empty()) return;
        bits.start = reinterpret_cast<std::uintptr_t>(column.present.bytes);
        bits.stop = bits.start + std::min<std::size_t>(column.present.size, rows / 8 + (rows % 8 != 0));
    }

    // Whether both columns write to the same byte.
    bool meets(const written &other) const noexcept
    {
        return items.meets(other.items) || items.meets(other.bits) || bits.meets(other.items)
            || bits.meets(other.bits);
    }
};

// The first column that writes to the same bytes as one before it, or twice itself; if there is none, how many there
// are.
inline std::size_t overlapping(const table_column *columns, std::size_t count, std::size_t rows) noexcept
{
    for (std::size_t index = 0; index < count; ++index) {
        written here(columns[index], rows);
        if (here.items.is_empty()) continue;
        if (here.items.meets(here.bits)) return index;
        for (std::size_t before = 0; before < index; ++before)
            if (here.meets(written(columns[before], rows))) return index;
    }
    return count;
}

inline constexpr const char *overlaps = "the column's array overlaps with that of another column, or with bits";

// Reads the rows of a part of a text. Refuses columns that write to the same bytes, which the library can't see.
inline table_result read_table(std::string_view text, bool is_last, const table &how, std::size_t capacity,
                               table_column *columns, std::size_t count) noexcept
{
    auto wrong = overlapping(columns, count, capacity);
    if (wrong != count) return table_result({JADVOLNI_INVALID_TABLE, wrong, 0, 0}, overlaps);
    auto answer = jadvolni_parse_table(text.data(), text.size(), is_last, &how, capacity, columns, count);
    if (answer.status == JADVOLNI_OK) return table_result(answer);
    return table_result(answer, jadvolni_table_text(answer, &how, capacity, columns, count));
}

} // namespace detail

// Reads the rows of a part of a text, such as a block of a file, each column into an array of its own: the whole rows,
// or all if it is the last part. Put the bytes from place() on in front of the next part. If `capacity` rows were read,
// first continue at place().
template <class Columns>
[[nodiscard]] table_result parse_table_part(std::string_view text, bool is_last, const table &how,
                                            std::size_t capacity, Columns &&columns) noexcept
{
    return detail::read_table(text, is_last, how, capacity, std::data(columns), std::size(columns));
}

// Reads the rows of a text, at most `capacity`. After a fault the numbers of all cells before the wrong one are there,
// and the rest of each array is unchanged.
template <class Columns>
[[nodiscard]] table_result parse_table(std::string_view text, const table &how, std::size_t capacity,
                                       Columns &&columns) noexcept
{
    return parse_table_part(text, true, how, capacity, columns);
}

namespace detail {

// How many rows a column has room for, if it is read.
inline std::size_t room_of(const table_column &column) noexcept
{
    std::size_t room = column.text.capacity;
    for (auto capacity : {column.u8.capacity, column.i8.capacity, column.u16.capacity, column.i16.capacity,
                          column.u32.capacity, column.i32.capacity, column.u64.capacity, column.i64.capacity})
        if (capacity != 0) room = capacity;
    const auto bytes = column.present.size;
    return bytes == 0 || bytes > room / 8 ? room : bytes * 8;
}

} // namespace detail

// Reads the numbers of a text's lines, as the only column of a table, as long as its array and its bits have room. The
// table says whether there are carriage returns, blanks and missing numbers, and the column has the format, or that of
// fixed-point numbers. If the table's separator is '\n', each line is one cell. The numbers before a fault are there.
//
//     jadvolni::table lines{};
//     lines.separator = '\n', lines.allows_returns = 1;
//     auto cents = jadvolni::column_into(values, amount); // of a jadvolni::fixed
//     cents.present = {bits.data(), bits.size()};
//     auto read = jadvolni::parse_column(text, lines, cents);
[[nodiscard]] inline column_result parse_column(std::string_view text, const table &how, table_column column) noexcept
{
    auto read = detail::read_table(text, true, how, detail::room_of(column), &column, 1);
    return {read.rows(), {static_cast<std::uint32_t>(read.status()), read.place()}};
}

// A bad row: its number, its fault and where that is, and where the row starts and stops.
using bad_row = jadvolni_bad_row;

// What was read of a table whose bad rows were skipped: how many rows were good and how many bad, and where reading
// stopped; or what is wrong with the table or a column.
class skipping_result : public table_result {
public:
    explicit skipping_result(jadvolni_skipping_result answer, const char *message = nullptr) noexcept
        : table_result({answer.status, answer.column, answer.rows, answer.place}, message), bad_rows_(answer.bad_rows)
    {
    }

    // A result of rows for which `bad_rows` others were skipped.
    skipping_result(const table_result &rows, std::size_t bad_rows) noexcept
        : table_result(rows), bad_rows_(bad_rows)
    {
    }

    // How many bad rows were skipped, including those that `bad` had no room for.
    std::size_t bad_rows() const noexcept { return bad_rows_; }

    // The same result if the text starts `bytes` bytes further on.
    skipping_result moved(std::size_t bytes) const noexcept { return {table_result::moved(bytes), bad_rows_}; }

private:
    std::size_t bad_rows_;
};

namespace detail {

// As read_table, but bad rows are skipped.
inline skipping_result read_table_skipping(std::string_view text, bool is_last, const table &how,
                                           std::size_t capacity, table_column *columns, std::size_t count,
                                           bad_row *bad, std::size_t bad_capacity) noexcept
{
    auto wrong = overlapping(columns, count, capacity);
    if (wrong != count) return skipping_result({JADVOLNI_INVALID_TABLE, wrong, 0, 0, 0}, overlaps);
    auto answer = jadvolni_parse_table_skipping(text.data(), text.size(), is_last, &how, capacity, columns, count, bad,
                                                bad_capacity);
    if (answer.status == JADVOLNI_OK) return skipping_result(answer);
    jadvolni_table_result refused{answer.status, answer.column, 0, 0};
    return skipping_result(answer, jadvolni_table_text(refused, &how, capacity, columns, count));
}

} // namespace detail

// As parse_table_part, but bad rows are skipped: each is described in `bad`, as long as there is room, and the good
// ones are stored without gaps. If the table has quotes, a stray one takes the lines up to the next stray one, or to
// the end of the text, into its row: if that is bad, they are all skipped, as one row. A bad row is read up to its
// fault: so if fewer rows than `capacity` come, the element after the last one, and its bit, may have changed.
template <class Columns, class Bad>
[[nodiscard]] skipping_result parse_table_part_skipping(std::string_view text, bool is_last,
                                                        const table &how, std::size_t capacity,
                                                        Columns &&columns, Bad &&bad) noexcept
{
    return detail::read_table_skipping(text, is_last, how, capacity, std::data(columns), std::size(columns),
                                       std::data(bad), std::size(bad));
}

// Reads the good rows of a text, at most `capacity`.
template <class Columns, class Bad>
[[nodiscard]] skipping_result parse_table_skipping(std::string_view text, const table &how,
                                                   std::size_t capacity, Columns &&columns,
                                                   Bad &&bad) noexcept
{
    return parse_table_part_skipping(text, true, how, capacity, columns, bad);
}

// A bad row of a part of a text, as one of the whole text, which has `rows` rows and `bytes` bytes before the part.
[[nodiscard]] inline bad_row behind(bad_row bad, std::size_t rows, std::size_t bytes) noexcept
{
    bad.row += rows;
    bad.place += bytes, bad.start += bytes, bad.stop += bytes;
    return bad;
}

// The bytes of the row with a number, from 0, with its line end and the empty rows after it that are skipped. Empty if
// the text has no such row, or the table is invalid.
[[nodiscard]] inline std::string_view row_of(std::string_view text, const table &how,
                                             std::size_t row) noexcept
{
    auto place = jadvolni_row_place(text.data(), text.size(), &how, row);
    return text.substr(place.start, place.stop - place.start);
}

} // namespace jadvolni

#endif
