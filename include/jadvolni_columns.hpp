// jadvolni_columns.hpp - the columns of a table by the names in its header, and texts of cells as strings, for C++17.
//
//     std::vector<std::uint32_t> ids(1000);
//     std::vector<std::int64_t> cents(1000);
//     jadvolni::columns_by_header columns(
//         text, ledger, {{"id", jadvolni::column_into(ids)}, {"cents", jadvolni::column_into(cents)}});
//     if (!columns) return fail(columns.message()); // no column "cents": the header has "id", "cent"
//     auto read = columns.read(text, 1000);
//     if (!read) std::cerr << columns.fault(read, text).what() << '\n'; // line 3, "cents": "7x": invalid digit at ..
//
// Unlike jadvolni.hpp it allocates memory for names and texts, and throws if there is none.
#pragma once

#include "jadvolni.hpp"

#include <initializer_list>
#include <string>
#include <vector>

namespace jadvolni {

namespace detail {

// A text with each doubled quote as one.
inline std::string folded(std::string_view held)
{
    std::string text(held.size(), 0);
    text.resize(jadvolni_fold_quotes(held.data(), held.size(), text.data(), text.size()));
    return text;
}

// Makes the places of the texts in a column's first `rows` rows count from `bytes` bytes before what was read. Missing
// ones are unchanged, and so are all if the column has an array of numbers, which is used first.
inline void move_texts(const table_column &column, std::size_t rows, std::size_t bytes) noexcept
{
    const auto &[texts, capacity] = column.text;
    if ((column.i64.capacity | column.u64.capacity | column.i32.capacity | column.u32.capacity | column.i16.capacity
         | column.u16.capacity | column.i8.capacity | column.u8.capacity) != 0)
        return;
    const auto &[bits, bits_size] = column.present;
    for (std::size_t row = 0; row < std::min<std::size_t>(rows, capacity); ++row)
        if (bits_size == 0 || (bits[row / 8] >> (row % 8) & 1) != 0) texts[row].start += bytes;
}

} // namespace detail

// The text of a cell: its bytes with each doubled quote as one, as by fold_into.
[[nodiscard]] inline std::string folded(std::string_view text, const cell_text &cell)
{
    auto held = text_of(text, cell);
    return cell.has_doubled_quotes ? detail::folded(held) : std::string(held);
}

// A column to read, and its name in the header.
struct named_column {
    std::string_view name;
    table_column column;
};

// The columns of a table, of which those are read whose names were asked for. It is passed to parse_table or
// table_blocks as an array of columns.
class columns_by_header {
public:
    // The columns of a text that begins with a header, which is its first row, and follows the rules of the table: a
    // name may be enclosed in quotes, and then contain separators, line feeds and doubled quotes; blanks around it,
    // within its quotes if it has them, are ignored if the table allows them. A byte order mark before it is skipped,
    // and so are empty rows if the table skips them.
    columns_by_header(std::string_view text, const table &how, std::initializer_list<named_column> wanted)
        : columns_by_header(text, how, wanted.begin(), wanted.size())
    {
    }
    template <class Wanted>
    columns_by_header(std::string_view text, const table &how, const Wanted &wanted)
        : columns_by_header(text, how, std::data(wanted), std::size(wanted))
    {
    }

    // Whether there is a header that has each name once.
    explicit operator bool() const noexcept { return message_.empty(); }

    // What is wrong. If a name is missing or not unique, it lists the names of the header.
    const std::string &message() const noexcept { return message_; }

    // The place after the header, where the first row starts; or that of the header's fault.
    std::size_t place() const noexcept { return place_; }

    // The names, column by column, and the name of a column, from 0; past the last it is empty.
    const std::vector<std::string> &names() const noexcept { return names_; }
    std::string_view name(std::size_t column) const noexcept
    {
        return column < names_.size() ? std::string_view(names_[column]) : std::string_view();
    }

    // The columns.
    table_column *data() noexcept { return columns_.data(); }
    std::size_t size() const noexcept { return columns_.size(); }

    // Reads the rows after the header, at most `capacity`, as parse_table does. Places count from the start of the
    // text, and so do those of texts.
    [[nodiscard]] table_result read(std::string_view text, std::size_t capacity) noexcept
    {
        auto behind = text.substr(std::min<std::size_t>(place_, text.size()));
        auto rows = detail::read_table(behind, true, how_, capacity, data(), size());
        move_texts(rows);
        return rows.moved(place_);
    }

    // Reads the rows after the header, and skips bad ones: each is described in `bad`, as long as there is room.
    template <class Bad>
    [[nodiscard]] skipping_result read_skipping(std::string_view text, std::size_t capacity, Bad &&bad) noexcept
    {
        const auto start = std::min<std::size_t>(place_, text.size());
        auto rows = detail::read_table_skipping(text.substr(start), true, how_, capacity, data(), size(),
                                                std::data(bad), std::size(bad));
        move_texts(rows);
        const auto known = std::min<std::size_t>(rows.bad_rows(), std::size(bad));
        for (std::size_t index = 0; index < known; ++index)
            std::data(bad)[index] = behind(std::data(bad)[index], 0, place_);
        return rows.moved(place_);
    }

    // Where and what a fault is that `read` returned, or that of a bad row, with the name of its column, which is valid
    // as long as these columns exist.
    table_fault fault(const table_result &read, std::string_view text) const noexcept
    {
        auto rows = text.substr(std::min<std::size_t>(place_, text.size()));
        auto start = place_ + jadvolni_row_place(rows.data(), rows.size(), &how_, read.rows()).start;
        return named(table_fault(read, start, text, how_));
    }
    table_fault fault(const bad_row &bad, std::string_view text) const noexcept
    {
        return named(table_fault(bad, text, how_));
    }

    // A fault, as of a block, with the name of its column.
    table_fault named(const table_fault &fault) const noexcept { return fault.named(name(fault.column())); }

private:
    columns_by_header(std::string_view text, const table &how, const named_column *wanted, std::size_t count)
        : how_(how)
    {
        choose(text, wanted, count);
    }

    // Makes the places of the texts that were read count from the start of the text: in a bad row, of those before its
    // wrong cell.
    void move_texts(const table_result &read) const noexcept
    {
        if (!read && !detail::has_place(read.status())) return;
        for (std::size_t index = 0; index < columns_.size(); ++index) {
            const bool has_more = !read && index < read.column();
            detail::move_texts(columns_[index], read.rows() + has_more, place_);
        }
    }

    // Finds the columns that are wanted.
    void choose(std::string_view text, const named_column *wanted, std::size_t count)
    {
        auto row = first_row(text);
        if (row.empty()) return fail("the table has no header");
        if (!read_names(row)) return;
        columns_.resize(names_.size());
        std::vector<bool> is_taken(names_.size());
        for (std::size_t index = 0; index < count; ++index) {
            auto column = find(wanted[index].name);
            if (column == names_.size()) return;
            if (is_taken[column]) return fail("the column " + quoted(wanted[index].name) + " is asked for twice");
            is_taken[column] = true;
            columns_[column] = wanted[index].column;
        }
    }

    void fail(std::string message)
    {
        message_ = std::move(message);
        columns_.clear();
    }

    // The first row of a text, with its line end, after those that the table skips. Stores its place.
    std::string_view first_row(std::string_view text)
    {
        if (text.substr(0, 3) == "\xEF\xBB\xBF") place_ = 3;
        for (;;) {
            auto row = detail::first_row(text.substr(place_), how_);
            if (!detail::is_skipped(row, how_)) return row;
            place_ += row.size();
        }
    }

    // The names of a row, if it is a row of the table, which the library checks by its own rules.
    bool read_names(std::string_view row)
    {
        std::vector<jadvolni_cell_place> cells(detail::put_cells(row, how_, 0, nullptr, 0));
        detail::put_cells(row, how_, 0, cells.data(), cells.size());
        std::vector<table_column> unread(how_.width_count ? how_.width_count : cells.size());
        auto judged = detail::read_table(row, true, how_, 1, unread.data(), unread.size());
        place_ += judged.place();
        if (!judged) return fail(std::string("the header is no row: ") + judged.message()), false;
        for (auto cell : cells) names_.push_back(name_of(detail::cell_of(row, cell)));
        return true;
    }

    // What a cell holds, without its quotes and blanks.
    std::string name_of(std::string_view cell) const
    {
        const bool is_quoted = how_.has_quotes && cell.size() >= 2 && cell.front() == '"';
        auto name = is_quoted ? detail::folded(cell.substr(1, cell.size() - 2)) : std::string(cell);
        if (!how_.allows_blanks) return name;
        auto start = name.find_first_not_of(" \t");
        return start == name.npos ? std::string() : name.substr(start, name.find_last_not_of(" \t") + 1 - start);
    }

    // The only column that has a name; how many columns there are if none has it, or more than one.
    std::size_t find(std::string_view name)
    {
        auto first = std::find(names_.begin(), names_.end(), name);
        const char *fault = "no column ", *hint = "";
        if (first != names_.end()) {
            if (std::find(first + 1, names_.end(), name) == names_.end())
                return static_cast<std::size_t>(first - names_.begin());
            fault = "more than one column ";
        } else if (!how_.has_returns && !how_.allows_returns && names_.back() == std::string(name) + '\r') {
            hint = "; allows_returns may have to be set";
        }
        std::string message = fault + quoted(name) + ": the header has ";
        constexpr std::size_t most = 40;
        for (std::size_t index = 0; index < std::min<std::size_t>(most, names_.size()); ++index)
            message += (index ? ", " : "") + quoted(names_[index]);
        if (names_.size() > most) message += " and " + std::to_string(names_.size() - most) + " more";
        return fail(message + hint), names_.size();
    }

    // A name in quotes and with escapes, cut after 40 bytes, but not within a character of UTF-8.
    static std::string quoted(std::string_view name)
    {
        std::size_t size = 40;
        while (size < 43 && size < name.size() && (static_cast<unsigned char>(name[size]) & 0xC0) == 0x80) ++size;
        detail::short_text<4 * 43 + 3> front; // (an escape has at most four bytes)
        front.put_quoted(name.substr(0, size), false);
        return size < name.size() ? std::string(front.c_str()) + " .." : front.c_str();
    }

    table how_;
    std::vector<std::string> names_;
    std::vector<table_column> columns_;
    std::string message_;
    std::size_t place_ = 0;
};

} // namespace jadvolni
