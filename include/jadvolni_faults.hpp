// jadvolni_faults.hpp - where a fault of a table is in its text: the line, the row, and the cell. It is a part of
// jadvolni.hpp.
#include "jadvolni.hpp"

#ifndef JADVOLNI_FAULTS_HPP_
#define JADVOLNI_FAULTS_HPP_

namespace jadvolni {

namespace detail {

// How many bytes the cells of a row have together, by their widths.
inline std::size_t width_of(const table &how) noexcept
{
    std::size_t size = 0;
    for (std::size_t column = 0; column < how.width_count; ++column)
        size += std::min<std::size_t>(std::size_t(-1) - size, how.widths[column]);
    return size;
}

// Whether a row ends in bytes that come little by little: each is looked at once.
class row_ends {
public:
    explicit row_ends(const table &how) noexcept : has_quotes_(how.has_quotes != 0)
    {
        if (how.is_records) record_size_ = std::max<std::size_t>(width_of(how), 1);
    }

    // Begins another row.
    void begin() noexcept { seen_ = quote_ = closed_ = 0, is_open_ = false; }

    // Whether the row ends in its first `size` bytes, which begin with those of the calls before.
    bool ends_in(const char *row, std::size_t size) noexcept
    {
        if (record_size_) return size >= record_size_;
        for (; seen_ < size; ++seen_) {
            if (row[seen_] == '"' && has_quotes_) see_quote();
            else if (row[seen_] == '\n' && !is_open_) return true;
        }
        return false;
    }

    // Where the row stops, if it ends in what was seen.
    std::size_t stop() const noexcept { return record_size_ ? record_size_ : seen_ + 1; }

    // The place in the row of a quote that isn't closed in what was seen, if there is one.
    std::optional<std::size_t> open_quote() const noexcept
    {
        return is_open_ ? std::optional<std::size_t>(quote_) : std::nullopt;
    }

private:
    // A quote directly after a closing one makes it a doubled quote, and the cell continues.
    void see_quote() noexcept
    {
        if (is_open_) closed_ = seen_ + 1;
        else if (closed_ != seen_ || seen_ == 0) quote_ = seen_;
        is_open_ = !is_open_;
    }

    // The size of a record, or 0; how many bytes were seen, the place of the last opening quote, and the place after
    // the last closing one.
    std::size_t record_size_ = 0, seen_ = 0, quote_ = 0, closed_ = 0;
    bool has_quotes_, is_open_ = false;
};

// The first row of a text, with its line end; all of the text if no row ends there.
inline std::string_view first_row(std::string_view text, const table &how) noexcept
{
    row_ends ends(how);
    return ends.ends_in(text.data(), text.size()) ? text.substr(0, ends.stop()) : text;
}

// Whether a row has no byte before its line end; of a record, whether it ends too early, and is only a line end.
inline bool is_line_end(std::string_view row, const table &how) noexcept
{
    if (how.is_records && row.size() >= width_of(how)) return false;
    return row == "\n" || (row == "\r\n" && (how.has_returns || how.allows_returns || how.is_records));
}

// How many bytes a row has before its line end. A record has none.
inline std::size_t size_without_end(std::string_view row, const table &how) noexcept
{
    row_ends ends(how);
    if (how.is_records || !ends.ends_in(row.data(), row.size())) return row.size();
    const auto size = ends.stop() - 1;
    const bool takes_return = how.has_returns || how.allows_returns;
    return takes_return && size > 0 && row[size - 1] == '\r' ? size - 1 : size;
}

// Whether a row, with its line end, is an empty one that its table skips.
inline bool is_skipped(std::string_view row, const table &how) noexcept
{
    return !row.empty() && jadvolni_row_place(row.data(), row.size(), &how, 0).start == row.size();
}

// How many cells a row has. Writes to an array where those from the column `first` on are, as long as there is room.
inline std::size_t put_cells(std::string_view row, const table &how, std::size_t first, jadvolni_cell_place *cells,
                             std::size_t room) noexcept
{
    return jadvolni_row_cells(row.data(), row.size(), &how, first, cells, room).count;
}

// The bytes of a cell of a row.
inline std::string_view cell_of(std::string_view row, jadvolni_cell_place place) noexcept
{
    return row.substr(place.start, place.size);
}

// A C string with a fixed amount of room; what doesn't fit is left out.
template <std::size_t Room>
class short_text {
public:
    const char *c_str() const noexcept { return bytes_; }
    void clear() noexcept { bytes_[size_ = 0] = 0; }

    void put(char byte) noexcept
    {
        if (size_ + 1 < Room) bytes_[size_++] = byte;
        bytes_[size_] = 0;
    }
    void put(std::string_view words) noexcept
    {
        for (char byte : words) put(byte);
    }
    void put(std::size_t number) noexcept
    {
        if (number >= 10) put(number / 10);
        put(static_cast<char>('0' + number % 10));
    }

    // A text in quotes, with escapes for quotes, backslashes and bytes that can't be printed.
    void put_quoted(std::string_view text, bool is_cut) noexcept
    {
        put('"');
        for (char byte : text) put_escaped(byte);
        put(is_cut ? std::string_view("\"..") : std::string_view("\""));
    }

private:
    void put_escaped(char byte) noexcept
    {
        const auto code = static_cast<unsigned char>(byte);
        constexpr std::string_view escaped = "\t\n\r\"\\", by = "tnr\"\\";
        if (auto index = escaped.find(byte); index != escaped.npos) {
            put('\\');
            put(by[index]);
        } else if (code < 0x20 || code == 0x7F) {
            put("\\x");
            put("0123456789abcdef"[code >> 4]);
            put("0123456789abcdef"[code & 15]);
        } else {
            put(byte);
        }
    }

    char bytes_[Room] = {};
    std::size_t size_ = 0;
};

// At most the first `most` bytes of a text, not cut within a character of UTF-8.
inline std::string_view front_of(std::string_view text, std::size_t most) noexcept
{
    if (text.size() <= most) return text;
    auto size = most;
    while (size > 0 && most - size < 3 && (static_cast<unsigned char>(text[size]) & 0xC0) == 0x80) --size;
    return text.substr(0, size);
}

} // namespace detail

// A fault of a table, and where it is in the text: its line, its row, and its cell. It says so in words too, and
// outlives the text:
//
//     auto read = jadvolni::parse_table(text, ledger, 1000, columns);
//     if (!read) std::cerr << path << ", " << jadvolni::table_fault(read, text, ledger).what() << '\n';
//     // bank.csv, line 5, column 3: "12x": invalid digit at byte 2 of the cell
//
// Rows, columns, lines and places count from 0. In words, lines and columns count from 1, as in an editor.
class table_fault : public outcome {
public:
    // The fault of a result, of the text that was read. It takes the time to scan the text.
    table_fault(const table_result &read, std::string_view text, const table &how) noexcept
        : table_fault(read, jadvolni_row_place(text.data(), text.size(), &how, read.rows()).start, text, how)
    {
    }

    // The fault of a result, if it is known where its row starts.
    table_fault(const table_result &read, std::size_t row_start, std::string_view text, const table &how) noexcept
        : outcome(read), message_(read.message()), row_(read.rows()), column_(read.column())
    {
        if (has_place()) put_row(row_start, text, how);
        put_words();
    }

    // The fault of a bad row, of the text that was read.
    table_fault(const bad_row &bad, std::string_view text, const table &how) noexcept
        : outcome(bad.status, bad.place), message_(jadvolni_status_text(bad.status)), row_(bad.row), column_(bad.column)
    {
        put_row(bad.start, text, how);
        put_words();
    }

    // What prevents reading a row that starts at a place of a text, and where: at status::ok, that it has no room, or
    // that reading has failed.
    table_fault(const char *trouble, std::size_t place, std::size_t row_start, std::string_view text,
                const table &how) noexcept
        : outcome(JADVOLNI_OK, place), message_(trouble), is_trouble_(true)
    {
        put_row(row_start, text, how);
        put_words();
    }

    // Whether there is no fault.
    explicit operator bool() const noexcept { return !is_trouble_ && outcome::operator bool(); }

    // The row of the fault, and its column: as many cells of the row are good. A header isn't a row.
    std::size_t row() const noexcept { return row_; }
    std::size_t column() const noexcept { return column_; }

    // The line of its place: the number of line feeds before it.
    std::size_t line() const noexcept { return line_; }

    // Where the row starts, and the place after its line end.
    std::size_t row_start() const noexcept { return row_start_; }
    std::size_t row_stop() const noexcept { return row_stop_; }

    // The first 40 bytes of the cell as they are in the text, with quotes and blanks. It is also empty if a row has too
    // few cells or lacks its carriage return.
    std::string_view text() const & noexcept { return {cell_, cell_size_}; }
    std::string_view text() const && = delete;

    // The name of the column, if it is known.
    std::string_view name() const noexcept { return name_; }

    // What is wrong, without its place: "invalid digit".
    const char *message() const noexcept { return message_; }

    // The fault in words: `line 5, "amount": "12,5x": invalid digit at byte 4 of the cell`. For records it has the
    // number of the row. The words are valid as long as this object.
    const char *what() const noexcept { return words_.c_str(); }

    // The same fault with the name of its column, which must outlive it. An empty name means none.
    table_fault named(std::string_view name) const noexcept
    {
        auto fault = *this;
        fault.name_ = name;
        fault.put_words();
        return fault;
    }

    // The fault of a part of a text, as one of the whole text, which has `rows` rows, `lines` line feeds and `bytes`
    // bytes before the part.
    table_fault behind(std::size_t rows, std::size_t lines, std::size_t bytes) const noexcept
    {
        auto fault = *this;
        if (!has_place() && !is_trouble_) return fault;
        static_cast<outcome &>(fault) = outcome(static_cast<std::uint32_t>(status()), place() + bytes);
        fault.row_ += rows, fault.line_ += lines, fault.row_start_ += bytes, fault.row_stop_ += bytes;
        fault.put_words();
        return fault;
    }

private:
    bool has_place() const noexcept { return detail::has_place(status()); }

    // Stores the row, which starts at a place of the text.
    void put_row(std::size_t start, std::string_view text, const table &how) noexcept
    {
        start = std::min<std::size_t>(start, text.size());
        const auto row = detail::first_row(text.substr(start), how);
        line_ = line_column(text, place()).line;
        row_start_ = start;
        row_stop_ = start + row.size();
        is_record_ = how.is_records != 0;
        if (!has_place()) return;
        is_line_end_ = detail::is_line_end(row, how);
        if (status() == status::too_few_cells) {
            width_ = detail::width_of(how);
            row_size_ = detail::size_without_end(row, how);
        } else if (status() != status::missing_return) {
            put_cell(row, how);
        }
    }

    // Stores the cell of a row that has the fault.
    void put_cell(std::string_view row, const table &how) noexcept
    {
        jadvolni_cell_place found{};
        if (detail::put_cells(row, how, column_, &found, 1) <= column_) return;
        const auto cell = detail::cell_of(row, found);
        const auto start = row_start_ + found.start;
        if (place() < start || place() > start + cell.size()) return;
        has_cell_ = true;
        place_in_cell_ = place() - start;
        cell_size_ = cell.copy(cell_, sizeof cell_);
        shown_size_ = detail::front_of(cell, sizeof cell_).size();
        is_cut_ = cell.size() > sizeof cell_;
    }

    // ---- in words

    void put_words() noexcept
    {
        words_.clear();
        if (*this || (!has_place() && !is_trouble_)) return put_words_without_place();
        words_.put(is_record_ ? "row " : "line ");
        words_.put((is_record_ ? row_ : line_) + 1);
        if (has_cell_) {
            words_.put(", ");
            put_column();
            words_.put(": ");
            words_.put_quoted({cell_, shown_size_}, is_cut_);
        }
        words_.put(": ");
        words_.put(message_);
        if (status() == status::too_few_cells) {
            words_.put(", none for ");
            put_column();
        } else if (has_cell_ && status() != status::too_many_cells) {
            words_.put(" at byte ");
            words_.put(place_in_cell_);
            words_.put(" of the cell");
        }
        put_hint();
    }

    // What may have to be done about an empty row; and how much there is of a row that ends before its widths do.
    void put_hint() noexcept
    {
        if (is_line_end_ && is_record_) return words_.put("; the row is only a line end, and records have none");
        if (is_line_end_) return words_.put("; the row is empty: skips_empty_rows may have to be set");
        if (width_ == 0) return;
        words_.put("; the row has ");
        words_.put(row_size_);
        words_.put(" of the ");
        words_.put(width_);
        words_.put(" bytes of its widths");
        if (!is_record_) words_.put(": pad it if its last blanks were trimmed");
    }

    // A message about a column begins with it, which distinguishes it from one about the table.
    void put_words_without_place() noexcept
    {
        const std::string_view message = message_;
        if (!*this && (status() != status::invalid_table || message.substr(0, 10) == "the column")) {
            put_column();
            words_.put(": ");
        }
        words_.put(message);
    }

    void put_column() noexcept
    {
        if (name_.empty()) {
            words_.put("column ");
            return words_.put(column_ + 1);
        }
        const auto front = detail::front_of(name_, sizeof cell_);
        words_.put_quoted(front, front.size() < name_.size());
    }

    const char *message_;
    std::string_view name_;
    std::size_t row_ = 0, column_ = 0, line_ = 0, row_start_ = 0, row_stop_ = 0;
    // Of a row with too few cells: how many bytes it has before its line end, and how many its widths have together.
    std::size_t row_size_ = 0, width_ = 0;
    std::size_t cell_size_ = 0, shown_size_ = 0, place_in_cell_ = 0;
    bool is_trouble_ = false, is_record_ = false, is_line_end_ = false, has_cell_ = false, is_cut_ = false;
    char cell_[40] = {};
    detail::short_text<640> words_;
};

} // namespace jadvolni

#endif
