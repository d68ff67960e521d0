// jadvolni_blocks.hpp - tables of any size, block by block. It is a part of jadvolni.hpp.
#include "jadvolni.hpp"

#ifndef JADVOLNI_BLOCKS_HPP_
#define JADVOLNI_BLOCKS_HPP_

#include <cstring>

namespace jadvolni {

namespace detail {

// How many line feeds a text has. It sums those of 128 bytes in one byte, so that compilers can do many at once.
inline std::size_t line_feeds(std::string_view text) noexcept
{
    constexpr std::size_t part_size = 128;
    std::size_t count = 0;
    for (; text.size() >= part_size; text.remove_prefix(part_size)) {
        unsigned char in_part = 0;
        for (std::size_t place = 0; place < part_size; ++place)
            in_part = static_cast<unsigned char>(in_part + (text[place] == '\n'));
        count += in_part;
    }
    return count + static_cast<std::size_t>(std::count(text.begin(), text.end(), '\n'));
}

// The bytes of a block, and how many rows, line feeds and bytes come before them.
struct block_text {
    std::string_view bytes;
    std::size_t rows, lines, before;
};

} // namespace detail

// What was read of a block: rows, or what is wrong.
class table_block : table_result {
public:
    table_block(const table_result &read, std::size_t first_row, std::size_t place, const char *trouble) noexcept
        : table_result(read), first_row_(first_row), place_(place), trouble_(trouble)
    {
    }

    // One that also has the bytes, and in which `bad_rows` rows were skipped.
    table_block(const table_result &read, std::size_t first_row, std::size_t place, const char *trouble,
                const detail::block_text &text, const table &how, std::size_t bad_rows) noexcept
        : table_result(read), first_row_(first_row), place_(place), trouble_(trouble), text_(text), how_(how),
          bad_rows_(bad_rows)
    {
    }

    // Whether nothing is wrong: then there are rows, or bad ones that were skipped.
    explicit operator bool() const noexcept { return !trouble_ && table_result::operator bool(); }

    // How many rows are in the arrays, and how many came before them. So at a fault, the sum is the number of its row,
    // from 0, if none was skipped.
    using table_result::rows;
    std::size_t first_row() const noexcept { return first_row_; }

    // How many bad rows of the block were skipped, including those that `bad` had no room for.
    std::size_t bad_rows() const noexcept { return bad_rows_; }

    // The bytes of the block, from which the places of its texts count: text_of(block.bytes(), texts[row]). They are
    // valid until the next block is read.
    std::string_view bytes() const noexcept { return text_.bytes; }

    // What is wrong: a fault, with its column and its name, or, at status::ok, that the bytes or the arrays have no room
    // for a row, or that reading has failed.
    using table_result::column, table_result::status, table_result::name;
    const char *message() const noexcept { return trouble_ ? trouble_ : table_result::message(); }

    // Where reading stopped, or the place of the fault, from the start of all that was read. If a row has no room, it
    // is the place of its unclosed quote, or else of its start.
    std::size_t place() const noexcept { return place_; }

    // Where and what the fault is, with its line, row and cell; valid until the next block is read. Rows, lines and
    // places count from the start of all that was read.
    table_fault fault() const noexcept
    {
        const table_result &in_bytes = *this;
        auto fault = trouble_ ? table_fault(trouble_, place_ - text_.before, 0, text_.bytes, how_)
                              : table_fault(in_bytes, text_.bytes, how_);
        return fault.behind(text_.rows, text_.lines, text_.before);
    }

    // Where and what the fault of a bad row of the block is.
    table_fault fault(bad_row bad) const noexcept
    {
        bad.row -= text_.rows;
        bad.place -= text_.before, bad.start -= text_.before, bad.stop -= text_.before;
        return table_fault(bad, text_.bytes, how_).behind(text_.rows, text_.lines, text_.before);
    }

private:
    std::size_t first_row_, place_;
    const char *trouble_;
    detail::block_text text_{};
    table how_{};
    std::size_t bad_rows_ = 0;
};

// The first row of a file, if that is a header, with its line end; or what prevents reading it.
class header_row {
public:
    header_row(std::string_view row, std::size_t place, const char *trouble) noexcept
        : row_(row), place_(place), trouble_(trouble)
    {
    }

    // Whether it was read. If the file has no row, it is empty.
    explicit operator bool() const noexcept { return !trouble_; }

    // Its bytes, valid until the first block is read.
    std::string_view operator*() const noexcept { return row_; }

    // What prevented reading it, as for a block, and where.
    const char *message() const noexcept { return trouble_ ? trouble_ : jadvolni::message(status::ok); }
    std::size_t place() const noexcept { return place_; }

private:
    std::string_view row_;
    std::size_t place_;
    const char *trouble_;
};

// The rows of a file of any size, as a range of blocks of at most `capacity` rows:
//
//     std::vector<char> bytes(1 << 20); // a row has to fit, with its line feed
//     auto read = [&](char *to, std::size_t room) { return ::read(file, to, room); };
//     jadvolni::table_blocks blocks(read, bytes, ledger, 1000, columns);
//     for (const jadvolni::table_block &block : blocks)
//         if (block) use(days, cents, block.rows());
//         else std::cerr << block.fault().what() << '\n';
//
// `read` writes bytes to `to`, at most `room`, and returns how many: 0 at the end, and a negative number if it fails.
// Over std::fread or a std::istream it must do so too: they return the same after a failure as at the end. It may
// return one byte at a time: no byte is looked at more often for it. No block follows one that is wrong. Another loop
// continues where the last one stopped, and reads again where reading failed. If bad rows are skipped, they end no
// loop:
//
//     std::array<jadvolni::bad_row, 10> bad;
//     blocks.skip_bad_rows(bad);
//     for (const jadvolni::table_block &block : blocks) {
//         use(days, cents, block.rows());
//         for (std::size_t k = 0; k < std::min(block.bad_rows(), bad.size()); ++k)
//             std::cerr << block.fault(bad[k]).what() << '\n';
//     }
//
// It can be moved between two loops, but not copied: both would read into the same bytes.
template <class Read>
class table_blocks {
public:
    class iterator {
    public:
        using iterator_category = std::input_iterator_tag;
        using value_type = table_block;
        using difference_type = std::ptrdiff_t;
        using pointer = const table_block *;
        using reference = const table_block &;

        explicit iterator(table_blocks *of = nullptr) noexcept : of_(of) {}
        reference operator*() const noexcept { return of_->block_; }
        pointer operator->() const noexcept { return &of_->block_; }
        void operator++(int) { ++*this; }
        iterator &operator++()
        {
            if (!of_->next()) of_ = nullptr;
            return *this;
        }
        friend bool operator==(iterator one, iterator other) noexcept { return one.of_ == other.of_; }
        friend bool operator!=(iterator one, iterator other) noexcept { return one.of_ != other.of_; }

    private:
        table_blocks *of_;
    };

    template <class Bytes, class Columns>
    table_blocks(Read read, Bytes &bytes, const table &how, std::size_t capacity, Columns &columns)
        : table_blocks(std::move(read), bytes, how, capacity)
    {
        read_into(columns);
    }

    // Without columns: read_into sets them, before the first block.
    template <class Bytes>
    table_blocks(Read read, Bytes &bytes, const table &how, std::size_t capacity)
        : read_(std::move(read)), bytes_(std::data(bytes)), size_(std::size(bytes)), how_(how),
          capacity_(capacity), ends_(how)
    {
    }

    table_blocks(const table_blocks &) = delete;
    table_blocks &operator=(const table_blocks &) = delete;
    table_blocks(table_blocks &&) = default;
    table_blocks &operator=(table_blocks &&) = default;

    // Sets the columns of the blocks from here on.
    template <class Columns>
    void read_into(Columns &columns) noexcept
    {
        columns_ = std::data(columns);
        column_count_ = std::size(columns);
    }

    // Skips bad rows from here on. Those of a block are described in `bad`, as long as there is room; their rows and
    // places count from the start of all that was read. A block may then have no good row. If empty rows after a bad
    // one are skipped, its stop is after those that were already read.
    template <class Bad>
    void skip_bad_rows(Bad &bad) noexcept
    {
        bad_ = std::data(bad);
        bad_capacity_ = std::size(bad);
        skips_ = true;
    }

    // How many bad rows were skipped so far.
    std::size_t bad_rows() const noexcept { return bad_rows_; }

    // The first row, as a header, which isn't a row of the table: jadvolni_columns.hpp finds columns by its names. Call
    // this before the first block; until then its bytes are valid. If reading has failed, call it again.
    header_row header()
    {
        const char *trouble = pass_byte_order_mark();
        std::string_view row;
        do {
            pass(row.size());
            if (trouble || (trouble = fill_row())) return {{}, place_of(trouble), trouble};
            row = {bytes_ + first_, is_last_ && !ends() ? stop_ - first_ : ends_.stop()};
        } while (detail::is_skipped(row, how_));
        header_row header(row, before_ + first_, nullptr);
        pass(row.size());
        return header;
    }

    iterator begin()
    {
        is_over_ = false;
        return ++iterator(this);
    }
    iterator end() noexcept { return iterator(); }

private:
    // Reads the next block. False if there is none.
    bool next()
    {
        while (!is_over_) {
            if (!may_have_row()) {
                if (auto trouble = fill()) return hindered(trouble);
                continue;
            }
            auto read = read_rows();
            is_over_ = !read;
            if (is_over_ || read.rows() || read.bad_rows()) return tell(read);
            pass(read.place());
            tried_ = stop_ - first_;
            is_over_ = is_last_ && first_ == stop_;
            if (is_over_) return false;
            if (capacity_ == 0 && first_ != stop_) return hindered(without_capacity());
            if (auto trouble = is_last_ ? without_room() : fill()) return hindered(trouble);
        }
        return false;
    }

    // The bytes that are left.
    std::string_view left() const noexcept { return {bytes_ + first_, stop_ - first_}; }

    // Reads their rows, without the bad ones if these are skipped.
    skipping_result read_rows() noexcept
    {
        if (!skips_)
            return {detail::read_table(left(), is_last_, how_, capacity_, columns_, column_count_), 0};
        return detail::read_table_skipping(left(), is_last_, how_, capacity_, columns_, column_count_, bad_,
                                           bad_capacity_);
    }

    // The bytes that are left, with what comes before them.
    detail::block_text text() const noexcept { return {left(), row_ + bad_rows_, lines_, before_ + first_}; }

    // Whether the bytes that are left may contain a whole row: one ends there, or there are twice as many as had none.
    bool may_have_row() noexcept
    {
        return is_last_ || (stop_ - first_) / 2 >= tried_ || ends();
    }

    // Makes a block that says what prevents reading a row.
    bool hindered(const char *trouble) noexcept
    {
        is_over_ = true;
        block_ = table_block(table_result({}), row_, place_of(trouble), trouble, text(), how_, 0);
        return true;
    }

    // Where that is: at an unclosed quote, or where the row starts.
    std::size_t place_of(const char *trouble) const noexcept
    {
        const bool is_of_row = trouble != failed() && trouble != without_capacity();
        return before_ + first_ + (is_of_row ? ends_.open_quote().value_or(0) : 0);
    }

    // Whether a row ends in the bytes that are left.
    bool ends() noexcept { return ends_.ends_in(bytes_ + first_, stop_ - first_); }

    // Makes a block of what was read from the first byte on, and moves past its rows.
    bool tell(const skipping_result &read) noexcept
    {
        const auto here = text();
        const auto known = std::min<std::size_t>(read.bad_rows(), bad_capacity_);
        for (std::size_t index = 0; index < known; ++index)
            bad_[index] = behind(bad_[index], here.rows, here.before);
        block_ = table_block(read, row_, here.before + read.place(), nullptr, here, how_, read.bad_rows());
        if (!is_over_) {
            pass(read.place());
            row_ += read.rows();
            bad_rows_ += read.bad_rows();
        }
        return true;
    }

    // Moves past `size` bytes, which are whole rows.
    void pass(std::size_t size) noexcept
    {
        if (size == 0) return;
        lines_ += detail::line_feeds({bytes_ + first_, size});
        first_ += size;
        tried_ = 0;
        ends_.begin();
    }

    static const char *failed() noexcept { return "reading has failed"; }
    static const char *without_capacity() noexcept { return "the capacity is 0: there is room for no row"; }
    const char *without_room() noexcept
    {
        ends();
        return ends_.open_quote() ? "a row has no room: a quote isn't closed" : "a row has no room";
    }

    // Reads bytes until a row ends in them. Returns what prevents that.
    const char *fill_row()
    {
        while (!ends() && !is_last_)
            if (auto trouble = fill()) return trouble;
        return nullptr;
    }

    // Moves past a byte order mark at the beginning. Returns what prevents that.
    const char *pass_byte_order_mark()
    {
        while (stop_ < std::min<std::size_t>(size_, 3) && !is_last_)
            if (auto trouble = fill()) return trouble;
        std::string_view front(bytes_, stop_);
        if (before_ + first_ == 0 && front.substr(0, 3) == "\xEF\xBB\xBF") pass(3);
        return nullptr;
    }

    // Reads bytes once. Returns what prevents that.
    const char *fill()
    {
        if (first_) std::memmove(bytes_, bytes_ + first_, stop_ - first_);
        before_ += first_;
        stop_ -= first_;
        first_ = 0;
        if (stop_ == size_) return without_room();
        auto count = static_cast<std::ptrdiff_t>(read_(bytes_ + stop_, size_ - stop_));
        if (count < 0 || static_cast<std::size_t>(count) > size_ - stop_) return failed();
        is_last_ = count == 0;
        stop_ += static_cast<std::size_t>(count);
        return nullptr;
    }

    Read read_;
    char *bytes_;
    std::size_t size_;
    table how_;
    std::size_t capacity_;
    table_column *columns_ = nullptr;
    std::size_t column_count_ = 0;
    detail::row_ends ends_;
    bad_row *bad_ = nullptr;
    std::size_t bad_capacity_ = 0;
    // Where the bytes that are left start and stop, how many of them had no whole row, and how many bytes came before
    // all of them; how many rows, bad rows and line feeds did.
    std::size_t first_ = 0, stop_ = 0, tried_ = 0, before_ = 0, row_ = 0, bad_rows_ = 0, lines_ = 0;
    bool is_last_ = false, is_over_ = false, skips_ = false;
    table_block block_{table_result({}), 0, 0, nullptr};
};

} // namespace jadvolni

#endif
