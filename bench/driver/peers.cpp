// What C and C++ read integers with: loops over texts, each around one call.
#include <cerrno>
#include <charconv>
#include <cstddef>
#include <cstdint>
#include <cstdlib>

#include "jadvolni.h"

namespace {

// A loop around one call: it is handed the text's bytes and answers whether there is a value.
template <class Value, class Read>
std::uint64_t sum_of(const char *texts, const std::uint32_t *stops, std::size_t count, std::uint64_t low_bits, Read read) {
    std::uint64_t sum = 0;
    for (std::size_t number = 1; number < count; number++) {
        Value value{};
        bool is_read = read(texts + stops[number - 1], texts + stops[number] - 1, value);
        sum = sum * 31 + (is_read ? static_cast<std::uint64_t>(value) & low_bits : 1);
    }
    return sum;
}

// Whole texts, by std::from_chars in a radix that its compiler knows.
template <class Value, int radix = 10>
std::uint64_t whole(const char *texts, const std::uint32_t *stops, std::size_t count, std::uint64_t low_bits) {
    return sum_of<Value>(texts, stops, count, low_bits, [](const char *first, const char *last, Value &value) {
        auto [stop, fault] = std::from_chars(first, last, value, radix);
        return fault == std::errc() && stop == last;
    });
}

// Texts by a call that the library for C exports. It is in an archive of its own, and so stays a call.
template <class Value, jadvolni_result call(const char *, std::size_t, Value *)>
std::uint64_t called(const char *texts, const std::uint32_t *stops, std::size_t count, std::uint64_t low_bits) {
    return sum_of<Value>(texts, stops, count, low_bits, [](const char *first, const char *last, Value &value) {
        return call(first, static_cast<std::size_t>(last - first), &value).status == JADVOLNI_OK;
    });
}

constexpr std::uint64_t all = ~std::uint64_t{0}, all_but_the_sign = all >> 1;

// Texts by the call that takes a format.
std::uint64_t called_under(const char *texts, const std::uint32_t *stops, std::size_t count, const jadvolni_format &format) {
    return sum_of<std::uint64_t>(texts, stops, count, all, [&](const char *first, const char *last, std::uint64_t &value) {
        auto size = static_cast<std::size_t>(last - first);
        return jadvolni_parse_u64_with_format(first, size, &format, &value).status == JADVOLNI_OK;
    });
}

// Whether all bytes are digits of the radix, and what they are worth.
bool read_by_from_chars(const char *first, const char *last, std::uint64_t &value, int radix) {
    auto [stop, fault] = std::from_chars(first, last, value, radix);
    return fault == std::errc() && stop == last;
}

bool begins_with_prefix(const char *first, const char *last) { return last - first > 1 && first[0] == '0' && first[1] == 'x'; }

}  // namespace

extern "C" {
#define LOOP(name) std::uint64_t name(const char *texts, std::size_t, const std::uint32_t *stops, std::size_t count)

LOOP(cpp_none) {
    return sum_of<std::uint64_t>(texts, stops, count, all, [](const char *first, const char *last, std::uint64_t &value) {
        value = static_cast<std::uint64_t>(last - first);
        return true;
    });
}
LOOP(cpp_u8) { return whole<std::uint8_t>(texts, stops, count, all); }
LOOP(cpp_u32) { return whole<std::uint32_t>(texts, stops, count, all); }
LOOP(cpp_u64) { return whole<std::uint64_t>(texts, stops, count, all); }
LOOP(cpp_u128) { return whole<unsigned __int128>(texts, stops, count, all); }
LOOP(cpp_i32) { return whole<std::int32_t>(texts, stops, count, 0x7fffffff); }
LOOP(cpp_i64) { return whole<std::int64_t>(texts, stops, count, all_but_the_sign); }
LOOP(cpp_i128) { return whole<__int128>(texts, stops, count, all_but_the_sign); }
LOOP(cpp_hex) { return whole<std::uint64_t, 16>(texts, stops, count, all); }

LOOP(cpp_front) {
    return sum_of<std::uint64_t>(texts, stops, count, all, [](const char *first, const char *last, std::uint64_t &value) {
        return std::from_chars(first, last, value).ec == std::errc();
    });
}

// The separators are left out by a copy.
LOOP(cpp_separators) {
    return sum_of<std::uint64_t>(texts, stops, count, all, [](const char *first, const char *last, std::uint64_t &value) {
        char digits[64];
        std::size_t size = 0;
        for (; first < last && size < sizeof digits; first++)
            if (*first != '_') digits[size++] = *first;
        auto [stop, fault] = std::from_chars(digits, digits + size, value);
        return fault == std::errc() && stop == digits + size;
    });
}

LOOP(c_u64) {
    return sum_of<std::uint64_t>(texts, stops, count, all, [](const char *first, const char *last, std::uint64_t &value) {
        char *stop;
        errno = 0;
        value = std::strtoull(first, &stop, 10);
        return stop == last && stop != first && errno == 0;
    });
}

LOOP(call_u64) { return called<std::uint64_t, jadvolni_parse_u64>(texts, stops, count, all); }
LOOP(call_i64) { return called<std::int64_t, jadvolni_parse_i64>(texts, stops, count, all_but_the_sign); }
LOOP(call_front) { return called<std::uint64_t, jadvolni_parse_u64_partial>(texts, stops, count, all); }

// A u128 comes in halves.
LOOP(call_u128) {
    return sum_of<std::uint64_t>(texts, stops, count, all, [](const char *first, const char *last, std::uint64_t &value) {
        jadvolni_uint128 halves{};
        bool is_read = jadvolni_parse_u128(first, static_cast<std::size_t>(last - first), &halves).status == JADVOLNI_OK;
        value = halves.low;
        return is_read;
    });
}

LOOP(call_json) {
    jadvolni_format format = JADVOLNI_FORMAT_JSON;
    return called_under(texts, stops, count, format);
}

LOOP(call_hex) {
    jadvolni_format format = JADVOLNI_FORMAT_STANDARD;
    format.mantissa_radix = 16;
    return called_under(texts, stops, count, format);
}

LOOP(call_separators) {
    jadvolni_format format = JADVOLNI_FORMAT_STANDARD;
    format.digit_separator = '_';
    format.integer_internal_digit_separator = 1;
    return called_under(texts, stops, count, format);
}

LOOP(call_prefix) {
    jadvolni_format format = JADVOLNI_FORMAT_STANDARD;
    format.mantissa_radix = 16;
    format.base_prefix = 'x';
    return called_under(texts, stops, count, format);
}

LOOP(call_literal) {
    jadvolni_format format = JADVOLNI_FORMAT_STANDARD;
    format.literal_prefixes = 1;
    return called_under(texts, stops, count, format);
}

LOOP(cpp_prefix) {
    return sum_of<std::uint64_t>(texts, stops, count, all, [](const char *first, const char *last, std::uint64_t &value) {
        return read_by_from_chars(begins_with_prefix(first, last) ? first + 2 : first, last, value, 16);
    });
}

LOOP(cpp_literal) {
    return sum_of<std::uint64_t>(texts, stops, count, all, [](const char *first, const char *last, std::uint64_t &value) {
        return begins_with_prefix(first, last) ? read_by_from_chars(first + 2, last, value, 16)
                                               : read_by_from_chars(first, last, value, 10);
    });
}

LOOP(c_hex) {
    return sum_of<std::uint64_t>(texts, stops, count, all, [](const char *first, const char *last, std::uint64_t &value) {
        char *stop;
        errno = 0;
        value = std::strtoull(first, &stop, 16);
        return stop == last && stop != first && errno == 0;
    });
}
}
