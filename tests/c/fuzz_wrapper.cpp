// A target for libFuzzer: the C++ wrapper answers as the calls of C do, for any format and text.
//
// The first 32 bytes are a format, the next one a separator, and the rest is the text.
#include <cstdlib>
#include <cstring>
#include <vector>

#include <jadvolni.hpp>

namespace {

void expect(bool holds)
{
    if (!holds) std::abort();
}

template <class T>
void compare(const jadvolni::result<T> &read, jadvolni_result wanted, T number)
{
    expect(read.place() == wanted.place && static_cast<std::uint32_t>(read.status()) == wanted.status);
    expect(bool(read) == (wanted.status == JADVOLNI_OK) && read.value_or(T(7)) == (read ? number : T(7)));
}

void column(std::string_view text, char separator, const jadvolni_format &format)
{
    std::vector<std::int32_t> values(text.size() / 2, -1), wanted = values;
    std::size_t count = 0;
    auto answer = jadvolni_parse_i32_column(text.data(), text.size(), static_cast<std::uint8_t>(separator),
                                            &format, wanted.data(), wanted.size(), &count);
    auto read = jadvolni::parse_column(text, separator, values, format);
    expect(read.count() == count && read.place() == answer.place && values == wanted);
    expect(static_cast<std::uint32_t>(read.status()) == answer.status);
}

} // namespace

extern "C" int LLVMFuzzerTestOneInput(const std::uint8_t *data, std::size_t size)
{
    jadvolni_format format;
    if (size <= sizeof format) return 0;
    std::memcpy(&format, data, sizeof format);
    // Without the reserved bytes of later versions more formats are valid.
    std::memset(format.reserved, 0, sizeof format.reserved);
    // A copy of its own size: the sanitizer sees a read beside it.
    std::vector<char> kept(data + sizeof format + 1, data + size);
    std::string_view text{kept.data(), kept.size()};
    std::int64_t number = 0;
    std::uint8_t small = 0;
    auto whole = jadvolni_parse_i64_with_format(text.data(), text.size(), &format, &number);
    compare(jadvolni::parse<std::int64_t>(text, format), whole, number);
    auto front = jadvolni_parse_u8_front_with_format(text.data(), text.size(), &format, &small);
    compare(jadvolni::parse_front<std::uint8_t>(text, format), front, small);
    column(text, static_cast<char>(data[sizeof format]), format);
    return 0;
}
