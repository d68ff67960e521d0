// jadvolni::from_chars under formats, beside the answers that tools/short_fronts.py writes.
#include "jadvolni.hpp"

#include <cstdio>
#include <cstring>

// What standard input has, again and again: a text of up to eight bytes and the answer to it.
struct record {
    jadvolni_format format;
    char text[8];
    std::uint64_t value;
    std::uint32_t len, stop, fault, is_signed;
};

enum fault : std::uint32_t { none, no_number, out_of_range };

static fault of(std::errc ec)
{
    if (ec == std::errc()) return none;
    return ec == std::errc::result_out_of_range ? out_of_range : no_number;
}

// Whether the text as a T is answered so, where `value` was 77.
template <class T>
static bool is_so(const record &wanted)
{
    T value = 77;
    auto read = jadvolni::from_chars(wanted.text, wanted.text + wanted.len, value, wanted.format);
    return of(read.ec) == wanted.fault && read.ptr == wanted.text + wanted.stop
        && value == static_cast<T>(wanted.value);
}

int main()
{
    record wanted;
    long texts = 0, wrong = 0;
    for (; std::fread(&wanted, sizeof wanted, 1, stdin) == 1; ++texts) {
        if (wanted.is_signed ? is_so<std::int8_t>(wanted) : is_so<std::uint64_t>(wanted)) continue;
        if (wrong++ < 5)
            std::fprintf(stderr, "record %ld: '%.*s' has another answer than fault %u at %u\n", texts,
                         int(wanted.len), wanted.text, wanted.fault, wanted.stop);
    }
    std::printf("%ld texts, %ld wrong\n", texts, wrong);
    return wrong != 0 || texts == 0;
}
