// The settings of a service: settings PORT PERCENT. What is wrong says what it may be.
#include <jadvolni.hpp>
#include <err.h>
#include <cstdio>

// A setting from `min` to `max`, written as JSON writes numbers: no plus, and no zero in front.
template <class T>
static T setting(const char *name, std::string_view text, T min, T max)
{
    auto read = jadvolni::parse_within<T>(text, min, max, jadvolni::formats::json);
    if (!read) errx(2, "%s: %s", name, read.message());
    return *read;
}

int main(int count, char **arguments)
{
    if (count != 3) {
        std::fputs("usage: settings PORT PERCENT\n", stderr);
        return 2;
    }
    auto port = setting<std::uint16_t>("PORT", arguments[1], 1, 65535);
    auto percent = setting<std::uint8_t>("PERCENT", arguments[2], 0, 100);
    if (std::printf("port %d, %d percent\n", port, percent) < 0 || std::fflush(stdout) != 0) err(2, "standard output");
}
