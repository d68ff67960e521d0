// Prints the red, green and blue of colours such as "1e90FF", one an argument.
#include <jadvolni.hpp>
#include <err.h>
#include <iostream>

int main(int count, char **arguments)
{
    auto hexadecimal = jadvolni_format_of_radix(16);
    hexadecimal.no_positive_mantissa_sign = 1;
    for (int i = 1; i < count; ++i) {
        auto colour = jadvolni::parse<std::uint32_t>(arguments[i], hexadecimal);
        if (!colour || colour.place() != 6)
            errx(1, "%s: %s", arguments[i], colour ? "a colour has six digits" : colour.message());
        std::cout << (*colour >> 16) << ' ' << (*colour >> 8 & 255) << ' ' << (*colour & 255) << '\n';
    }
    if (!std::cout.flush()) err(2, "standard output");
}
