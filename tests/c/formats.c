/* The bytes of each format of a language, and what a call answers to each row under it, as tools/check_formats.py asks:
 * in C, and by formats.cpp in C++. */
#ifdef __cplusplus
#include "jadvolni.hpp"
#define FORMAT(lower, upper) jadvolni::formats::lower
#else
#include "jadvolni.h"
#define FORMAT(lower, upper) ((jadvolni_format)JADVOLNI_FORMAT_##upper)
#endif
#include <stdio.h>

static void bytes(jadvolni_format format)
{
    for (size_t k = 0; k < sizeof format; k++)
        printf("%d ", ((const unsigned char *)&format)[k]);
    puts("");
}

static void answer(jadvolni_result r, unsigned long long value)
{
    printf("%s %d %llu\n", jadvolni_status_name(r.status), (int)r.place, value);
}

#define ROW(type, kept, format, text)                                                           \
    do {                                                                                        \
        kept value = 77;                                                                        \
        jadvolni_format under = format;                                                         \
        jadvolni_result r =                                                                     \
            jadvolni_parse_##type##_with_format(text, sizeof text - 1, &under, &value);         \
        answer(r, (unsigned long long)(long long)value);                                        \
    } while (0)

int main(void)
{
#include "formats.inc"
    return 0;
}
