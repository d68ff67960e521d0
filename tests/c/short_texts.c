/* Calls the library on every text of up to three bytes, beside tables of answers that tools/fuzz_c.py writes.
 *
 * Standard input has, for each format: the format, a class for each of the 256 bytes, the number of classes as uint32_t,
 * and then for each of the four calls below a table of answers. A table has an answer for each text of classes: that of
 * no class first, then those of one, of two and of three, each in the order of its numbers in base `classes`. */
#include "jadvolni.h"

#include <stdio.h>
#include <stdlib.h>

typedef struct expected {
    uint32_t status;
    uint32_t place;
    int64_t value;
} expected;

static uint64_t texts, wrong;

static expected i8_complete(const char *text, size_t len, const jadvolni_format *format)
{
    int8_t value = 77;
    jadvolni_result r = jadvolni_parse_i8_with_format(text, len, format, &value);
    expected e = {r.status, (uint32_t)r.place, value};
    return e;
}

static expected i8_partial(const char *text, size_t len, const jadvolni_format *format)
{
    int8_t value = 77;
    jadvolni_result r = jadvolni_parse_i8_partial_with_format(text, len, format, &value);
    expected e = {r.status, (uint32_t)r.place, value};
    return e;
}

static expected u64_complete(const char *text, size_t len, const jadvolni_format *format)
{
    uint64_t value = 77;
    jadvolni_result r = jadvolni_parse_u64_with_format(text, len, format, &value);
    expected e = {r.status, (uint32_t)r.place, (int64_t)value};
    return e;
}

static expected u64_partial(const char *text, size_t len, const jadvolni_format *format)
{
    uint64_t value = 77;
    jadvolni_result r = jadvolni_parse_u64_partial_with_format(text, len, format, &value);
    expected e = {r.status, (uint32_t)r.place, (int64_t)value};
    return e;
}

typedef expected call(const char *, size_t, const jadvolni_format *);
static call *const calls[4] = {i8_complete, i8_partial, u64_complete, u64_partial};

static void compare(int which, const char *text, size_t len, const jadvolni_format *format, expected want)
{
    expected got = calls[which](text, len, format);
    texts++;
    if (got.status == want.status && got.place == want.place && got.value == want.value) return;
    if (wrong++ < 5)
        printf("call %d of bytes %d %d %d, %d of them: %u %u %lld, and not %u %u %lld\n", which,
               (unsigned char)text[0], (unsigned char)text[1], (unsigned char)text[2], (int)len, got.status, got.place,
               (long long)got.value, want.status, want.place, (long long)want.value);
}

/* All texts of one length, where `table` has the answers to those of that length. */
static void each_text(int which, size_t len, const jadvolni_format *format, const unsigned char *class_of,
                      size_t classes, const expected *table)
{
    size_t count = (size_t)1 << (8 * len);
    for (size_t number = 0; number < count; number++) {
        char text[3] = {(char)(number >> 16 & 255), (char)(number >> 8 & 255), (char)(number & 255)};
        const char *start = text + 3 - len;
        size_t index = 0;
        for (size_t i = 0; i < len; i++) index = index * classes + class_of[(unsigned char)start[i]];
        compare(which, start, len, format, table[index]);
    }
}

static void must_read(void *to, size_t size)
{
    if (fread(to, 1, size, stdin) != size) {
        fprintf(stderr, "standard input ends too early\n");
        exit(2);
    }
}

int main(void)
{
    jadvolni_format format;
    while (fread(&format, sizeof format, 1, stdin) == 1) {
        unsigned char class_of[256];
        uint32_t classes;
        must_read(class_of, sizeof class_of);
        must_read(&classes, sizeof classes);
        size_t sizes[4] = {1, classes, (size_t)classes * classes, (size_t)classes * classes * classes};
        for (int which = 0; which < 4; which++)
            for (size_t len = 0; len < 4; len++) {
                expected *table = malloc(sizes[len] * sizeof *table);
                if (!table) abort();
                must_read(table, sizes[len] * sizeof *table);
                each_text(which, len, &format, class_of, classes, table);
                free(table);
            }
    }
    printf("%llu texts, %llu wrong\n", (unsigned long long)texts, (unsigned long long)wrong);
    return wrong != 0;
}
