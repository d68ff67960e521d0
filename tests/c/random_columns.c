/* Runs the column calls on random texts, beside a reading of each field by itself; and on short texts in all pieces.
 *
 *     random_columns [COLUMNS TEXTS SEED]
 *
 * The text and the array of each call lie at a page that can't be read or written, right behind or in front of it. Half
 * of the texts have a fault. Each text of the second kind is cut in every way, and read block by block as the header
 * shows it. It prints what differs, and ends with 1 then. */
#define _DEFAULT_SOURCE
#include "jadvolni.h"

#include <stdio.h>
#include <stdlib.h>
#include <string.h>
#include <sys/mman.h>

enum { MOST_FIELDS = 96, MOST_BYTES = 4096, PAGES = 16384 };

static uint64_t state, columns, faults, cuts, wrong;

/* A number below `count`, by xorshift. */
static uint64_t below(uint64_t count)
{
    state ^= state << 13;
    state ^= state >> 7;
    state ^= state << 17;
    return (state >> 11) % count;
}

/* Bytes between two protected pages. */
static char *guarded(size_t size)
{
    char *pages = mmap(NULL, size + 2 * PAGES, PROT_NONE, MAP_PRIVATE | MAP_ANONYMOUS, -1, 0);
    if (pages == MAP_FAILED || mprotect(pages + PAGES, size, PROT_READ | PROT_WRITE) != 0) exit(2);
    return pages + PAGES;
}

/* What a column call answers. */
typedef struct answer {
    jadvolni_result result;
    size_t count;
} answer;

/* A type's column call; the reference, which cuts the text byte by byte; and the size of its numbers. */
#define TYPE(name, type)                                                                                             \
    static answer name##_column(const char *text, size_t len, uint8_t separator, const jadvolni_format *format,       \
                                void *values, size_t room)                                                           \
    {                                                                                                                \
        answer a = {{0, 0}, 77};                                                                                     \
        a.result = jadvolni_parse_##name##_column(text, len, separator, format, values, room, &a.count);             \
        return a;                                                                                                    \
    }                                                                                                                \
    static answer name##_slow(const char *text, size_t len, uint8_t separator, const jadvolni_format *format,        \
                              void *values, size_t room)                                                             \
    {                                                                                                                \
        size_t start = 0;                                                                                            \
        answer a = {{jadvolni_format_error(format), 0}, 0};                                                          \
        for (; a.result.status == JADVOLNI_OK && start < len && a.count < room; a.count++) {                         \
            size_t end = start;                                                                                      \
            type value = 0;                                                                                          \
            while (end < len && (uint8_t)text[end] != separator) end++;                                              \
            a.result = jadvolni_parse_##name##_with_format(text + start, end - start, format, &value);               \
            a.result.place += start;                                                                                 \
            if (a.result.status != JADVOLNI_OK) return a;                                                            \
            memcpy((char *)values + a.count * sizeof value, &value, sizeof value);                                   \
            start = end < len ? end + 1 : len;                                                                       \
        }                                                                                                            \
        if (a.result.status == JADVOLNI_OK) a.result.place = start;                                                  \
        return a;                                                                                                    \
    }

TYPE(u8, uint8_t)
TYPE(u16, uint16_t)
TYPE(u32, uint32_t)
TYPE(u64, uint64_t)
TYPE(i8, int8_t)
TYPE(i16, int16_t)
TYPE(i32, int32_t)
TYPE(i64, int64_t)

typedef answer reader(const char *, size_t, uint8_t, const jadvolni_format *, void *, size_t);
static const struct {
    const char *name;
    reader *column, *slow;
    size_t size, digits;
} types[] = {{"u8", u8_column, u8_slow, 1, 2},    {"u16", u16_column, u16_slow, 2, 4},
             {"u32", u32_column, u32_slow, 4, 9}, {"u64", u64_column, u64_slow, 8, 19},
             {"i8", i8_column, i8_slow, 1, 2},    {"i16", i16_column, i16_slow, 2, 4},
             {"i32", i32_column, i32_slow, 4, 9}, {"i64", i64_column, i64_slow, 8, 18}};

/* A format: standard, with the rule on zeros, hexadecimal, with separators, or with a sign that is wanted. */
static jadvolni_format random_format(void)
{
    jadvolni_format format = JADVOLNI_FORMAT_STANDARD;
    uint64_t kind = below(12);
    format.no_integer_leading_zeros = below(2);
    if (kind == 0) format.mantissa_radix = 16;
    if (kind == 1) format.digit_separator = '_', format.integer_internal_digit_separator = 1;
    if (kind == 2) format.required_mantissa_sign = 1;
    if (kind == 3) format.no_positive_mantissa_sign = 1;
    return format;
}

/* As many digits as the type has, now and then one more, and now and then after a sign or zeros. */
static size_t random_field(char *to, int type, const jadvolni_format *format)
{
    size_t len = 0, zeros = below(24) == 0 && !format->no_integer_leading_zeros ? below(6) : 0;
    size_t digits = 1 + below(types[type].digits + (below(48) == 0 ? 4 : 0));
    if (format->required_mantissa_sign || (type > 3 && below(3) == 0)) to[len++] = type > 3 ? '-' : '+';
    while (zeros-- > 0) to[len++] = '0';
    for (size_t i = 0; i < digits; i++) to[len++] = (char)('0' + (i == 0 && digits > 1 ? 1 + below(9) : below(10)));
    return len;
}

/* A text of fields: how many bytes it has. */
static size_t random_text(char *to, uint8_t separator, int type, const jadvolni_format *format)
{
    size_t len = 0, count = below(MOST_FIELDS);
    for (size_t i = 0; i < count; i++) {
        len += random_field(to + len, type, format);
        to[len++] = (char)separator;
    }
    if (len > 0 && below(4) == 0) len--;
    if (len > 0 && below(3) > 0) to[below(len)] = "+-_x:/ \0\377\n,0123456789"[below(21)];
    return len;
}

/* Compares one column, its text and its array at one of their two pages each. */
static void compare_column(char *texts, char *arrays)
{
    static char text[MOST_BYTES], wanted[MOST_FIELDS * 8];
    int type = (int)below(8);
    jadvolni_format format = random_format();
    uint8_t separator = below(8) == 0 ? (uint8_t)below(256) : "\n,"[below(2)];
    size_t len = random_text(text, separator, type, &format), room = below(MOST_FIELDS), bytes = room * types[type].size;
    char *at = below(2) == 0 ? texts : texts + PAGES - len, *array = below(2) == 0 ? arrays : arrays + PAGES - bytes;
    memcpy(at, text, len);
    memset(array, 0x5a, bytes);
    memset(wanted, 0x5a, bytes);
    answer want = types[type].slow(text, len, separator, &format, wanted, room);
    answer got = types[type].column(at, len, separator, &format, array, room);
    columns++;
    faults += want.result.status != JADVOLNI_OK;
    if (got.count == want.count && got.result.status == want.result.status && got.result.place == want.result.place
        && memcmp(array, wanted, bytes) == 0)
        return;
    if (wrong++ < 5)
        printf("%s, separator %d, room %zu, `%.*s`: %zu numbers, status %u at %zu, and not %zu, %u at %zu\n",
               types[type].name, separator, room, (int)len, text, got.count, (unsigned)got.result.status,
               got.result.place, want.count, (unsigned)want.result.status, want.result.place);
}

/* What was read of a text in blocks; places count over all of them. */
typedef struct whole {
    int8_t values[32];
    answer all;
} whole;

/* Reads a block of whole fields, two numbers by one call. */
static void read_fields(whole *w, const char *block, size_t len, const jadvolni_format *format)
{
    size_t start = 0;
    while (w->all.result.status == JADVOLNI_OK && start < len) {
        size_t count;
        jadvolni_result r = jadvolni_parse_i8_column(block + start, len - start, ',', format, w->values + w->all.count,
                                                     2, &count);
        w->all.count += count;
        w->all.result.status = r.status;
        start += r.place;
    }
    w->all.result.place += start;
}

/* Reads a text that is cut behind each byte whose bit is set. */
static whole read_cut(const char *text, size_t len, uint64_t behind, const jadvolni_format *format)
{
    whole w = {{0}, {{0, 0}, 0}};
    char block[32];
    size_t kept = 0;
    for (size_t at = 0; at < len && w.all.result.status == JADVOLNI_OK; at++) {
        block[kept++] = text[at];
        if (!(behind >> at & 1)) continue;
        size_t fields = jadvolni_field_start(block, kept, ',');
        read_fields(&w, block, fields, format);
        kept -= fields;
        memmove(block, block + fields, kept);
    }
    if (w.all.result.status == JADVOLNI_OK) read_fields(&w, block, kept, format);
    return w;
}

/* Compares all ways to cut a text of up to twelve bytes. */
static void compare_cuts(void)
{
    jadvolni_format format = random_format();
    char text[12];
    size_t len = below(13);
    whole want = {{0}, {{0, 0}, 0}};
    for (size_t i = 0; i < len; i++) text[i] = ",,,0123459-x"[below(below(4) == 0 ? 12 : 10)];
    want.all = i8_slow(text, len, ',', &format, want.values, 30);
    for (uint64_t behind = 0; behind < (uint64_t)1 << len; behind++, cuts++) {
        whole got = read_cut(text, len, behind, &format);
        if (memcmp(&got.all.result.place, &want.all.result.place, sizeof got.all.result.place) != 0
            || got.all.result.status != want.all.result.status || got.all.count != want.all.count
            || memcmp(got.values, want.values, want.all.count) != 0) {
            if (wrong++ < 5)
                printf("`%.*s` cut by %llu: %zu numbers, status %u at %zu, and not %zu, %u at %zu\n", (int)len, text,
                       (unsigned long long)behind, got.all.count, (unsigned)got.all.result.status,
                       got.all.result.place, want.all.count, (unsigned)want.all.result.status, want.all.result.place);
        }
    }
}

int main(int count, char **words)
{
    if (count != 1 && count != 4) return 2;
    char *texts = guarded(PAGES), *arrays = guarded(PAGES);
    state = count == 4 ? strtoull(words[3], NULL, 10) * 2 + 1 : 1;
    for (uint64_t left = count == 4 ? strtoull(words[1], NULL, 10) : 20000; left > 0; left--)
        compare_column(texts, arrays);
    for (uint64_t left = count == 4 ? strtoull(words[2], NULL, 10) : 100; left > 0; left--) compare_cuts();
    printf("%llu columns, of which %llu have a fault, and %llu ways to cut a text: %llu differ\n",
           (unsigned long long)columns, (unsigned long long)faults, (unsigned long long)cuts, (unsigned long long)wrong);
    return wrong > 0;
}
