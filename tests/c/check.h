/* Counts checks, and prints those that fail; and makes texts with no byte after their last. */
#include <stdio.h>
#include <stdlib.h>
#include <string.h>

static int checks, wrong;

static void check(const char *file, int line, int holds, const char *what)
{
    checks++;
    if (!holds) {
        wrong++;
        fprintf(stderr, "%s:%d: %s\n", file, line, what);
    }
}

#define CHECK(...) check(__FILE__, __LINE__, !!(__VA_ARGS__), #__VA_ARGS__)

/* Calls the macro SAYS for each type of columns: with its name, its C type, its least and its greatest number, and the
 * length of a text with both, each with a separator. */
#define OF_EACH_TYPE(SAYS)                                  \
    SAYS(u8, uint8_t, 0, 255, 6);                           \
    SAYS(u16, uint16_t, 0, 65535, 8);                       \
    SAYS(u32, uint32_t, 0, 4294967295, 13);                 \
    SAYS(u64, uint64_t, 0, 18446744073709551615, 23);       \
    SAYS(i8, int8_t, -128, 127, 9);                         \
    SAYS(i16, int16_t, -32768, 32767, 13);                  \
    SAYS(i32, int32_t, -2147483648, 2147483647, 23);        \
    SAYS(i64, int64_t, -9223372036854775808, 9223372036854775807, 41)

/* A copy of these bytes on the heap: a sanitizer sees each access outside of it. */
static inline void *exactly(const void *bytes, size_t len)
{
    void *copy = malloc(len ? len : 1);
    if (!copy) abort();
    memcpy(copy, bytes, len);
    return copy;
}

/* Says how many checks there were. The answer is the program's exit status. */
static int checked(void)
{
    printf("%d checks, %d wrong\n", checks, wrong);
    return wrong != 0;
}
