/* Reads each text of the table in docs/ARCHITECTURE.md, as tools/check_formats.py asks: each call stands in a function of
 * its own, so that callgrind counts them apart. */
#include "jadvolni.h"

#define ROW(name, call)                              \
    static __attribute__((noinline)) void name(void) \
    {                                                \
        int64_t value = 77;                          \
        jadvolni_result r = call;                    \
        (void)r;                                     \
        (void)value;                                 \
    }
#include "readers.inc"
#undef ROW

int main(void)
{
#define ROW(name, call) name();
#include "readers.inc"
    return 0;
}
