/* Wrong uses of jadvolni_parse, which finds the call by the type that its argument points to: as misuse.c has those of
 * calls. */
#include "jadvolni.h"

uint64_t misuse(void);
uint64_t misuse(void)
{
    long long wide = 0;
    unsigned long long positive = 0;
    size_t size = 0;
    ptrdiff_t difference = 0;
    double real = 0;
    char letter = 0;
    bool flag = false;
    const uint8_t constant = 0;
    (void)wide, (void)positive, (void)size, (void)difference, (void)real, (void)letter, (void)flag, (void)constant;
#if MISUSE == 0
    return jadvolni_parse("1", 1, &wide).place + jadvolni_parse("1", 1, &positive).place
        + jadvolni_parse("1", 1, &size).place + jadvolni_parse("1", 1, &difference).place;
#elif MISUSE == 1 /* both: has to point to an integer of 8, 16 */
    return jadvolni_parse("1", 1, &real).place;
#elif MISUSE == 2 /* both: has to point to an integer of 8, 16 */
    return jadvolni_parse("1", 1, &letter).place;
#elif MISUSE == 3 /* both: has to point to an integer of 8, 16 */
    return jadvolni_parse("1", 1, &flag).place;
#elif MISUSE == 4 /* both: has to point to an integer of 8, 16 */
    return jadvolni_parse("1", 1, &constant).place;
#elif MISUSE == 5 /* both: unused-result */
    jadvolni_parse("1", 1, &wide);
    return 0;
#elif MISUSE == 6 /* both: a jadvolni_uint128 or a jadvolni_int128 */
    __extension__ unsigned __int128 whole = 0;
    return jadvolni_parse("1", 1, &whole).place;
#endif
}
