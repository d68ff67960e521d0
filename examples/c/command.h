/* What the programs of this folder and of ../cpp do alike: they check their arguments, and answer `--help`. */
#include <err.h>
#include <stdbool.h>
#include <stdio.h>
#include <stdlib.h>
#include <string.h>

/* Returns if the arguments are right. Otherwise it prints the program's usage and exits: to standard output with
 * status 0 if the first one is `--help`, else to standard error with status 2. */
static inline void check_arguments(bool are_right, int count, char **arguments, const char *page)
{
    bool is_asked = count > 1 && strcmp(arguments[1], "--help") == 0;
    if (are_right && !is_asked) return;
    FILE *to = is_asked ? stdout : stderr;
    if ((fputs(page, to) < 0 || fflush(to) != 0) && is_asked) err(2, "standard output");
    exit(is_asked ? 0 : 2);
}
