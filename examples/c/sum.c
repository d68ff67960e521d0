/* Adds up the integers of standard input, one a line, and says where a line is wrong. */
#include "command.h"
#include <jadvolni.h>

static const char page[] = "usage: sum < FILE\n"
    "Adds up integers, one a line."
    " Exit status 1: a wrong line, or too large a sum; 2: reading or writing failed.\n";

int main(int count, char **arguments)
{
    check_arguments(count == 1, count, arguments, page);
    char *line = NULL;
    size_t room = 0, number = 0;
    int64_t sum = 0, value;
    for (ssize_t len; (len = getline(&line, &room, stdin)) > 0; sum += value) {
        jadvolni_result r = jadvolni_parse_i64(line, (size_t)len - (line[len - 1] == '\n'), &value);
        number++;
        if (r.status != JADVOLNI_OK)
            errx(1, "line %zu, byte %zu: %s", number, r.place, jadvolni_status_text(r.status));
        if (value > 0 ? sum > INT64_MAX - value : sum < INT64_MIN - value)
            errx(1, "line %zu: the sum leaves the type", number);
    }
    if (!feof(stdin)) err(2, "standard input");
    if (printf("%lld\n", (long long)sum) < 0 || fflush(stdout) != 0) err(2, "standard output");
    free(line);
    return 0;
}
