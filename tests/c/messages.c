/* Prints the name and the message of each status, as bindings/errors.txt has them. */
#include "jadvolni.h"

#include <stdio.h>

int main(void)
{
    for (uint32_t status = 0; status <= JADVOLNI_UNKNOWN_FIELD + 1; status++)
        if (status <= JADVOLNI_INVALID_SUFFIX_TABLE || status >= JADVOLNI_UNKNOWN_FIELD)
            printf("%s: %s\n", jadvolni_status_name(status), jadvolni_status_text(status));
    return 0;
}
