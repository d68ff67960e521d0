/* The whole of a caller: it prints "err Overflow 19". */
#include <jadvolni.h>
#include <stdio.h>

int main(void)
{
    const char text[] = "18446744073709551616";
    uint64_t value;
    jadvolni_result r = jadvolni_parse_u64(text, sizeof text - 1, &value);
    if (r.status == JADVOLNI_OK)
        printf("ok %llu\n", (unsigned long long)value);
    else
        printf("err %s %zu\n", jadvolni_status_name(r.status), r.place);
    if (fflush(stdout) != 0) perror("standard output");
    return ferror(stdout) != 0;
}
