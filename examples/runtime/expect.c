// What a test of libtock-c's expects.

#include <stdio.h>
#include <stdlib.h>
#include <libtock/tock.h>

void tock_expect(int expected, int actual, const char *file, unsigned line)
{
    if (actual != expected) {
        printf("%s:%u: expected %d, got %d\n", file, line, expected, actual);
        exit(1);
    }
}
