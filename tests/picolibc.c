// What examples/ has by picolibc alone, and an end by an assertion. The text before that is the same by every C
// library.

#include <assert.h>
#include <ctype.h>
#include <errno.h>
#include <math.h>
#include <stdio.h>
#include <stdlib.h>
#include <string.h>

static const char *const names[] = {"one", "two", "three"};
static char much[20000];

static void compute(void)
{
    volatile double two = 2.0;
    printf("%.4f %.3f %g %e %.1f\n", sqrt(two), sin(two), pow(two, 0.5), exp(two), -two / 3);
    int number;
    double fraction;
    int count = sscanf("12 3.5", "%d %lf", &number, &fraction);
    printf("%d %d %.2f %g\n", count, number, fraction, strtod("1e3", NULL));
}

static void take_memory(void)
{
    char *bytes = calloc(10, 10);
    for (int round = 0; round < 100; round++) {
        bytes = realloc(bytes, 100 + 10 * round);
        bytes[99] += round % 2;
    }
    printf("%d %s\n", bytes[99], names[bytes[99] % 3]);
    free(bytes);
    errno = 0;
    char *too_much = malloc(1UL << 30 << (sizeof(long) > 4 ? 30 : 0));
    printf("%d %d\n", too_much == NULL, errno == ENOMEM);
}

int main(int argc, char **words)
{
    (void)words;
    compute();
    take_memory();
    memset(much, 'm', sizeof much);
    char text[] = "a b";
    printf("%c %c %s %d\n", much[sizeof much - 1], toupper('x'), strtok(text, " "), isdigit('7') != 0);
    fflush(stdout);
    assert(argc == -1);
    return 0;
}
