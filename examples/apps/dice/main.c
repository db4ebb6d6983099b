// Throws a die with random bytes until the source has none left, and says how often each number came; in the form of
// libtock-c's test of the source.

#include <stdint.h>
#include <stdio.h>

#include <libtock-sync/peripherals/rng.h>
#include <libtock/tock.h>

enum { SIDES = 6 };

int main(void)
{
    int times[SIDES] = {0};
    uint8_t bytes[4];
    int count;
    returncode_t ret;

    do {
        ret = libtocksync_rng_get_random_bytes(bytes, sizeof bytes, sizeof bytes, &count);
        for (int i = 0; i < count; i++) {
            times[bytes[i] % SIDES]++;
        }
    } while (ret == RETURNCODE_SUCCESS);

    for (int i = 0; i < SIDES; i++) {
        printf("%d: %2d\n", i + 1, times[i]);
    }
    printf("no more: %s\n", tock_strrcode(ret));
    return 0;
}
