// Keeps a secret in its memory, and prints at each tenth of a second whether it is still the same. Whatever lies
// beside it, its text is this one.

#include "alarm.h"
#include "console.h"

static char secret[] = "the key is 4711";

int main(void)
{
    uint32_t sum = 0;
    for (size_t i = 0; i < sizeof secret; i++) {
        sum += secret[i];
    }
    for (int round = 0; round < 3; round++) {
        alarm_wait(100);
        uint32_t now = 0;
        for (size_t i = 0; i < sizeof secret; i++) {
            now += secret[i];
        }
        console_print(now == sum ? "my secret is as it was\n" : "somebody changed my secret\n");
    }
    return 0;
}
