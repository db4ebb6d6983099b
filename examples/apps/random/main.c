// Prints random bytes in hex, six at a time, until the source has none left; then it exits with its error, 1.

#include "console.h"
#include "random.h"

static uint8_t bytes[6];
static char line[2 * sizeof bytes + 1];

int main(void)
{
    static const char digits[] = "0123456789abcdef";
    for (;;) {
        int count, written;
        returncode_t code = random_get_bytes(bytes, sizeof bytes, sizeof bytes, &count);
        char *end = line;
        for (int i = 0; i < count; i++) {
            *end++ = digits[bytes[i] >> 4];
            *end++ = digits[bytes[i] & 15];
        }
        *end++ = '\n';
        console_write_all((uint8_t *)line, end - line, &written);
        if (code != RETURNCODE_SUCCESS) {
            return -code;
        }
    }
}
