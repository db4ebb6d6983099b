// Prints back what comes in, for as long as it is let run.

#include "console.h"

int main(void)
{
    char bytes[16];
    size_t count;
    while ((count = console_read(bytes, sizeof bytes)) > 0) {
        console_write(bytes, count);
    }
    return 1;
}
