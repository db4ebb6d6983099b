// Counts in its storage how often it has started, prints that, and starts again; its third start is the last. What is
// in its memory is gone each time, and what is in its storage stays.

#include "console.h"
#include "storage.h"

static char line[] = "start 0\n";
static uint8_t starts; // 0 in each life

int main(void)
{
    int moved;
    returncode_t code = storage_read(0, 1, &starts, 1, &moved);
    if (code != RETURNCODE_SUCCESS) {
        return -code;
    }
    starts++; // the first time from 0xFF, as it is where nothing was written
    line[6] += starts + 1;
    code = storage_write(0, 1, &starts, 1, &moved);
    if (code == RETURNCODE_SUCCESS) {
        code = console_print(line);
    }
    if (code == RETURNCODE_SUCCESS && starts < 2) {
        tock_restart(0);
    }
    return -code;
}
