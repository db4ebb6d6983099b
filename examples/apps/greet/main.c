// Prints a line, and ends.

#include "console.h"

static const char line[] = "hello from C\n";

int main(void)
{
    size_t size = sizeof line - 1; // the zero at the end is not printed
    return console_write(line, size) == size ? 0 : 1;
}
