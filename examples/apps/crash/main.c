// Prints how far it came in this life, and then stores to address 0, which no process may. What becomes of it is the
// policy's of the script.

#include "console.h"

static char line[] = "step 0\n";
static int steps;

int main(void)
{
    while (steps < 2) {
        steps++;
        line[5]++;
        console_print(line);
    }
    *(volatile int *)0 = steps;
    return 0; // it never comes to this
}
