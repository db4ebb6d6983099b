// Stores where its memory has ended. The protection registers deny it, and the kernel stops the process.

#include "tock.h"

int main(void)
{
    // The first address after this process's block: where there is a process after it, that one's block begins here.
    volatile uint32_t *behind = (volatile uint32_t *)tock_app_memory_ends_at();
    *behind = 1;
    return 0; // it never comes to this
}
