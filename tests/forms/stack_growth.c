// In the form of libtock-c's test mpu_stack_growth: a stack that grows until it is stopped.

#include <stdint.h>
#include <stdio.h>
#include <string.h>

#include <libtock/tock.h>

static uint32_t size_is = 256;

__attribute__ ((noinline))
static void grow_stack(void)
{
    register uint32_t *sp __asm__ ("sp");
    uint32_t buffer[64];
    memset(buffer, 1, sizeof buffer);
    printf("stack: %p, size: %lu\n", (void *)sp, (unsigned long)size_is);
    size_is += sizeof buffer;
    grow_stack();
    printf("at the end: %lu\n", (unsigned long)buffer[63]);
}

int main(void)
{
    printf("\n[TEST] MPU Stack Growth\n");
    printf("This test should recursively add stack frames until exceeding\n");
    printf("the available stack space and causing a fault.\n\n");
    printf("  mem_start: %p\n", tock_app_memory_begins_at());
    grow_stack();
    return 0;
}
