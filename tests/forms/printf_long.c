// In the form of libtock-c's test printf_long: lines that are longer than any buffer on their way.

#include <stdio.h>

int main(void)
{
    printf("Hi welcome to Tock. This test makes sure that a greater than 64 byte message can be printed.\n");
    printf("And a short message.\n");
    return 0;
}
